"""The tests of what stands around the crates. After it the modules of bin/hints, checks/ and
python/tests are found, which they are about."""

import sys
from pathlib import Path

_ROOT = Path(__file__).resolve().parents[2]
sys.path += [str(_ROOT / folder) for folder in ("bin/hints", "checks", "python/tests")]
