"""Where the checks and the repository stand. A check that needs modules of tools/ or bin/hints
imports this first: they are found after it."""

from __future__ import annotations

import sys
from pathlib import Path

CHECKS = Path(__file__).resolve().parent
ROOT = CHECKS.parent
sys.path[:0] = [str(ROOT / "tools"), str(ROOT / "bin/hints")]
