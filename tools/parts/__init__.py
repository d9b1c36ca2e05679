"""What the programs of tools/ share. After it `formats` is found too, which knows the formats of
files."""

import os.path
import sys

_ROOT = os.path.dirname(os.path.dirname(os.path.dirname(os.path.abspath(__file__))))
sys.path.append(os.path.join(_ROOT, "bin/hints"))
