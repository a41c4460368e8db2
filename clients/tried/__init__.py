"""Real clients of Watchman, each of which is run through the bridge as the distribution has it."""

import sys
from pathlib import Path

sys.path.append(str(Path(__file__).resolve().parents[2] / "tests"))
