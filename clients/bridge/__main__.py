"""Runs the bridge: python3 -IB clients/bridge --help."""

import sys
from pathlib import Path

sys.path[:0] = [str(Path(__file__).resolve().parent.parent)]

from bridge.serving import main

main(sys.argv[1:])
