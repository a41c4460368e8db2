"""Runs the command watchman: python3 -IB watchman.py HOME WORD.. HOME is the directory of the command, which is a
script for sh."""

import os
import sys

sys.path.insert(0, os.path.dirname(os.path.dirname(os.path.realpath(__file__))))

from bridge.command import main

main(sys.argv[2:], sys.argv[1])
