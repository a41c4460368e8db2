"""Runs a command: python3 -m wqd_watchdog, or the path of this directory in place of -m and the name."""

import os
import sys

IS_DIRECTORY = not __package__
if IS_DIRECTORY:
    # Python puts a directory that it runs first on the path. The package is one above.
    sys.path[0] = os.path.dirname(os.path.dirname(os.path.realpath(__file__)))

from wqd_watchdog.command import is_isolated, main

# What was put there for this command is not for the tool.
if IS_DIRECTORY or not is_isolated():
    del sys.path[0]
sys.exit(main(sys.argv[1:]))
