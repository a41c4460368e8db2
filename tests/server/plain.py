"""Gives up the powers by which root reads every file and directory, and becomes another program, which reads what the
modes of files let any user read:

    plain.py PROGRAM WORD..

It is a program of its own, since no code should run between fork and exec in a process that has threads."""

import ctypes
import os
import sys

# The call by which a process and what it becomes give a power up for good, and the two powers, as Linux numbers them.
PR_CAPBSET_DROP = 24
READING_POWERS = {"CAP_DAC_OVERRIDE": 1, "CAP_DAC_READ_SEARCH": 2}

if os.geteuid() == 0:
    library = ctypes.CDLL(None, use_errno=True)
    for name, power in READING_POWERS.items():
        if library.prctl(PR_CAPBSET_DROP, power, 0, 0, 0) != 0:
            raise OSError(ctypes.get_errno(), f"{name} cannot be given up")
os.execv(sys.argv[1], sys.argv[1:])
