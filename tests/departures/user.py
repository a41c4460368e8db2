"""Becomes another program as a user of whom nothing else runs, if root starts it:

    user.py NUMBER PROGRAM WORD..

The number is the user's. The program need not be in a directory that this user can enter. It is a program of its own,
since no code should run between fork and exec in a process that has threads."""

import os
import sys

program = os.open(sys.argv[2], os.O_RDONLY)
if os.geteuid() == 0:
    number = int(sys.argv[1])
    os.setgroups([])
    os.setresgid(number, number, number)
    os.setresuid(number, number, number)
os.execve(program, sys.argv[2:], os.environ)
