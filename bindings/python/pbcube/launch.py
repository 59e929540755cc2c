"""Becomes another program, which the system ends where the process that wants it is killed. Run as a program, with the number of that
process and then the command."""

import ctypes
import os
import sys

_END_WITH_PARENT, _KILL = 1, 9  # PR_SET_PDEATHSIG and SIGKILL

if __name__ == "__main__":
    parent, *command = sys.argv[1:]
    ctypes.CDLL(None).prctl(_END_WITH_PARENT, _KILL)
    if os.getppid() == int(parent):
        os.execv(command[0], command)
