"""Runs a command while there is a segment of System V's shared memory. (It is removed at once, and stays as long as it
is attached.)"""

import ctypes
import subprocess
import sys

libc = ctypes.CDLL(None)
libc.shmat.restype = ctypes.c_void_p
number = libc.shmget(0, 4096, 0o600)
assert libc.shmat(number, None, 0)
libc.shmctl(number, 0, None)
sys.exit(subprocess.run(sys.argv[1:]).returncode)
