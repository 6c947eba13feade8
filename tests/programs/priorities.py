"""Changes the priorities of a process group, and prints what each call gives and its error, and the priorities then.
Does the same to a group of its own."""

import ctypes
import os

call = ctypes.CDLL(None, use_errno=True).syscall
for number, which, value in (141, 1, 19), (251, 2, 2 << 13 | 6):
    for group in 0, ctypes.c_ulong(1 << 32):  # (Linux reads 32 bits)
        print(call(number, which, group, value), ctypes.get_errno())
print(os.getpriority(os.PRIO_PROCESS, 0), call(252, 1, 0))
os.setpgid(0, 0)
for group in 0, os.getpid():
    print(call(141, 1, group, 19), call(251, 2, group, 2 << 13 | 6))
