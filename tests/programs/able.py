"""Prints what a process can do after a change, by a word for each: whether it can write a file of /sys, set the
session's priority, and open a node, which isn't truncated, and what an ioctl by an open node and by its path (O_PATH)
gives. Or, if a file is named, only whether it can open that for writing."""

import ctypes
import fcntl
import os
import sys

from told import told

LIBC = ctypes.CDLL(None)


def word(call, *words):
    result = told(call, *words)
    return result if isinstance(result, str) else 'done'


own, path = os.open('/dev/nvme0', os.O_RDONLY), os.open('/dev/nvme0', os.O_PATH)
if sys.argv[1] == 'hides':
    LIBC.prctl(4, 0)
elif sys.argv[1] == 'has_no_rights':
    LIBC.capset(ctypes.byref((ctypes.c_uint * 2)(0x20080522, 0)), (ctypes.c_uint * 6)())
if sys.argv[2:]:
    print(word(os.open, sys.argv[2], os.O_WRONLY | os.O_TRUNC))
else:
    print(*(word(os.open, path, os.O_WRONLY) for path in ('/sys/block/nvme0n1/ro', '/proc/self/autogroup')),
          word(os.open, '/dev/nvme0n2', os.O_WRONLY | os.O_TRUNC),
          *(word(fcntl.ioctl, file, 0x4e44) for file in (own, path)))
