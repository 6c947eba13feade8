"""Makes calls with memory that is a file of a file system that doesn't answer, each in a process of its own:
hung_memory.py FILE COUNT MADE, or hung_memory.py FILE COUNT MADE list, to list /dev into it. The file MADE is made
as soon as all wait."""

import ctypes
import mmap
import os
import sys
import time

from told import ADMIN, syscall

OPEN, IOCTL, LIST, OPENAT2, HERE = 2, 16, 217, 437, -100
memory = mmap.mmap(os.open(sys.argv[1], os.O_RDWR), 4096)
place = ctypes.c_void_p(ctypes.addressof(ctypes.c_char.from_buffer(memory)))
calls = [(OPEN, place, os.O_WRONLY), (OPENAT2, HERE, b'/dev/null', place, 24)]
if os.access('/dev/nvme0', os.R_OK):
    calls.append((IOCTL, os.open('/dev/nvme0', os.O_RDONLY), ADMIN, place))
if sys.argv[4:]:
    calls = [(LIST, os.open('/dev', os.O_RDONLY), place, 4096)]
children = []
for number in range(int(sys.argv[2])):
    children.append(os.fork())
    if children[-1] == 0:
        syscall(*calls[number % len(calls)])
        os._exit(0)
while {open(f'/proc/{child}/syscall').read().split()[0] for child in children} - {str(number) for number, *_ in calls}:
    time.sleep(0.1)
open(sys.argv[3], 'w').close()
os.wait()
