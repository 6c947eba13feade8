"""Asks a device for partitions: BLKRRPART, then each with data, BLKPG and what there is no more."""

import ctypes
import fcntl
import os
import struct

from told import told

file = os.open('/dev/nvme0n1', os.O_RDWR)
print(told(fcntl.ioctl, file, 0x125f))
os.pwrite(file, b'x', 8192)
room = ctypes.create_string_buffer(152)
part = struct.pack('iiiiQ', 1, 0, 152, 0, ctypes.addressof(room))
for request in 0x125f, 0x1269, 0x1275, 0x1262, 0x1264:
    print(told(fcntl.ioctl, file, request, part))
print(open('/sys/block/nvme0n1/ext_range').read().strip())
