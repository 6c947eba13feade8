"""Sends I/O commands, and prints for each its status or the name of its error: `io_commands.py`, or, until there is no
space left, `io_commands.py fill`. (A block has 512 bytes.)"""

import ctypes
import fcntl
import os
import struct
import sys

from told import IO, sent, told

NODE, IO_64, SUBMIT = '/dev/nvme0n1', 0xc0504e48, 0x40304e42
BLOCK, ZEROS = b'abc' + bytes(509), bytes(512)


def submitted(path, opcode, flags, count, address, first):
    """Sends a command as a struct nvme_user_io."""
    with open(path, 'rb', buffering=0) as file:
        return fcntl.ioctl(file, SUBMIT, bytearray(struct.pack('<BBHHHQQQIIHH', opcode, flags, 0, count - 1, 0, 0,
                                                               address, first, 0, 0, 0, 0)))


def said(opcode, first=0, data=b'', count=1, path=NODE, nsid=1, request=IO, flags=0, cdw11=0, address=0):
    room = ctypes.create_string_buffer(data, max(len(data), 1))
    address = address or ctypes.addressof(room)
    status = (told(submitted, path, opcode, flags, count, address, first) if request == SUBMIT else
              told(sent, path, request, opcode, nsid, first, cdw11, count - 1, data=(address, len(data)), flags=flags))
    is_read = opcode == 2 and status == 0 and data
    return status if isinstance(status, str) else f'{status:x}' + room.raw[:3].decode() * bool(is_read)


def deallocated(first, count, **more):
    """Sends Dataset Management with a range of blocks."""
    return said(9, 0, struct.pack('<IIQ', 0, count, first), **more)


if sys.argv[1:] == ['fill']:
    print(*(said(1, first, bytes(range(256)) * 512, 256) for first in range(0, 1280, 256)))
    sys.exit()
print(said(1, 5, BLOCK), said(2, 5, ZEROS), said(2, 5, ZEROS, path='/dev/ng0n1'), said(2, 5, ZEROS, request=IO_64),
      said(2, 5, ZEROS, request=SUBMIT), os.pread(os.open(NODE, os.O_RDONLY), 3, 5 * 512).decode())
print(said(5, 5, BLOCK), said(5, 6, BLOCK), said(0), said(0x0c, 2047), said(0x0c, 2047, count=2), said(1, 2048, BLOCK),
      said(1, 2047, bytes(1024), 2), said(1, 0, ZEROS, 2), said(2, 0, bytes(1 << 21), 4096))
print(said(8, 5), said(5, 5, ZEROS), said(1, 5, BLOCK), deallocated(5, 1, cdw11=4), said(5, 5, ZEROS),
      deallocated(2047, 2, cdw11=4), said(9, 1, ZEROS[:16]), said(0x7f), said(2, 0, ZEROS, nsid=3),
      said(2, 0, ZEROS, flags=1), said(2, 0, ZEROS, path='/dev/nvme0'))
print(said(8, 2047, count=2), said(0x0c, 1 << 31), deallocated(7, 0, cdw11=4), deallocated(7, 1),
      said(1, 5, BLOCK, request=SUBMIT), said(5, 5, BLOCK, request=SUBMIT), said(2, 0, ZEROS, request=SUBMIT, flags=1))
print(said(1, 0, BLOCK, address=8), said(2, 0, BLOCK, address=8), said(9, 0, ZEROS[:16], cdw11=4, address=8),
      said(9, request=SUBMIT))
