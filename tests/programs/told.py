"""What programs share that print what a call gives, or the name of its error."""

import ctypes
import errno
import fcntl
import struct

ADMIN, IO = 0xc0484e41, 0xc0484e43
syscall = ctypes.CDLL(None, use_errno=True).syscall


def told(call, *words, **more):
    try:
        return call(*words, **more)
    except OSError as error:
        return errno.errorcode[error.errno]


def told_syscall(*words):
    result = syscall(*words)
    return errno.errorcode[ctypes.get_errno()] if result < 0 else result


def sent(path, request, opcode, nsid, *dwords, data=(0, 0), flags=0):
    """Sends a command with these dwords from 10 on, and data at an address, of a length. Returns its status."""
    command = struct.pack('=BBHIIIQQII8I', opcode, flags, 0, nsid, 0, 0, 0, data[0], 0, data[1], *dwords,
                          *[0] * (8 - len(dwords)))
    with open(path, 'rb', buffering=0) as file:
        return fcntl.ioctl(file, request, bytearray(command + bytes(8)))
