"""Types into a terminal, by two ioctls, and prints each error."""

import ctypes

libc = ctypes.CDLL(None, use_errno=True)
for request in 0x5412, 0x541c, 0x100005412:
    for text in b'x', b'\2x':
        print(libc.ioctl(0, ctypes.c_ulong(request), text), ctypes.get_errno())
