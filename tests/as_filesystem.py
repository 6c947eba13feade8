"""A file system of one file, which can be opened, and is never heard of again: `python3 -m tests.as_filesystem SOCKET`
mounts it in an empty folder, in a mount namespace of its own, and starts a client of vfio-user that gives the file to a
server as memory, and waits until its input ends. The file system ends with the process that was started first."""

import ctypes
import os
import stat
import struct
import sys
import tempfile

from tests.as_client import Client
from tests.driver import PAGE

LOOKUP, OPEN, INIT = 1, 14, 26
# (nothing of a file is asked again for an hour)
ATTRIBUTES = struct.pack('<6Q10I', 2, PAGE, 8, 0, 0, 0, 0, 0, 0, stat.S_IFREG | 0o666, 1, 0, 0, 0, PAGE, 0)
REPLIES = {LOOKUP: struct.pack('<4Q2I', 2, 0, 3600, 3600, 0, 0) + ATTRIBUTES, OPEN: struct.pack('<QII', 1, 0, 0),
           INIT: struct.pack('<4IHH11I', 7, 31, 0, 0, 16, 16, PAGE, 1, *[0] * 9)}


def serve(device):
    """Answers what is needed to open the file, and nothing else."""
    while True:
        request = os.read(device, 1 << 16)
        _, opcode, unique = struct.unpack_from('<IIQ', request)
        if opcode in REPLIES:
            os.write(device, struct.pack('<IiQ', 16 + len(REPLIES[opcode]), 0, unique) + REPLIES[opcode])


def main(path):
    folder, device = tempfile.mkdtemp(), os.open('/dev/fuse', os.O_RDWR)
    options = f'fd={device},rootmode=40000,user_id={os.getuid()},group_id={os.getgid()}'
    mounted = ctypes.CDLL(None, use_errno=True).mount(b'x', folder.encode(), b'fuse', 0, options.encode())
    if mounted != 0:
        os.rmdir(folder)
        sys.exit(f'mount: {os.strerror(ctypes.get_errno())}')
    if os.fork() != 0:
        serve(device)
    os.close(device)
    client = Client(path)
    client.greet()
    file = os.open(f'{folder}/file', os.O_RDWR)
    print('answered', client.map(0, PAGE, file), flush=True)
    sys.stdin.read()


if __name__ == '__main__':
    main(*sys.argv[1:])
