"""Makes openat2 calls on a node and on an ordinary file, and prints those that don't give the same: an error's name, or
nothing. Then it prints how many were made."""

import os
import struct
import sys

from told import told_syscall

OPENAT2, HERE, PLACE = 437, -100, sys.argv[1]
CUT, WRITING = os.O_TRUNC, os.O_RDWR | os.O_TRUNC
NO_XDEV, NO_MAGIC, NO_LINKS, BENEATH, IN_ROOT, CACHED = (1 << bit for bit in range(6))


def opened(folder, path, how, size):
    """Returns the name of the error that a call gives, or nothing."""
    file = told_syscall(OPENAT2, folder, os.fsencode(path), how, size)
    if isinstance(file, str):
        return file
    os.close(file)
    return ''


def paths(top, link):
    """Returns paths of a folder's file that has a node's name, by their kinds, each below a folder that is open."""
    file, folder = f'{top}/nvme0n2', os.open(top, os.O_RDONLY)
    os.symlink(file, link)
    return {'whole': (HERE, file), 'link': (HERE, link), 'name': (folder, 'nvme0n2'), 'root': (folder, '/nvme0n2'),
            'own': (HERE, f'/proc/self/fd/{os.open(file, os.O_RDONLY)}')}


def layout(flags=0, mode=0, resolve=0, rest=b''):
    return struct.pack('<QQQ', flags, mode, resolve) + rest


os.makedirs(f'{PLACE}/folder')
open(f'{PLACE}/folder/nvme0n2', 'w').close()
hows = [(layout(WRITING), size) for size in (0, 1, 8, 23, 24)]
hows += [(layout(WRITING, rest=bytes(5000)), size) for size in (25, 32, 48, 4096, 4097, 5000)]
hows += [(layout(WRITING, rest=bytes(7) + b'x'), 32), (layout(WRITING, rest=bytes(4071) + b'x'), 4096)]
hows += [(None, 24), (None, 8)]
hows += [(layout(flags), 24) for flags in (
    CUT | 1 << 40, WRITING | 1 << 31, WRITING | 1 << 63, WRITING | os.O_PATH, os.O_PATH, WRITING | os.O_DIRECTORY,
    WRITING | os.O_NOFOLLOW, CUT, 3 | CUT, WRITING | os.O_CREAT, os.O_CREAT | os.O_EXCL | WRITING,
    WRITING | os.O_TMPFILE)]
hows += [(layout(WRITING, mode), 24) for mode in (1, 0o666, 1 << 20)]
hows += [(layout(WRITING | os.O_CREAT, mode), 24) for mode in (0o666, 1 << 20)]
hows += [(layout(WRITING, 0, resolve), 24) for resolve in (
    NO_XDEV, NO_MAGIC, NO_LINKS, BENEATH, IN_ROOT, BENEATH | IN_ROOT, CACHED, 1 << 6, 1 << 40, NO_LINKS | IN_ROOT,
    NO_MAGIC | BENEATH)]
count, others = 0, paths(f'{PLACE}/folder', f'{PLACE}/other')
for name, node in paths('/dev', f'{PLACE}/file').items():
    for how, size in hows:
        flags, _, resolve = struct.unpack('<QQQ', how[:24]) if how else (0, 0, 0)
        # (no file is made in the root folder of this machine)
        if name == 'root' and flags & os.O_CREAT:
            continue
        results = opened(*node, how, size), opened(*others[name], how, size)
        count += 1
        # (a node is in another mount than the root, and so is the file only in some places)
        if results[0] != results[1] and not (resolve & NO_XDEV and results[0] == 'EXDEV'):
            print(name, size, how and how[:24].hex(), *results)
print(count, os.stat(f'{PLACE}/folder/nvme0n2').st_size, os.lseek(os.open('/dev/nvme0n2', os.O_RDONLY), 0, os.SEEK_END))
