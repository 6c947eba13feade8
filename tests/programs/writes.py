"""Makes calls that write to a node, and prints what they give."""

import ctypes
import errno
import fcntl
import mmap
import os

from told import told

NODE, LENGTH = '/dev/nvme0n2', 4608
node = os.open(NODE, os.O_RDWR | os.O_TRUNC | os.O_CREAT)
appends = os.open(NODE, os.O_RDWR | os.O_APPEND)
other = os.open('/etc/passwd', os.O_RDONLY)
for calls in (
        ((os.pwrite, node, b'x', LENGTH), (os.pwritev, node, [b'x'], LENGTH),
         (os.pwritev, node, [b'x'], LENGTH, os.RWF_DSYNC), (os.ftruncate, node, 5), (os.truncate, NODE, 9999),
         (os.open, NODE, os.O_RDWR | os.O_CREAT | os.O_EXCL), (os.posix_fallocate, node, 0, 9999),
         (os.copy_file_range, other, node, 50, 0, 4600), (os.sendfile, node, other, 0, 9),
         (os.fdatasync, os.open('/dev/nvme0', os.O_RDWR))),
        ((os.fstat, 999), (os.write, 999, b'x'), (os.stat, '/dev/nvme' + 5000 * '0'), (os.pwrite, node, b'x', -5),
         (fcntl.ioctl, node, 0x5452, b'\1\0\0\0'), (os.tcsetpgrp, node, 1),  # (FIOASYNC)
         *((os.open, path, os.O_RDWR) for path in (5000 * '0', '', '/')))):
    print(*(told(*words) for words in calls))
# (a block device has no end to append at)
print(os.write(appends, b'x'), os.pread(node, 1, 0))
fcntl.fcntl(appends, fcntl.F_SETFL, os.O_APPEND)
print(told(os.write, appends, b'x'))
mapped = mmap.mmap(node, 4096)
mapped[:5] = b'mmaps'
mapped.flush()
os.fsync(node)
print(os.pread(node, 5, 0), os.writev(node, [b'', b'ab', b'c']), os.pread(node, 5, 0), os.lseek(node, 0, os.SEEK_END))
os.lseek(node, 4600, os.SEEK_SET)
print(os.fstat(node).st_size, os.writev(node, [b'abcd'] * 9) in (4, 8))
reader, writer = os.pipe()
os.write(writer, b's' * 99)
os.lseek(node, 4600, os.SEEK_SET)
libc = ctypes.CDLL(None, use_errno=True)
for place, size in (-512, 512), (0, 0), (0, -512):
    print(libc.fallocate(node, 3, ctypes.c_long(place), ctypes.c_long(size)), ctypes.get_errno() == errno.EINVAL)
print(libc.splice(reader, None, node, None, 99, 0) == 8 or ctypes.get_errno() in (errno.EINVAL, errno.ENOSPC))
print(os.lseek(node, 0, os.SEEK_END))
