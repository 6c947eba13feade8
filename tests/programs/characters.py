"""Opens nodes of character devices for direct access, and writes to them and reads, by calls and by the library."""

import os

from told import syscall, told

for name in '/dev/nvme0', '/dev/ng0n1':
    print(*(told(os.open, name, flags | os.O_DIRECT) for flags in (os.O_RDONLY, os.O_RDWR)))
    file, reader = os.open(name, os.O_RDWR), os.open(name, os.O_RDONLY)
    print(syscall(18, file, b'x', 1, 0), syscall(1, file, b'x', 1), told(os.write, file, b'x'),
          told(os.pwrite, file, b'x', 0), told(os.read, file, 1), told(os.pread, file, 1, 0),
          told(os.read, reader, 1), told(os.write, reader, b'x'), os.path.getsize(name))
