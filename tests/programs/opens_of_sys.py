"""Opens files of /sys in several ways, and prints what each gives. One that acts on a controller acts once."""

import os
import sys

from told import told

for name in sys.argv[1:]:
    folder, base = os.path.split(name)
    print(told(os.open, name, os.O_RDWR), told(os.open, name, os.O_WRONLY | os.O_CREAT | os.O_EXCL),
          told(os.truncate, name, 0))
    if base.endswith('_controller'):
        file = os.open(name, os.O_WRONLY | os.O_TRUNC | os.O_APPEND)
        print(told(os.open, name, os.O_RDONLY), told(os.open, name, os.O_RDONLY | os.O_TRUNC),
              os.write(file, b'x' * 100), told(os.read, file, 1))
    else:
        print(told(os.open, base, os.O_WRONLY, dir_fd=os.open(folder, os.O_RDONLY)))
