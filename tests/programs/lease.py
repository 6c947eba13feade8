"""Takes a lease on a file, for reading and for writing, and prints what that gives."""

import fcntl
import os
import sys

from told import told

node = os.open(sys.argv[1], os.O_RDWR)
print(*(told(fcntl.fcntl, node, fcntl.F_SETLEASE, kind) for kind in (fcntl.F_RDLCK, fcntl.F_WRLCK)))
