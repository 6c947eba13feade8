"""Signals process groups, by a descriptor and by numbers, and prints what each call gives."""

import os
import signal

from told import told

print(*(told(signal.pidfd_send_signal, os.pidfd_open(os.getpid()), 0, None, flags) for flags in (4, 0)))
print(*(told(os.kill, 0, number) for number in (99, -1, 0)))
os.setpgid(0, 0)
print(*(told(os.kill, group, 0) for group in (0, -os.getpgrp())))
