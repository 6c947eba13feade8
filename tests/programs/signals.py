"""Signals all that it can while the launcher answers its calls, and prints how often it could signal process 1."""

import os
import signal
import sys
import threading
import time

from told import told

signal.signal(signal.SIGTERM, signal.SIG_IGN)
os.kill(0, signal.SIGTERM)
end, count = time.monotonic() + 2, 0


def call():
    while time.monotonic() < end:
        os.close(os.open(sys.argv[1], os.O_WRONLY))


threading.Thread(target=call).start()
while time.monotonic() < end:
    count += told(os.kill, 1, signal.SIGTERM) != 'EPERM'
print(count)
