"""Takes all watches of files that a user may have."""

import ctypes
import signal

while ctypes.CDLL(None).inotify_init1(0) >= 0:
    pass
print('full', flush=True)
signal.pause()
