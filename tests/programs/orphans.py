"""Makes processes without parents, which stop and end."""

import os
import signal

print('go', flush=True)
while True:
    if os.fork() == 0:
        if os.fork() == 0:
            os.kill(os.getpid(), signal.SIGSTOP)
        os._exit(0)
    os.wait()
    os.kill(-1, signal.SIGKILL)
