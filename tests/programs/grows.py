"""Makes a node longer, by a call that the library doesn't see, and then waits until it has its length again. While a
process waits for the device, more files are written than the kernel tells of."""

import os

from told import syscall


def step():
    print('step', flush=True)
    input()


def length():
    return os.lseek(os.open('/dev/nvme0n2', os.O_RDONLY), 0, os.SEEK_END)


step()
controller = os.open('/dev/nvme0', os.O_RDWR)
if os.fork() == 0:
    syscall(16, controller, 0x4e44)
    os._exit(0)
for _ in range(10000):
    for name in '/dev/one', '/dev/other':
        os.close(os.open(name, os.O_WRONLY | os.O_CREAT))
node = os.open('/dev/nvme0n2', os.O_RDWR)
syscall(18, node, b'x', 1, 9999)
os.close(node)
print(length())
step()
os.wait()
while length() != 4608:
    pass
print('end')
