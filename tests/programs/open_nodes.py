"""Detaches and attaches namespaces while nodes of theirs are mapped, or many are open, or those of two controllers, and
prints which nodes there are, or what an ioctl of each that is open gives."""

import fcntl
import mmap
import os
import subprocess
import sys

from told import told


def change(*words, nsid=3, controller=0):
    for what in words:
        subprocess.run(['nvme', f'{what}-ns', '/dev/nvme0', '-n', str(nsid), '-c', str(controller)],
                       stdout=subprocess.DEVNULL)


def opened(*names):
    return [os.open(f'/dev/{name}', os.O_RDWR) for name in names]


def told_of(files):
    return [told(fcntl.ioctl, file, 0x4e40) for file in files]


def show():
    print(sorted(name for name in os.listdir('/dev') if name.startswith('nvme0n')))


if sys.argv[1] == 'mapped':
    file, = opened('nvme0n2')
    mapped = mmap.mmap(file, 512)
    os.close(file)
    for what in 'detach', 'attach', 'detach':
        change(what)
        show()
    mapped.close()
    change('attach')
    show()
elif sys.argv[1] == 'many':
    files = []
    for number in range(2, 40):
        files += opened(f'nvme0n{number}')
        change('detach', 'attach')
    print({*told_of(files)}, os.path.exists('/dev/nvme0n40'))
    for file in files:
        os.close(file)
    change('detach', 'attach')
    show()
else:
    change('attach', nsid=1, controller=1)
    files = opened('ng0n1', 'nvme0n1', 'ng1n1', 'nvme1n1')
    change('detach', nsid=1)
    print(*told_of(files))
