"""Prints the nodes of /sys, whose numbers there must be those of the nodes themselves."""

import glob
import os

names = set()
for folder in glob.glob('/sys/dev/*/409*') + glob.glob('/sys/class/nvme*/n*') + glob.glob('/sys/block/nvme*'):
    if 'subsys' in folder:
        continue
    number = open(folder + '/dev').read().strip()
    name, = [line[8:-1] for line in open(folder + '/uevent') if line.startswith('DEVNAME=')]
    about, kind = os.stat('/dev/' + name), 'block' if name.startswith('nvme') and 'n' in name[4:] else 'char'
    assert number == f'{os.major(about.st_rdev)}:{os.minor(about.st_rdev)}', folder
    assert os.path.realpath(folder) == os.path.realpath(f'/sys/dev/{kind}/{number}'), folder
    assert os.path.basename(os.path.realpath(folder)) == name, folder
    names.add(name)
print(*sorted(names))
