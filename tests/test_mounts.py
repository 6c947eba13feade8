"""Runs ./nvme-model where what the sandbox is made of changes, is hidden or doesn't answer, as root and as another
user."""

import contextlib
import os
import shutil
import subprocess
import unittest

from tests.modelled import PROGRAMS, ModelCase
from tests.support import IS_ROOT, NOBODY, run
from tests.test_machine import Machine, MachineCase

# What --device adds, besides /dev/net/tun.
ADDED = {'a terminal': (4, 1), 'a serial port': (188, 0), 'video': (81, 0), 'sound': (116, 1), 'graphics': (226, 0),
         'fuse': (10, 229), 'kvm': (10, 232), 'vhost-net': (10, 238), 'vhost-vsock': (10, 241)}


@unittest.skipUnless(IS_ROOT, 'root alone can make nodes and mounts')
class Mounts(MachineCase, transcripts='mounts'):
    def exchange(self, machine, user, line):
        """Runs a command whose added device is exchanged for what a shell's line makes before bwrap binds it."""
        place = machine.root / 'dev/open'
        shutil.rmtree(place, ignore_errors=True)
        place.mkdir()
        place.chmod(0o777)
        subprocess.run(['sh', '-c', f'mknod node c 10 200 && {line}'], cwd=place, check=True)
        tools = 'env', f'PATH={self.folder / "tools"}:{os.environ["PATH"]}'
        return machine.model('stat -c %t:%T /dev/open/node; ls /dev/open/node; echo end', user,
                             ['--device', '/dev/open/node'], by=tools)

    def test_devices_that_are_exchanged(self):
        (self.folder / 'tools').mkdir()
        shutil.copy(PROGRAMS / 'exchanges.sh', self.folder / 'tools/bwrap')
        with contextlib.closing(Machine(self, 'devices')) as machine:
            block = os.stat(machine.root / 'dev/nvme0n1').st_rdev
            for user in (), NOBODY:
                # (the third one has a terminal's number)
                for line in ('mknod other c 10 237', f'mknod other b {os.major(block)} {os.minor(block)}',
                             'mknod other b 4 64', 'mkdir other', ': > other', 'ln -s /dev/nvme0n1 other'):
                    with self.subTest(line, user=user):
                        ended = self.exchange(machine, user, line)
                        self.ends(ended, 72, b'')
                        self.assertRegex(ended.err, rb"nvme-model: /dev/open/node\S* isn't the device that it was")
                # a device that may be added can take its place
                for name, number in ADDED.items():
                    with self.subTest(name, user=user):
                        ended = self.exchange(machine, user, 'mknod -m 0 other c %d %d' % number)
                        self.ends(ended, 0, b'%x:%x\n/dev/open/node\nend\n' % number)


@unittest.skipUnless(IS_ROOT and os.path.exists('/dev/fuse'), 'root alone can mount, and /dev/fuse is needed')
class Hung(ModelCase):
    def test_start(self):
        place, user_of_files = self.folder / 'hung', ('setpriv', '--reuid=54321', '--regid=54321', '--clear-groups')
        for user in (), user_of_files:
            for mode in 0o755, 0o700:
                with self.subTest(user=user, mode=oct(mode)):
                    (place / 'inner').mkdir(exist_ok=True, parents=True)
                    place.chmod(mode)
                    ended = run('unshare', '-m', 'python3', PROGRAMS / 'hangs.py', place / 'inner', *user,
                                *self.command('echo', 'started'))
                    if ended.status == 77:
                        self.skipTest('no file system of a user can be mounted here')
                    self.ends(ended, 0, b'started\n', b'')
