"""What the tests of ./nvme-model --vfio-user share: a server in which each memory access is checked, and clients of it
(tests/as_client.py)."""

import os
import pathlib
import re
import select
import signal

from tests.as_client import Client, Guest, module_of
from tests.driver import is_raised, kept
from tests.support import Case, Running, left_running, library, run, until
from tests.test_qemu import SANITIZERS, program

GET_LOG, CREATE, ATTACH = 2, 0x0d, 0x15
EINVAL, EEXIST, EACCES, ENOENT, ENOSPC, ENOTSUP, EMFILE = 22, 17, 13, 2, 28, 95, 24
EVERY, GIBIBYTE = 2 ** 32 - 1, 1 << 30


class Served(Case):
    """A server over the demonstration subsystem, in which each memory access is checked."""

    def setUp(self):
        super().setUp()
        self.path = self.folder / 's'
        self.server = self.start()

    def start(self, *options, last=1, by=()):
        """Starts a server, through another command if one is named. It listens at the last of its sockets."""
        running = Running(*by, program(*SANITIZERS), '--vfio-user', '--socket', self.path, '--summary', *options)
        running.comes(f's{last}\n'.encode())
        return running

    def ended(self, path, *options):
        """Runs another server, which must end by itself."""
        return run(program(*SANITIZERS), '--vfio-user', '--socket', path, *options)

    def stop(self, running, number=signal.SIGTERM):
        """Ends a server, and returns what it said. It must not have ended by itself."""
        self.assertIsNone(running.process.poll(), running.end)
        running.process.send_signal(number)
        ended = running.end()
        self.assertEqual(ended.status, -number, ended)
        self.assertFalse(list(self.folder.glob('s*')), 'sockets were left')
        return ended.out.decode()

    def restart(self, *options, number=signal.SIGTERM, **more):
        """Ends the server, and starts another one with these options."""
        self.stop(self.server, number)
        self.server = self.start(*options, **more)

    def kill(self):
        """Kills the server, and waits until nothing of it is left: a receiver that has just begun has its sockets."""
        self.server.process.kill()
        self.server.end()
        self.assertTrue(until(lambda: not left_running()))

    def tearDown(self):
        self.stop(self.server)

    def gives(self, *rows):
        """Checks that the call at the beginning of each row, with its arguments, returns what is last in the row."""
        for call, *arguments, wanted in rows:
            self.assertEqual(call(*arguments), wanted, (call, *arguments))

    def answers(self, call, *rows):
        self.gives(*((call, *row) for row in rows))

    def client(self, ctrl=0):
        client = Client(f'{self.path}{ctrl}')
        self.addCleanup(client.close)
        return client

    def greeted(self, ctrl=0):
        client = self.client(ctrl)
        client.greet()
        return client

    def guest(self, ctrl=0, machine=None, rings=None, slots=(16, 16), **more):
        """Returns a guest that has enabled its controller."""
        guest = Guest(f'{self.path}{ctrl}', machine, ctrl, **more)
        self.addCleanup(guest.close)
        guest.enable(rings, slots)
        return guest

    def machine(self):
        return module_of(library()).Machine()

    def kept(self):
        """Returns how many descriptors the server has."""
        return kept(self.server.process.pid)

    def spent(self):
        """Returns how many seconds of a processor the server has had. (This doesn't depend on the machine's load.)"""
        stat = pathlib.Path(f'/proc/{self.server.process.pid}/stat').read_text()
        return sum(map(int, stat.rpartition(')')[2].split()[11:13])) / os.sysconf('SC_CLK_TCK')

    def sleeps(self):
        """Waits until the server sleeps in poll without a limit, so that it does no more unless something comes."""
        call = pathlib.Path(f'/proc/{self.server.process.pid}/syscall')
        self.assertTrue(until(lambda: re.match(r'7 \w+ \w+ 0xffffffff ', call.read_text())))

    def is_silent(self, client):
        """Returns whether the server answers a client nothing."""
        self.sleeps()
        return not select.select([client.socket], [], [], 0)[0]

    def stays_low(self, counter):
        """Returns whether a counter isn't raised, and the server won't raise it."""
        self.sleeps()
        return not is_raised(counter)

    def keeps(self, count):
        """Checks how many descriptors the server has. (It closes those of a message after its answer.)"""
        self.assertTrue(until(lambda: self.kept() == count), (self.kept(), count))
