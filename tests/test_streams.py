"""Starts ./nvme-model with standard streams of all kinds, as root and as another user. Only what is on a list comes
into the sandbox, and the launcher there keeps nothing else of the machine."""

import contextlib
import ctypes
import os
import pathlib
import pty
import random
import re
import select
import socket
import subprocess
import tempfile

from tests.modelled import ModelCase, installed, parts
from tests.support import LIMIT, USERS, environment, until

NAMES = 'input', 'output', 'error'
LIBC = ctypes.CDLL(None, use_errno=True)
MEMFD_SECRET = 447

# Why a stream is refused.
PATH, FOLDER = 'was opened as a path', 'is a folder'
DEVICE, KERNEL = 'is a device of this machine', 'leads to the kernel or to a process'


def path_of(path, flags):
    return lambda folder: [os.open(folder / path, flags, 0o666)]


def named_pipe(folder):
    with contextlib.suppress(FileExistsError):
        os.mkfifo(folder / 'fifo')
    return [os.open(folder / 'fifo', os.O_RDWR)]


# The kinds of streams: a function that returns the descriptor, and others to be closed with it; and why it is refused,
# or nothing. What is `closed` has no descriptor, and `messages` are read by the test.
KINDS = {
    'messages': (lambda folder: [os.memfd_create('messages')], ''),
    'pipe': (lambda folder: os.pipe()[::-1], ''),
    'named pipe': (named_pipe, ''),
    'socket': (lambda folder: [end.detach() for end in socket.socketpair()], ''),
    'file': (path_of('file', os.O_RDWR | os.O_CREAT), ''),
    'deleted file': (lambda folder: [os.dup(tempfile.TemporaryFile(dir=folder).fileno())], ''),
    'terminal': (lambda folder: pty.openpty()[::-1], ''),
    'null': (path_of('/dev/null', os.O_RDWR), ''),
    'path of a folder': (path_of('/', os.O_PATH), PATH),
    'path of a file': (path_of('/etc/passwd', os.O_PATH), PATH),
    'path of a device': (path_of('/dev/null', os.O_PATH), PATH),
    'folder': (path_of('/dev', os.O_RDONLY), FOLDER),
    'device': (path_of('/dev/ptmx', os.O_RDWR | os.O_NOCTTY), DEVICE),
    "terminal's master": (lambda folder: pty.openpty(), DEVICE),
    'namespace': (path_of('/proc/self/ns/mnt', os.O_RDONLY), KERNEL),
    'procfs': (path_of('/proc/version', os.O_RDONLY), KERNEL),
    'sysfs': (path_of('/sys/kernel/mm/transparent_hugepage/enabled', os.O_RDONLY), KERNEL),
    'kinds of programs': (path_of('/proc/sys/fs/binfmt_misc/status', os.O_RDONLY), KERNEL),
    'process': (lambda folder: [os.pidfd_open(os.getpid())], KERNEL),
    'polled files': (lambda folder: [os.dup(select.epoll().fileno())], KERNEL),
    'counter': (lambda folder: [LIBC.eventfd(0, 0)], KERNEL),
    'changes': (lambda folder: [LIBC.inotify_init1(0)], KERNEL),
    'secret memory': (lambda folder: [LIBC.syscall(MEMFD_SECRET, 0)], KERNEL)}

# What the launcher has open besides the streams, and whether it must be in one of the sandbox's own mounts.
KEPT = {r'(socket|pipe):\[\d+\]': False, r'/sys(/.*)?|/dev/#\d+ \(deleted\)': True,
        'anon_inode:.*(eventfd|inotify|signalfd|seccomp notify).*': False}


class Streams(ModelCase, transcripts='streams'):
    def setUp(self):
        super().setUp()
        self.folder.chmod(0o777)
        self.seen = self.folder / 'seen'

    def stream(self, kind, files):
        """Opens a stream, and returns its descriptor, or None if it is closed or the kernel has no such thing."""
        try:
            opened = KINDS[kind][0](self.folder) if kind != 'closed' else []
        except OSError:
            return None
        for number in opened:
            if number >= 0:
                files.callback(os.close, number)
        return opened[0] if opened and opened[0] >= 0 else None

    def start(self, user, streams, path=()):
        """Starts a command that runs until the file `seen` is removed, perhaps with a folder before all of PATH."""
        def close():
            for number in range(3):
                if streams[number] is None:
                    os.close(number)
        script = ': > "$1"; while test -e "$1"; do sleep 0.02; done'
        command = [*user, installed(), '--subsystem', self.subsystem, 'sh', '-c', script, 'sh', self.seen]
        return subprocess.Popen(command, stdin=streams[0], stdout=streams[1], stderr=streams[2], preexec_fn=close,
                                env=environment({'PATH': ':'.join([*map(str, path), os.environ['PATH']])}))

    def check_kept(self, process, streams):
        """Checks what a process has open: of a closed stream, /dev/null of the sandbox, which can't be used."""
        mounts = {line.split()[0] for line in (process / 'mountinfo').read_text().splitlines()}
        for entry in (process / 'fd').iterdir():
            try:
                number, name, file = int(entry.name), os.readlink(entry), entry.stat()
                about = (process / 'fdinfo' / entry.name).read_text()
            except (FileNotFoundError, ProcessLookupError):
                continue  # (it was closed meanwhile)
            flags, mount = (re.search(rf'(?m)^{word}:\s*(\d+)$', about).group(1) for word in ('flags', 'mnt_id'))
            if number > 2:
                known = [is_own for pattern, is_own in KEPT.items() if re.fullmatch(pattern, name)]
                self.assertTrue(known, f'{number} is {name}')
                self.assertTrue(not known[0] or mount in mounts, f'{number} is {name} of the machine')
            elif streams[number] is None:
                self.assertEqual((name, mount in mounts, bool(int(flags, 8) & os.O_PATH)), ('/dev/null', True, True))
            else:
                self.assertTrue(os.path.samestat(file, os.fstat(streams[number])), f'{number} is {name}')

    def try_streams(self, user, kinds, path=()):
        """Starts a command with these kinds of streams, and checks whether it runs, and what the launcher has then."""
        with contextlib.ExitStack() as files:
            streams = [self.stream(kind, files) for kind in kinds]
            reasons = [KINDS[kind][1] if number is not None else '' for kind, number in zip(kinds, streams)]
            process = self.start(user, streams, path)
            if any(reasons):
                self.assertEqual((process.wait(LIMIT), self.seen.exists()), (72, False), kinds)
            else:
                self.assertTrue(until(lambda: self.seen.exists() or process.poll() is not None))
                try:
                    self.assertIsNone(process.poll(), kinds)
                    devices, keepers, helpers, launcher = parts()
                    self.assertEqual([len(devices), len(keepers), len(launcher), bool(helpers)], [1, 1, 1, True])
                    for number in (*keepers, *helpers, *launcher):
                        self.check_kept(pathlib.Path(f'/proc/{number}'), streams)
                finally:
                    self.seen.unlink(missing_ok=True)
                    self.assertEqual(process.wait(LIMIT), 0, kinds)
            if kinds[2] == 'messages':
                said = os.pread(streams[2], 4096, 0).decode()
                refused = [at for at in range(3) if reasons[at]]
                wanted = f'nvme-model: standard {NAMES[refused[-1]]} {reasons[refused[-1]]}.*\n' if refused else ''
                self.assertRegex(said, f'^{wanted}$')

    def test_each_kind(self):
        for kind in KINDS:
            for user in USERS:
                with self.subTest(kind, user=user):
                    self.try_streams(user, [kind, 'messages', 'messages'])
            with self.subTest(kind, stream='error'):
                self.try_streams(USERS[-1], ['null', 'pipe', kind])

    def test_random_kinds(self):
        names = ['closed', 'closed', 'pipe', 'pipe', 'terminal', 'path of a folder', 'path of a device', 'folder',
                 'device', "terminal's master", 'null']
        chosen = random.Random(77)
        for number in range(100):
            kinds = [chosen.choice(names[:5] if chosen.random() < 0.6 else names) for _ in range(2)]
            kinds.append(chosen.choice(['messages', 'closed', 'pipe', chosen.choice(names)]))
            with self.subTest(number, kinds=kinds):
                self.try_streams(USERS[number % len(USERS)], kinds)

    def test_what_bwrap_leaves(self):
        # the launcher keeps nothing that is open in bwrap
        tools = self.folder / 'tools'
        tools.mkdir()
        self.file('tools/bwrap', b'#!/bin/bash\nexec 99< / 300< /\nPATH=${PATH#*:} exec bwrap "$@"\n').chmod(0o755)
        for user in USERS:
            with self.subTest(user=user):
                self.try_streams(user, ['null', 'messages', 'messages'], [tools])

    def test_files_of_options(self):
        # a subsystem file or a trace is one of the same kinds
        for options, said in (['--trace=/dev/ptmx'], DEVICE), (['--subsystem', '/proc/version'], KERNEL), (
                ['--subsystem', '/proc/self/ns/mnt'], KERNEL), (['--subsystem', '/dev'], FOLDER):
            with self.subTest(options):
                ended = self.model('true', options=options)
                self.ends(ended, 72, b'')
                self.assertIn(said.encode(), ended.err)
