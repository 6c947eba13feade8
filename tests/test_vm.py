"""Tests ./nvme-model --vm: in one boot, if QEMU and a kernel are installed, what the command finds, its streams,
terminal and signals, and that nothing of this machine is changed; and, with tests/as_machine.py in the machine's place,
how runs end, are killed, and can't begin."""

import fcntl
import functools
import os
import pathlib
import select
import shutil
import signal
import socket
import struct
import subprocess
import sys
import tempfile
import termios
import time

from tests.modelled import CLIENT, WARNINGS, installed, why_no_sandbox
from tests.support import (LIMIT, MARK, TOP, USERS, Case, Running, end_all, environment, left_running, process_folder,
                           processes, run, until)
from tests.test_qemu import kernel, program
from tests.test_rows import edited

KVM, SHORT = "'/dev/kvm'", ('20, 900, 300, 60, 10', '3, 3, 3, 2, 1')
NEEDED = 'virtio_pci', 'virtio_console', '9pnet_virtio', '9p', 'overlay', 'nvme'
SILENT = b'nvme-model: the machine has ended without a word, as by a kill, or by too little memory\n'
# A stand-in for QEMU, and one for the server and its machine, in a Python that every user can run.
QEMU = '#!/bin/sh\ncase $* in *kvm*) exit %d ;; *) echo %s ;; esac\n'
PYTHON = shutil.which('python3', path='/usr/bin:/bin') or sys.executable
MACHINE = f'#!/bin/sh\nexec {PYTHON} {TOP}/tests/as_machine.py "$@"\n'


def public_folder():
    folder = pathlib.Path(tempfile.mkdtemp(dir=process_folder()))
    folder.chmod(0o755)
    return folder


def write_script(path, text):
    path.write_text(text)
    path.chmod(0o755)


@functools.lru_cache(maxsize=None)
def parts(server, *changes):
    """Returns the folder of the programs, with the server, or the text of a script in its place, which has no KVM, and
    with changes of texts of vm.py."""
    folder = public_folder()
    guest = folder / 'vm_guest.static', CLIENT / 'vm_guest.c'
    subprocess.run(['cc', '-O1', '-static', '-pthread', *WARNINGS, '-o', *guest], check=True)
    for name in 'vm.py', 'vm_guest.sh', 'vm_usage.txt':
        shutil.copy(CLIENT / name, folder)
    text = (folder / 'vm.py').read_text()
    for old, new in {**{KVM: "'/none'" for _ in range(isinstance(server, str))}, **dict(changes)}.items():
        assert text.count(old) == 1, old
        text = text.replace(old, new)
    (folder / 'vm.py').write_text(text)
    if isinstance(server, str):
        write_script(folder / 'qemu', server)
    else:
        shutil.copy(server, folder / 'qemu')
    return folder


@functools.lru_cache(maxsize=None)
def installation():
    """Returns a folder with a kernel, its modules, QEMU and a file for KVM, as far as they are looked at without a
    boot."""
    folder = public_folder()
    modules = folder / 'lib/modules/1.0'
    modules.mkdir(parents=True)
    (folder / 'boot').mkdir()
    for path in folder / 'kvm', folder / 'boot/vmlinuz-1.0', *(modules / f'{name}.ko' for name in NEEDED):
        path.write_bytes(b'content')
    (modules / 'modules.dep').write_text(''.join(f'kernel/{name}.ko:\n' for name in NEEDED))
    (modules / 'kernel').symlink_to('.')
    write_script(folder / 'qemu-system-x86_64', QEMU % (1, 'vfio-user-pci'))
    return folder


class Ends(Case, transcripts='vm'):
    def setUp(self):
        super().setUp()
        self.folder.chmod(0o755)
        self.place = installation()
        self.kvm = KVM, repr(str(self.place / 'kvm'))
        self.kernel = '--kernel', self.place / 'boot/vmlinuz-1.0'
        self.env = {'PATH': f'{self.place}:{os.environ["PATH"]}', 'TMPDIR': self.folder / 'none',
                    'kernel': self.kernel[1], 'vm': parts(MACHINE) / 'vm.py', 'short': parts(MACHINE, SHORT) / 'vm.py',
                    'by_kvm': parts(MACHINE, SHORT, self.kvm) / 'vm.py'}

    def command(self, name, *words, program='vm'):
        """Returns what runs a command in a machine of this name (tests/as_machine.py)."""
        return ['env', f'MACHINE={name}', self.env[program], '--vm', *self.kernel, *(words or ['true'])]

    def started(self, name):
        """Waits for a process that runs this file, and returns its number."""
        found = []
        self.assertTrue(until(lambda: found.extend(
            {*left_running()} & {*processes('cmdline', lambda text: f'/{name}\0'.encode() in text)}) or found))
        return found[0]

    def test_what_the_machine_is_told(self):
        # (modules that are packed, or part of the kernel, each after those that it needs)
        zst = '.zst' * bool(shutil.which('zstd'))
        order = ('virtio.ko.gz', 'virtio-ring.ko.xz', 'virtio_pci.ko', 'virtio_console.ko', '9pnet_virtio.ko',
                 f'9pnet.ko{zst}', '9p.ko', 'nvme-core.ko', 'nvme.ko')
        needs = {'virtio_pci.ko': 'virtio-ring.ko.xz virtio.ko.gz', '9p.ko': order[5], 'nvme.ko': 'nvme-core.ko'}
        modules = self.folder / 'modules'
        modules.mkdir()
        for name in order:
            tool = {'.gz': 'gzip', '.xz': 'xz', '.zst': 'zstd'}.get(pathlib.Path(name).suffix, 'cat')
            packed = subprocess.run([tool], input=name.encode(), stdout=subprocess.PIPE, check=True)
            (modules / name).write_bytes(packed.stdout)
        (modules / 'modules.dep').write_text(''.join(f'{name}: {needs.get(name, "")}\n' for name in order))
        (modules / 'modules.builtin').write_text('kernel/fs/overlayfs/overlay.ko\n')
        # (a Python in the C locale gives itself a variable, and takes others)
        variables = [f'PATH={self.env["PATH"]}', 'MACHINE=tells_files', 'PYTHONPATH=/none', 'x=a\nb', f'{MARK}=1']
        options = '--modules', modules, '--net', '--share', modules, '--'
        words = self.command('tells_files', *options, b'a  b', '', b'\xff', '--net')
        os.umask(mask := os.umask(0))
        ended = run('env', '-i', *variables, *words, cwd=modules, err='&1')
        told = dict(part.split(b' ', 1) for part in ended.out.split(b'\0')[:-1])
        told[b'variables'] = {*told[b'variables'].split(b'|')}
        self.assertEqual(told, {
            b'settings': f'modules {modules}\nnetwork\nshare0 {modules}'.encode(), b'words': b'a  b||\xff|--net|',
            b'variables': {b'', *map(str.encode, variables)}, b'place': f'{socket.gethostname()}|{modules}'.encode(),
            # (streams that are no terminal, of which the last is the second one, no terminal, and the umask)
            b'begin': f'2 2 4 0 0 {mask}'.encode(), b'drives': b'nvme.ko',
            **{f'module{place}'.encode(): name.encode() for place, name in enumerate(order[:-1])}})

    def test_newest_kernel(self):
        boot, modules = self.folder / 'boot', self.folder / 'modules'
        boot.mkdir()
        changes = [(f"'{path}'", repr(str(place))) for path, place in (('/boot', boot), ('/lib/modules', modules))]
        words = parts('#!/bin/sh\necho "nvme-model: $*"\n', *changes) / 'vm.py', '--no-kvm', 'true'
        for name in '5.9', '6.1.0-9', '6.1.0-57', '10.0', '10.1':
            shutil.copytree(self.place / 'lib/modules/1.0', modules / name, symlinks=True)
        self.ends(run(*words, env=self.env), 72, b'',
                  b'nvme-model: no kernel of /boot can be read and has its modules: install linux-image-amd64, or '
                  b'unpack\nthat package (apt-get download, dpkg-deb -x, depmod -b) and name the kernel by --kernel\n')
        # (each is newer than those before it, and the last one has no modules)
        (modules / '10.1/modules.dep').unlink()
        (boot / 'vmlinuz-10.1').write_bytes(b'')
        for path in *(boot / f'vmlinuz-{name}' for name in ('5.9', '6.1.0-9', '6.1.0-57')), modules / '10.0/vmlinuz':
            path.write_bytes(b'')
            self.assertIn(f' -kernel {path} ', run(*words, env=self.env).err.decode())

    def test_kills(self):
        # whichever process is killed, nothing is left, and the others say why
        for name in 'is_silent', 'falls_silent':
            for victim, status, said in ('vm.py', -signal.SIGKILL, b''), ('as_machine.py', 72, SILENT):
                with self.subTest(name, victim=victim):
                    running = Running(*self.command(name), env=self.env)
                    self.started('as_machine.py')
                    os.kill(self.started(victim), signal.SIGKILL)
                    self.ends(running.end(), status, said)
                    self.leaves_no_process()

    def test_signals(self):
        running = Running(*self.command('hears'), env=self.env)
        running.comes(b'begun\n')
        for number in 'SIGHUP', 'SIGINT', 'SIGQUIT', 'SIGUSR1', 'SIGUSR2', 'SIGTERM':
            running.process.send_signal(getattr(signal, number))
            running.comes(f'{number} False\n'.encode())
        self.assertEqual(running.end().status, 0)
        for number in signal.SIGTERM, signal.SIGINT, signal.SIGUSR1:
            self.leaves_no_process()
            running = Running(*self.command('is_silent'), env=self.env)
            self.started('as_machine.py')
            running.process.send_signal(number)
            self.ends(running.end(), 128 + number, b'')

    def test_stops(self):
        # (in a group that no shell could have continue, a stop has no effect)
        self.assertEqual(Running(*self.command('stops'), env=self.env, terminal=True).end().status, 0)

    def test_long_stop(self):
        # (in a group of its own, which this process can have continue, a stop has an effect)
        command = self.command('stops_once', program='short')
        with subprocess.Popen(command, env=environment(self.env), preexec_fn=os.setpgrp) as process:
            self.assertTrue(os.WIFSTOPPED(os.waitpid(process.pid, os.WUNTRACED)[1]))
            time.sleep(5)  # (longer than a machine may be silent)
            process.send_signal(signal.SIGCONT)
            self.assertEqual(process.wait(LIMIT), 0)

    def test_unread(self):
        ours, theirs = socket.socketpair()
        self.addCleanup(ours.close)
        ours.settimeout(100)
        with subprocess.Popen(self.command('writes'), stdin=theirs, stdout=subprocess.PIPE,
                              env=environment(self.env)) as process:
            theirs.close()
            with self.assertRaises((BrokenPipeError, ConnectionResetError)):
                while True:
                    ours.sendall(bytes(10000))
            process.stdout.read(10000)
            process.stdout.close()
            self.assertEqual(process.wait(LIMIT), 0)

    def test_no_python(self):
        if why_no_sandbox():
            self.skipTest(why_no_sandbox())
        without = 'bwrap', '--dev-bind', '/', '/', '--bind', '/dev/null', os.path.realpath('/usr/bin/python3')
        launcher = self.folder / 'bin/nvme-model'
        launcher.parent.mkdir()
        shutil.copy(installed(), launcher)
        shutil.copytree(parts(MACHINE), self.folder / 'lib/nvme-model')
        self.ends(run(*without, launcher, '--vm', 'true'), 72, b'',
                  b'nvme-model: --vm needs python3 (apt install python3): Permission denied\n')
        self.ends(run(launcher, '--vm', *self.kernel, 'true', env={**self.env, 'MACHINE': 'killed'}),
                  128 + signal.SIGUSR1, b'', b'')

    def test_words(self):
        # what QEMU and the server are given: KVM only if QEMU takes it, and polling only without either
        server = '#!/bin/sh\ncase $* in *kvm*) qemu-system-x86_64 -accel kvm || exit ;; esac\necho "nvme-model: $*"\n'
        words = [parts(server, self.kvm) / 'vm.py', *self.kernel, '--cpus', '3', '--subsystem', 'a b', 'true']
        always = ['nvme-model: --qemu --memory 1G --subsystem a b -- -accel ',
                  ' -fsdev local,id=root,path=/,security_model=none,readonly=on,multidevs=remap ']
        by_kvm, emulated = ['-accel kvm -cpu host -smp 3', 'mitigations=off -serial'], ['-accel tcg']
        for status, devices, wanted in (
                (1, 'vfio-user-pci', ['-accel tcg -cpu max -smp 3', 'mitigations=off -serial']),
                (0, 'vfio-user-pci', by_kvm), (0, 'x-pci-proxy-dev', by_kvm),
                (1, 'x-pci-proxy-dev', ['-accel tcg -cpu max -smp 1', 'irqpoll nolapic_timer -serial'])):
            with self.subTest(status=status, devices=devices):
                write_script(self.folder / 'qemu-system-x86_64', QEMU % (status, devices))
                path = f'{self.folder}:{os.environ["PATH"]}'
                for options, texts in ([], wanted), (['--no-kvm'], emulated):
                    said = run(words[0], *options, *words[1:], env={'PATH': path}).err.decode()
                    self.assertEqual([text for text in always + texts if text not in said], [], said)


class Boot(Case):
    def setUp(self):
        super().setUp()
        if not shutil.which('qemu-system-x86_64'):
            self.skipTest('qemu-system-x86_64 not installed')
        if not all(map(os.access, kernel(), (os.R_OK, os.R_OK))):
            self.skipTest('there is no kernel with its modules: NVME_TEST_KERNEL and NVME_TEST_MODULES name them')
        self.folder.chmod(0o755)
        self.parts = parts(program())
        self.drive = self.file('drive.toml', edited(
            'demo.toml', 'tnvmcap = 10485760', 'tnvmcap = 134217728', 'bytes = 1048576', 'bytes = 67108864',
            'shared = true\n', '').encode())
        self.temporary, self.shared = self.folder / 'temporary', self.folder / 'shared, with a comma'
        for folder in self.temporary, self.shared:
            folder.mkdir()
            folder.chmod(0o777)
        self.file('shared, with a comma/old', b'old\n')
        self.here = self.folder / 'here'
        shutil.copytree(TOP / 'examples', self.here / 'examples')
        for name in 'kept', 'lost':
            self.file(f'here/{name}', b'as it was\n')
        self.data = self.file('data', os.urandom(1 << 20) * 100)

    def begun(self):
        """Starts the command from bash on a terminal, with pipes for input and output, as a user if there are two."""
        for name in 'in', 'out':
            os.mkfifo(self.folder / name)
            (self.folder / name).chmod(0o666)
        self.output = os.open(self.folder / 'out', os.O_RDONLY | os.O_NONBLOCK)
        found, modules = kernel()
        words = [self.parts / 'vm.py', '--no-kvm', '--kernel', found, '--modules', modules, '--share', self.shared,
                 '--subsystem', self.drive, 'sh', TOP / 'tests/vm_boot.sh', self.data, self.shared, 'a  b']
        env = {'PS1': 'outside: ', 'TERM': 'dumb', 'HOME': '/none', 'VARIABLE': 'a  value', 'TMPDIR': self.temporary,
               'machine': '\n'.join(map(str, words)), 'IFS': '\n'}
        self.shell = Running(*USERS[-1], 'bash', '--norc', '--noprofile', '-i', terminal=True, env=env, cwd=self.here)
        self.addCleanup(self.shell.process.wait)
        self.addCleanup(end_all)
        self.size(37, 101)
        self.shell.comes(b'outside: ')
        self.shell.say(b"umask 027; IFS='\n'; $machine < ../in > ../out\n")
        self.input = os.open(self.folder / 'in', os.O_WRONLY)
        # (a pipe that the shell hasn't opened yet seems to have ended)
        select.select([self.output], [], [], LIMIT)
        os.set_blocking(self.output, True)

    def size(self, rows, columns):
        fcntl.ioctl(self.shell.speaks, termios.TIOCSWINSZ, struct.pack('4H', rows, columns, 0, 0))

    def hears(self, text, before=''):
        """Reads the output up to this text, and checks what comes before it."""
        heard = b''
        while not heard.endswith(text):
            piece = os.read(self.output, 1)
            if not piece:
                while self.shell.hear(10):
                    pass
                self.fail(f'the output ends after {heard[-2000:]}, and the terminal has {self.shell.heard}')
            heard += piece
        self.assertEqual(heard[:-len(text)].decode(), before)

    def test_command(self):
        before = {path: path.stat().st_mtime_ns for path in self.here.rglob('*')}
        self.begun()
        self.hears(b'begun\n', f'3 a  b a  value {self.here} 0027 0\nfifo\nfifo\ncharacter special file\n37 101\n'
                   f'{socket.gethostname()} 0\n')
        self.streams()
        self.terminal()
        self.signals()
        # (controllers have the order of the file)
        mounted = (TOP / 'examples/mounted.txt').read_text()
        self.hears(b'files\n', f'udev\n0\n1\n{mounted}1\n1\n1\n1\n1\n/sys/class/net/lo\n')
        self.unread()
        self.assertEqual({path: path.stat().st_mtime_ns for path in self.here.rglob('*')}, before)
        self.assertEqual((self.here / 'kept').read_bytes(), b'as it was\n')
        self.assertEqual(sorted(path.name for path in self.shared.iterdir()), ['moved', 'new', 'yes'])
        self.assertEqual((self.shared / 'yes').read_bytes(), b'141\n')
        self.assertFalse(os.path.exists('/at the root'))
        self.assertEqual([*self.temporary.iterdir()], [])

    def streams(self):
        data = self.data.read_bytes()
        os.write(self.input, b'\n')
        with subprocess.Popen(['cat', self.data], stdout=self.input) as writer:
            self.hears(b'same\n')
            self.assertEqual(writer.wait(LIMIT), 0)
        heard = bytearray()
        while len(heard) < len(data) and (piece := os.read(self.output, len(data) - len(heard))):
            heard += piece
        self.assertTrue(heard == data, self.shell.heard)

    def terminal(self):
        self.hears(b'keys\n')
        os.write(self.input, b'\n')
        self.shell.say(b'words\r')
        self.hears(b'waits\n', 'typed words\n')
        self.shell.say(b'\x03')
        self.hears(b'status 5\n', 'interrupted\n')
        self.shell.heard = b''
        self.shell.say(b'\x1a')
        self.shell.comes(b'outside: ')
        self.assertIn(b'Stopped', self.shell.heard)
        self.shell.say(b'fg\n')
        self.shell.has(b'fg\n$machine')
        self.shell.say(b'more\r')
        self.hears(b'more\n', 'continued ')
        self.size(50, 132)

    def signals(self):
        self.hears(b'signals\n')
        number, = {*left_running()} & {*processes('cmdline', lambda text: b'/vm.py\0' in text)}
        for name in 'HUP', 'INT', 'QUIT', 'USR1', 'USR2', 'TERM':
            if signal.getsignal(signal.Signals[f'SIG{name}']) == signal.SIG_IGN:
                continue  # (so is SIGHUP in the tests by `nohup`, and then in the machine)
            os.kill(number, signal.Signals[f'SIG{name}'])
            self.hears(f'{name}\n'.encode())

    def unread(self):
        self.hears(b'unread\n')
        os.write(self.input, b'\n')
        with self.assertRaises(BrokenPipeError):
            while True:
                os.write(self.input, bytes(10000))
        self.hears(b'y\ny\n')
        os.close(self.output)
        self.shell.heard = b''
        self.shell.comes(b'outside: ')
        self.shell.say(b'echo status $?.\n')
        self.shell.has(b'\nstatus 7.\n')
