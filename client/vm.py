#!/usr/bin/python3 -IBS
"""`nvme-model --vm`: runs a command in a virtual machine whose files are those of this machine, below an overlay in
memory, and whose drives are the model's. It starts the server of the controllers, which runs QEMU, and passes on the
command's streams, signals and status. No file is made, and all that it starts ends with it. None of this is proved."""

import atexit
import contextlib
import ctypes
import enum
import fcntl
import glob
import gzip
import lzma
import os
import re
import select
import shutil
import signal
import socket
import stat
import struct
import subprocess
import sys
import termios
import threading
import time

LIBC, SET_DEATH_SIGNAL, OF_KERNEL = ctypes.CDLL(None), 1, 0x80  # (linux/prctl.h, asm-generic/siginfo.h)
PARTS, QEMU = os.path.dirname(os.path.abspath(__file__)), 'qemu-system-x86_64'
KVM, BOOT, MODULES = '/dev/kvm', '/boot', '/lib/modules'
NEEDED = 'virtio_pci', 'virtio_console', '9pnet_virtio', '9p', 'overlay', 'nvme'
# How many seconds a machine may be silent: by KVM, until its process 1 runs, which takes a few; until the command runs,
# which a busy machine emulates slowly; later, when it is asked each PERIOD whether it lives; and at the end.
MOST_BY_KVM, MOST_START, MOST_SILENCE, MOST_END, PERIOD = 20, 900, 300, 60, 10
MOST_FRAME = 32 * 1024 - 4
# What a standard stream is; what the ports of the machine carry; and what messages say, which vm_guest.c explains.
Stream = enum.IntEnum('Stream', 'CLOSED NOTHING PIPE TERMINAL AS_OUTPUT', start=0)
Port = enum.IntEnum('Port', 'INPUT OUTPUT ERRORS TERMINAL MESSAGES', start=0)
Kind = enum.IntEnum('Kind', 'BEGUN STOPPED ENDED UNREAD ALIVE SIGNAL SIGNAL_GROUP SIZE CONTINUE FINISH', start=0)


def say(text):
    with contextlib.suppress(OSError):
        os.write(2, os.fsencode(text))


def refuse(reason=''):
    """Ends with the reason why nvme-model can't continue, or with the usage after a wrong option."""
    say(f'nvme-model: {reason}\n' if reason else os.fsdecode(content(f'{PARTS}/vm_usage.txt')))
    sys.exit(72)


def ready(*files, seconds=None, event=select.POLLIN):
    """Returns which of these files can be read, or have ended, within a time."""
    poll = select.poll()
    for file in files:
        poll.register(file, event)
    return [file for file, _ in poll.poll(seconds and seconds * 1000)]


def read_options(words):
    """Returns the values of each option, and the command."""
    values = {'--subsystem': [], '--data': [], '--data-limit': [], '--memory': ['1G'], '--cpus': ['2'],
              '--kernel': [''], '--modules': [''], '--share': [], '--vm': [], '--net': [], '--no-kvm': []}
    while words and words[0].startswith('--') and (word := words.pop(0)) != '--':
        if word == '--help':
            os.write(1, content(f'{PARTS}/vm_usage.txt'))
            sys.exit(0)
        name, is_pair, value = word.partition('=')
        if name in ('--vm', '--net', '--no-kvm'):
            value = '' if is_pair else 'given'
        elif not is_pair and words:
            value = words.pop(0)
        if name not in values or not value or '\n' in value:
            refuse()
        if name == '--share' and (not os.path.isdir(value) or os.path.realpath(value) == '/'):
            refuse(f'--share {value}: there is no such folder')
        values[name].append(os.path.realpath(value) if name == '--share' else value)
    if not words:
        refuse()
    return values, words


def find_kernel(kernel, modules):
    """Returns the kernel, by default the newest one that can be read and has its modules, and their folder."""
    if kernel:
        if not (os.path.isfile(kernel) and os.access(kernel, os.R_OK)):
            refuse(f"--kernel {kernel}: this file can't be read")
        top, release = os.path.abspath(f'{kernel}/../..'), os.path.basename(kernel).replace('vmlinuz-', '', 1)
        found = [(kernel, modules or f'{place}/{release}')
                 for place in (MODULES, f'{top}/usr/lib/modules', f'{top}/lib/modules')]
        reason = f'there is no {found[0][1]}/modules.dep: name the folder of modules by --modules'
    else:
        folders = sorted(glob.glob(f'{MODULES}/*'), key=lambda path: [
            part.zfill(9) for part in re.findall('[0-9]+|[^0-9]+', path)])
        found = [(file, modules or folder) for folder in folders
                 for file in (f'{folder}/vmlinuz', f'{BOOT}/vmlinuz-{os.path.basename(folder)}')]
        reason = ('no kernel of /boot can be read and has its modules: install linux-image-amd64, or unpack\nthat '
                  'package (apt-get download, dpkg-deb -x, depmod -b) and name the kernel by --kernel')
    for kernel, modules in reversed(found):
        if os.access(kernel, os.R_OK) and os.access(f'{modules}/modules.dep', os.R_OK):
            return kernel, os.path.realpath(modules)
    refuse(reason)


def find_modules(kernel, folder):
    """Returns the files of the modules that are loaded first, each after those that it needs."""
    listed, files = {}, []
    for end in 'builtin', 'dep':
        with contextlib.suppress(FileNotFoundError), open(f'{folder}/modules.{end}', errors='surrogateescape') as lines:
            for line in lines:
                path, is_file, needs = line.partition(':')
                name = os.path.basename(path).partition('.ko')[0].replace('-', '_')
                listed[name] = [path, *needs.split()] if is_file else []
    for name in ('crct10dif_generic', 'crc64_rocksoft_generic', *NEEDED):
        if name in NEEDED and name not in listed:
            refuse(f'{kernel} has no module {name} in {folder}')
        files += [file for file in reversed(listed.get(name, [])) if file not in files]
    return [f'{folder}/{file}' for file in files]


def content(path):
    """Returns the bytes of a file, which may be compressed."""
    try:
        if path.endswith('.zst'):
            return subprocess.run(['zstd', '-dqc', path], check=True, stdout=subprocess.PIPE).stdout
        with {'.gz': gzip.open, '.xz': lzma.open}.get(os.path.splitext(path)[1], open)(path, 'rb') as file:
            return file.read()
    except (OSError, EOFError, lzma.LZMAError, subprocess.CalledProcessError) as error:
        refuse(f"{path} can't be unpacked: {error}")


def archive_of(files):
    """Returns an archive of cpio ("newc") with these files, in memory."""
    archive = bytearray()
    for number, (name, data) in enumerate([*files, ('TRAILER!!!', b'')], 1):
        fields = number, 0o100755, 0, 0, 1, 0, len(data), 0, 0, 0, 0, len(name) + 1, 0
        for part in b'070701' + b'%08X' * 13 % fields + name.encode() + b'\0', data:
            archive += part
            archive += bytes(-len(archive) % 4)
    file = os.memfd_create('initrd')
    with open(file, 'wb', closefd=False) as to:
        to.write(archive)
    return file


class Machine:
    """The server of the controllers, which runs QEMU, in a session of its own, away from the terminal's keys."""

    def __init__(self, words, archive, mask):
        """Starts it, with a socket for each port. It ends with this process."""
        self.ports, theirs = zip(*(socket.socketpair() for _ in Port))
        files = [end.fileno() for end in theirs]
        words = [*words, '-initrd', f'/proc/self/fd/{archive}', '-device', 'virtio-serial-pci']
        for port, file in enumerate(files, 1):
            words += ['-chardev', f'socket,id=port{port},fd={file}']
            words += ['-device', f'virtserialport,nr={port},chardev=port{port}']

        def prepare(own=os.getpid()):
            signal.pthread_sigmask(signal.SIG_SETMASK, mask)
            if LIBC.prctl(SET_DEATH_SIGNAL, signal.SIGKILL) != 0 or os.getppid() != own:
                os.kill(os.getpid(), signal.SIGKILL)
        self.process = subprocess.Popen(
            words, stdin=subprocess.DEVNULL, stdout=subprocess.PIPE, stderr=subprocess.STDOUT, start_new_session=True,
            pass_fds=[archive, *files], preexec_fn=prepare)
        self.said, self.unread, self.output = b'', set(), self.process.stdout.fileno()
        for end in theirs:
            end.close()

    def send(self, port, data):
        with contextlib.suppress(OSError):
            self.ports[port].sendall(data)

    def tell(self, kind, value=0):
        self.send(Port.MESSAGES, struct.pack('<II', kind, value))

    def receive(self, port, count):
        """Returns this number of bytes from a port, or nothing at its end."""
        data = b''
        with contextlib.suppress(OSError):
            while len(data) < count and (piece := self.ports[port].recv(count - len(data))):
                data += piece
        return data if len(data) == count else b''

    def copy_to_port(self, port, stream, terminal=None):
        """Copies a stream. (A terminal's keys are read as long as they aren't another program's.)"""
        data = None
        while data != b'':
            ready(stream)
            if terminal and not (terminal.is_raw and terminal.has_keys()):
                time.sleep(0.05)
                continue
            try:
                data = b'' if port in self.unread else os.read(stream, MOST_FRAME)
            except OSError as error:
                if terminal or isinstance(error, BlockingIOError):
                    continue
                data = b''
            self.send(port, struct.pack('<I', len(data)) + data)
        os.close(stream)

    def copy_from_port(self, port, stream):
        """Copies to a stream. (What comes for one that nobody reads is dropped.)"""
        while 0 < (length := int.from_bytes(self.receive(port, 4), 'little')) <= MOST_FRAME:
            data = self.receive(port, length)
            while data and port not in self.unread:
                try:
                    data = data[os.write(stream, data):]
                except BlockingIOError:
                    ready(stream, event=select.POLLOUT)
                except OSError as error:
                    if not isinstance(error, BrokenPipeError):
                        say(f'nvme-model: a stream of the command: {error.strerror}\n')
                    self.unread.add(port)
                    self.tell(Kind.UNREAD, port)
        os.close(stream)

    def hear(self):
        """Reads what the machine says, and keeps the end of it. Returns whether there can be more."""
        data = os.read(self.output, 4096)
        self.said = (self.said + data)[-16384:]
        return data != b''

    def reason(self):
        """Returns why the machine has ended: its last line, or that of the kernel's panic."""
        while ready(self.output, seconds=1) and self.hear():
            pass
        text = os.fsdecode(self.said).replace('\r', '\n')
        silent = 'nvme-model: the machine has ended without a word, as by a kill, or by too little memory'
        line, *_ = re.findall('Kernel panic.*', text) + re.findall('.+', text)[-1:] + [silent]
        own = line.removeprefix('nvme-model: ')
        return own if own != line else f'the machine has ended: {line}'


def kind_of(stream):
    """Returns what a standard stream is. (Where it is closed, a file takes its number, so that nothing else does.)"""
    try:
        about = os.fstat(stream)
    except OSError:
        os.open('/dev/null', os.O_RDWR)
        return Stream.CLOSED
    is_nothing = stat.S_ISCHR(about.st_mode) and about.st_rdev == os.makedev(1, 3)
    is_output = stream == 2 and os.path.samestat(about, os.fstat(1))
    return (Stream.TERMINAL if os.isatty(stream) else Stream.NOTHING if is_nothing else
            Stream.AS_OUTPUT if is_output else Stream.PIPE)


class Terminal:
    """The terminal of this process, or one that is among its streams, if there is any."""

    def __init__(self, streams):
        shown = [number for number, stream in enumerate(streams) if stream == Stream.TERMINAL]
        self.file, self.mode, self.is_raw = -1, bytes(36), False
        with contextlib.suppress(OSError):
            self.file = os.open('/dev/tty', os.O_RDWR)
        if self.file < 0 and shown:
            self.file = os.dup(shown[-1])
        if self.file >= 0:
            self.mode = fcntl.ioctl(self.file, termios.TCGETS, self.mode)
        self.is_in_front = self.is_owned = shown[:2] == [0, 1] and self.has_keys()

    def has_keys(self):
        """Returns whether its keys are for this process. (If it doesn't control it, no group is in front.)"""
        try:
            return os.tcgetpgrp(self.file) == os.getpgrp()
        except OSError:
            return self.file >= 0

    def size(self):
        return fcntl.ioctl(self.file, termios.TIOCGWINSZ, bytes(8)) if self.file >= 0 else bytes(8)

    def set_raw(self, is_raw):
        """Has keys come as they are, or not. (If it isn't in front, other programs of a pipeline write to it too.)"""
        _, output, control, local, keys = struct.unpack('4I20s', self.mode)
        keys = keys[:1 + termios.VTIME] + b'\0\1' + keys[2 + termios.VMIN:]
        raw = struct.pack('4I20s', 0, 0 if self.is_in_front else output, control, local & termios.TOSTOP, keys)
        if (is_raw or self.is_raw) and self.has_keys():
            self.is_raw = False
            with contextlib.suppress(OSError):
                fcntl.ioctl(self.file, termios.TCSETS, raw if is_raw else self.mode)
                self.is_raw = is_raw


class Run:
    """A run of a command in a machine."""

    def __init__(self, values, command):
        self.values, self.machine, self.writers, self.has_begun, self.lives = values, None, [], False, False
        self.streams = [kind_of(stream) for stream in range(3)]
        self.terminal = Terminal(self.streams)
        atexit.register(self.terminal.set_raw, False)
        self.kernel, modules = find_kernel(values['--kernel'][-1], values['--modules'][-1])
        files = find_modules(self.kernel, modules)
        if not shutil.which(QEMU):
            refuse(f'there is no {QEMU}: install QEMU (qemu-system-x86)')
        settings = [f'modules {modules}', *['network' for _ in values['--net'][:1]]]
        settings += [f'share{number} {folder}' for number, folder in enumerate(values['--share'])]
        self.archive = archive_of([
            ('init', content(f'{PARTS}/vm_guest.static')), ('setup', content(f'{PARTS}/vm_guest.sh')),
            ('settings', os.fsencode('\n'.join(settings))), *self.begin(command),
            *(('drives' if '/nvme.ko' in file else f'module{at}', content(file)) for at, file in enumerate(files))])
        self.is_by_kvm = not values['--no-kvm'] and os.access(KVM, os.W_OK)
        self.watch_signals()

    def begin(self, command):
        """Returns the files that tell vm_guest.c how the command begins."""
        os.umask(mask := os.umask(0))
        numbers = struct.pack('6I', *self.streams, self.terminal.file >= 0, self.terminal.is_in_front, mask)
        return [('begin', numbers + self.terminal.size() + self.terminal.mode),
                ('words', os.fsencode(''.join(f'{word}\0' for word in command))),
                ('variables', content('/proc/self/environ')),  # (Python may have added to its own)
                ('place', os.fsencode(f'{os.uname().nodename}\0{os.readlink("/proc/self/cwd")}'))]

    def watch_signals(self):
        """Has signals be read, except for those that would end this process but are ignored."""
        names = 'TERM', 'INT', 'HUP', 'QUIT', 'USR1', 'USR2', 'TSTP', 'CONT', 'WINCH'
        numbers = [number for number in (signal.Signals[f'SIG{name}'] for name in names)
                   if signal.getsignal(number) != signal.SIG_IGN]
        self.mask = signal.pthread_sigmask(signal.SIG_BLOCK, [*numbers, signal.SIGTTIN, signal.SIGTTOU])
        bits = sum(1 << number - 1 for number in numbers)
        self.signals = LIBC.signalfd(-1, bits.to_bytes(128, 'little'), os.O_CLOEXEC)

    def start(self):
        """Starts the machine. (QEMU before 10.1 passes on no interrupts of drives to emulated processors.)"""
        processors, cpus, more, slow = '-accel kvm -cpu host', self.values['--cpus'][-1], '', ''
        if not self.is_by_kvm:
            processors = '-accel tcg -cpu max'
            if b'vfio-user-pci' not in subprocess.run([QEMU, '-device', 'help'], capture_output=True).stdout:
                cpus, more = '1', ' irqpoll nolapic_timer'
                slow = ', and polls its drives, as QEMU is older than 10.1'
        words = [f'{PARTS}/qemu', '--qemu']
        for name in '--memory', '--subsystem', '--data', '--data-limit':
            for value in self.values[name]:
                words += [name, value]
        words += ['--', *processors.split(), '-smp', cpus, '-kernel', self.kernel, '-append',
                  f'console=ttyS0 quiet panic=-1 no_timer_check mitigations=off{more}',
                  *'-serial stdio -display none -nodefaults -no-user-config -no-reboot -sandbox'.split(),
                  'on,obsolete=deny,elevateprivileges=deny,spawn=deny',
                  '-nic', 'user,model=virtio-net-pci' if self.values['--net'] else 'none']
        shares = [(f'share{number}', folder, '') for number, folder in enumerate(self.values['--share'])]
        for name, folder, how in ('root', '/', ',readonly=on'), *shares:
            path = folder.replace(',', ',,')
            words += ['-fsdev', f'local,id={name},path={path},security_model=none{how},multidevs=remap',
                      '-device', f'virtio-9p-pci,fsdev={name},mount_tag={name}']
        if not self.is_by_kvm and os.isatty(2):
            say(f'nvme-model: the machine starts, which takes some 15 seconds without KVM{slow}\n')
        self.machine = Machine(words, self.archive, self.mask)
        self.heard = self.asked = time.monotonic()

    def serve(self):
        """Serves the machine until the command has ended, and returns its status."""
        self.start()
        how = None
        while how is None:
            messages, output = self.machine.ports[Port.MESSAGES].fileno(), self.machine.output
            awaited = ready(self.signals, messages, output, seconds=PERIOD)
            now = time.monotonic()
            if self.has_begun and now - self.asked >= PERIOD:
                self.machine.tell(Kind.ALIVE)
                self.asked = now
            if self.signals in awaited:
                self.take_signal()
            if messages in awaited:
                how = self.take_message()
            elif output in awaited and not self.machine.hear():
                self.fail()
            most = MOST_SILENCE if self.has_begun else MOST_BY_KVM if self.is_by_kvm and not self.lives else MOST_START
            if self.signals in awaited or messages in awaited:
                self.heard = time.monotonic()
            elif now - self.heard > most:
                self.fail("the machine doesn't answer")
        return self.finish(how)

    def fail(self, reason=''):
        """Ends with the reason why a machine failed, or emulates one that KVM kept silent, or QEMU refused."""
        with contextlib.suppress(subprocess.TimeoutExpired):
            self.machine.process.wait(0 if reason else 1)
        self.machine.process.kill()
        if self.is_by_kvm and not self.lives and (self.machine.process.wait() == 1 or reason):
            if reason:
                say(f'nvme-model: KVM runs no machine here, so it is emulated: --no-kvm saves {MOST_BY_KVM} seconds\n')
            self.is_by_kvm = False
            return self.start()
        if not reason:
            self.write_rest()
        self.terminal.set_raw(False)
        refuse(reason or self.machine.reason())

    def take_message(self):
        """Does what a message of the machine asks for. Returns how the command has ended, if it has."""
        message = self.machine.receive(Port.MESSAGES, 8)
        if not message:
            return self.fail()
        kind, value = struct.unpack('<II', message)
        self.lives = True
        if kind == Kind.BEGUN:
            self.start_streams()
        elif kind == Kind.STOPPED:
            self.stop(value)
        elif kind == Kind.UNREAD and value == Port.INPUT:
            self.machine.unread.add(value)
        return value if kind == Kind.ENDED else None

    def take_signal(self):
        number, _, code = struct.unpack('Iii', os.read(self.signals, 128)[:12])
        if number in (signal.SIGWINCH, signal.SIGCONT):
            self.take_terminal()
        elif self.has_begun:
            self.machine.tell(Kind.SIGNAL_GROUP if code == OF_KERNEL else Kind.SIGNAL, number)
        elif number == signal.SIGTSTP:
            os.kill(os.getpid(), signal.SIGSTOP)
        else:
            sys.exit(128 + number)

    def start_streams(self):
        """Begins to copy the streams. (Standard error stays open for what this program says.)"""
        self.has_begun = True
        self.take_terminal()
        read, write, terminal = self.machine.copy_to_port, self.machine.copy_from_port, self.terminal
        copies = [(read, Port.INPUT, 0), (write, Port.OUTPUT, 1), (write, Port.ERRORS, os.dup(2))]
        copies = [copy for copy in copies if self.streams[copy[1]] == Stream.PIPE]
        if terminal.file >= 0:
            copies += [(read, Port.TERMINAL, os.dup(terminal.file), terminal)]
            copies += [(write, Port.TERMINAL, os.dup(terminal.file))]
        for copy, *arguments in copies:
            thread = threading.Thread(target=copy, args=arguments, daemon=True)
            thread.start()
            self.writers += [thread] * (copy == write)

    def take_terminal(self):
        self.terminal.set_raw(self.terminal.is_owned)
        self.machine.tell(Kind.SIZE, *struct.unpack('I4x', self.terminal.size()))

    def stop(self, number):
        """Stops this process, and on a terminal others of its group, as the command was stopped, until it is to
        continue. For the terminal it stops only if the keys aren't this process's."""
        is_for_terminal = number in (signal.SIGTTIN, signal.SIGTTOU)
        self.terminal.is_owned |= is_for_terminal
        if not is_for_terminal or not self.terminal.has_keys():
            self.terminal.set_raw(False)
            number = number if is_for_terminal else signal.SIGTSTP
            signal.pthread_sigmask(signal.SIG_UNBLOCK, [number])
            os.kill(0 if self.terminal.file >= 0 else os.getpid(), number)
            signal.pthread_sigmask(signal.SIG_BLOCK, [number])
            time.sleep(0.1)  # (it isn't stopped where no shell could have it continue)
        self.terminal.set_raw(self.terminal.is_owned)
        self.machine.tell(Kind.CONTINUE, self.terminal.is_raw)

    def write_rest(self):
        """Waits until all that has come of the command's output is written. Signals have their own effects then."""
        self.terminal.set_raw(False)
        signal.pthread_sigmask(signal.SIG_SETMASK, self.mask)
        for writer in self.writers:
            writer.join()

    def finish(self, how):
        """Waits until all output is written and the machine has ended, and returns the status as a shell does."""
        self.write_rest()
        self.machine.tell(Kind.FINISH)
        while (answers := ready(self.machine.output, seconds=MOST_END)) and self.machine.hear():
            pass
        if not answers:
            self.machine.process.kill()
        if self.machine.process.wait() != 0 and answers:
            refuse(self.machine.reason())
        return os.WEXITSTATUS(how) if os.WIFEXITED(how) else 128 + os.WTERMSIG(how)


def main():
    """Runs the command that the arguments name, and returns its status."""
    signal.signal(signal.SIGCHLD, signal.SIG_DFL)
    if signal.getsignal(signal.SIGINT) != signal.SIG_IGN:
        signal.signal(signal.SIGINT, signal.SIG_DFL)
    try:
        return Run(*read_options(sys.argv[1:])).serve()
    except (OSError, RuntimeError, MemoryError) as error:
        refuse(str(error) or 'there is too little memory')


if __name__ == '__main__':
    sys.exit(main())
