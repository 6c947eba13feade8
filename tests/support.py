"""What the tests share: running programs with given streams, talking to them, and leaving nothing behind.

A test's files are in a folder of its own, `Case.folder`. Each process that it starts has a mark in its environment, by
which it is found, and is killed when the test ends, even if a signal ends that.
"""

import atexit
import contextlib
import fcntl
import functools
import itertools
import json
import os
import pathlib
import pty
import secrets
import select
import shlex
import shutil
import signal
import subprocess
import tempfile
import termios
import time
import unittest

TOP = pathlib.Path(__file__).resolve().parent.parent
DEMO = TOP / 'examples/demo.toml'
# Whether the sources are to be run by `rt try`, instead of the proved programs.
IS_UNPROVED = os.environ.get('UNPROVED') == '1'
MARK = f'NVME_TESTS_{secrets.token_hex(8)}'
IS_ROOT = os.geteuid() == 0
# What runs a command as a user without rights, and, for each user that commands are tried as, what runs them.
NOBODY = 'setpriv', '--reuid=65534', '--regid=65534', '--clear-groups'
USERS = [(), NOBODY] if IS_ROOT else [()]
# How many seconds the tests wait for anything: a busy machine takes long, and only a failure takes so long.
LIMIT = 1200
# (other users read what the tests make, and programs write the messages that the tests know)
os.umask(0o022)
for name in [name for name in os.environ if name.startswith('LC_') or name == 'LANGUAGE']:
    del os.environ[name]
os.environ['LANG'] = 'C.UTF-8'


def interrupt(number, frame):
    """Ends the tests at a signal like Ctrl-C does, so that they clean up."""
    raise KeyboardInterrupt(signal.Signals(number).name)


# A program gets the default action for these, even if a shell made the tests ignore some. (nohup is respected.)
for end_signal in signal.SIGHUP, signal.SIGINT, signal.SIGQUIT, signal.SIGTERM:
    if end_signal != signal.SIGHUP or signal.getsignal(end_signal) != signal.SIG_IGN:
        signal.signal(end_signal, interrupt)


def program(name):
    """Returns the proved program of a crate, or the device of a package that NVME_DEVICE names."""
    path = TOP / 'crates' / name / 'out' / name
    if name == 'nvme_device' and 'NVME_DEVICE' in os.environ:
        path = pathlib.Path(os.environ['NVME_DEVICE']).resolve()
    if not path.exists():
        raise FileNotFoundError(f'{path} is not built')
    return str(path)


@functools.lru_cache(maxsize=None)
def library():
    """Returns the folder of the library nvme_controller, if the gate or `make library` made it from the current
    sources."""
    if run(TOP / 'tools/stamp', 'is-current', 'nvme_controller').status != 0:
        raise unittest.SkipTest('the library has not been made from the current sources: make library')
    ended = run(TOP / 'tools/library')
    if ended.status != 0:
        raise AssertionError(f'the library could not be made\n{ended}')
    return TOP / 'out/library'


@functools.lru_cache(maxsize=None)
def process_folder():
    """Returns the temporary folder of this process, which is removed at its end."""
    folder = pathlib.Path(tempfile.mkdtemp(prefix='nvme-tests.')).resolve()
    folder.chmod(0o755)  # (some programs are run by other users)
    atexit.register(shutil.rmtree, folder, ignore_errors=True)
    return folder


@functools.lru_cache(maxsize=None)
def compiled(source, *options):
    """Returns a library that is compiled from a C file of tests/, once in this process."""
    made = process_folder() / f'{source}.so'
    subprocess.run(['cc', '-O2', '-shared', '-fPIC', '-o', made, TOP / 'tests' / source, *options], check=True)
    return made


def copy_sources(folder):
    """Copies the sources of all crates, and the files that list them, to a folder."""
    for name in 'crates.txt', 'HANDLES':
        shutil.copy(TOP / name, folder)
    for part in 'src', 'specs', 'proofs':
        for path in TOP.glob(f'crates/*/{part}'):
            shutil.copytree(path, folder / path.relative_to(TOP))


def large_file(cntlids, attached):
    """Returns a subsystem file with controllers of these identifiers, whose serial numbers are S0, S1 and so on, and
    1,024 namespaces of a block of 512 bytes, which are attached to some of the controllers."""
    controllers = ''.join(f'[[controller]]\ncntlid = {cntlid}\nsn = "S{place}"\nmn = "M"\nfr = "1"\n'
                          for place, cntlid in enumerate(cntlids))
    each = f'bytes = 512\nformat = 0\nshared = {str(len(attached) > 1).lower()}\ncontrollers = {[*attached]}\n'
    top = 'version = 1\nnn = 1024\ntnvmcap = 524288\nsubnqn = "nqn.2014-08.org.example:many"\n[[format]]\nlbads = 9\n'
    return top + controllers + ''.join(f'[[namespace]]\nnsid = {nsid}\n{each}' for nsid in range(1, 1025))


def table(name):
    """Returns the rows of a file of tests/tables: each line that isn't a comment is a list in JSON."""
    lines = (TOP / f'tests/tables/{name}.txt').read_text().splitlines()
    return [json.loads(line) for line in lines if line[0] != '#']


def until(condition, limit=LIMIT):
    """Returns whether the condition becomes true within this number of seconds."""
    end, pause = time.monotonic() + limit, 0.005
    while not condition():
        if time.monotonic() > end:
            return False
        time.sleep(pause)
        pause = min(2 * pause, 0.1)
    return True


def processes(name, wanted):
    """Returns the processes whose file of this name in /proc fulfils a condition."""
    found = []
    for entry in os.listdir('/proc'):
        # (a process may end meanwhile, or belong to another user)
        with contextlib.suppress(OSError):
            if entry.isdigit() and wanted(pathlib.Path('/proc', entry, name).read_bytes()):
                found.append(int(entry))
    return found


def left_running():
    """Returns the running processes that the tests of this process started, directly or through others."""
    return processes('environ', lambda text: f'{MARK}=1'.encode() in text.split(b'\0'))


@atexit.register
def end_all():
    """Kills everything that is still running."""
    while left_running():
        for number in left_running():
            with contextlib.suppress(ProcessLookupError):
                os.kill(number, signal.SIGKILL)
        time.sleep(0.02)


def environment(variables=()):
    """Returns this process's environment, with the mark and these variables."""
    return {**os.environ, MARK: '1', **{name: str(value) for name, value in dict(variables).items()}}


def shell_line(command, source=b'', out=None, err=None, env=(), cwd=TOP):
    """Returns a line for a shell that repeats a run."""
    words = ['env'] * bool(env) + [f'{name}={value}' for name, value in dict(env).items()] + list(command)
    line = ' '.join(shlex.quote(os.fsdecode(word)) for word in words)
    if not isinstance(source, bytes):
        line += f' < {source}'
    elif source:
        text = ''.join(chr(byte) if 32 <= byte < 127 and byte not in b"%'\\" else f'\\{byte:03o}'
                       for byte in source[:2000])
        line = f"printf '{text}' | {line}"
    return f'cd {shlex.quote(str(cwd))} && {line}' + (f' > {out}' if out else '') + (f' 2> {err}' if err else '')


class Ended:
    """How a run ended: its line for a shell, its status (a negative one is the number of a signal), its output and its
    messages."""

    def __init__(self, line, status, out=b'', err=b''):
        self.line, self.status, self.out, self.err = line, status, out, err

    def end(self):
        return f'status {self.status}' if self.status >= 0 else f'signal {signal.Signals(-self.status).name}'

    def __str__(self):
        return f'{self.line}\n{self.end()}\noutput {self.out[-2000:]}\nmessages {self.err[-2000:]}'


def opened(files, path, mode):
    """Opens the file at a path, or a temporary file. It is closed together with these files."""
    if path is None:
        return files.enter_context(tempfile.TemporaryFile()).fileno()
    number = os.open(path, mode, 0o666)
    files.callback(os.close, number)
    return number


def status_of(process, limit=LIMIT):
    """Returns the status of a process as soon as it has ended. (Popen.wait, with a limit, looks now and then.)"""
    number = os.pidfd_open(process.pid)
    try:
        has_ended = select.select([number], [], [], limit)[0]
    finally:
        os.close(number)
    # (the status of a process that is traced comes when its tracer has seen the end)
    return process.wait(limit if has_ended else 0)


def run(*command, source=b'', out=None, err=None, env=(), cwd=TOP, limit=LIMIT):
    """Runs a command to its end. Its input is `source`, which is bytes or the path of a file. Its output and its
    messages are returned, or go to the files `out` and `err`; with `err='&1'` both are returned in order as output.

    All of them are files, so that a process that the command leaves running can't delay the test.
    """
    line = shell_line(command, source, out, err, env, cwd)
    with contextlib.ExitStack() as files:
        stdin = opened(files, None if isinstance(source, bytes) else source, os.O_RDONLY)
        if isinstance(source, bytes):
            os.pwrite(stdin, source, 0)
        stdout = opened(files, out, os.O_WRONLY | os.O_CREAT | os.O_TRUNC)
        stderr = stdout if err == '&1' else opened(files, err, os.O_WRONLY | os.O_CREAT | os.O_TRUNC)
        process = subprocess.Popen(command, stdin=stdin, stdout=stdout, stderr=stderr, cwd=cwd, env=environment(env))
        try:
            status = status_of(process, limit)
        except subprocess.TimeoutExpired:
            raise AssertionError(f'{line}\ndid not end within {limit} seconds') from None
        finally:
            process.kill()
        kept = [b'' if path else os.pread(number, os.fstat(number).st_size, 0)
                for path, number in ((out, stdout), (err, stderr))]
    return Ended(line, status, *kept)


def run_unproved(crate, *options, source=b''):
    """Runs the unproved sources of a crate by `rt try`. The limits are long, because the machine may be busy."""
    # (beside each run, rt has a shell look for reserved names, which takes half as long and, for crates of this size,
    # ends in silence for want of memory)
    with tempfile.TemporaryDirectory(dir=process_folder()) as folder:
        os.symlink(shutil.which('true'), f'{folder}/sh')
        return run('rt', 'try', '--steps', '1', '--seconds', '3600', *options, source=source, cwd=crate, limit=7200,
                   env={'PATH': f'{folder}:{os.environ["PATH"]}'})


class Running:
    """A command in the background that a test talks to through pipes, or on a terminal of its own."""

    def __init__(self, *command, terminal=False, env=(), cwd=TOP):
        self.line = shell_line(command, env=env, cwd=cwd)
        self.heard = b''
        self.is_on_terminal = terminal
        if terminal:
            self.speaks, its_input = pty.openpty()
            self.hears, its_output = self.speaks, its_input
        else:
            its_input, self.speaks = os.pipe()
            self.hears, its_output = os.pipe()
        self.process = subprocess.Popen(
            command, stdin=its_input, stdout=its_output, stderr=its_output, cwd=cwd, env=environment(env),
            # (the terminal becomes the controlling one, whose keys send signals)
            start_new_session=terminal, preexec_fn=(lambda: fcntl.ioctl(0, termios.TIOCSCTTY, 0)) if terminal else None)
        for number in {its_input, its_output}:
            os.close(number)

    def say(self, text):
        os.write(self.speaks, text)

    def hear(self, limit):
        """Reads what the command writes within this number of seconds. Returns whether it wrote anything."""
        if not select.select([self.hears], [], [], max(0, limit))[0]:
            return False
        try:
            piece = os.read(self.hears, 65536)
        except OSError:
            piece = b''  # (no program is left on the terminal)
        self.heard += piece.replace(b'\r', b'')
        return piece != b''

    def comes(self, text, limit=LIMIT):
        """Waits until what was read ends with this text."""
        self.waits(lambda: self.heard.endswith(text), text, limit)

    def has(self, text, limit=LIMIT):
        """Waits until what was read has this text in it."""
        self.waits(lambda: text in self.heard, text, limit)

    def waits_for_more(self):
        """Waits until the command has read what was said, and sleeps in a read of its input."""
        call = pathlib.Path(f'/proc/{self.process.pid}/syscall')

        def is_waiting():
            has_read = not any(fcntl.ioctl(self.speaks, termios.FIONREAD, bytes(4)))
            return has_read and call.read_bytes().startswith(b'0 0x0 ')
        if not until(is_waiting):
            raise AssertionError(f'{self.line}\nthe command reads no more')

    def waits(self, condition, text, limit):
        end = time.monotonic() + limit
        while not condition():
            if not self.hear(end - time.monotonic()):
                raise AssertionError(f'{self.line}\n{text} did not come, only {self.heard[-2000:]}')

    def end(self, limit=LIMIT):
        """Ends the command's input, and returns how the command ended, with everything that was read as its output."""
        if self.is_on_terminal:
            self.say(b'\x04')
        else:
            os.close(self.speaks)
        status = status_of(self.process, limit)
        while self.hear(0):
            pass
        return Ended(self.line, status, self.heard)


def difference(name, wanted, got):
    """Describes the first line in which an output differs from the wanted one. Returns nothing if no line differs."""
    lines = itertools.zip_longest(wanted.splitlines(True), got.splitlines(True))
    return [f'{name}, line {number}: wanted {one}, got {other}'
            for number, (one, other) in enumerate(lines, 1) if one != other][:1]


class Case(unittest.TestCase):
    """A test with a folder of its own, which leaves no process behind. A class may have the tests of files of
    tests/shell, which run with these variables."""

    env = {}

    def __init_subclass__(cls, transcripts='', **more):
        super().__init_subclass__(**more)
        if transcripts:
            from tests.transcripts import tests_of  # (which uses this module)
            for name, test in tests_of(transcripts).items():
                setattr(cls, name, test)

    def setUp(self):
        self.folder = pathlib.Path(tempfile.mkdtemp(dir=process_folder()))
        self.addCleanup(shutil.rmtree, self.folder, ignore_errors=True)
        self.addCleanup(self.leaves_no_process)

    def leaves_no_process(self):
        if not until(lambda: not left_running()):
            numbers = left_running()
            end_all()
            self.fail(f'these processes were left running: {numbers}')

    def transcribe(self, transcript):
        """Runs a transcript in a plain shell, in the test's folder."""
        with self.subTest(transcript.place):
            transcript.skip_where_it_cannot_run(self)
            env = {'place': self.folder, 'top': TOP, 'other': ' '.join(USERS[-1]), **self.env}
            transcript.agrees(self, run('sh', '-c', transcript.beginning + transcript.script, cwd=self.folder, env=env))

    def file(self, name, data):
        path = self.folder / name
        path.write_bytes(data)
        return path

    def ends(self, ended, status, out=None, err=None):
        """Checks that a run ended with this status, output and messages. An output or messages of None may be any."""
        wrong = [] if ended.status == status else [f'wanted status {status}, got {ended.end()}']
        wrong += [] if out is None else difference('output', out, ended.out)
        wrong += [] if err is None else difference('messages', err, ended.err)
        if wrong:
            self.fail('\n'.join(wrong) + f'\n{ended}\nThe test alone: python3 -m unittest {self.id()}')
