"""What the tests of ./nvme-model share: the launcher with its parts in a place that every user can read, runs of it,
and checks that it leaves nothing behind."""

import contextlib
import functools
import os
import pathlib
import re
import shlex
import shutil
import subprocess

from tests.support import (DEMO, TOP, USERS, Case, Running, left_running, process_folder, processes, program, run,
                           until)

CLIENT = TOP / 'client'
PROGRAMS = TOP / 'tests/programs'
LISTED = dict(word.split('=', 1) for word in shlex.split((CLIENT / 'programs.sh').read_text(), comments=True))
# The programs in C and the library, each with its sources.
PARTS = {'bin/nvme-model': (*LISTED['launcher'].split(),),
         'lib/nvme-model/library.so': (*LISTED['preloaded'].split(),),
         'lib/nvme-model/qemu': (*LISTED['qemu'].split(),)}
SANITIZERS = '-fsanitize=address,undefined', '-fno-sanitize-recover=all', '-ldl', '-pthread'
ASAN = {'ASAN_OPTIONS': 'verify_asan_link_order=0:detect_leaks=0'}
WARNINGS = '-Wall', '-Wextra', '-Wshadow', '-Werror'
VERSION = (TOP / 'VERSION').read_text().strip()

# Programs that need not be installed. A test that calls one is skipped if it isn't.
TOOLS = ('nvme', 'smartctl', 'busybox', 'inotifywait', 'lsblk', 'blkid', 'blkdiscard', 'wipefs', 'mkfs.ext4', 'debugfs',
         'e2fsck', 'sudo', 'strace', 'script', 'udevadm', 'lspci', 'fdisk', 'sg_inq', 'e2label')
# (an ordinary user's PATH may lack those that root uses)
os.environ['PATH'] += ':/usr/sbin:/sbin'


@functools.lru_cache(maxsize=None)
def is_there(tool):
    """Returns whether a tool is installed. nvme-cli must have the version whose texts are known."""
    if not shutil.which(tool):
        return False
    return tool != 'nvme' or b'nvme version 2.3 ' in subprocess.run(['nvme', 'version'], capture_output=True).stdout


@functools.lru_cache(maxsize=None)
def works(*command):
    """Returns whether a command succeeds, such as one that makes a namespace."""
    return bool(shutil.which(command[0])) and run(*command, 'true').status == 0


@functools.lru_cache(maxsize=None)
def why_no_sandbox():
    """Returns why bubblewrap can't be tested here, or nothing."""
    if not shutil.which('bwrap'):
        return 'bubblewrap is not installed'
    return '' if works('bwrap', '--bind', '/', '/', '--dev', '/dev') else 'bubblewrap can make no sandbox here'


def options_for(part):
    """Returns the compiler's options for one of these programs, or for the library."""
    kind = 'of_library' if part.endswith('.so') else 'of_program'
    return [*LISTED['flags'].split(), *LISTED[kind].split(), f'-DMODEL_VERSION="{VERSION}"', '-I', CLIENT]


def compiled_c(made, sources, *options):
    """Compiles C files, of which some are a test's, to a program that is no part of what is installed. The compiler
    must give no warning."""
    made.parent.mkdir(parents=True, exist_ok=True)
    files = [(TOP / 'tests' if name.startswith('check') else CLIENT) / f'{name}.c' for name in sources]
    version = f'-DMODEL_VERSION="{VERSION}"'
    subprocess.run(['cc', '-g', '-O1', *WARNINGS, version, '-I', CLIENT, '-o', made, *files, *options], check=True)
    return made


@functools.lru_cache(maxsize=None)
def installed():
    """Compiles the launcher, the library and, where it can be made, the server for virtual machines as they are for
    users, with the device where the launcher looks for it, unless the environment says where they are."""
    if 'NVME_MODEL_INSTALLED' in os.environ:
        return pathlib.Path(os.environ['NVME_MODEL_INSTALLED'], 'bin/nvme-model')
    place = process_folder() / 'installed'
    ended = run(TOP / 'nvme-model', '--compile', place)
    assert (ended.status, ended.out + ended.err) == (0, b''), f'the programs in C could not be compiled\n{ended}'
    shutil.copy(program('nvme_device'), place / 'lib/nvme-model')
    return place / 'bin/nvme-model'


def sanitized(folder):
    """Compiles the launcher with sanitizers, with its parts, and returns it."""
    shutil.copytree(installed().parents[1] / 'lib', folder / 'lib')
    return compiled_c(folder / 'bin/nvme-model', PARTS['bin/nvme-model'], *SANITIZERS)


# What a reason ends with where no sandbox can be made.
BY_VM = '--vm runs the command on a kernel of its own, in a virtual machine'


@functools.lru_cache(maxsize=None)
def programs():
    """Returns a folder with the programs of tests/programs, which every user can read."""
    return shutil.copytree(PROGRAMS, process_folder() / 'programs')


def static_program(name, *sources):
    """Compiles a program of tests/programs, with other sources, that is linked statically."""
    made = programs() / name
    if not made.exists():
        subprocess.run(['cc', '-O1', *WARNINGS, '-static', '-I', CLIENT, '-o', made, PROGRAMS / f'{name}.c', *sources],
                       check=True)
    return made


def mounts(process='self'):
    return pathlib.Path(f'/proc/{process}/mountinfo').read_text().splitlines()


def nodes():
    """Returns the names in /dev that a model could have left there, and those of this machine's own controllers."""
    return sorted(name for name in os.listdir('/dev') if name.startswith(('.model', 'nvme', 'ng')))


DEVICES, KEEPERS, HELPERS, LAUNCHER = range(4)


def named():
    """Returns the processes that serve the command of the model that runs, by their names, each in the order in which
    they began."""
    found = {b'launcher': [], b'device': []}
    for number in left_running():
        # (a process may end meanwhile)
        with contextlib.suppress(FileNotFoundError, ProcessLookupError):
            status = pathlib.Path(f'/proc/{number}/status').read_bytes()
            name, inside = (re.search(rb'(?m)^%s:\t(.*)$' % word, status).group(1) for word in (b'Name', b'NSpid'))
            if name in found and len(inside.split()) == 2:
                found[name].append((int(inside.split()[1]), number))
    return {name: [number for _, number in sorted(numbers)] for name, numbers in found.items()}


def parts(devices=1):
    """Returns the processes that serve the command of the model that runs: lists of its devices, of their keepers, of
    the helpers, and the launcher. The command can't name them."""
    found = {}
    assert until(lambda: found.update(named()) or len(found[b'launcher']) > 1 + devices), 'no model serves a command'
    launcher, *others = found[b'launcher']
    return found[b'device'], others[:devices], others[devices:], [launcher]


def signals(part, number):
    """Returns a call that sends a signal to these parts."""
    def send():
        found = parts()[part]
        assert found, 'there is no such process'
        for process in found:
            os.kill(process, number)
    return send


# What a helper does, by the number and the words of its call: it waits for a keeper (futex), delays a command
# (futex, until some time) or waits for a call (ioctl).
ASKING, DELAYING = rb'202 \w+ 0x0 \w+ 0x0 ', rb'202 \w+ 0x0 \w+ 0x[1-9a-f]'
RECEIVING = rb'16 \w+ 0xc0502100 '


def do_helpers(what, least=None):
    """Waits until so many helpers do this, or all, and returns whether they do."""
    def are_at_it():
        calls = []
        for number in parts()[HELPERS]:
            # (one may end meanwhile)
            with contextlib.suppress(FileNotFoundError, ProcessLookupError):
                calls.append(pathlib.Path(f'/proc/{number}/syscall').read_bytes())
        return sum(bool(re.match(what, call)) for call in calls) >= (least or len(calls))
    return until(are_at_it)


class ModelCase(Case):
    """A test with a subsystem file of its own, whose name identifies the devices that it starts. Its transcripts are
    of the sandbox."""

    def setUp(self):
        super().setUp()
        if why_no_sandbox():
            self.skipTest(why_no_sandbox())
        installed()
        self.folder.chmod(0o755)
        self.subsystem = self.file('demo.toml', DEMO.read_bytes())
        self.mounts, self.nodes = mounts(), nodes()
        self.addCleanup(self.leaves_nothing)

    def needs(self, *texts):
        """Skips a test that calls a tool that isn't installed, itself or in a script that it runs."""
        files = [pathlib.Path(text) for text in texts if os.fspath(text).endswith('.sh')]
        text = '\n'.join([*map(os.fspath, texts), *(file.read_text() for file in files)])
        missing = [tool for tool in TOOLS
                   if re.search(rf'(?<![\w/.-]){re.escape(tool)}(?![\w/.=-])', text) and not is_there(tool)]
        if missing:
            self.skipTest(f"{', '.join(missing)} not installed, or in a version that isn't known")

    def transcribe(self, transcript):
        transcript.check(self)

    def programs(self, script=''):
        """Returns the folder of tests/programs, with the programs in C that a script runs."""
        for name in re.findall(r'\$programs/(\w+)(?![.\w])', script):
            static_program(name)
        return programs()

    def command(self, *arguments, options=()):
        self.needs(*map(os.fspath, arguments))
        return [installed(), '--subsystem', self.subsystem, *options, *arguments]

    def model(self, *arguments, options=(), **more):
        """Runs a command over the demonstration file."""
        return run(*self.command(*arguments, options=options), **more)

    def shell(self, script, *words, options=(), **more):
        """Runs a shell script over the demonstration file."""
        return self.model('sh', '-c', script, 'sh', *words, options=options, **more)

    def stepped(self, script, *steps, words=(), user=(), options=()):
        """Starts a shell script that waits at each `step` until one of these steps was taken, outside of the
        sandbox."""
        script = 'step() { echo step; read -r line; }; ' + script
        running = Running(*user, *self.command('sh', '-c', script, 'sh', *words, options=options))
        self.addCleanup(running.process.kill)
        for count, step in enumerate(steps, 1):
            self.assertTrue(until(lambda: running.hear(0) is None or running.heard.count(b'step\n') == count))
            step()
            # (nobody reads if the step ended the command)
            with contextlib.suppress(BrokenPipeError):
                running.say(b'\n')
        return running

    def gives(self, script, *steps, out, status=0, by=(), **more):
        """Checks how a script in steps ends, and what it prints, for each user."""
        for user in USERS:
            with self.subTest(user=user):
                running = self.stepped(script, *steps, user=(*user, *by), **more)
                self.ends(running.end(), status, out)
                self.leaves_nothing()

    def leaves_nothing(self):
        """Checks that no device and no mount is left, and that the launcher left nothing in the machine's folders."""
        names = b'bwrap\n', b'nvme-model\n', b'launcher\n', b'device\n'
        self.assertTrue(until(lambda: not {*left_running()} & {*processes('comm', lambda text: text in names)}),
                        'a device was left running')
        new = [line for line in mounts() if line not in self.mounts and ('.model' in line or 'newroot' in line)]
        self.assertEqual(new, [], 'mounts are seen outside')
        self.assertEqual(nodes(), self.nodes, 'nodes are seen outside')
