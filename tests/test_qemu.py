"""Tests ./nvme-model --qemu: valid and invalid messages of x-pci-proxy-dev, which tests/as_qemu.py sends in QEMU's
place, and SeaBIOS and Linux with nvme-cli over the controllers, if QEMU, a kernel and a static busybox are installed:
by vfio-user-pci where QEMU has it. tests/test_vfio_*.py test the messages of that. NVME_TEST_KERNEL names a kernel
instead of the newest one in /boot or that of tools/kernel, and NVME_TEST_MODULES the folder with its modules."""

import functools
import glob
import hashlib
import importlib.util
import json
import os
import pathlib
import re
import shlex
import shutil
import signal
import socket
import subprocess

from tests.as_qemu import BROKEN
from tests.modelled import CLIENT, PARTS, ModelCase, installed, is_there, options_for
from tests.support import DEMO, LIMIT, TOP, Case, Running, difference, library, process_folder, run, table

SCENARIOS = 'configuration', 'registers', 'commands', 'interrupts', 'sections', 'gone'
# What guests run: `init.sh` first, and then `guest.sh`, whose output is compared, or another script.
GUEST = TOP / 'tests/guest'
NO_DISPLAY = '-nodefaults', '-display', 'none'
COUNTS = r'nvme-model: controller (\d+): commands (\d+), refused (\d+)\n'
ERROR = r'nvme-model: error (\d+): command (\d+), status 0x([0-9a-f]+), location 0x([0-9a-f]+), NSID 0x([0-9a-f]+)\n'

# Reads the sector 2000 of the drive from which it was booted (int 13h), writes it to the serial port up to a zero byte,
# and turns the machine off.
BOOT_SECTOR = bytes.fromhex('fc 31c0 8ed8 b442 be247c cd13 be0080 ac 84c0 7406 baf803 ee ebf5 ba0406 b80020 ef f4 ebfd'
                            '1000 0800 0080 0000 d007000000000000')


@functools.lru_cache(maxsize=None)
def program(*options):
    """Compiles the program, with the library, as it is for users or with more options, unless the environment says
    where it is."""
    if 'NVME_MODEL_SERVER' in os.environ:
        return pathlib.Path(os.environ['NVME_MODEL_SERVER'])
    place, part = library(), 'lib/nvme-model/qemu'
    made = process_folder() / f'qemu{len(options)}'
    files = [CLIENT / f'{name}.c' for name in PARTS[part]]
    subprocess.run(['cc', *options_for(part), '-Werror', *options, '-o', made, f'-I{place}', *files,
                    place / 'libnvme_controller.a'], check=True)
    return made


# (the sanitizer looks at what fortified calls would)
SANITIZERS = '-g', '-fsanitize=address,undefined', '-fno-sanitize-recover=all', '-U_FORTIFY_SOURCE'


class Messages(Case, transcripts='stand_ins'):
    """Runs a scenario in QEMU's place, with each memory access in the program checked."""

    def setUp(self):
        super().setUp()
        self.env = {'PATH': f'{self.folder}:{os.environ["PATH"]}', 'server': program()}
        self.file('qemu-system-x86_64', b'#!/bin/sh\ncase "$*" in\n'
                  b'-device\\ help) echo "name x-pci-proxy-dev, bus PCI"; exit ;;\n'
                  b'-version) echo "QEMU emulator version 7.2.22 (Debian 1:7.2+dfsg-7)"; exit ;;\nesac\n'
                  b'exec python3 -m tests.as_qemu "$SCENARIO" "$@"').chmod(0o755)

    def said(self, scenario, *wanted):
        """Returns what the program says of a scenario, at whose end it has this status, output and messages."""
        with self.subTest(scenario):
            ended = run(program(*SANITIZERS), '--summary', env={**self.env, 'SCENARIO': scenario})
            self.ends(ended, *wanted)
        return ended.err.decode()

    def test_scenarios(self):
        told = {scenario: self.said(scenario, 0, b'') for scenario in SCENARIOS}['commands']
        # (the reset, the refused command and the requests are those of the scenario)
        self.assertEqual(re.findall(COUNTS, told), [('0', '22', '1'), ('1', '21', '0')])
        self.assertEqual(re.findall(ERROR, told), [('1', '104', '6001', 'ffff', '0')], told)

    def test_invalid_messages(self):
        for scenario in [f'broken:{name}' for name in BROKEN] + [f'random_messages:{seed}:3000' for seed in range(8)]:
            self.said(scenario, 72, b'', b"nvme-model: QEMU sent a message that isn't known here\n")

    def test_arguments(self):
        for words, said in [*table('refused_arguments_of_qemu'), ['--subsystem x ' * 17, '']]:
            with self.subTest(words):
                ended = run(program(), *words.split())
                self.ends(ended, 72, b'')
                self.assertIn(b'usage: nvme-model --qemu ', ended.err)
                self.assertTrue(ended.err.startswith(f'nvme-model: {said}\n'.encode() if said else b''), ended)
        self.assertTrue(run(program(), '--help').out.startswith(b'usage: nvme-model --qemu '))
        self.ends(run(program(), '--vfio-user', '--socket', 'x' * 107), 72, b'',
                  b'nvme-model: ' + b'x' * 107 + b': the path is too long for a socket\n')

    def test_launcher(self):
        # (in a folder of its own, because other tests share the first one, and find the program there)
        launcher = self.folder / 'installed/bin/nvme-model'
        shutil.copytree(installed().parents[1], launcher.parents[1])
        shutil.copy(program(), launcher.parents[1] / 'lib/nvme-model/qemu')
        for option in '--qemu', '--vfio-user':
            self.ends(run(launcher, option, '--help'), 0, run(program(), '--help').out, b'')
            self.assertIn(b'see nvme-model --help\n', run(launcher, '--no-notice', option, 'true').err)


def kernel():
    """Returns the kernel and the folder of its modules: the newest ones that are installed, or that of tools/kernel, if
    none are named."""
    kernels = sorted(glob.glob('/boot/vmlinuz-*'), key=os.path.getmtime) or [
        *map(str, TOP.glob('out/kernel/boot/vmlinuz-*'))]
    found = os.environ.get('NVME_TEST_KERNEL') or ''.join(kernels[-1:])
    place, _, release = found.partition('/boot/vmlinuz-')
    return found, os.environ.get('NVME_TEST_MODULES') or f'{place}/lib/modules/{release}'


@functools.lru_cache(maxsize=None)
def why_not():
    """Returns the reason why Linux can't be run here, or nothing if it can."""
    for tool in 'qemu-system-x86_64', 'busybox', 'nvme':
        if not is_there(tool):
            return f"{tool} not installed, or in a version that isn't known"
    busybox = pathlib.Path(shutil.which('busybox')).read_bytes()
    if b'/ld-linux' in busybox[:4096]:
        return 'busybox is not static'
    if not all(map(os.access, kernel(), (os.R_OK, os.R_OK))):
        return 'there is no kernel with its modules: NVME_TEST_KERNEL and NVME_TEST_MODULES name them'
    if not re.search(b'vfio-user-pci|x-pci-proxy-dev', devices()):
        return 'this QEMU has neither vfio-user-pci nor x-pci-proxy-dev'
    return None


@functools.lru_cache(maxsize=None)
def devices():
    """Returns the text in which QEMU names its devices."""
    return run('qemu-system-x86_64', '-device', 'help').out


def modules():
    """Returns the modules that Linux's driver needs, each after those that it needs itself, as `--vm` finds them."""
    found = importlib.util.spec_from_file_location('vm', CLIENT / 'vm.py')
    vm = importlib.util.module_from_spec(found)
    found.loader.exec_module(vm)
    vm.NEEDED = 'nvme',
    return {os.path.basename(path).partition('.')[0]: vm.content(path) for path in vm.find_modules(*kernel())}


@functools.lru_cache(maxsize=None)
def initial_files():
    """Packs the guest's files: busybox, nvme-cli with its libraries, the modules, and the script that runs first."""
    root = process_folder() / 'guest'
    for name in 'bin', 'proc', 'sys', 'dev', 'modules':
        (root / name).mkdir(parents=True)
    for path in re.findall(r'(/\S+) \(0x', run('ldd', shutil.which('nvme')).out.decode()):
        (root / path[1:]).parent.mkdir(parents=True, exist_ok=True)
        shutil.copy(path, root / path[1:])
    for name in 'nvme', 'busybox':
        shutil.copy(shutil.which(name), root / 'bin' / name)
    needed = modules()
    for name, data in needed.items():
        (root / 'modules' / name).write_bytes(data)
    (root / 'modules/order').write_text(' '.join(needed))
    shutil.copytree(GUEST, root, dirs_exist_ok=True)
    (root / 'init.sh').rename(root / 'init').chmod(0o755)
    packed = process_folder() / 'guest.cpio'
    names = '\n'.join(str(path.relative_to(root)) for path in root.rglob('*'))
    ended = run('busybox', 'cpio', '-o', '-H', 'newc', source=names.encode(), out=packed, cwd=root)
    assert ended.status == 0, ended
    return packed


def as_drive(text):
    """Returns what nvme-cli tells of controllers, with what those of a virtual machine have besides."""
    for old, new in ((b'oncs      : 0x10\n', b'oncs      : 0x9d\n'), (b'oaes      : 0\n', b'oaes      : 0x100\n'),
                     (b'aerl      : 0\n', b'aerl      : 3\n'), (b'"oncs":16,', b'"oncs":157,'),
                     (b'"oaes":0,', b'"oaes":256,'), (b'"aerl":0,', b'"aerl":3,')):
        assert text.count(old) == 1, (old, text.count(old))
        text = text.replace(old, new)
    return text


def apart_from_scans(text):
    """Leaves out what depends on how often Linux itself sends a command that is refused: when it looks for namespaces,
    as after a format, even one that was refused."""
    before, mark, after = text.partition(b'> nvme format /dev/nvme0 -n 2 -l 7 ')
    errors, end, rest = after.partition(b'> nvme delete-ns')
    errors = re.sub(rb'(?m)^ *"(status_field|parm_error_location|nsid)":.*\n', b'', errors)
    return re.sub(rb'(?m)^refused: .*\n', b'', before + mark + errors + end + rest)


def told(error):
    """Returns the fields of an error log entry that are compared, as the program reports them at its end."""
    # (nvme-cli prints an NSID as a signed number)
    numbers = [error[key] for key in ('error_count', 'cmdid', 'status_field', 'parm_error_location')]
    numbers.append(error['nsid'] % 2 ** 32)
    return tuple('{} {} {:x} {:x} {:x}'.format(*numbers).split())


class Drivers(ModelCase):
    def setUp(self):
        super().setUp()
        if why_not():
            self.skipTest(why_not())
        self.subsystem.write_bytes(DEMO.read_bytes().replace(b'elpe = 3', b'elpe = 63'))
        self.console, self.results = self.folder / 'console', self.folder / 'results'
        # (Without KVM, the older device has no interrupts. A busy machine fails the kernel's check of the timer.)
        self.is_new = b'vfio-user-pci' in devices()
        self.polls = '' if self.is_new else ' irqpoll nolapic_timer'

    def linux(self, more='', results=None):
        """Returns QEMU's options for Linux, with two processors if they get interrupts."""
        return (*NO_DISPLAY, '-serial', f'file:{self.console}', '-serial', results or f'file:{self.results}',
                '-smp', str(1 + self.is_new), '-kernel', kernel()[0], '-initrd', initial_files(), '-append',
                f'console=ttyS0 panic=-1 no_timer_check{self.polls}{more}')

    def boot(self, *options, own=()):
        """Runs a machine to its end, and returns what the program reported then."""
        ended = run(program(), '--summary', '--subsystem', self.subsystem, *own, '--', *options)
        self.ends(ended, 0, b'')
        return ended.err.decode()

    def test_seabios(self):
        # SeaBIOS's driver identifies a controller, creates I/O queues, and identifies each namespace
        summary = self.boot(*NO_DISPLAY, '-no-reboot', '-boot', 'reboot-timeout=1')
        self.assertEqual(re.findall(COUNTS, summary), [('0', '5', '0'), ('1', '5', '0')])

    def test_disk_image(self):
        # SeaBIOS boots from a drive, whose first sector is a program that reads another one and tells what it has
        place = self.folder / 'kept'
        place.mkdir()
        image = bytearray(1 << 20)
        image[:len(BOOT_SECTOR)] = BOOT_SECTOR
        image[510:512] = b'\x55\xaa'
        image[2000 * 512:2000 * 512 + 12] = b'SECTOR 2000\n'
        (place / 'subsystem0.namespace1').write_bytes(image)
        self.boot(*NO_DISPLAY, '-no-reboot', '-serial', f'file:{self.console}', own=['--data', place])
        self.assertEqual(self.console.read_bytes(), b'SECTOR 2000\n')

    def test_linux(self):
        summary = self.boot('-no-reboot', *self.linux())
        console = self.console.read_text(errors='replace')
        queues = f'{1 + self.is_new}/0/0 default/read/poll queues'
        self.assertEqual(len(re.findall(queues, console)), 3, console[-3000:])
        self.assertEqual(re.findall(r'(?i)nvme.*(?:timeout|timed out|dead|abort)', console), [])
        script, logs = self.results.read_text().split('END OF SCRIPT\n')
        wanted = self.model('sh', GUEST / 'guest.sh')
        wanted, got = apart_from_scans(as_drive(wanted.out)), apart_from_scans(script.encode())
        self.assertEqual(difference('guest', wanted, got), [], console[-3000:])
        # what the guest read last, and what the program reported at its end
        self.assertTrue(logs.endswith('END OF LOGS\n'), logs)
        pages = json.loads('[%s]' % re.sub(r'}\s*{', '},{', logs[:-len('END OF LOGS\n')]))
        errors = [told(error) for page in pages[::2] for error in page['errors'] if error['error_count']]
        self.assertEqual(errors, re.findall(ERROR, summary))
        refused = [smart['num_err_log_entries'] for smart in pages[1::2]]
        self.assertEqual(refused, [counts[2] for counts in re.findall(COUNTS, summary)])

    def test_data(self):
        # what Linux writes is there after the machine's restart and resets of the functions, and in the file; and the
        # second processor gets its own interrupts
        place = self.folder / 'data'
        place.mkdir()
        self.boot(*self.linux(' kept'), own=['--data', place])
        stored = (place / 'subsystem0.namespace1').read_bytes()
        digest = hashlib.md5(stored).hexdigest()
        self.assertEqual((len(stored), stored[:4]), (1 << 20, b'full'))
        more = 'RESET\nRESET\nINTERRUPTED PROCESSOR 1\n' * self.is_new
        self.assertEqual(self.results.read_text(), f'WRITTEN {digest}  -\n{more}READ {digest}  -\n')

    def test_plugged(self):
        # a controller is unplugged, and plugged in again, in two machines one after the other
        if not self.is_new:
            self.skipTest('this QEMU has no vfio-user-pci')
        server = Running(program(), '--vfio-user', '--socket', self.folder / 's', '--subsystem', self.subsystem)
        self.addCleanup(server.process.kill)
        server.comes(b's1\n')
        command = re.search(r'(?m)^    (qemu-system-x86_64 (?:.*\\\n)+.*) \.\.$', (TOP / 'docs/QEMU.md').read_text())[1]
        words = shlex.split(command.replace('\\\n', '').replace('PATH0', f'{self.folder}/s0'))
        device = json.loads(words[-1])
        for nsid in 2, 4:
            machine = Running(*words, '-no-reboot', '-qmp', f'unix:{self.folder}/monitor,server=on,wait=off',
                              *self.linux(' plugged', results='stdio'))
            self.addCleanup(machine.process.kill)
            machine.comes(b'PLUGGED\n')
            # (the guest no longer sees the controller before QEMU has removed it)
            self.order('device_del', 'DEVICE_DELETED', id='own')
            machine.comes(b'UNPLUGGED\n')
            self.order('device_add', **device)
            machine.comes(b'END\n')
            ended = machine.end()
            self.assertEqual(ended.status, 0, ended)
            self.assertRegex(ended.out.decode(), rf'nsid:{nsid}\n1\nPLUGGED\nUNPLUGGED\n(\[.*\n)+END\n$')
        server.process.terminate()
        self.ends(server.end(), -signal.SIGTERM)

    def test_recipe(self):
        # the example packs a guest, boots it, and leaves nothing in the folder where it runs
        if not shutil.which('cpio'):
            self.skipTest('cpio is not installed')
        page = (TOP / 'docs/QEMU.md').read_text()
        self.assertIn('\n    sh examples/machine.sh\n', page)
        commands = (TOP / 'examples/machine.sh').read_text()
        release = sorted(path.name for path in pathlib.Path('/lib/modules').glob('*'))[-1:]
        if not release or not os.path.exists(f'/boot/vmlinuz-{release[0]}'):
            # (apart from where it finds a kernel that isn't installed)
            place, *_ = kernel()[0].rpartition('/boot/')
            for old, new in ((' /lib/', f' {place}/lib/'), ('/boot/', f'{place}/boot/'), (' -S ', f' -d {place} -S ')):
                self.assertIn(old, commands)
                commands = commands.replace(old, new)
        commands = commands.replace('-append console=ttyS0', f'-append "console=ttyS0 no_timer_check{self.polls}"')
        (self.folder / 'here').mkdir()
        (self.folder / 'here/nvme-model').symlink_to(program())
        running = Running('sh', '-c', commands, cwd=self.folder / 'here', env={'HOME': self.folder})
        running.has(b'job control turned off')
        running.say(b'until nvme id-ctrl /dev/nvme0 && nvme id-ctrl /dev/nvme1; do sleep 1; done 2> /dev/null |'
                    b' grep ^sn\necho serials: $(cat /sys/class/nvme/nvme?/serial)\n'
                    b'nvme list-ns /dev/nvme0; dmesg | grep nvme; echo b > /proc/sysrq-trigger\n')
        ended = running.end()
        self.assertEqual(ended.status, 0, ended)
        said = ended.out.decode(errors='replace')
        self.assertEqual(set(re.findall(r'(?m)^sn +: (\S+)', said)), {'S0', 'S1'}, said[-3000:])
        self.assertRegex(said, r'(?m)^serials: (S\d) \1\s*$')
        self.assertRegex(said, r'(?m)^\[ +0\]:0x1\r?$')
        self.assertEqual(os.listdir(self.folder / 'here'), ['nvme-model'])

    def order(self, name, event='', **arguments):
        """Tells QEMU's monitor a command, and waits for its answer, and for an event if one is named."""
        with socket.socket(socket.AF_UNIX) as monitor:
            monitor.settimeout(LIMIT)
            monitor.connect(f'{self.folder}/monitor')
            for command in {'execute': 'qmp_capabilities'}, {'execute': name, 'arguments': arguments}:
                monitor.sendall(json.dumps(command).encode())
            said = ''
            while said.count('"return": {}') < 2 or event not in said:
                said += monitor.recv(4096).decode() or self.fail(said)
                self.assertNotIn('"error"', said)
