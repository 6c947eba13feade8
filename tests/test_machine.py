"""Runs ./nvme-model on machines that have NVMe nodes of their own, in a mount namespace that a test makes: as root with
real device nodes, otherwise with files. Whatever a command does there, the machine doesn't change."""

import contextlib
import itertools
import os
import pathlib
import re
import shutil
import stat
import threading
import unittest

from tests.modelled import BY_VM, DEVICES, PROGRAMS, ModelCase, installed, mounts, signals, static_program, works
from tests.support import IS_ROOT, NOBODY, TOP, Running, end_all, process_folder, run, until
from tests.transcripts import transcripts_of

BYTES = b'MACHINE DATA 16\n' * 4096
NESTED = 'unshare', '-U', '--map-user=1000', '--map-group=1000'

# The ways to run the attack, and what a command tries besides.
WAYS, TRIES = transcripts_of('attacks'), transcripts_of('tries')
KERNEL, ATTACK = 'files_of_the_kernel', WAYS['the_command_itself'][0].beginning


class Machine:
    """A machine with nodes: `devices`, `files` or `none`."""

    def __init__(self, case, kind):
        self.kind, self.case = kind, case
        self.disk = case.file('disk', BYTES)
        for name in 'new', 'alias', 'sysfs', 'proc', 'root', 'gone', 'fuse':
            (case.folder / name).mkdir(exist_ok=True)
            (case.folder / name).chmod(0o777)
        private = ['unshare', '-m'] if kind == 'devices' else [*(NOBODY if IS_ROOT else ()), 'unshare', '-Urm']
        if not works(*private) or (kind == 'devices' and run('losetup', '--find').status != 0):
            case.skipTest('no such machine can be made here: there are no namespaces, or no loop devices')
        self.holder = Running(*private, 'sh', TOP / 'tests/machine.sh', case.folder / 'new',
                              os.path.commonpath([process_folder(), installed()]), kind, self.disk)
        case.addCleanup(self.close)
        self.holder.comes(b'ready\n')
        self.number = self.holder.process.pid
        self.root = pathlib.Path(f'/proc/{self.number}/root')
        into = ['nsenter', '-t', str(self.number), '-m']
        self.enter = into if kind == 'devices' else [*private[:-2], *into, '-U', '--preserve-credentials']
        self.before = self.looks()

    def close(self):
        if self.holder.process.poll() is None:
            end_all()
            self.holder.process.wait()
        for name in 'disk.node', 'reached', 'copy', 'copied':
            (self.case.folder / name).unlink(missing_ok=True)

    def looks(self):
        """Returns everything that must not change."""
        found = {}
        for folder, folders, files in os.walk(self.root / 'dev'):
            folders[:] = [name for name in folders if name not in ('pts', 'shm')]
            for name in folders + files:
                path = os.path.join(folder, name)
                about, target = os.lstat(path), os.readlink(path) if os.path.islink(path) else ''
                found[path] = oct(about.st_mode), about.st_uid, about.st_gid, about.st_rdev, target
        for name in ('nvme0n1', 'other') if self.kind == 'devices' else ('nvme0n1',) if self.kind == 'files' else ():
            path = self.root / 'dev' / name
            found[name + "'s bytes are the same"] = path.exists() and path.read_bytes() == BYTES
        return found.items(), mounts(self.number), os.listdir(self.root / 'tmp')

    def is_unchanged(self):
        for kind, before, after in zip(('node', 'mount', 'entry of /tmp'), self.before, self.looks()):
            self.case.assertEqual(sorted({*before} ^ {*after}), [], f'a {kind} has changed')

    def model(self, script, user=(), options=(), where='/', by=(), **more):
        """Runs a shell script under ./nvme-model on this machine, as a user."""
        self.case.needs(script)
        for name in 'seven', 'plain', 'reached':
            self.case.file(name, b'CLOBBER').chmod(0o666)
        about = os.stat(self.root / 'dev/nvme0n1') if self.kind == 'devices' else None
        self.case.file('number', f'{os.major(about.st_rdev)} {os.minor(about.st_rdev)}'.encode() if about else b'7 0')
        env = {'place': self.case.folder, 'model': installed()}
        words = [installed(), '--subsystem', self.case.subsystem, *options, 'sh', '-c', script]
        return run(*self.enter, *user, 'sh', self.case.folder / 'caller.sh', where, *by, *words, env=env, **more)


class MachineCase(ModelCase):
    def setUp(self):
        super().setUp()
        self.folder.chmod(0o1777)
        for script in 'attack.sh', 'caller.sh', 'other_root.sh':
            shutil.copy(TOP / 'tests' / script, self.folder)
        shutil.copy(static_program('takes'), self.folder / 'takes')
        (self.folder / 'link').symlink_to('/dev/nvme0n1')
        (self.folder / 'chain').symlink_to('/dev/disk/by-id/nvme-machine')

    def reached_nothing(self, machine, ended, least=1):
        """Checks that an attack ran to its end, and found the model's data at least this often and no data of the
        machine."""
        found = re.findall(rb"(?m)^(\d+) times the model's$", ended.out)
        self.assertTrue(found, ended)
        self.assertNotIn(b'reached', ended.out, ended)
        self.assertGreaterEqual(max(map(int, found)), least, ended)
        machine.is_unchanged()

    def kill_device(self):
        """Kills the device as soon as a command asks for it."""
        if until((self.folder / 'begun').exists):
            signals(DEVICES, 9)()
            (self.folder / 'killed').touch()

    def attacks(self, kind, user=()):
        for name, (way,) in WAYS.items():
            if way.headings['root'] and (kind, user) != ('devices', ()):
                continue
            with self.subTest(name, kind=kind, user=user), contextlib.closing(Machine(self, kind)) as machine:
                killer = threading.Thread(target=self.kill_device)
                if 'killed"' in way.script:
                    killer.start()
                ended = machine.model(way.beginning + way.script, user, where='/dev')
                self.reached_nothing(machine, ended, 0 if 'killed' in name or way.headings['root'] else 5)
                if 'killed"' in way.script:
                    killer.join()
                    self.assertIn(b'the device ended', ended.err)
                    for mark in 'begun', 'killed':
                        (self.folder / mark).unlink()
            self.leaves_nothing()

    def transcribe(self, transcript):
        """Runs a transcript on machines: with real nodes if it is root's alone, where its script outside has a mount
        namespace, or on each machine."""
        outside, script = transcript.outside(), transcript.beginning + transcript.script
        if not transcript.headings['root']:
            for machine, user in self.users():
                transcript.agrees(self, machine.model(script, user, by=outside))
            return
        for user in transcript.users():
            with self.subTest(transcript.place, user=user), contextlib.closing(Machine(self, 'devices')) as machine:
                transcript.agrees(self, machine.model(script, by=('unshare', '-m', *outside, *user)))
                machine.is_unchanged()

    def users(self):
        """Returns machines, each with a user."""
        kinds = [('devices', ()), ('devices', NOBODY)] if IS_ROOT else []
        for kind, user in (*kinds, ('files', ()), ('files', NESTED)):
            with self.subTest(kind=kind, user=user), contextlib.closing(Machine(self, kind)) as machine:
                yield machine, user
                machine.is_unchanged()


class Attacks(MachineCase):
    @unittest.skipUnless(IS_ROOT, 'true device nodes can be made by root alone')
    def test_devices_and_root(self):
        self.attacks('devices')

    @unittest.skipUnless(IS_ROOT, 'true device nodes can be made by root alone')
    def test_devices_and_another_user(self):
        self.attacks('devices', NOBODY)

    def test_files_and_root_of_a_user_namespace(self):
        self.attacks('files')

    def test_files_and_a_user(self):
        self.attacks('files', NESTED)

    def test_tries(self):
        self.tries({name: row for name, row in TRIES.items() if name != KERNEL})

    def test_files_of_the_kernel(self):
        self.tries({KERNEL: TRIES[KERNEL]})

    def tries(self, rows):
        for machine, user in self.users():
            for name, (row,) in rows.items():
                with self.subTest(name):
                    ended = machine.model(row.beginning + row.script, user, options=['--data-limit=2M'])
                    self.assertEqual(ended.out, b''.join(text for _, text in row.output), ended)
                    self.assertNotEqual(ended.status, 72, ended)


class Machines(MachineCase, transcripts='on_machines'):
    """Tests other properties on a machine with nodes, for root and for another user."""

    def test_working_folder(self):
        script = 'echo MODELLED | dd of=nvme0n1 conv=notrunc 2> /dev/null; head -c 8 ./nvme0n1 ../dev/nvme0n1 -q; pwd'
        for machine, user in self.users():
            self.ends(machine.model(script, user, where='/dev'), 0, b'MODELLEDMODELLED/dev\n', b'')
            # a folder that was taken away, with nodes in it or above it; and one that others can't search
            ways = ['mkdir -m 777 "$place/gone/x"; cd "$place/gone/x"; rmdir "$place/gone/x"; exec "$@"',
                    'cd /proc/$caller/root/dev/folder && exec "$@"']
            if not user:
                ways += ['mount --bind /dev "$place/gone"; cd "$place/gone"; umount -l "$place/gone"; exec "$@"',
                         'mount --bind /dev "$place/gone"; cd "$place/gone"; mount -t tmpfs x "$place/gone"; exec "$@"']
            for way in ways:
                (self.folder / 'gone').mkdir(exist_ok=True)
                by = 'unshare', '-m', 'sh', '-c', way, 'sh'
                ended = machine.model('head -c 8 nvme0n1 inner/node', user, by=by if not user else by[2:])
                self.assertNotIn(b'MACHINE', ended.out, ended)
                if 'gone' in way:
                    self.ends(ended, 72, b'')
                    self.assertRegex(ended.err, b'nvme-model: the (current )?folder .*run (it|the command) from '
                                     b'another')

    def test_devices_that_are_added(self):
        for machine, user in self.users():
            # (a device that may be added is elsewhere, one is of blocks, and others have numbers beside the lists)
            others = {'tmp/tun': (stat.S_IFCHR, 10, 200), 'dev/block/disk': (stat.S_IFBLK, 4, 64),
                      'dev/block/mem': (stat.S_IFCHR, 1, 1), 'dev/block/vfio': (stat.S_IFCHR, 10, 196),
                      'dev/block/disks': (stat.S_IFCHR, 10, 237), 'dev/block/high': (stat.S_IFCHR, 260, 64),
                      'dev/block/misc': (stat.S_IFCHR, 10, 456)}
            for path, (kind, *number) in others.items() if machine.kind == 'devices' else ():
                os.mknod(machine.root / path, kind | 0o666, os.makedev(*number))
            for path in ('/dev/nvme0', '/dev/nvme0n1', '/dev/null/x', str(self.folder / 'plain'),
                         *(f'/{path}' for path in others)):
                ended = machine.model('echo no', user, ['--device', path])
                self.ends(ended, 72, b'')
                is_told = path.strip('/') in others and machine.kind == 'devices'
                self.assertIn(b'is known to lead to no storage' if is_told else b'nvme-model: ', ended.err)
            for path in others:
                (machine.root / path).unlink(missing_ok=True)
        if os.path.exists('/dev/net/tun'):
            script = 'test -c /dev/net/tun && test ! -e /dev/fuse'
            self.ends(self.shell(script, options=['--device', '/dev/net/tun']), 0)

    @unittest.skipUnless(IS_ROOT, 'root alone can mount without a user namespace')
    def test_other_mounts(self):
        # a mount that its user can't reach before the folder above it is opened, also one whose path the kernel writes
        # in more than 4,096 characters, and another view of the machine's processes
        opened = 'chmod 755 "$place/%s"; head -c 7 "$place/%s/dev/nvme0n1"; ls "$place/%s/dev/$caller"; echo no'
        hidden = ('mkdir -p "$place/%s/dev"; mount $kind "$place/%s/dev"; chown 65534:12 "$place/%s"; '
                  'chmod 000 "$place/%s"; exec "$@"')
        long_folder, closed = '/'.join([250 * ' '] * 5 + ['hidden']), '-o nodev,nosuid,noexec -t'
        ways = (('hidden', '--bind /dev'), (long_folder, '--bind /dev'), ('hidden', f'{closed} proc proc'),
                ('hidden', f'{closed} sysfs sysfs'))
        for folder, kind in ways:
            with self.subTest(kind, folder=folder), contextlib.closing(Machine(self, 'devices')) as machine:
                script = hidden.replace('%s', folder).replace('$kind', kind)
                by = 'unshare', '-m', 'sh', '-c', script, 'sh', *NOBODY
                ended = machine.model(opened.replace('%s', folder), by=by)
                # (bubblewrap 0.13 makes even such a mount nodev)
                is_kept = ended.status == 0 and 'bind' in kind
                self.ends(ended, 0 if is_kept else 72, b'no\n' if is_kept else b'')
                self.assertIn(b'Permission denied' if is_kept else b"can't be kept from the command", ended.err)
                (self.folder / folder).chmod(0o755)

    @unittest.skipUnless(IS_ROOT, 'root alone has rights to give up, and can chroot')
    def test_other_roots(self):
        # root that can't make a mount namespace, and gets one through a user namespace; another root that is a mount
        # point; and one with nodes in a plain folder
        less = 'setpriv', '--bounding-set=-sys_admin', '--inh-caps=-sys_admin'
        other = 'unshare', '-m', 'sh', self.folder / 'other_root.sh'
        for by in less, (*other, 'mounted'), (*other, 'plain'):
            with self.subTest(by), contextlib.closing(Machine(self, 'devices')) as machine:
                ended = machine.model(ATTACK + ('attack' if by == less else 'cd ../../..; attack'), by=by)
                self.reached_nothing(machine, ended, 5)
                self.assertTrue(by != less or not ended.err, ended)


# Runs a command in a place where no mount namespace can be made, or where there is no bwrap.
WITHOUT = ('unshare', '-Ur', 'sh', '-c', 'echo 0 > /proc/sys/user/max_mnt_namespaces; exec "$@"', 'sh')
UNREADABLE = '/usr/bin/python3', '-c', (PROGRAMS / 'unreadable.py').read_text()  # (by no path: this may be in /tmp)


class NoSandbox(MachineCase):
    def test_refused(self):
        # whatever nodes the machine has, the command doesn't begin, and the reason tells what does without a sandbox
        tools = self.folder / 'tools'
        tools.mkdir()
        for name in {name for folder in os.environ['PATH'].split(':') if os.path.isdir(folder)
                     for name in os.listdir(folder)} - {'bwrap'}:
            (tools / name).symlink_to(shutil.which(name) or '/none')
        ways = {WITHOUT: b'amespace', ('env', f'PATH={tools}'): b'install the package bubblewrap',
                UNREADABLE: b"the memory of processes can't be read: Operation not permitted"}
        for kind, (way, reason) in itertools.product(('devices', 'files', 'none')[not IS_ROOT:], ways.items()):
            with self.subTest(kind, way=way), contextlib.closing(Machine(self, kind)) as machine:
                ended = machine.model('touch "$place/touched"', by=way)
                self.ends(ended, 72, b'')
                self.assertRegex(ended.err, b'^nvme-model: no sandbox can be made: .*' + reason + b'.*; ' +
                                 BY_VM.encode() + b'\n$')
                self.assertFalse((self.folder / 'touched').exists())
                machine.is_unchanged()
