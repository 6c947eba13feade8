"""Tests that nothing that a command does makes the launcher wait: file systems and memory that don't answer, stopped
and killed processes, and limits. Other calls go on, and a signal ends everything. Each is tried as root and as another
user, as far as these can make such file systems."""

import os
import pathlib
import select
import subprocess
import time
import unittest
from signal import SIGCONT, SIGKILL, SIGSTOP

from tests.modelled import (ASKING, DEVICES, HELPERS, KEEPERS, LAUNCHER, PROGRAMS, WARNINGS, ModelCase, do_helpers,
                            named, parts, programs, signals, works)
from tests.support import IS_ROOT, LIMIT, NOBODY, USERS, Running, environment, left_running, processes, until

# Gives a place where everybody can open /dev/fuse.
EVERYBODY = ('unshare', '-m', 'sh', '-c', 'mount -t tmpfs fuse /mnt && mknod -m 666 /mnt/fuse c 10 229 && '
             'mount --bind /mnt/fuse /dev/fuse && umount -l /mnt && exec "$@"', 'sh')
NESTED = 'unshare', '-Urm'
# What other processes do meanwhile: calls that are answered, and one that a device answers.
OTHERS = ('for i in 1 2 3 4 5 6 7 8 9 10; do echo $i > "$2/file-$(id -u)"; done; cat "$2/file-$(id -u)"; '
          'nvme id-ctrl /dev/nvme0 2> /dev/null | grep -c "^sn .*S0"; ')
# Tells that what was written past the end of a node is cut off.
GREW = b'nvme-model: /dev/nvme0n2: what was written past the end is cut off; Linux would have refused it\n'


def stat_of(number):
    """Returns what /proc tells of a process, from its state on."""
    return pathlib.Path(f'/proc/{number}/stat').read_text().rpartition(')')[2].split()


class WaitingCase(ModelCase):
    def setUp(self):
        super().setUp()
        self.needs('nvme')
        self.folder.chmod(0o777)

    def begun(self, user, script, *words, options=(), outside=(), meanwhile=None):
        """Starts a script over the demonstration file, and waits until it says `go`."""
        command = self.command('sh', '-c', script, 'sh', *words, options=options)
        running = Running(*outside, *user, *command)
        self.addCleanup(running.process.kill)
        if meanwhile:
            meanwhile()
        running.comes(b'go\n')
        return running

    def ends_by_signal(self, running):
        """Ends a command by SIGTERM, and returns its output."""
        running.process.terminate()
        ended = running.end()
        self.assertEqual(ended.status, 143, ended)
        self.leaves_nothing()
        return ended.out


def ways():
    """Returns pairs of a user and another one inside who can mount a file system of its own."""
    if not IS_ROOT:
        return [((), ())] if os.access('/dev/fuse', os.R_OK | os.W_OK) and works(*NESTED) else []
    return [(NOBODY, ()), ((), NOBODY)] if os.path.exists('/dev/fuse') and works(*NOBODY, *NESTED) else []


@unittest.skipUnless(ways(), 'no file system of its own can be mounted by a user here')
class Hung(WaitingCase):
    def setUp(self):
        super().setUp()
        self.fuse = programs() / 'fuse'
        if not self.fuse.exists():
            subprocess.run(['cc', *WARNINGS, '-o', self.fuse, PROGRAMS / 'fuse.c'], check=True)
        self.log = self.file('log', b'')
        self.log.chmod(0o666)
        (self.folder / 'm').mkdir()
        (self.folder / 'm').chmod(0o777)

    def mounted(self, script, rest, way, *words, **more):
        """Starts a script in a user namespace with a file system in $1, and then another one outside of that, and
        returns what they print up to a signal."""
        user, inside = way
        nested = ' '.join(inside) + f' unshare -Urm sh -c \'"$0" "$1" "$3" && {script}\' "{self.fuse}" "$@" & '
        return self.ends_by_signal(self.begun(
            user, nested + rest, self.folder / 'm', self.folder, self.log, *words, options=['--device', '/dev/fuse'],
            outside=EVERYBODY if IS_ROOT else (), **more))

    def each_way(self, script, rest, wanted, *words, **more):
        for way in ways():
            with self.subTest(way=way):
                self.assertEqual(self.mounted(script, rest, way, *words, **more), wanted)

    def test_writers(self):
        # the server makes calls that are answered before it answers, while four writers make files
        script = ('for k in 1 2 3 4; do (for i in $(seq 25); do echo x > "$1/w$k-$i" || echo failed; done) & done; '
                  'wait; for k in 1 2 3 4; do test -e "$1/w$k-25" && echo more >> "$1/w$k-25" || echo missing; done; '
                  'echo go')
        self.each_way(script, 'sleep 1000', b'ready\ngo\n')

    def test_paths(self):
        # more opens that hang than there are helpers at most, which can't write a short text meanwhile or make a file
        for count in 20, 600:
            for number, way in enumerate(ways()):
                begun = f'begun{count}-{number}'
                # (root's helpers aren't let into another user's file system, so there each program itself hangs)
                hung = count if way[1] else min(count, 511)
                script = f'for i in $(seq {count}); do (: > "$1/hangs") & done; wait'
                rest = f'until test -e "$2/{begun}"; do sleep 0.1; done; {OTHERS}printf "%80s\\n" go; sleep 1000'
                with self.subTest(count, way=way):
                    out = self.mounted(script, rest, way, meanwhile=lambda: self.hang(hung, begun))
                    # (with so many, others are told to try again)
                    self.assertRegex(out, rb'(?s)^ready\n(.*Resource temporarily unavailable\n){10}.*go\n$' if
                                     hung < count else rb'^ready\n10\n1\n +go\n$')

    def hang(self, count, begun):
        """Waits until all shells were started and only so many of them still open a file, and makes one."""
        def are_hung():
            shells = {*left_running()} & {*processes('comm', lambda text: text == b'sh\n')}
            opening, waiting = ({*processes('syscall', lambda text: text.startswith(call))}
                                for call in (b'257 ', b'130 '))
            return len(shells & opening) == count and shells & waiting
        self.assertTrue(until(are_hung))
        (self.folder / begun).touch()

    def test_memory(self):
        script = 'python3 "$4" "$1/memory" 12 "$2/started"'
        rest = 'until test -e "$2/started"; do sleep 0.1; done; ' + OTHERS + 'rm -f "$2/started"; echo go; sleep 1000'
        self.each_way(script, rest, b'ready\n10\n1\ngo\n', programs() / 'hung_memory.py')

    def test_folders(self):
        # changes of /dev wait then, and so does their device, but opening and the end don't
        script = 'python3 "$4" "$1/memory" 2 "$2/started" list'
        rest = ('until test -e "$2/started"; do sleep 0.1; done; rm -f "$2/started"; '
                'nvme attach-ns /dev/nvme1 -n 1 -c 1 > /dev/null 2>&1 & '
                'until test -e "$2/changing"; do sleep 0.1; done; rm -f "$2/changing"; ' +
                OTHERS.partition('nvme')[0] + 'echo go; sleep 1000')

        def change():
            self.assertTrue(until(lambda: stat_of(parts()[KEEPERS][0])[0] == 'D'), 'no change of /dev waits')
            (self.folder / 'changing').touch()
        self.each_way(script, rest, b'ready\n10\ngo\n', programs() / 'hung_memory.py', meanwhile=change)


class Processes(WaitingCase, transcripts='waiting'):
    def test_stopped_device(self):
        # calls of its controllers wait, and all others go on
        script = ('step; nvme id-ctrl /dev/nvme0 > /dev/null & '
                  '(echo 1 > /sys/class/nvme/nvme0/rescan_controller) 2> /dev/null & step; '
                  + OTHERS.replace('nvme0', 'nvme2') + 'head -c 3 /dev/nvme0n1 | wc -c; echo go; sleep 1000')
        for user in USERS:
            with self.subTest(user=user):
                running = self.stepped(script, lambda: os.kill(parts(2)[DEVICES][0], SIGSTOP),
                                       lambda: self.assertTrue(do_helpers(ASKING, 2)), words=['x', self.folder],
                                       user=user, options=['--subsystem', self.subsystem])
                running.comes(b'go\n')
                self.assertEqual(self.ends_by_signal(running), b'step\nstep\n10\n1\n3\ngo\n')

    def test_it_goes_on(self):
        def go_on():
            self.assertTrue(do_helpers(ASKING, 1))
            signals(DEVICES, SIGCONT)()
        self.gives('step; (nvme id-ctrl /dev/nvme0 | grep -c S0) & step; wait', signals(DEVICES, SIGSTOP), go_on,
                   out=b'step\nstep\n1\n')

    def test_messages(self):
        # what a program writes to standard error is handed to nobody, so it comes although the helpers are stopped
        for user in USERS:
            with self.subTest(user=user):
                running = self.stepped('step; ls /none; read -r line; echo end', signals(HELPERS, SIGSTOP), user=user)
                running.comes(b"ls: cannot access '/none': No such file or directory\n")
                signals(HELPERS, SIGCONT)()
                self.assertRegex(running.end().out, b'^step\nls: .*\nend\n$')

    def test_many_callers(self):
        # more callers than helpers wait for a device, and each gets its answer
        self.gives('step; for i in $(seq 100); do (nvme id-ctrl /dev/nvme0 | grep -c S0) & done; step; '
                   'f="$1-$(id -u)"; echo x > "$f"; cat "$f"; step; wait', signals(DEVICES, SIGSTOP),
                   lambda: self.assertTrue(do_helpers(ASKING, 100)), signals(DEVICES, SIGCONT),
                   words=[self.folder / 'file'], out=b'step\nstep\nx\nstep\n' + b'1\n' * 100)

    def kill_helpers(self):
        """Kills the helpers as soon as one of them waits for its keeper. All are stopped before, because one that is
        killed later could take the next call of the first one's caller, which would fail too."""
        self.assertTrue(do_helpers(ASKING, 1))
        helpers = parts()[HELPERS]
        for number in helpers:
            os.kill(number, SIGSTOP)
        self.assertTrue(until(lambda: all(stat_of(number)[0] == 'T' for number in helpers)))
        for number in helpers:
            os.kill(number, SIGKILL)

    def test_killed_helpers(self):
        # the call of a helper that is killed fails, and others take its place
        self.gives('step; (nvme id-ctrl /dev/nvme0 2>&1 | grep -o "Input/output error") & step; wait; step; ' +
                   OTHERS * 2, signals(DEVICES, SIGSTOP), self.kill_helpers, signals(DEVICES, SIGCONT),
                   words=['x', self.folder], out=b'step\nstep\nInput/output error\nstep\n' + b'10\n1\n' * 2)

    def test_killed_keeper(self):
        # nothing answers for its device any more, so all ends
        self.gives('step; sleep 1000', signals(KEEPERS, SIGKILL), status=72,
                   out=b'step\nnvme-model: the process that talks with a device was killed\n')

    def test_killed_launcher(self):
        self.gives('step; sleep 1000', signals(LAUNCHER, SIGKILL), status=137, out=b'step\n')

    def test_idle(self):
        # none of the launcher's processes takes a turn in vain, after a node was written or made longer
        def spent():
            lines = [stat_of(number) for part in parts()[KEEPERS:] for number in part]
            return sum(int(line[11]) + int(line[12]) for line in lines)

        def is_idle():
            before = spent()
            time.sleep(2)
            self.assertLess(spent() - before, 20)
        self.gives('busybox sh -c "seq 2000 > /dev/nvme0n2"; until test $(busybox wc -c < /dev/nvme0n2) = 4608; do '
                   'sleep 0.1; done; step', is_idle, out=GREW + b'step\n')

    def test_trace_that_nobody_reads(self):
        for user in USERS:
            with self.subTest(user=user):
                reader, writer = os.pipe()
                self.addCleanup(os.close, writer)
                command = self.command('sh', '-c', 'while nvme id-ctrl /dev/nvme0 > /dev/null; do :; done',
                                       options=['--trace', '--refuse', 'format=0x2002'])
                # the pipe may be full from the start
                for is_there in (lambda: not select.select([], [writer], [], 0)[1], lambda: named()[b'device']):
                    process = subprocess.Popen([*user, *command], stderr=writer, stdout=subprocess.DEVNULL,
                                               env=environment())
                    self.addCleanup(process.kill)
                    self.assertTrue(until(is_there), 'the pipe is never full, or no device is started')
                    process.terminate()
                    self.assertEqual(process.wait(LIMIT), 143)
                os.close(reader)
                self.leaves_nothing()

    def test_lost_at_once(self):
        # that a device was lost is reported before the command can see it
        late = self.folder / 'late.so'
        subprocess.run(['cc', *WARNINGS, '-shared', '-fPIC', '-o', late, PROGRAMS / 'late.c'], check=True)
        self.gives('step; while test -c /dev/nvme0; do :; done; echo gone', signals(DEVICES, SIGKILL),
                   by=['env', f'LD_PRELOAD={late}'],
                   out=b'step\nnvme-model: the device ended, or answered what was not asked\ngone\n')

    def test_many_changes(self):
        # more files are written than the kernel tells while a keeper waits; a node that became longer gets its length
        self.gives(f'python3 {programs()}/grows.py', signals(DEVICES, SIGSTOP), signals(DEVICES, SIGCONT),
                   out=b'step\n10000\nstep\n' + GREW + b'end\n')
