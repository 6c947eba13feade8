"""Tests ./nvme-model: the ioctls of tests/check.c with drivers of several geometries, arguments, several subsystems,
nodes and the data of namespaces, signals, and the tools that are installed."""

import contextlib
import itertools
import os
import shutil
import signal
import subprocess
import sys
import threading
import time
import unittest

from tests.modelled import (ASAN, ASKING, DEVICES, PARTS, RECEIVING, SANITIZERS, ModelCase, compiled_c, do_helpers,
                            installed, parts, sanitized, signals)
from tests.support import IS_ROOT, LIMIT, Case, Running, left_running, processes, run, table, until

CHECK = 'check', 'check_client'
PARTS_OF_CHECK = 'commands', 'wide', 'lengths', 'many', 'broken', 'killed', 'nodes', 'gone'
GEOMETRIES = ('', '--depth 2 --page-size 65536 --offset 65532', '--page-size 8192 --offset 4092 --list-offset=8184',
              '--depth 4096 --list-offset 4088 --window 16 --pace 4096',
              '--depth=3 --page-size=16384 --window=2 --offset 8')
BY_SIGNAL = {'HUP': 129, 'INT': 130, 'QUIT': 131, 'TERM': 143}


class Ioctls(ModelCase):
    def setUp(self):
        super().setUp()
        self.env = {'ASKS': self.folder / 'asks', 'ANSWERS': self.folder / 'answers'}
        for path in self.env.values():
            os.mkfifo(path)
        threading.Thread(target=self.send, daemon=True).start()

    def send(self):
        """Does what a check asks for: sends the device a signal, or waits until so many calls wait for it (a negative
        number) or no call is answered."""
        with contextlib.suppress(FileNotFoundError):
            while True:
                number = int(self.env['ASKS'].read_text())
                if number > 0:
                    signals(DEVICES, number)()
                is_done = number > 0 or do_helpers(ASKING if number else RECEIVING, -number)
                self.env['ANSWERS'].write_text('done' * is_done)

    def test_geometries(self):
        check = compiled_c(self.folder / 'check', CHECK, '-pthread')
        for geometry, part in itertools.product(GEOMETRIES, PARTS_OF_CHECK):
            with self.subTest(geometry=geometry, part=part):
                ended = self.model(check, part, options=geometry.split(), env=self.env)
                self.ends(ended, 0, b'')
                self.assertRegex(ended.err, rb'(?m)^nvme-model: the device ended.*\n\Z' if part == 'gone' else b'^$')

    def test_sanitized(self):
        # the library's sources are compiled into the check itself; the preloaded library is another one
        launcher = sanitized(self.folder)
        check = compiled_c(self.folder / 'check', CHECK + PARTS['lib/nvme-model/library.so'], *SANITIZERS)
        other = 'cc', '-shared', '-o', self.folder / 'lib/nvme-model/library.so', '-x', 'c', '-'
        subprocess.run(other, input=b'int no;', check=True)
        for part in PARTS_OF_CHECK:
            with self.subTest(part):
                ended = run(launcher, '--subsystem', self.subsystem, check, part, env={**ASAN, **self.env})
                self.ends(ended, 0, b'')
                for word in b'Sanitizer', b'runtime error', b'check: ':
                    self.assertNotIn(word, ended.err, ended)

    def test_device_is_killed_in_a_call(self):
        # each of several calls that wait for an answer gets one, and later calls fail at once
        def kill():
            self.assertTrue(do_helpers(ASKING, 4))
            signals(DEVICES, 9)()
        running = self.stepped('step; for i in 1 2 3 4; do "$1" many & done; step; wait; '
                               'test -c /dev/nvme0 || echo gone', signals(DEVICES, 19), kill,
                               words=[compiled_c(self.folder / 'check', CHECK, '-pthread')])
        ended = running.end()
        self.assertRegex(ended.out, b'(?s)^step\nstep\nnvme-model: the device ended.*gone\n$', ended)


class Arguments(ModelCase, transcripts='launcher'):
    def transcribe(self, transcript):
        self.env = {'model': installed()}
        Case.transcribe(self, transcript)

    def test_refused_arguments(self):
        rows = [(words.split(), said) for words, said in table('refused_arguments_of_model')]
        rows += [(('--subsystem', 'x') * 33 + ('true',), '--subsystem x: there can be 32 subsystems at most'),
                 (('--device', '/dev/tty') * 65 + ('true',), '--device /dev/tty: there can be 64 of these at most')]
        for words, said in rows:
            with self.subTest(words):
                ended = run(installed(), *words)
                self.ends(ended, 72, b'')
                self.assertRegex(ended.err.decode(), f'^nvme-model: {said}\nsee nvme-model --help\n$')
        self.ends(self.model('true', options=['--depth', '1', '--depth', '4', '--window', '3']), 0, b'', b'')


class Subsystems(ModelCase, transcripts='subsystems'):
    def test_one_device_is_killed(self):
        running = self.stepped('step; while test -c /dev/nvme3; do sleep 0.1; done; cat /dev/nvme2n1; '
                               'nvme id-ctrl /dev/nvme1 | grep -c "^sn .*S1"; nvme id-ctrl /dev/nvme4 | grep "^sn "; '
                               'nvme reset /dev/nvme4; head -c 1 /dev/nvme0n1 | wc -c',
                               lambda: os.kill(parts(3)[DEVICES][1], 9),
                               options=['--subsystem', self.subsystem, '--subsystem', self.subsystem])
        self.ends(running.end(), 0, b'step\nnvme-model: the device ended, or answered what was not asked\n'
                  b'cat: /dev/nvme2n1: No such device or address\n'
                  b'1\nsn        : S0                  \n1\n')


class Signals(ModelCase):
    def begun(self, script, *words):
        """Starts a script, which SIGHUP ends even if nohup started this test, and waits until it says `ready`."""
        running = Running('env', '--default-signal=HUP', *self.command('sh', '-c', script, 'sh', *words))
        self.addCleanup(running.process.kill)
        running.comes(b'ready\n')
        return running

    def signalled(self, script, name):
        """Begins a script, sends it a signal, and returns how it ends."""
        running = self.begun(script)
        running.process.send_signal(signal.Signals['SIG' + name])
        return running.end()

    def test_passed_on(self):
        for name, status in BY_SIGNAL.items():
            with self.subTest(name):
                self.ends(self.signalled('echo ready; exec sleep 1000', name), status, b'ready\n')
                self.leaves_nothing()
        for name in (*BY_SIGNAL, 'USR1', 'USR2'):
            with self.subTest(name, command='which takes it'):
                script = f'trap "exit 9" {name}; echo ready; while :; do sleep 0.1; done'
                self.ends(self.signalled(script, name), 9, b'ready\n')
        # once, for each signal, whatever the command does first, and each time
        running = self.begun('trap "echo one" TERM; trap "echo two" USR1; trap "exit 8" USR2; echo ready; '
                             'while :; do sleep 0.1; done')
        for number, said in (signal.SIGTERM, b'one\n'), *[(signal.SIGUSR1, b'two\n')] * 3:
            wanted = running.heard + said
            running.process.send_signal(number)
            running.comes(wanted)
        running.process.send_signal(signal.SIGUSR2)
        self.ends(running.end(), 8, b'ready\none\ntwo\ntwo\ntwo\n')

    def test_while_requests_and_data_are_under_way(self):
        script = ('while :; do nvme create-ns /dev/nvme0 -s 8 -c 8 -f 0; nvme delete-ns /dev/nvme0 -n 2; done '
                  '> /dev/null 2>&1 & while :; do dd if=/dev/urandom of=/dev/nvme0n1 bs=4k; done 2> /dev/null & '
                  'echo ready; wait')
        for name in 'INT', 'TERM', 'HUP', 'KILL':
            with self.subTest(name):
                self.assertEqual(self.signalled(script, name).status, {**BY_SIGNAL, 'KILL': -9}[name])
                self.leaves_nothing()

    def test_killed_at_any_time(self):
        # nothing is left of the launcher, whenever it is killed: no process, no mount, no file
        place = self.folder / 'temporary'
        place.mkdir()
        for delay in range(0, 100, 4):
            running = Running(*self.command('sh', '-c', 'sleep 1000 & sleep 1000'), env={'TMPDIR': place})
            time.sleep(delay / 1000)
            running.process.kill()
            # (until it is awaited, its number remains)
            time.sleep(delay % 8 / 100)
            running.process.wait()
            self.end_waiting_bwrap()
            self.leaves_nothing()
        self.assertEqual(list(place.iterdir()), [])

    @unittest.skipUnless(IS_ROOT, 'root alone can become another user')
    def test_killed_after_a_call_of_another_user(self):
        running = self.begun('setpriv --reuid=65534 --regid=65534 --clear-groups test -b /dev/nvme0n1; echo ready; '
                             'exec sleep 1000')
        running.process.kill()
        running.process.wait()
        self.leaves_nothing()

    def end_waiting_bwrap(self):
        """Ends a process of bubblewrap whose parent was killed before it told the process to go on."""
        def is_idle():
            left = {*left_running()}
            return len(left) < 2 and left <= {*processes('stat', lambda text: b' (bwrap) S ' in text)}
        if not until(lambda: not left_running(), 30):
            self.assertTrue(until(is_idle), 'more is left than one idle bubblewrap')
            for number in left_running():
                with contextlib.suppress(ProcessLookupError):
                    os.kill(number, signal.SIGKILL)

    def test_typed_at_a_terminal(self):
        for script, key, status in (('echo ready; exec sleep 1000', b'\x03', 130),
                                    ('echo ready; exec sleep 1000', b'\x1c', 131),
                                    ('trap "nvme list-ns /dev/nvme0 > /dev/null && exit 5" INT; echo ready; '
                                     'while :; do sleep 0.1; done', b'\x03', 5),
                                    # (it comes once)
                                    (f'exec {sys.executable} {self.programs()}/counts.py', b'\x03', 0)):
            with self.subTest(script, key=key):
                running = Running(*self.command('sh', '-c', script), terminal=True)
                running.comes(b'ready\n')
                running.say(key)
                self.assertEqual(running.process.wait(LIMIT), status)
                self.leaves_nothing()
        # the command has terminals, and makes new ones
        running = Running(*self.command('sh', '-c', 'tty; script -qec "test -t 0 && echo inner" /dev/null'),
                          terminal=True)
        self.assertRegex(running.end().out, b'^/dev/console\n(?s:.*)inner')

    @unittest.skipUnless(shutil.which('tmux'), 'tmux is not installed')
    def test_terminal_of_another_program(self):
        running = Running(*self.command('tmux', '-S', self.folder / 'socket', 'new', f'tty > {self.folder}/tty'),
                          terminal=True, env={'TERM': 'xterm'})
        running.end()
        self.assertRegex((self.folder / 'tty').read_bytes(), b'^/dev/.*pts/[0-9]+\n$')
