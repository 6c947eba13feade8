"""Runs test modules side by side, each as a process: `python3 -m tests.run [MODULE..]`, or with `--quick` those that
need no proof. Each test of PARTED is a process of its own. Those that took longest in the last run begin first, or else
those of LONGEST. One that takes more than MINUTES has failed. The output of a failed one is shown in full. The last
line is `N passed, N failed, N skipped`, where each row of a table counts, and the status is 1 if anything failed.
Without `--quick`, a test that was skipped has failed, unless the reason is one of ALLOWED."""

import ast
import contextlib
import json
import math
import os
import re
import runpy
import subprocess
import sys
import tempfile
import time
import unittest

from tests.support import IS_UNPROVED, TOP, environment, process_folder
from tests.transcripts import tests_of

MINUTES = 60
SUMS = '{} passed, {} failed, {} skipped'
# The modules whose tests are processes of their own, and these with the others that take longest.
PARTED = 'test_machine', 'test_waiting', 'test_wrapper'
LONGEST = *PARTED, 'test_dist', 'test_model', 'test_program', 'test_qemu', 'test_unready', 'test_vm'
# What a reason to skip a test may begin with, each with what allows it.
ALLOWED = {
    **dict.fromkeys(('root alone', 'true device nodes can be made by root alone'),
                    'an ordinary user can run the tests too'),
    **dict.fromkeys(('programs of 32 bits ', 'programs of 64 bits ', 'the kernel runs no programs of 32 bits',
                     'the kernel has no keys', 'userfaultfd: ', 'there is no /dev/fuse that can be used',
                     'no mount namespace can be made here', 'users can make no namespaces here', 'no file system ',
                     'no such machine can be made here'),
                    'a kernel may have no such thing, or keep it from this user'),
    'this QEMU has no vfio-user-pci': 'QEMU has it from 10.1 on, and Debian 12 has QEMU 7.2',
    'some files are not as they were committed': 'packages are made of a commit',
}


class Counts(unittest.TextTestResult):
    """Counts each row of a table (a subTest), and each test without rows."""

    passed = rows = rows_before = 0

    def startTest(self, test):
        super().startTest(test)
        self.rows_before = self.rows

    def addSubTest(self, test, subtest, error):
        super().addSubTest(test, subtest, error)
        self.rows += 1
        self.passed += error is None

    def addSuccess(self, test):
        super().addSuccess(test)
        self.passed += self.rows == self.rows_before


def run_one(name):
    """Runs a module, or one of its tests, in this process."""
    runner = unittest.TextTestRunner(sys.stdout, resultclass=Counts)
    result = unittest.main(None, argv=['tests', f'tests.{name}'], testRunner=runner, exit=False).result
    failed = len(result.failures) + len(result.errors)
    for reason in sorted({reason for _, reason in result.skipped}):
        tests = [test.id().split()[0].rpartition('.')[2] for test, other in result.skipped if other == reason]
        is_allowed = IS_UNPROVED or reason.startswith(tuple(ALLOWED))
        failed += 0 if is_allowed else len(tests)
        print(f"skipped{'' if is_allowed else ', which is a failure'}: {reason}: {', '.join(dict.fromkeys(tests))}")
    print(SUMS.format(result.passed, failed, len(result.skipped)))


class Part:
    """A module that runs as a process. If it is killed, its files and the processes that it started are found through
    this object."""

    def __init__(self, name):
        self.name, self.is_late, self.begun_at = name, False, time.monotonic()
        self.written = tempfile.TemporaryFile()
        self.process = subprocess.Popen(
            [sys.executable, '-m', 'tests.run', '--one', name], cwd=TOP, env=environment({'TMPDIR': process_folder()}),
            stdin=subprocess.DEVNULL, stdout=self.written, stderr=subprocess.STDOUT)

    def ends_in_time(self, seconds):
        """Ends a process that takes longer than this, first by a signal after which it cleans up."""
        late = time.monotonic() - self.begun_at - seconds
        if late > 60:
            self.process.kill()
        elif late > 0 and not self.is_late:
            self.is_late = True
            self.process.terminate()

    def counts(self):
        """Reports how the module ended, and returns how many tests passed, failed and were skipped. A module that ran
        nothing counts as one failure."""
        with self.written as file:
            file.seek(0)
            text = file.read().decode(errors='replace')
        found = re.search(r'^(\d+) passed, (\d+) failed, (\d+) skipped\n\Z', text, re.M)
        counts = [int(number) for number in found.groups()] if found else [0, 0, 0]
        if self.process.returncode != 0 or counts == [0, 0, 0]:
            counts[1] += 1
        if counts[1]:
            print(f'{text}\nThe module alone: python3 -m unittest tests.{self.name}')
        if self.is_late:
            print(f'{self.name} did not end in time')
        self.seconds = int(time.monotonic() - self.begun_at)
        print(*re.findall('^skipped.*: .*\n', text, re.M), sep='', end='')
        print(f'{self.name}: {SUMS.format(*counts)}, {self.seconds // 60} min {self.seconds % 60} s', flush=True)
        return counts


def names_of(path):
    """Returns the names of what runs as a process: a module, or each of its tests."""
    if path.stem not in PARTED:
        return [path.stem]
    return [f'{path.stem}.{case.name}.{test}' for case in ast.parse(path.read_text()).body
            if isinstance(case, ast.ClassDef) for test in tests_in(case)]


def tests_in(case):
    """Returns the names of a class's tests, with those of its transcripts."""
    files = [keyword.value.value for keyword in case.keywords if keyword.arg == 'transcripts']
    return [*(name for file in files for name in tests_of(file)),
            *(test.name for test in case.body if getattr(test, 'name', '').startswith('test_'))]


def run_all(names, times, most, limit=60 * MINUTES):
    """Runs modules, at most so many at once, each for at most so many seconds, and returns the sums of their counts. A
    file has the seconds that each took in the last run, and then has those of this run."""
    seconds = json.loads(times.read_text()) if times.exists() else {}
    waiting = sorted(names, key=lambda name: (-seconds.get(name, math.inf), name.partition('.')[0] not in LONGEST))
    running, sums = [], [0, 0, 0]
    try:
        while waiting or running:
            while waiting and len(running) < most:
                running.append(Part(waiting.pop(0)))
            time.sleep(0.1)
            for part in [*running]:
                part.ends_in_time(limit)
                if part.process.poll() is not None:
                    running.remove(part)
                    sums = [sum(pair) for pair in zip(sums, part.counts())]
                    seconds[part.name] = part.seconds
        times.parent.mkdir(exist_ok=True)
        times.write_text(json.dumps(seconds))
    finally:
        for part in running:
            part.process.terminate()
        for part in running:
            part.process.wait()
    return sums


def unbuilt():
    """Returns a line for each program, and the library, that isn't built from the current sources."""
    builds = {**runpy.run_path(str(TOP / 'tools/dist'))['BUILDS'], 'nv_failing_tests': 'tools/build nv_failing_tests'}
    return [f'{name} is not built from these sources: {command} makes it' for name, command in builds.items()
            if subprocess.run([TOP / 'tools/stamp', 'is-current', name]).returncode != 0]


def main(arguments):
    if arguments[:1] == ['--one']:
        return run_one(arguments[1])
    paths = sorted((TOP / 'tests').glob('test_*.py'))
    is_quick = arguments == ['--quick']
    if any(argument not in {path.stem for path in paths} for argument in arguments) and not is_quick:
        sys.exit('usage: python3 -m tests.run [--quick | MODULE..], such as test_calls')
    names = [name for path in paths for name in names_of(path) if path.stem in (arguments or [path.stem])]
    if is_quick or not arguments:
        os.environ['UNPROVED'] = str(int(is_quick))
    if is_quick:
        from tests import unproved
        of_sources = ['test_program.Scripts', 'test_program.Program', 'test_unready', 'test_documents', 'test_gate']
        modules = {name.partition('.')[0] for name in of_sources}
        print('not run: proofs, wrong bodies,', ', '.join(path.stem for path in paths if path.stem not in modules))
        names = [*unproved.names(), *of_sources]
    elif not arguments and (missing := unbuilt()):
        sys.exit('\n'.join(['the tests need all that is built, and', *missing]))
    else:
        from tests import modelled
        # (the launcher is compiled once for all that can have it)
        with contextlib.suppress(FileNotFoundError):
            os.environ['NVME_MODEL_INSTALLED'] = str(modelled.installed().parents[1])
    processors = len(os.sched_getaffinity(0))
    # (without proofs, no test waits, and the three that take longest run side by side even on two processors)
    sums = (run_all(names, TOP / 'out/seconds.quick', max(3, processors)) if is_quick else
            run_all(names, TOP / f'out/seconds{".some" * bool(arguments)}', 3 * processors // 2))
    print('unproved: ' * is_quick + SUMS.format(*sums))
    sys.exit(1 if sums[1] or not sums[0] else 0)


if __name__ == '__main__':
    try:
        main(sys.argv[1:])
    except KeyboardInterrupt as end:
        sys.exit(f'ended by {end}')
