"""Runs nvme-script and nvme-device over standard streams in which a call fails: each read and each write of a script in
turn, a read even if the output can no longer be written, and writes that are interrupted. The device also gets requests
that are cut short or too long. Each allocation of a run is refused in turn, which leaves whole lines, and nothing of
the line that was cut short. A run of many lines or requests uses no more memory than a run of a few. Calls of the
launcher fail while it starts."""

import concurrent.futures
import itertools

from tests.modelled import ModelCase
from tests.support import DEMO, LIMIT, TOP, USERS, Case, compiled, large_file, program, run

LINE, SHOWN = b'list-ns /dev/nvme0 -n 3\n', b'[   0]:0x3\n'
REQUEST, ANSWER = ((TOP / f'crates/nvme_device/{name}').read_bytes() for name in ('stdin', 'stdout'))
# How each program ends, its output and its messages over an input, perhaps with an output, where these calls fail.
FAULTS = {
    'nvme_script': [
        # (the first line's output is still buffered when the second read fails)
        (LINE, None, {'FAIL_READ': 2}, 4, SHOWN, b'nvme-script: read fault\n'),
        # (after any end other than a status, a flush that fails is not reported)
        (LINE, '/dev/full', {'FAIL_READ': 2}, 4, b'', b'nvme-script: read fault\n'),
        (TOP, '/dev/full', {}, 4, b'', b'nvme-script: read fault\n'),
        # (interrupted writes are made again)
        *((LINE + b'list-ns\n' + LINE, None, fault, 0, SHOWN * 2, b'line 2: usage error\n')
          for fault in ({'INTERRUPT_1': 1}, {'INTERRUPT_1': 2}, {'INTERRUPT_2': 1}))],
    'nvme_device': [
        (2 * REQUEST, None, {}, 0, ANSWER * 2, b''),
        (2 * REQUEST, None, {'FAIL_READ': 2}, 4, ANSWER, b'nvme-device: read fault\n'),
        (2 * REQUEST, None, {'INTERRUPT_1': 1}, 0, ANSWER * 2, b''),
        (2 * REQUEST, '/dev/full', {}, 5, b'', b'nvme-device: write fault\n'),
        ((2 * REQUEST)[:100], None, {}, 4, ANSWER, b'nvme-device: request cut short\n'),
        # (it is answered with outcome 3)
        (b'\0\0\0\0\1\0\x10\0' + b'0' * 64, None, {}, 4, b'\0\0\0\0\0\0\3\0\0\0\0\0',
         b'nvme-device: request too long\n')]}


def tried_lines():
    """Returns the lines of the first script in tests/scripts/management.txt, each with its output and its message."""
    script, _, _ = (TOP / 'tests/scripts/management.txt').read_bytes().partition(b'\nstatus')
    for part in script.split(b'\n> ')[1:]:
        line, _, text = part.partition(b'\n')
        is_message = text.startswith(b'line ')
        yield line + b'\n', b'' if is_message else text + b'\n', text + b'\n' if is_message else b''


def pieces(texts):
    """Returns what was written before each write of at most seven bytes of one of these texts, after its index."""
    return [(line, b''.join(texts[:line]) + text[:at])
            for line, text in enumerate(texts) for at in range(0, len(text), 7)]


class Streams(Case):
    def setUp(self):
        super().setUp()
        # the demonstration file, with 256 errors kept
        self.subsystem = self.file('subsystem.toml', DEMO.read_bytes().replace(b'\nelpe = 3\n', b'\nelpe = 255\n'))
        lines, self.outputs, self.messages = zip(*tried_lines())
        self.script = b''.join(lines)

    def faulty(self, crate, source, out=None, **faults):
        """Runs a program over this input while these calls fail."""
        faults['LD_PRELOAD'] = compiled('faults.c', '-ldl')
        return run(program(crate), '--subsystem', self.subsystem, source=source, out=out, env=faults)

    def test_reads(self):
        # each read returns a byte, and a line is executed when its newline was read
        for number in range(1, len(self.script) + 2):
            with self.subTest(read=number):
                lines = self.script[:number - 1].count(b'\n')
                ended = self.faulty('nvme_script', self.script, MOST_READ=1, FAIL_READ=number)
                self.ends(ended, 4, b''.join(self.outputs[:lines]),
                          b''.join(self.messages[:lines]) + b'nvme-script: read fault\n')

    def test_writes(self):
        # each write takes at most seven bytes of a line's text, and if one fails, the next line with output isn't done
        for stream, texts in (1, self.outputs), (2, self.messages):
            for number, (line, written) in enumerate(pieces(texts), 1):
                with self.subTest(stream=stream, write=number):
                    ended = self.faulty('nvme_script', self.script, MOST_READ=1, MOST_WRITE=7,
                                        **{f'FAIL_{stream}': number})
                    later = next((at for at in range(line + 1, len(self.outputs)) if self.outputs[at]), None)
                    output, messages = ((written, b''.join(self.messages[:later])) if stream == 1 else
                                        (b''.join(self.outputs[:line]), written))
                    self.ends(ended, 5, output, messages + b'nvme-script: write fault\n')

    def test_faults(self):
        for crate, rows in FAULTS.items():
            for source, out, faults, *wanted in rows:
                with self.subTest(crate, source=source, out=out, faults=faults):
                    self.ends(self.faulty(crate, source, out, **faults), *wanted)

    def test_interrupted_log(self):
        # a line that writes more than the buffer holds: the log has some 16,000 bytes
        script = b'create-ns /dev/nvme0 -s 1 -c 1 -f 0\n' * 64 + b'error-log /dev/nvme0 -e 64\n'
        whole = self.faulty('nvme_script', script)
        self.ends(whole, 0)
        self.assertGreater(len(whole.out), 8192)
        faults = {'INTERRUPT_1': 1, 'INTERRUPT_2': whole.err.count(b'\n')}
        self.ends(self.faulty('nvme_script', script, **faults), 0, whole.out, whole.err)


# How many processes refuse the allocations of one program side by side.
PARTS = 8
SCRIPT = b'list-ns /dev/nvme0\nid-ctrl /dev/nvme0 -o json\nlist\nsmart-log /dev/nvme1\n'
OTHER_FILE = '--subsystem', 'examples/two_controllers.toml'
# Runs of which each allocation is refused.
RUNS = ((SCRIPT, 'nvme_script'), (SCRIPT, 'nvme_script', *OTHER_FILE), (REQUEST, 'nvme_device'),
        (REQUEST, 'nvme_device', *OTHER_FILE),
        (b'subsystem\nbring_up\npassthrough 0 6 cdw10=2 room=8\nsaw\n', 'nvme_bench'))


class Allocations(Case):
    def refused(self, number, crate, *arguments, source, calls=None):
        """Runs a program in which the allocation with this number is refused, or no allocation if it is 0."""
        refuse = {'LD_PRELOAD': compiled('allocations.c', '-ldl'), 'REFUSE': number,
                  'CALLS': calls or self.folder / 'calls'}
        return run(program(crate), *arguments, source=source, env=refuse, limit=3 * LIMIT)

    def whole(self, crate, *arguments, source):
        """Runs a program in which no allocation is refused. Returns how it ended, the number of its allocations, and
        the greatest number of bytes in use."""
        ended = self.refused(0, crate, *arguments, source=source)
        self.ends(ended, 0, err=b'')
        allocations, most = (self.folder / 'calls').read_text().split()
        self.assertGreater(int(allocations), 0, ended)
        return ended, int(allocations), int(most)

    def test_runs(self):
        for source, crate, *arguments in RUNS:
            whole, allocations, _ = self.whole(crate, *arguments, source=source)
            messages, statuses = crate.replace('_', '-').encode() + b': out of memory\n', set()
            for number in range(1, allocations + 1):
                with self.subTest(crate, arguments=arguments, allocation=number):
                    ended = self.refused(number, crate, *arguments, source=source)
                    statuses.add(ended.status)
                    # (a vector that can't grow may get a smaller size instead: then nothing shows)
                    self.ends(ended, ended.status and 6, whole.out[:len(ended.out)] if ended.status else whole.out,
                              messages if ended.status else b'')
            self.assertIn(6, statuses, 'no refused allocation shows')

    def test_failing_tests(self):
        # (this program looks itself at what is left, so each allocation is refused in a copy of its process)
        name = 'nv_failing_tests'
        _, allocations, _ = self.whole(name, source=b'')
        with concurrent.futures.ThreadPoolExecutor() as runners:
            found = dict(pair for part in runners.map(self.copies, range(PARTS)) for pair in part)
        self.assertEqual(sorted(found), [*range(1, allocations + 1)])
        for number, status in found.items():
            with self.subTest(allocation=number):
                self.assertIn(status, (0, 6), self.refused(number, name, source=b'') if status not in (0, 6) else '')
        self.assertIn(6, found.values(), 'no refused allocation shows')

    def copies(self, part):
        """Returns how copies ended in which an allocation was refused, by its number, for those with this rest."""
        calls = self.folder / f'calls{part}'
        ended = self.refused(f'{part}/{PARTS}', 'nv_failing_tests', source=b'', calls=calls)
        self.ends(ended, 0, err=b'')
        return [tuple(map(int, line.split())) for line in calls.read_text().splitlines()[:-1]]

    def of_ten_lines(self, namespaces):
        """Returns how often ten lines allocate that list this number of namespaces, after ten such lines."""
        top, *each = large_file([1], [1]).split('[[namespace]]')
        of = self.file('many.toml', '[[namespace]]'.join([top, *each[:namespaces]]).encode())
        first, both = (self.whole('nvme_script', '--subsystem', of, source=b'list\n' * lines)[1] for lines in (10, 20))
        return both - first

    def test_of_admin_all(self):
        # `list` sends the commands of a controller's namespaces by `admin_all`, sixteen at a time. The texts of 33 and
        # of 64 namespaces grow in as many steps, so the only other difference is 31 commands and a call
        self.assertEqual(self.of_ten_lines(33), self.of_ten_lines(64))

    def test_memory_of_many(self):
        for crate, line in ('nvme_script', b'list-ns /dev/nvme0\n'), ('nvme_device', REQUEST):
            with self.subTest(crate):
                (*_, of_few), (*_, of_many) = (self.whole(crate, source=line * count) for count in (10, 10000))
                self.assertEqual(of_few, of_many, 'the bytes that are held over 10 and over 10,000')


# The functions of which each of the first calls fails (tests/failing_calls.c), by the names of the launcher outside of
# the sandbox and in it.
CALLS = {'nvme-model': 'access asprintf close_range dup dup2 fopen fork ftruncate getline glob mount open pipe2 '
                       'readlink reallocarray socketpair statx strdup write',
         'launcher': 'chdir close_range dup2 fchmod fdopen fopen fork fstat ftruncate getdelim glob '
                     'inotify_add_watch inotify_init1 mmap mount open pipe2 prctl pthread_create read realloc '
                     'reallocarray signalfd socketpair stat write'}
# (without a line of a list, what it names would be left out)
LISTS = 'getdelim', 'getline'
MOST, AT_ONCE = 7, 4


class Launcher(ModelCase):
    def failing(self, program, name, number):
        """Returns how a run ends in which a call fails, or None if there are fewer calls."""
        failed = self.folder / f'{program} {name} {number}'
        env = f'CALL={failed.name}', f'FAILED={failed}', f'LD_PRELOAD={compiled("failing_calls.c", "-ldl")}'
        options = '--depth=4', f'--trace={self.folder}/trace of {name}'
        ended = run(*USERS[-1], 'env', *env, *self.command('nvme', 'list-ns', '/dev/nvme0', options=options))
        return ended if failed.exists() else None

    def each(self, row):
        return [*itertools.takewhile(bool, (self.failing(*row, number) for number in range(1, MOST + 1)))]

    def test_start(self):
        # the command runs, or it doesn't, and a message says why
        self.folder.chmod(0o777)
        compiled('failing_calls.c', '-ldl')
        rows = [(program, name) for program, names in CALLS.items() for name in names.split()]
        with concurrent.futures.ThreadPoolExecutor(AT_ONCE) as runners:
            for row, ends in zip(rows, runners.map(self.each, rows)):
                for number, ended in enumerate(ends, 1):
                    with self.subTest(row, number=number):
                        self.ends(ended, ended.status and 72, b'' if ended.status else b'[   0]:0x1\n[   1]:0x3\n')
                        self.assertRegex(ended.err, rb'nvme-model: .*\w.*\n' if ended.status else rb'^$')
                self.assertTrue((all if row[1] in LISTS else any)(ended.err for ended in ends) and ends, row)
