"""Runs nvme-script on arguments and files that a script can't give it, and on each script of examples/ and of
tests/scripts. A transcript has the streams that fail, and want of memory, and another one what --explain says. (The
lines of scripts that it explains are the input of crates/nvme_explain.) Through pipes and on a terminal, the output of
a line comes before the next line is written, and outputs and messages come in the order of the lines.

With UNPROVED=1 in the environment, `rt try` runs the sources on these rows.
"""

import pathlib
import re
import shlex
import tempfile
import typing

from tests.support import (
    DEMO, IS_UNPROVED, TOP, Case, Ended, Running, process_folder, program, run, run_unproved, shell_line, table)

SCRIPT = 'nvme_script' if IS_UNPROVED else program('nvme_script')
TEXT = DEMO.read_text()
MISSING = str(process_folder() / 'missing.toml')
unproved = {}


class Row(typing.NamedTuple):
    """The input of the program, and the expected result. An output of None may be any output."""

    arguments: tuple = ()
    status: int = 0
    messages: bytes = b''
    output: typing.Optional[bytes] = None
    script: bytes = b'list-ns /dev/nvme0\n'
    source: str = ''


def told(text, *arguments):
    """Returns a row in which the program ends with status 3 and reports this reason."""
    return Row(arguments, 3, b'nvme-script: %s\n' % text.encode())


def file(name, text):
    """Returns the path of a file with this text."""
    path = process_folder() / name
    path.write_bytes(text if isinstance(text, bytes) else text.encode())
    return str(path)


def statuses():
    """Scripts of one line, and those that don't consist of whole lines of text."""
    list_of_demo = b'[   0]:0x1\n[   1]:0x3\n'
    for arguments in (), ('--subsystem', str(DEMO)), (f'--subsystem={DEMO}',):
        yield Row(arguments, output=list_of_demo)
    yield Row((), 1, b'line 1: usage error\n', script=b'bogus\n')
    yield Row((), 2, b'line 1: NVMe status: Invalid Namespace or Format (0x600b)\n', script=b'id-ns /dev/nvme0 -n 0\n')
    for options in geometries():
        yield Row(options, 0, b'', b'', b'')
        yield Row(options, 0, b'', list_of_demo, b'list-ns /dev/nvme0')
        yield Row(options, 1, b'line 1: not UTF-8 text\n', b'', b'\xff')
        yield Row(options, 1, b'line 1: line too long\n', b'', b'a' * 4096)


def refused_arguments():
    """Arguments, and options that aren't 32-bit numbers."""
    for words, reason in table('refused_arguments_of_script'):
        yield told(reason, *shlex.split(words))
    for option in 'depth', 'page-size', 'offset', 'list-offset', 'window', 'pace':
        for value in '', 'x', '-1', '08', '4294967296':
            yield told('arguments', f'--{option}={value}')
        yield told('arguments', f'--{option}')
    yield told('subsystem: unreadable', '--pace', '0', '--subsystem', MISSING)


def files():
    """A file of the greatest length, and those that can't be read, one that is no text, and the faults that
    SUBSYSTEM-FILE shows, by the built-in file with one text in place of another."""
    whole = TEXT + (1048576 - len(TEXT)) * '#'
    yield Row(('--subsystem', file('whole.toml', whole)))
    for path in MISSING, '', '.', '/proc/self/mem', file('long.toml', f'{whole}#'):
        yield told('subsystem: unreadable', '--subsystem', path)

    yield told('subsystem: not TOML', '--subsystem', file('bytes.toml', b'\xff\n'))
    page = (TOP / 'docs/SUBSYSTEM-FILE.md').read_text()
    rows = re.findall(r'(?m)^\| `(.+?)` \| `(.+?)` \| (?:`(.+?)`)? ?\| .*\|$', page)
    assert len(rows) == 9
    for text, old, new in rows:
        assert TEXT.count(old) == 1, old
        yield told(f'subsystem: {text}', '--subsystem', file(f'{text}.toml', TEXT.replace(old, new)))


def examples():
    """The scripts of examples/, and one of them with other geometries. The files beside a script have what it writes,
    and the last line of its file .err is its status."""
    others = ['--depth 2', '--depth=0x1000 --pace=010 --window=16', '--page-size 65536 --offset 65532',
              '--page-size 8192 --offset 8188 --list-offset 8184', '--offset 4092 --depth 2 --pace 4096']
    for script in sorted(TOP.glob('examples/*.nvme')):
        *messages, last = script.with_suffix('.err').read_bytes().splitlines(True)
        subsystem = script.with_suffix('.toml')
        arguments = ('--subsystem', str(subsystem)) if subsystem.exists() else ()
        for options in ['', *(others if script.stem == 'demo' else [])]:
            yield Row((*arguments, *options.split()), int(last.split()[1]), b''.join(messages),
                      script.with_suffix('.out').read_bytes(), script.read_bytes(), script.name)


def scripts_of(path):
    """Returns the scripts of a file of tests/scripts, with their outputs, their messages and their status."""
    *parts, rest = re.split(rb'(?m)^status ([0-9]+)\n', re.sub(rb'(?m)^(#.*)?\n', b'', path.read_bytes()))
    assert parts and rest == b'', f'{path}: the last script has no status'
    for text, status in zip(parts[::2], parts[1::2]):
        assert text.startswith(b'>'), f'{path}: a script begins with {text}'
        yield (b''.join(re.findall(rb'(?m)^> ?(.*\n)', text)), re.sub(rb'(?m)^(>|line [0-9]+: ).*\n', b'', text),
               b''.join(re.findall(rb'(?m)^line [0-9]+: .*\n', text)), int(status))


def geometries():
    """Returns no options, and those of the least and the greatest geometry. (That no other one shows is proved.)"""
    greatest = '--depth 4096 --page-size 65536 --offset 65532 --list-offset 65528 --window 16 --pace 4096'
    return [()] if IS_UNPROVED else [(), ('--depth', '2', '--offset', '4092'), tuple(greatest.split())]


def scripts():
    """The scripts of tests/scripts, over the file beside the scripts or the built-in file, and over that file in
    version 2. An unproved run has the even ones over the one and the odd ones over the other."""
    for path in sorted(TOP.glob('tests/scripts/*.txt')):
        subsystem = path.with_suffix('.toml') if path.with_suffix('.toml').exists() else DEMO
        version_2 = re.sub(r'(?m)^version = 1$', 'version = 2', subsystem.read_text())
        for number, (script, output, messages, status) in enumerate(scripts_of(path)):
            options = [('--subsystem', str(subsystem), *more) for more in geometries()]
            if version_2 != subsystem.read_text():
                options.append(('--subsystem', file(subsystem.name, version_2)))
            for words in [options[number % len(options)]] if IS_UNPROVED else options:
                yield Row(words, status, messages, output, script, path.name)


def given_to_rt_try(rows):
    """Runs the unproved sources on rows, and stores how each run ended."""
    folder = pathlib.Path(tempfile.mkdtemp(dir=process_folder()))
    for number, row in enumerate(rows):
        (folder / str(number)).write_bytes(row.script)
        if row.arguments:
            (folder / f'{number}.args').write_text(''.join(f'{word}\n' for word in row.arguments))
    ended = run_unproved(TOP / 'crates/nvme_script', '--cases', folder)
    if not re.search(rb'\ncases=.*proved=no\n\Z', ended.err):
        raise AssertionError(ended)
    # `== NAME` comes before a case's output, and `case=NAME run=ended status=N` after its messages
    outputs = re.split(rb'(?m)^== ([0-9]+)\n', ended.out)
    messages = re.split(rb'(?m)^case=([0-9]+) run=(.*)\n', ended.err)
    output_of = dict(zip(outputs[1::2], outputs[2::2]))
    for text, name, end in zip(messages[0::3], messages[1::3], messages[2::3]):
        row = rows[int(name)]
        if end.startswith(b'ended status='):
            line = 'unproved: ' + shell_line([SCRIPT, *row.arguments], row.script)
            text = re.sub(rb'(?m)^allocations: .*\n', b'', text)
            unproved[row.arguments, row.script] = Ended(line, int(re.split(rb'[= ]', end)[2]), output_of[name], text)


class Rows(Case):
    """The rows of tables, of which each has a test."""

    tables = ()

    def __init_subclass__(cls, **more):
        super().__init_subclass__(**more)
        for each in cls.tables:
            setattr(cls, f'test_{each.__name__}', lambda self, table=each: self.check(table))

    @classmethod
    def setUpClass(cls):
        if IS_UNPROVED:
            given_to_rt_try([row for table in cls.tables for row in table()])

    def check(self, table):
        for row in table():
            with self.subTest(row.source, arguments=row.arguments):
                ended = (unproved[row.arguments, row.script] if IS_UNPROVED else
                         run(SCRIPT, *row.arguments, source=row.script))
                self.ends(ended, row.status, row.output, row.messages)


class Program(Rows):
    tables = statuses, refused_arguments, files, examples


class Scripts(Rows):
    tables = scripts,


class Built(Case, transcripts='program explain order'):
    env = {'script': SCRIPT}

    def setUp(self):
        super().setUp()
        if IS_UNPROVED:
            self.skipTest('rt try gives a run its own streams and memory')

    def test_explained_faults(self):
        # the key and the place of its table are named
        for old, new, wanted in table('explained_faults'):
            with self.subTest(wanted):
                self.assertIn(old, TEXT)
                path = self.file('faulty.toml', TEXT.replace(old, new, 1).encode())
                ended = run(TOP / 'nvme-script', '--explain', '--subsystem', path)
                self.ends(ended, 1, f'subsystem: {wanted}\n'.encode(), b'')

    def test_order_in_pipes(self):
        talk = Running(SCRIPT)
        talk.say(b'list-ns /dev/nvme0 -n 3\n')
        talk.comes(b'[   0]:0x3\n')
        talk.say(b'list-ns /dev/nvme9\n')
        talk.comes(b'line 2: no such device\n')
        # a part of a line isn't a line
        talk.say(b'delete-ns /dev/nvme0')
        talk.waits_for_more()
        talk.say(b' -n 3\n')
        talk.comes(b'delete-ns: Success, deleted nsid:3\n')
        self.ends(talk.end(), 0, b'[   0]:0x3\nline 2: no such device\ndelete-ns: Success, deleted nsid:3\n')

    def test_order_on_a_terminal(self):
        # the terminal also shows what is typed
        talk = Running(SCRIPT, terminal=True)
        talk.say(b'list-ns /dev/nvme0 -n 3\n')
        talk.comes(b'list-ns /dev/nvme0 -n 3\n[   0]:0x3\n')
        talk.say(b'list-ns /dev/nvme0 -n 1\n')
        talk.comes(b'list-ns /dev/nvme0 -n 1\n[   0]:0x1\n[   1]:0x3\n')
        self.ends(talk.end(), 0)

    def test_full_device_is_told_in_the_next_line_that_prints(self):
        # the fault ends the run before the script ends
        talk = Running('sh', '-c', 'exec "$0" > /dev/full', SCRIPT)
        talk.say(b'list-ns /dev/nvme0\n')
        talk.waits_for_more()
        talk.say(b'list-ns /dev/nvme0\nlist-ns /dev/nvme9\n')
        self.ends(talk.end(), 5, b'nvme-script: write fault\n')
