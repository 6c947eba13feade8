"""Rows of operations: what `nvme_bench` answers to each line of `tests/rows/*.txt`.

In a file, each operation comes after `>`, and the expected answer is in the line below it, or is `done` if there is no
such line. Lines that begin with `#` are comments. A file is one session, from its first operation to its last. `(HH*N)`
stands for N times HH, and a line `> include NAME` for the operations of the file NAME beside it. Rows of many commands
are computed: rings over their wraps, the error log after 300 refusals, identifiers after 65,536 commands, and as many
namespaces as there may be.

`@sqe(KEY=VALUE ..)` stands for the bytes of an entry with these fields, and others of 0. tests/records.py has the
fields of each such record, and a failed row names those of the record that was found. `@enable(ctrl=NUMBER aqa=..
asq=.. acq=.. cc=..)` stands for the register writes that enable a controller, as `saw` answers them.

`@NAME` stands for the bytes of a subsystem file of examples/, such as `@demo.toml`, and `@NAME["OLD", "NEW"]` for those
of the file with NEW in place of OLD. There may be more such pairs. `@"TEXT"` stands for the bytes of a text. In these
texts, `(TEXT*N)` stands for N times TEXT."""

import contextlib
import json
import re
import struct

from tests.records import KINDS, decoded, encoded
from tests.support import TOP, Case, Running, program, run

PLACE = TOP / 'tests/rows'
REPEATED = re.compile(r'\(([0-9a-f]{2})\*([0-9]+)\)')
REPEATED_TEXT = re.compile(r'\(([^()]+)\*([0-9]+)\)')
FILE = re.compile(r'@(?:([a-z_]+\.toml)(\[.*\])?|(".*"))')
RECORD = re.compile(rf'@({"|".join(KINDS)})\(([^()]*)\)')
ENABLE = re.compile(r'@enable\(([^()]*)\)')
# A command that is refused, with its answer, and that to one that isn't.
REFUSED = 'passthrough 0 0x06', 'status=0x600b dword0=0x0 bytes='
ACCEPTED = 'status=0x0 dword0={:#x} bytes='


def repeats(pattern, text):
    """Returns the text with each repetition written out."""
    return pattern.sub(lambda run: run[1] * int(run[2]), text)


def named(row, found):
    """Returns an answer in which each record that the row expects has its fields by name, if it can be read as one."""
    expected = re.findall(r'(?:@\w+\([^()]*\)|\S)+', repeats(REPEATED, row))
    words = found.split()
    for place, (wanted, word) in enumerate(zip(expected, words)):
        record = re.fullmatch(r'(\w+=)' + RECORD.pattern, wanted)
        if record and word.startswith(record[1]):
            with contextlib.suppress(ValueError, struct.error):
                words[place] = f'{record[1]}@{record[2]}({decoded(record[2], word[len(record[1]):])})'
    return ' '.join(words)


def enabling(ctrl, aqa, asq, acq, cc):
    """Returns the register writes that enable a controller: CC without EN, AQA, both halves of ASQ and of ACQ, and CC.
    Sections "Register Definition" and "Controller Initialization"."""
    addresses = (asq % 2**32, asq >> 32, acq % 2**32, acq >> 32)
    writes = zip((0x14, 0x24, 0x28, 0x2C, 0x30, 0x34, 0x14), (0, aqa, *addresses, cc))
    return ','.join(f'{ctrl:#x},{offset:#x},{dword:#x}' for offset, dword in writes)


def edited(name, *edits):
    """Returns a subsystem file of examples/ in which, for each pair of texts, the second replaces the first."""
    file = (TOP / 'examples' / name).read_text('utf-8')
    for old, new in zip(edits[::2], edits[1::2]):
        if old not in file:
            raise ValueError(f'{name} has no {old!r}')
        file = file.replace(old, repeats(REPEATED_TEXT, new))
    return file


def file_of(found):
    """Returns a subsystem file in hexadecimal digits."""
    name, edits, text = found.groups()
    file = edited(name, *json.loads(edits or '[]')) if name else repeats(REPEATED_TEXT, json.loads(text))
    return file.encode().hex()


def written_out(text):
    text = RECORD.sub(lambda record: encoded(*record.groups()), repeats(REPEATED, FILE.sub(file_of, text)))
    return ENABLE.sub(lambda found: enabling(**{
        key: int(number, 0) for key, number in (field.split('=') for field in found[1].split())}), text)


def rows_of(path):
    """Returns the rows of a file: the number of each operation's line, the operation, and the expected answer, with
    records as they are written there."""
    rows = []
    for number, line in enumerate(path.read_text('utf-8').splitlines(), 1):
        if line.startswith('> include '):
            rows += [(number, operation, wanted) for _, operation, wanted in rows_of(path.parent / line[10:])]
        elif line.startswith('> '):
            rows.append((number, line[2:], None))
        elif line and line[0] != '#':
            if not rows or rows[-1][2] is not None:
                raise ValueError(f'{path}:{number}: there is no operation above this line')
            rows[-1] = (*rows[-1][:2], line)
    if not rows:
        raise ValueError(f'{path}: no rows')
    return [(number, operation, 'done' if wanted is None else wanted) for number, operation, wanted in rows]


def short(text):
    return text if len(text) <= 160 else f'{text[:100]}.. ({len(text)} characters) ..{text[-40:]}'


def answers_to(operations):
    """Returns the program's answers to these operations, in one session."""
    script = ''.join(f'{operation}\n' for operation in operations)
    ended = run(program('nvme_bench'), source=script.encode())
    if (ended.status, ended.err) != (0, b''):
        raise AssertionError(str(ended))
    return ended.out.decode().splitlines()


class RowCase(Case):
    def check(self, rows):
        """Checks the answers to operations, which have these numbers of lines."""
        answers = answers_to(written_out(operation) for _, operation, _ in rows)
        for (number, operation, wanted), found in zip(rows, answers):
            if found != written_out(wanted):
                self.fail(f'line {number}: {short(operation)}\n  wanted {short(wanted)}\n'
                          f'  found  {short(named(wanted, found))}\n  python3 -m unittest {self.id()}')
        self.assertEqual(len(answers), len(rows), 'as many answers as operations')

    def check_computed(self, rows):
        """Checks the answers to operations, which have no lines in a file."""
        self.check([(number, *row) for number, row in enumerate(rows, 1)])


class Rows(RowCase):
    """A test for each file of rows."""


for file in sorted(PLACE.glob('*.txt')):
    setattr(Rows, f'test_{file.stem}', lambda self, path=file: self.check(rows_of(path)))


def command(number):
    """Returns the bytes of a command with this number as its identifier."""
    return encoded('sqe', f'opcode=6 cid={number} nsid=7 prp1=0x5004 prp2=0x9000 cdw10=1 cdw15=0xffffffff')


def exchange(depth, number):
    """Returns the operations of a command and its completion, over rings whose numbers begin at 0, each with its
    expected answer. Number n is in slot n modulo the depth. A completion's phase tag is 1 in the first pass over its
    ring, and is inverted on each pass. Sections "Submission Queue & Completion Queue Definition" and "Completion Queue
    Entry"."""
    slot, after, phase = number % depth, (number + 1) % depth, 1 - number // depth % 2
    completion = f'command_specific=0x1020304 sq_head={after} cid={number} status=0x600b'
    posted, collected = encoded('cqe', completion), encoded('cqe', f'{completion} phase={phase}')
    return [
        (f'submit {command(number)}', f'tail={after:#x}'),
        ('slots', f'sq_head={slot:#x} sq_empty=0x1 phase={phase:#x} cq_full=0x0'),
        (f'tail {after}', 'done'),
        ('take', f'bytes={command(number)}'),
        ('slots', f'sq_head={after:#x} sq_empty=0x1 phase={phase:#x} cq_full=0x0'),
        ('collect', 'refused: no completion'),
        (f'post {posted}', 'done'),
        ('collect', f'bytes={collected}'),
        ('tell', f'head={after:#x}'),
        ('tell', 'refused: no head to tell'),
        (f'head {after}', 'done'),
        (f'free {after}', 'done'),
    ]


def exchanges(depth, count):
    """Returns the first commands, one after another. For many commands, these are only the operations that change
    something."""
    rows = [row for number in range(count) for row in exchange(depth, number)]
    if count <= 100:
        return rows
    return [(said, wanted) for said, wanted in rows if said not in ('slots', 'tell') and 'refused' not in wanted]


class Rings(RowCase):
    """Queues over many commands, past the wraps of both. Each test is a session of computed rows."""

    def check_rings(self, depth, rows):
        self.check_computed([('memory 65536 5', 'done'), (f'rings {depth} 0 0x40000', 'done'), *rows])

    def test_both_rings_wrap(self):
        for depth, count in (2, 6), (3, 9), (17, 51), (4096, 8194):
            with self.subTest(depth=depth):
                fill = [('submit 00', f'tail={(count + number) % depth:#x}') for number in range(1, depth)]
                full = [('submit 00', 'refused: submission ring full')]
                self.check_rings(depth, exchanges(depth, count) + fill + full)

    def test_both_rings_begin_anew(self):
        """Rings can begin anew whatever numbers they have reached, even with a command that is waiting."""
        for depth, before, count in (2, 1, 6), (2, 2, 6), (2, 3, 6), (17, 20, 51), (4096, 4097, 3):
            with self.subTest(depth=depth, before=before):
                after = (before + 1) % depth
                waiting = [(f'submit {command(before)}', f'tail={after:#x}'), (f'tail {after}', 'done')]
                begun = [('renew', 'done'), ('zero', 'done'),
                         ('slots', 'sq_head=0x0 sq_empty=0x1 phase=0x1 cq_full=0x0')]
                self.check_rings(depth, exchanges(depth, before) + waiting + begun + exchanges(depth, count))


def get_log(lid, offset, length):
    """Returns the operation that reads a part of a log of the first controller."""
    numd = length // 4 - 1
    return f'passthrough 0 0x02 cdw10={(numd & 0xffff) << 16 | lid} cdw11={numd >> 16} cdw12={offset} room={length}'


def booked(number):
    """Returns the entry of the refusal with this number, counted from 1, in hexadecimal digits. Its command identifier
    is one less. Its phase tag is that of its completion, and is inverted on each pass over the ring of 32 slots.
    Section "Completion Queue Entry", Phase Tag."""
    phase = 1 - (number - 1) // 32 % 2
    return encoded('error_entry', f'count={number} cid={number - 1} status=0x600b phase={phase} location=0xffff')


class ManyCommands(RowCase):
    def check_over(self, edits, rows):
        """Checks the answers to operations over the demonstration file with these edits."""
        begun = [(f'subsystem @demo.toml{json.dumps(edits)}', 'done'), ('bring_up', 'pages=0x115')]
        self.check_computed(begun + rows)

    def test_newest_errors(self):
        """The log keeps the newest errors. They can be read one by one, and as a log page from each place on. Section
        "Error Information (Log Identifier 01h)"."""
        for elpe in 0, 3, 255:
            with self.subTest(elpe=elpe):
                entries = [booked(300 - index) for index in range(elpe + 1)]
                rows = [(f'log_entry 0 {index}', f'bytes={entry}') for index, entry in enumerate(entries)]
                rows += [(f'log_entry 0 {elpe + 1}', 'refused: no such entry')]
                # there are zeros past the log's end, and a log page begins no later than its end
                whole, end = ''.join(entries) + 400 * '0', 64 * len(entries)
                for place in sorted({place for step in range(0, 140, 4) for place in (step, end - 136 + step)}):
                    if 0 <= place <= end:
                        rows.append((get_log(1, place, 68), ACCEPTED.format(0) + whole[2 * place:2 * place + 136]))
                self.check_over(['elpe = 3', f'elpe = {elpe}'], 300 * [REFUSED] + rows)

    def test_errors_in_the_health(self):
        """The health log counts all errors. Section "SMART / Health Information (Log Identifier 02h)", Number of Error
        Information Log Entries."""
        health = bytes(176) + (300).to_bytes(16, 'little') + bytes(320)
        self.check_over([], 300 * [REFUSED] + [(get_log(2, 0, 512), ACCEPTED.format(0) + health.hex())])

    def test_counts_beyond_the_command_identifiers(self):
        """Identifiers go from 0 to FFFEh and then begin anew, so the 65,537th command has 1. The counts continue.
        Section "Submission Queue Entry - Command Format": no command has FFFFh."""
        self.check_over([], 65536 * [('passthrough 0 0x0a cdw10=6', ACCEPTED.format(1))] + [
            REFUSED, ('counts 0', 'refusals=0x1 commands=0x10001'),
            ('log_entry 0 0', 'bytes=@error_entry(count=1 cid=1 status=0x600b phase=1 location=0xffff)')])

    def test_namespaces(self):
        """Each of 1,024 NSIDs is assigned, the least free one first. Section "Namespace Management command"."""
        create, full = 'passthrough 0 0x0d data=@id_ns(nsze=1 ncap=1)', 'status=0x6116 dword0=0x0 bytes='
        self.check_over(['nn = 4', 'nn = 1024'], [
            *((create, ACCEPTED.format(nsid)) for nsid in (2, *range(4, 1025))), (create, full),
            ('passthrough 0 0x0d nsid=500 cdw10=1', ACCEPTED.format(0)), (create, ACCEPTED.format(500)),
            (create, full)])


class Pipes(Case):
    """Talks to the program through pipes, as a host does."""

    def test_each_answer_comes_before_the_next_operation(self):
        bench = Running(program('nvme_bench'))
        for operation, wanted in (b'store 0 c0ffee', b'done'), (b'load 0x0 4', b'bytes=c0ffee00'):
            bench.say(operation + b'\n')
            bench.comes(wanted + b'\n')
        self.ends(bench.end(), 0, b'done\nbytes=c0ffee00\n')

    def test_bytes_that_are_no_text(self):
        ended = run(program('nvme_bench'), source=b'load 0 1\xff\nload 0 1')
        self.ends(ended, 0, b'error: not UTF-8 text\nbytes=00\n', b'')

    def test_streams_that_fail(self):
        self.ends(run(program('nvme_bench'), source=PLACE), 4, b'', b'nvme-bench: read fault\n')
        self.ends(run(program('nvme_bench'), source=b'sizes\n', out='/dev/full'), 5, err=b'nvme-bench: write fault\n')
