"""Gives many subsystem files to `nvme_bench`, by its operation `subsystem`: both ends of each range, each beginning of
a file, each changed byte, and deep or large files. tests/rows/file_*.txt has single faults."""

import unittest

from tests.support import large_file, table
from tests.test_rows import answers_to, edited

DEMO = edited('demo.toml')
READ = 'done'


def told(files):
    """Returns the answer to each file."""
    return answers_to(f'subsystem file={bytes(file).hex()}' for file in files)


def refused(text):
    return f'refused: {text}'


def beginnings():
    """Returns each beginning of the demonstration file, with the expected answer, which depends on its whole lines and
    on the part of the last line."""
    rows, wanted, end = iter(table('beginnings_of_files')), refused('missing top.version'), 0
    yield '', wanted
    for line in DEMO.splitlines(True):
        if line != '\n':
            least, said = next(rows)
            assert line.startswith(least), line
            for shown in range(1, len(line)):
                wanted = said if shown >= len(least) else refused('not TOML')
                yield DEMO[:end + shown], wanted
        end += len(line)
        yield DEMO[:end], wanted
    assert next(rows, None) is None


def largest():
    """Returns a file with as many tables of each kind as there can be."""
    features = ''.join(f'[[controller.feature]]\nfid = {fid}\nsaveable = {"false" if fid == 5 else "true"}\n'
                       for fid in (1, 2, 5, 6, 8, 10, 11))
    more = f'elpe = 255\nvwc = 7\n{features}[controller.smart]\nsensors = [1, 2, 3, 4, 5, 6, 7, 8]\n'
    file = large_file(range(16), range(16)).replace('fr = "1"\n', f'fr = "1"\n{more}')
    of_format = '[[format]]\nlbads = 9\n'
    return file.replace(of_format, 16 * of_format).replace('format = 0', 'format = 15')


class SubsystemFiles(unittest.TestCase):
    def check(self, rows):
        """Checks the answer to each of these files."""
        rows = list(rows)
        for (file, wanted), said in zip(rows, told(file.encode() for file, _ in rows), strict=True):
            with self.subTest(file=file[-200:]):
                self.assertEqual(said, wanted)

    def check_edits(self, old, new, rows):
        """Checks the answer to each file that has such a text in place of another, with these in place of `#`."""
        self.check((edited('demo.toml', old, new.replace('#', str(text))), wanted) for text, wanted in rows)

    def test_numbers(self):
        """Both ends of a range are accepted. The numbers next to them are out of range, or aren't integers in TOML,
        of which 2^63 - 1 is the greatest."""
        for old, new, key, least, greatest in table('numbers_of_files'):
            out = refused(f'out of range {key}')
            self.check_edits(old, new, [(least, READ), (greatest, READ), (least - 1, out),
                                        (greatest + 1, out if greatest < 2 ** 63 - 1 else refused('not TOML'))])

    def test_texts(self):
        """A text of one byte and one of the greatest length are accepted. An empty one and one with one more byte are
        out of range."""
        for old, new, key, most in table('texts_of_files'):
            out = refused(f'out of range {key}')
            rows = (0, out), (1, READ), (most, READ), (most + 1, out)
            self.check_edits(old, new, [(count * '~', wanted) for count, wanted in rows])

    def test_beginnings(self):
        self.check(beginnings())

    def test_changed_bytes(self):
        """The demonstration file with another byte in one place is accepted, or refused with a named fault. With a byte
        that isn't UTF-8, it isn't TOML."""
        demo = DEMO.encode()
        for byte in b'"', b'=', b'[', b'\n', b'\xff':
            wanted = '^refused: not TOML$' if byte == b'\xff' else '^(done|refused: (?!out of memory).+)$'
            for said in told(demo[:place] + byte + demo[place + 1:] for place in range(len(demo))):
                self.assertRegex(said, wanted)

    def test_deep_values(self):
        """Arrays that are 10,000 deep, closed or not, and a table's name in as many brackets, are refused."""
        opened, closed = 10000 * '[', 10000 * ']'
        for said in told(file.encode() for file in [f'x = {opened}', f'x = {opened}{closed}', f'{opened}x{closed}']):
            self.assertRegex(said, '^refused: ')

    def test_long_texts(self):
        text = 2 ** 20 * 'a'
        self.check([(edited('demo.toml', 'nqn.2014-08.org.example:demo', text), refused('out of range top.subnqn')),
                    (f'{DEMO}\n# {text}', READ)])

    def test_the_largest_file(self):
        answers = answers_to([f'subsystem {largest().encode().hex()}', 'controllers'])
        self.assertEqual(answers, [READ, 'controllers=0x10'])
