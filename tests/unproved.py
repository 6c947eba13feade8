"""Checks the unproved sources: runs the tests of each crate by `rt try`, and checks the layout of the files.
`python3 -m tests.run --quick` runs this."""

import re

from tests.support import TOP, Case, copy_sources, run, run_unproved


def tests_written(crate):
    """Returns how many tests the sources of a crate have."""
    return sum(len(re.findall(r'(?m)^\s*#\[test\]', path.read_text())) for path in crate.glob('src/**/*.rt'))


CRATES = [crate for crate in sorted((TOP / 'crates').iterdir()) if tests_written(crate)]


def names():
    """Returns the names of all tests, which run side by side. (test_unready runs those of nv_tests.)"""
    return [*(f'unproved.Tests.test_{crate.name}' for crate in CRATES if crate.name != 'nv_tests'), 'unproved.Layout']


class Tested(Case):
    def check_crate(self, crate):
        """Runs the tests of a crate, each of which is a row."""
        ended = run_unproved(crate, '--test')
        text = ended.out.decode()
        said = ended.line + '\n' + re.sub(r'(?m)^test \S+ \.\.\. ok\n', '', text) + ended.err.decode(errors='replace')
        told = re.findall(r'(?m)^test (\S+) \.\.\. (.*)$', text)
        for name, end in told:
            with self.subTest(name):
                self.assertEqual(end, 'ok', said)
        # a test that isn't reported has failed
        found = re.search(r'(?m)^tests: ([0-9]+)$', text)
        self.assertEqual(len(told), max(tests_written(crate), int(found.group(1)) if found else 0), said)


class Tests(Tested):
    """The tests of each crate."""


for tested in CRATES:
    setattr(Tests, f'test_{tested.name}', lambda self, crate=tested: self.check_crate(crate))


class Layout(Case):
    def test_each_crate(self):
        copy_sources(self.folder)
        for crate in sorted((self.folder / 'crates').iterdir()):
            with self.subTest(crate.name):
                self.ends(run('rt', 'fmt', cwd=crate), 0, b'', b'')
