"""Runs .ci/run on machines that lack programs, in a copy of its files: it names everything that is missing, and
installs it only in CI. A stand-in for apt-get stores what it was told."""

import contextlib
import io
import re
import runpy
import subprocess
import sys

from tests.run import run_all
from tests.support import TOP, Case, environment, run


class Gate(Case, transcripts='gate'):
    def takes_long(self):
        """Waits, for the test below, together with a process."""
        subprocess.run(['sleep', '1000'], env=environment())

    def test_limit(self):
        with contextlib.redirect_stdout(io.StringIO()) as said:
            sums = run_all(['test_gate.Gate.takes_long'], self.folder / 'seconds', 1, 2)
        self.assertEqual(sums, [0, 1, 0])
        self.assertIn('\ntest_gate.Gate.takes_long did not end in time\n', said.getvalue())

    def test_names(self):
        usage = b'usage: python3 -m tests.run [--quick | MODULE..], such as test_calls\n'
        for words in ['test_bogus'], ['--quick', 'test_gate'], ['--help']:
            self.ends(run(sys.executable, '-m', 'tests.run', *words), 1, b'', usage)
        # (without a build, the module fails)
        ended = run(sys.executable, '-m', 'tests.run', 'test_requests')
        sums = rb'test_requests: (\d+) passed, (\d+) failed, 0 skipped, .*\n\1 passed, \2 failed, 0 skipped\n\Z'
        found = re.search(b'(?m)^' + sums, ended.out)
        self.assertTrue(found, ended)
        self.assertEqual(ended.status, int(int(found[2]) > 0), ended)

    def test_each_wrong_edit_can_be_made(self):
        mutants = runpy.run_path(str(TOP / 'tools/mutants'))
        edits = [*mutants['edits']()]
        self.assertGreater(len(edits), 100)
        for edit in edits:
            self.assertEqual(mutants['why_not'](edit, TOP / edit.file), '', edit)
