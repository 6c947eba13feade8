"""Tests ./nvme-script in copies of the repository: which program it runs after edits, interrupted builds and the like,
and how an unproved run ends. A stand-in for `rt` gives the answers that the tests set. A real unproved run must write
the same bytes as the built program."""

import os
import re
import shlex
import shutil
import signal

from tests.support import DEMO, LIMIT, TOP, Case, Running, copy_sources, left_running, program, run, table, until

SCRIPT = program('nvme_script')
LINE = b'nvme-script: this run is unproved and takes about a minute; ./nvme-script --build makes the proved program'
ANSWER = b'an unproved answer\n'


def copy_repository(folder):
    """Copies the files that ./nvme-script uses to a folder."""
    (folder / 'out').mkdir(parents=True)
    copy_sources(folder)
    shutil.copy(TOP / 'nvme-script', folder)
    shutil.copy(TOP / 'VERSION', folder)
    shutil.copytree(TOP / 'tools', folder / 'tools')


class Copy(Case):
    """Makes a copy with a built program and the stand-in."""

    def setUp(self):
        super().setUp()
        self.copy, self.kit, self.temporary = (self.folder / name for name in ('a copy', 'kit', 'tmp'))
        copy_repository(self.copy)
        self.made = self.copy / 'crates/nvme_script/out/nvme_script'
        for folder in self.made.parent, self.kit / 'bin', self.kit / 'empty', self.temporary:
            folder.mkdir(parents=True)
        shutil.copy(SCRIPT, self.made)
        shutil.copy(TOP / 'tests/stand_in_rt', self.kit / 'bin/rt')
        (self.kit / 'KIT-ID').write_text('a kit\n')
        (self.kit / 'out').write_bytes(ANSWER)
        self.env = {'PATH': f'{self.kit}/bin:{os.environ["PATH"]}', 'TMPDIR': self.temporary, 'copy': self.copy,
                    'kit': self.kit}
        self.command = self.copy / 'nvme-script'
        self.answer_ended(0)

    def answer_ended(self, status, messages=b''):
        """Sets what the next `rt try` says, of a run that ended."""
        lines = b'interpreter: no-answer: a reason\nchecked: ended status=N\nrun=ended status=N runners=1 proved=no\n'
        (self.kit / 'status').write_text(f'{status}\n')
        (self.kit / 'err').write_bytes(messages + lines.replace(b'=N', b'=%d' % status))

    def script(self, *arguments):
        return run(self.command, *arguments, source=b'list-ns /dev/nvme0\n', env=self.env)


class WhichProgram(Copy, transcripts='which_program'):
    def setUp(self):
        super().setUp()
        self.ends(self.script(), 0, ANSWER, LINE + b'\n')
        stamp, now = self.copy / 'tools/stamp', self.file('now', b'')
        sources = run(stamp, 'sources', env=self.env).out.strip()
        self.ends(run(stamp, 'write', sources, now, env=self.env), 0)
        self.ends(self.script(), 0, b'[   0]:0x1\n[   1]:0x3\n', b'')
        (self.kit / 'given.input').unlink()

    def is_refused(self, message, rows):
        """Checks that arguments are refused with these lines by the proved program, and without it before `rt` runs."""
        for is_unproved in False, True:
            for words, advice in rows:
                with self.subTest(words, unproved=is_unproved):
                    said = f'nvme-script: {message}\nnvme-script: {advice}\n'
                    self.ends(self.script(*words), 3, b'', said.encode())
                    self.assertFalse((self.kit / 'given.input').exists())
            self.made.unlink(missing_ok=True)

    def test_advice(self):
        # a second line says what to do about the usual mistakes
        self.is_refused('arguments', [(shlex.split(words), advice) for words, advice in table('advice')])

    def test_files_that_are_not_read(self):
        most = self.file('most.toml', DEMO.read_bytes().ljust(1 << 20))
        self.ends(self.script('--subsystem', most), 0)
        more = self.file('more.toml', DEMO.read_bytes().ljust((1 << 20) + 1))
        self.is_refused('subsystem: unreadable', [
            (['--subsystem', 'missing.toml'], "there is no file 'missing.toml'"),
            (['--subsystem='], "there is no file ''"), (['--depth', '1', '--subsystem', 'docs'], "'docs' is a folder"),
            (['--subsystem', more], f"'{more}' has more than 1048576 bytes")])

    def test_minutes_that_are_left(self):
        """Those of nvme_script count for another program only if it isn't built."""
        table = (TOP / 'README.md').read_text()
        of_script, of_trace = (int(re.search(rf'(?m)^\| `{row}`.*\| (\d+) \|$', table)[1])
                               for row in (r'\./nvme-script --build', 'tools/build nvme_trace'))
        shutil.copy(TOP / 'README.md', self.copy)
        for minutes in of_trace, of_script + of_trace:
            build = Running(self.copy / 'tools/build', 'nvme_trace', terminal=True, env=self.env)
            build.has(b', about %d min left: 0 of ' % (minutes - 1))
            self.interrupts(build)
            self.made.unlink(missing_ok=True)

    def interrupts(self, talk):
        """Types the key that ends a program."""
        talk.say(b'\x03')
        self.assertEqual(talk.process.wait(LIMIT), -signal.SIGINT, talk.line)

    def test_advice_on_a_terminal(self):
        explain = b'nvme-script: nvme-script --explain < SCRIPT says what is wrong with a line\n'
        for lines, status, err in ((b'bogus\n', 1, b'line 1: usage error\n' + explain),
                                   (b'bogus\nreset /dev/nvme0\n', 0, b'line 1: usage error\nreset: Success\n')):
            talk = Running(self.command, terminal=True, env=self.env)
            talk.say(lines)
            talk.has(err.partition(b'nvme')[0])
            self.ends(talk.end(), status, lines + err)
        # (a key ends the program too, or it would be left running)
        talk = Running(self.command, terminal=True, env=self.env)
        talk.say(b'list-ns /dev/nvme0 -n 3\n')
        talk.has(b'[   0]:0x3\n')
        self.interrupts(talk)
        self.made.unlink()
        (self.kit / 'out').write_bytes(b'')
        self.answer_ended(3, b'nvme-script: geometry: depth\n')
        talk = Running('sh', '-c', '"$0" < /dev/null', self.command, terminal=True, env=self.env)
        talk.comes(b'nvme-script: geometry: depth\nnvme-script: nvme-script --help shows what options take, and '
                   b'--explain a fault of FILE\n')
        self.assertEqual(talk.process.wait(LIMIT), 3)


class Builds(Copy, transcripts='builds'):
    def test_keys(self):
        # a line on the terminal changes, and an interrupted build says what is kept
        build = Running(self.command, '--build', terminal=True, env=self.env)
        total = len(run('tools/crates').out.splitlines())
        line = (rb'\x1b\[Knvme-script: (?!0 min 0 s)\d+ min \d+ s: 0 of %d crates are built; under way: nv_bits '
                rb'\(3 of 7 ') % total
        self.assertTrue(until(lambda: (build.hear(1), re.search(line, build.heard))[1]), build.heard)
        self.assertNotIn(b'building', build.heard)
        self.assertLess(max(map(len, build.heard.split(b'\x1b[K'))), 80)
        build.say(b'\x03')
        build.comes(b'nvme-script: what was proved is kept, and the next build goes on from there\n')
        self.assertEqual(build.process.wait(LIMIT), -signal.SIGINT, build.line)


class Left(Copy, transcripts='wrapper_unproved wrapper_streams'):
    """Checks that runs leave nothing behind."""

    def setUp(self):
        super().setUp()
        before = self.files()
        self.addCleanup(lambda: self.assertEqual((self.files(), [*self.temporary.iterdir()]), (before, [])))

    def files(self):
        return {path: path.stat().st_mtime_ns for path in self.copy.rglob('*') if path.is_file()}

    def test_terminal(self):
        talk = Running(self.command, terminal=True, env=self.env)
        talk.comes(b'nvme-script: an unproved run reads its whole script first, so it takes a file or a pipe and no '
                   b'terminal\n')
        self.ends(talk.end(), 71)

    def test_signal(self):
        # the wrapper ends a run together with the processes that the run started
        (self.kit / 'slow').touch()
        running = Running(self.command, env=self.env)
        os.close(running.speaks)
        self.assertTrue(until((self.kit / 'begun').exists), running.line)
        running.process.terminate()
        self.assertEqual(running.process.wait(LIMIT), -signal.SIGTERM, running.line)
        self.assertTrue(until(lambda: not left_running()), 'the run goes on')


class Real(Case):
    """A real unproved run, of a copy with no built program, through a link and in a folder of its own."""

    script = (b'list-ns /dev/nvme0\nbogus\nid-ns /dev/nvme1 -n 0\n  # nothing\nid-ctrl /dev/nvme1 -o json\n'
              b'id-ns /dev/nvme0 -n 0')

    def test_file_of_the_folder(self):
        copy_repository(self.folder / '-real copy')
        own = self.folder / '-real folder'
        own.mkdir()
        (own / 'link').symlink_to(self.folder / '-real copy/nvme-script')
        shutil.copy(TOP / 'examples/two_controllers.toml', own / '-two controllers.toml')
        arguments = '--subsystem=-two controllers.toml', '--depth', '2'
        wanted, ended = (run(path, *arguments, source=self.script, cwd=own) for path in (SCRIPT, own / 'link'))
        self.ends(ended, wanted.status, wanted.out, LINE + b'\n' + wanted.err)
