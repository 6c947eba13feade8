"""Transcripts of shell scripts, in tests/shell/NAME.txt. A class that is declared with names of files has a test for
each title in them, a line after `=`. Blank lines are around each script, which runs under ./nvme-model in a
ModelCase, and in a plain shell in another test.

A script is what stands after `>`. Beside it is what it prints, also in between, and after `!` what it writes to
standard error. What varies there is a regular expression after `~` or `!~`. `? N` is its status, unless that is 0.
`$place` is a folder that everybody may write to under ./nvme-model, and `$top` the repository. In a plain shell,
`$other` runs a command as another user, if root runs the tests. `#` begins a comment, and `:`, above the first title, a
line that all scripts of the file begin with. Above a script may be

    root alone                 that an ordinary user can't run it
    needs PROGRAM..            programs that must be installed
    with NAME                  what it needs of the machine: a sandbox, or namespaces that a user makes

and under ./nvme-model, where `$programs` has the programs of tests/programs,

    with udev                  that the machine needs a folder of udev's
    as own user inside root    whose script it is: that of the user who runs the tests, as otherwise, another user, such
                               a user in root's sandbox, or a user with --root
    options WORD..             options of nvme-model, in which the names above may stand
    file NAME["OLD", "NEW"]    its subsystem file, one of examples/, perhaps with NEW in place of OLD
    outside LINE               a line of a script that runs outside, in a mount namespace, in which "$@" is the run
"""

import json
import os
import re
import shutil
import tempfile

from tests.support import IS_ROOT, TOP, USERS, difference, run
from tests.test_rows import edited

OTHER = USERS[-1]
# For each kind of user: who runs nvme-model, who its command becomes there, and options.
WAYS = {'own': ((), (), ()), 'user': (OTHER, (), ()), 'inside': ((), OTHER, ()), 'root': (OTHER, (), ('--root',))}
# A machine with a folder of udev's, on one that has none, such as a container.
OWN_RUN = 'mount -t tmpfs run /run && mkdir /run/udev && exec "$@"'
WITH_UDEV = (() if os.path.exists('/run/udev') else ('unshare', '-m', 'sh', '-c', OWN_RUN, 'sh') if IS_ROOT else
             ('bwrap', '--dev-bind', '/', '/', '--tmpfs', '/run', '--dir', '/run/udev'))
HEADINGS = 'as', 'options', 'file', 'outside', 'root', 'with', 'needs'
# What a script may need, by a command that tries it, and the reason for which it is skipped.
NEEDS = {'namespaces': ('unshare -Urm true', 'users can make no namespaces here'),
         'sandbox': ('bwrap --bind / / --dev /dev true', 'bubblewrap can make no sandbox here')}


class Transcript:
    """A script, and what it must print."""

    def __init__(self, place, beginning):
        self.place, self.beginning, self.script, self.status = place, beginning, '', 0
        self.headings = {name: [] for name in HEADINGS}
        self.output, self.messages = [], []

    def take(self, line):
        """Takes a line of the file."""
        mark, _, text = line.partition(' ')
        if mark == '>':
            self.script += f'{text}\n'
        elif mark in HEADINGS and not self.script:
            self.headings[mark].append(text)
        elif mark == '?':
            self.status = int(text)
        elif mark in ('!', '!~'):
            self.messages.append((mark == '!~', f'{text}\n'.encode()))
        else:
            self.output.append((mark == '~', f'{text if mark == "~" else line}\n'.encode()))

    def words(self, heading):
        return ' '.join(self.headings[heading]).split()

    def skip_where_it_cannot_run(self, case):
        if self.headings['root'] and not IS_ROOT:
            case.skipTest('root alone can run this')
        if missing := [tool for tool in self.words('needs') if not shutil.which(tool)]:
            case.skipTest(f'{", ".join(missing)} not installed')
        for command, reason in [NEEDS[name] for name in self.words('with') if name in NEEDS]:
            if run('sh', '-c', command).status != 0:
                case.skipTest(reason)

    def subsystem(self):
        """Returns the text of the subsystem file, or nothing if it is the usual one."""
        for text in self.headings['file']:
            name, edits = re.fullmatch(r'([a-z_]+\.toml)(\[.*\])?', text).groups()
            return edited(name, *json.loads(edits or '[]'))
        return ''

    def outside(self):
        """Returns the words that run the script outside."""
        lines = self.headings['outside']
        return ['sh', '-c', '\n'.join(lines), 'sh'] if lines else []

    def ways(self):
        """Returns the name of each way in which the script runs. (For an ordinary user, some are the same.)"""
        return {WAYS[name]: name for name in self.words('as') or ['own']}

    def users(self):
        """Returns who runs nvme-model."""
        return dict.fromkeys(user for user, _, _ in self.ways())

    def ended(self, case, user, inside, options):
        """Runs the script in a way, and returns how it ended."""
        place = tempfile.mkdtemp(dir=case.folder)
        os.chmod(place, 0o777)
        if self.subsystem():
            case.subsystem = case.file('of_transcript.toml', self.subsystem().encode())
        named = ' '.join(self.headings['options']).replace('$place', place).replace('$top', str(TOP))
        command = case.command(*inside, 'sh', '-c', self.beginning + self.script, options=[*options, *named.split()])
        case.needs(*self.headings['outside'])
        by = WITH_UDEV if 'udev' in self.words('with') else ()
        if self.outside():
            by = [*('unshare', '-m')[:2 * IS_ROOT], *self.outside()]
        return run(*by, *user, *command, cwd='/', env={
            'place': place, 'programs': case.programs(self.script), 'top': TOP})

    def check(self, case):
        """Runs the script under ./nvme-model for each kind of user."""
        for way, name in self.ways().items():
            with case.subTest(self.place, user=name):
                self.skip_where_it_cannot_run(case)
                self.agrees(case, self.ended(case, *way))

    def agrees(self, case, ended):
        """Compares how a run ended with what is wanted."""
        case.ends(ended, self.status)
        for lines, found in (self.output, ended.out), (self.messages, ended.err):
            if any(is_pattern for is_pattern, _ in lines):
                pattern = b''.join(text if is_pattern else re.escape(text) for is_pattern, text in lines)
                case.assertTrue(re.fullmatch(pattern, found), f'wanted {pattern}\n{ended}')
            else:
                case.assertEqual(difference('', b''.join(text for _, text in lines), found), [], ended)


def transcripts_of(name):
    """Returns the transcripts of a file below each of its titles."""
    found, beginning, title, current = {}, '', None, None
    for number, line in enumerate((TOP / f'tests/shell/{name}.txt').read_text().splitlines(), 1):
        mark, _, text = line.partition(' ')
        if mark == '=':
            title = found[text.replace(' ', '_')] = []
        elif mark == ':' and not found:
            beginning += f'{text}\n'
        elif not line:
            current = None
        elif line[0] != '#':
            if current is None:
                current = Transcript(f'{name}.txt:{number}', beginning)
                title.append(current)
            current.take(line)
    return found


def tests_of(names):
    """Returns the tests of files, by their names."""
    def test_of(transcripts):
        def test(case):
            for transcript in transcripts:
                case.transcribe(transcript)
        return test
    return {f'test_{title}': test_of(transcripts)
            for name in names.split() for title, transcripts in transcripts_of(name).items()}
