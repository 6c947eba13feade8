"""Runs shells and pagers under ./nvme-model on a terminal, with the keys that a user types: Ctrl-C, Ctrl-Z, fg, and the
end of a shell. The shell outside is bash, whose jobs are these runs."""

import itertools
import re

from tests.modelled import ModelCase
from tests.support import USERS, Running

SHELLS = b'bash --norc --noprofile', b'dash'
INTERRUPT, SUSPEND = b'\x03', b'\x1a'
OUTSIDE, INSIDE = b'outside: ', b'inside: '
START, STOPPED = b'$model env PS1="inside: " NAME\n', b'.*Stopped.*'
# A command that says when it runs, so that a key that is typed after that reaches it. (It starts no others: a process
# that is stopped before it becomes a program keeps its parent, which waits in vfork, from being stopped.)
BEGUN = b"""sh -c 'trap "echo continued" CONT; echo begun; until read -r line; do :; done'\n"""


class Terminal(ModelCase):
    def begun(self, user):
        """Starts bash on a terminal, whose prompt is `outside: ` and whose variable `model` is a run of a command."""
        words = ' '.join(map(str, self.command()))
        env = {'PS1': 'outside: ', 'TERM': 'dumb', 'HOME': '/', 'LESS': '-d', 'model': words}
        shell = Running(*user, 'bash', '--norc', '--noprofile', '-i', terminal=True, env=env)
        self.addCleanup(shell.process.kill)
        shell.comes(OUTSIDE)
        return shell

    def session(self, *steps, names=(b'',)):
        """Types lines and keys, in which NAME is one of these names, in a shell of each user. After each come a text,
        or several in turn among others, and, between a line and its text, what fits a pattern, if there is one."""
        for user, name in itertools.product(USERS, names):
            with self.subTest(name, user=user):
                shell = self.begun(user)
                for line, awaited, *patterns in steps:
                    shell.heard = b''
                    shell.say(line.replace(b'NAME', name))
                    for text in awaited if isinstance(awaited, tuple) else ():
                        shell.has(text)
                    if isinstance(awaited, bytes):
                        shell.comes(awaited)
                    said = shell.heard.partition(b'\n')[2] if line.endswith(b'\n') else shell.heard
                    for pattern in patterns:
                        self.assertTrue(re.fullmatch(pattern + awaited, said, re.S), (line, said))

    def test_shells(self):
        # (a shell gives the terminal back without a word)
        self.session((START, INSIDE, b'(?!.*annot set).*'),
                     (b'echo a | cat; test -c /dev/nvme0 && echo there\n', INSIDE, b'a\nthere\n'),
                     (b'exit 3\n', OUTSIDE, b'(exit\n)?'), (b'echo $?\n', OUTSIDE, b'3\n'), names=SHELLS)

    def test_jobs_inside(self):
        self.session((START, INSIDE), (BEGUN, b'begun\n'), (SUSPEND, INSIDE, STOPPED), (b'fg\n', b'continued\n'),
                     (INTERRUPT, INSIDE), (b'echo $?\n', INSIDE, b'130\n'), (b'seq 1000 | less\n', b'\n:'),
                     (b'q', INSIDE), (b'exit\n', OUTSIDE), names=SHELLS)

    def test_jobs(self):
        begin = b'$model ' + BEGUN, b'begun\n'
        self.session(begin, (INTERRUPT, OUTSIDE), (b'echo $?\n', OUTSIDE, b'130\n'), begin, (SUSPEND, OUTSIDE, STOPPED),
                     (b'fg\n', b'continued\n'), (INTERRUPT, OUTSIDE), (b'echo $?; jobs\n', OUTSIDE, b'130\n'))

    def test_suspend(self):
        # a shell that suspends itself, or an editor at one key, stops the run as well, and both go on together
        editor = b"$model sh -c 'echo begun; kill -TSTP 0; echo continued; read -r line; echo $line; exit 5'\n"
        self.session((START.replace(b'NAME', SHELLS[0]), INSIDE),
                     *[(b'suspend\n', OUTSIDE, STOPPED), (b'jobs\n', OUTSIDE, STOPPED), (b'fg\n', b'\ninside: '),
                       (b'echo a | cat\n', INSIDE, b'a\n')] * 3,
                     (b'exit 4\n', OUTSIDE), (b'echo $?\n', OUTSIDE, b'4\n'),
                     # (dash doesn't take its terminal again itself)
                     (START.replace(b'NAME', SHELLS[1]), INSIDE), (b'kill -STOP $$\n', OUTSIDE, STOPPED),
                     (b'fg\n', INSIDE), (b'echo a | cat\n', INSIDE, b'a\n'), (b'exit\n', OUTSIDE),
                     (editor, OUTSIDE, b'.*begun\n.*'), (b'fg\n', b'continued\n'), (b'words\n', OUTSIDE, b'words\n'),
                     (b'echo $?; jobs\n', OUTSIDE, b'5\n'))

    def test_editor(self):
        self.needs('busybox')
        self.session((f'$model busybox vi {self.folder}/text\n'.encode(), (b'100%',)),
                     *[(SUSPEND, (b'Stopped', OUTSIDE)), (b'fg\n', (b'100%',))] * 2,
                     (b':q!\n', OUTSIDE), (b'echo $?\n', OUTSIDE, b'0\n'))

    def test_pagers(self):
        self.session((b'$model NAME\n', b'\n:'), (b'q', OUTSIDE), (b'echo $?\n', OUTSIDE, b'0\n'),
                     names=(b'seq 1000 | less', b'less -P: /etc/services', b'sh -c "seq 1000 | less"'))
