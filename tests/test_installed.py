"""Installs the built programs with their manual pages in a folder, as a user would. The programs work from there, the
manual pages have no warnings, and each option of a program is in its manual page and in the completion."""

import contextlib
import functools
import os
import re
import shutil
import unittest

from tests.support import TOP, Case, Running, library, process_folder, run, table

# Words that the shells complete to one more word, or to one in place of the last.
COMPLETED = table('completed')
# What bash completes the last of some words to, which it alone divides at `=`.
COMPLETED_BY_BASH = [('nvme-script --subsystem = examples/demo.t', 'examples/demo.toml'),
                     ('nvme-script --depth = 8', ''), ('nvme-model --trace = x nvme-describe --cu', '--current'),
                     ('nvme-model --qemu --no', '')]
# (the package bash-completion has the function for the words of a command in a command)
BASH = '''. "$0"
_command_offset() { COMP_WORDS=("${COMP_WORDS[@]:$1}"); ((COMP_CWORD -= $1)); _nvme_model; }
COMP_WORDS=("$@"); COMP_CWORD=$(($# - 1)); _nvme_model; echo ${COMPREPLY[*]}'''


@functools.lru_cache(maxsize=None)
def installed():
    """Installs all that is built, once in this process, and returns where."""
    with contextlib.suppress(unittest.SkipTest):
        library()
    prefix = process_folder() / 'a prefix'
    ended = run('make', '-s', 'install', f'PREFIX={prefix}')
    if ended.status != 0:
        raise AssertionError(ended)
    return prefix


class InstalledCase(Case):
    def setUp(self):
        super().setUp()
        self.prefix = installed()
        self.env = {'PATH': f'{self.prefix}/bin:{os.environ["PATH"]}', 'prefix': self.prefix}


class Installed(InstalledCase, transcripts='installed'):
    def completed(self, *words):
        """Returns what bash can complete the last of these words to."""
        ended = run('bash', '-c', BASH, self.prefix / f'share/bash-completion/completions/{words[0]}', *words,
                    env=self.env)
        self.ends(ended, 0, err=b'')
        return ended.out.decode().rstrip('\n')

    def test_completion_by_bash(self):
        for words, wanted in [*COMPLETED, *COMPLETED_BY_BASH]:
            with self.subTest(words):
                self.assertEqual(self.completed(*words.split()), wanted)
        for name in 'nvme-script', 'nvme-model', 'nvme-describe':
            shown = re.findall('(?m)^  (?:-h, )?(--[a-z-]+)', run(name, '--help', env=self.env).out.decode())
            options = ' '.join(option for option in shown if option != '--build')
            self.assertEqual(self.completed(name, '--'), options)
        self.assertEqual(self.completed('nvme-script', ''), self.completed('nvme-script', '--'))

    @unittest.skipUnless(shutil.which('fish'), 'fish is not installed')
    def test_completion_by_fish(self):
        for words, wanted in COMPLETED:
            with self.subTest(words):
                file = self.prefix / f'share/fish/vendor_completions.d/{words.split()[0]}.fish'
                ended = run('fish', '--no-config', '-c', f"source '{file}'; complete -C '{words}'",
                            env={**self.env, 'HOME': self.folder})
                self.ends(ended, 0, err=b'')
                self.assertEqual([line.split(b'\t')[0].decode() for line in ended.out.splitlines()], [wanted])

    @unittest.skipUnless(shutil.which('zsh'), 'zsh is not installed')
    def test_completion_by_zsh(self):
        place = self.prefix / 'share/zsh/site-functions'
        shell = Running('zsh', '-f', '-i', terminal=True, env={**self.env, 'HOME': self.folder, 'TERM': 'dumb'})
        self.addCleanup(shell.process.kill)
        shell.say(b"fpath=('%s' $fpath); autoload -Uz compinit; compinit -u -D; echo rea''dy\n" % os.fsencode(place))
        shell.has(b'ready\n')
        for words, wanted in COMPLETED:
            with self.subTest(words):
                shell.heard = b''
                shell.say(words.encode() + b'\t')
                shell.has(wanted.encode())
                shell.say(b'\x15')


class Embedding(InstalledCase, transcripts='installed_library'):
    """The library that is installed, and the commands of EMBEDDING, in which the prefix is a folder of the user."""

    def setUp(self):
        super().setUp()
        library()
        # (the commands have no quotes for a blank)
        (self.folder / 'nvme').symlink_to(self.prefix)

    def blocks(self, heading):
        """Returns the blocks of code below a heading."""
        section = (TOP / 'docs/EMBEDDING.md').read_text().split(f'## {heading}\n')[1].split('\n## ')[0]
        return [re.sub('(?m)^    ', '', block) for block in re.findall(r'(?m)(?:^    .*\n|^\n(?=    ))+', section)]

    def ended(self, commands, place):
        """Runs commands of the page in a folder."""
        env = {'HOME': self.folder, 'PYTHONDONTWRITEBYTECODE': '1'}
        return run('sh', '-euc', commands, cwd=place, env=env)

    def test_programs_in_an_empty_folder(self):
        source, *commands = self.blocks('A program in an empty folder')
        self.assertEqual([text.count('\ncc ') + text.startswith('cc ') for text in commands], [1, 1, 1, 0], commands)
        for number, text in enumerate(commands):
            if 'pkg-config' in text and not shutil.which('pkg-config'):
                continue
            with self.subTest(text):
                place = self.folder / f'empty{number}'
                place.mkdir()
                (place / 'count.c').write_text(source)
                self.ends(self.ended(text, place), 0, b'2\n' if 'python3' in text else b'2 controllers\n', b'')

    @unittest.skipUnless(shutil.which('verilator') and shutil.which('pkg-config'), 'there is no verilator')
    def test_simulation(self):
        """The commands run in a folder with the files of the example."""
        commands, = self.blocks('In a simulation')
        examples = self.prefix / 'share/doc/nvme-script/examples/c'
        ended = self.ended(commands, shutil.copytree(examples, self.folder / 'c'))
        self.assertEqual(ended.status, 0, ended)
        self.assertIn(b'controllers: 2\nstatus: 00000001\ntaken: 1\ncommand identifier: 5\nphase tag: 1\n'
                      b'status field: 0000\nserial number: S0\ntail 4: 0\ntail 3: 1\nentries: 3\n'
                      b'I/O status: 00000000\nI/O status: 00000000\nI/O status: 00004080\nI/O status: ffffffff\n'
                      b'block 3: S0\ndata: S0\nqueue: 7, command identifier: 3\ncompletions: 3\nhead 3: 1\n'
                      b'head 1: 0\ncompletions: 0\n', ended.out)
