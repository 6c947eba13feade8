"""Checks the pages of the repository, as far as a program can. The target of each link exists, and so do its heading
and each named file or folder. The words in the last column of a table of clauses, or of where to look, occur in the
sources of the crates. A block of code that is said to be from a file occurs in it. No line is wider than 140 columns
outside of tables and code, and none names a folder of a machine. Counts of definitions, and lists of crates, files in
C, examples and messages are those of the sources, the pictures show names that are there, and scripts write what pages
show. codespell finds no misspelled word. Must-fail edits are as CONTRIBUTING says. What the sentences claim isn't
checked."""

import re
import runpy
import shutil
import textwrap
import unittest
from xml.etree import ElementTree

from tests.pages import PAGES, Page
from tests.support import IS_UNPROVED, TOP, Case, program, run

ALL = [Page(str(path.relative_to(TOP))) for pattern in PAGES for path in sorted(TOP.glob(pattern))]


def text_of(name):
    return (TOP / name).read_text()


def of_kind(kind):
    """Returns all items of a kind in the pages, each with its page and its line as an editor takes them."""
    found = [(page, f'{page.name}:{number}', *what) for page in ALL for number, *what in getattr(page, kind)]
    assert found or kind == 'wide', f'no page has {kind}'
    return found


def words_of_sources():
    """Returns the words in the sources, and in the names of their files."""
    words = set()
    for part in 'src', 'specs', 'proofs':
        for path in TOP.glob(f'crates/*/{part}/**/*'):
            words.update(re.findall(r'\w+', str(path.relative_to(TOP)), re.A))
            if path.is_file() and part != 'proofs':
                words.update(re.findall(r'\w+', path.read_text(), re.A))
    return words


def stands(block, text):
    """Returns whether the lines of a block occur in a text one after another, all of them indented by the same
    amount."""
    block = textwrap.dedent(block).splitlines()
    lines = text.splitlines()
    spans = (lines[at:at + len(block)] for at in range(len(lines) - len(block) + 1))
    return block != [] and any(textwrap.dedent('\n'.join(span)).splitlines() == block for span in spans)


class Pages(Case, transcripts='pages'):
    def test_links(self):
        self.assertGreater(len(of_kind('links')), 100)
        self.assertEqual([link for page in ALL for link in page.broken_links()], [])

    @unittest.skipUnless(shutil.which('make'), 'make is not installed')
    def test_links_of_installed_pages(self):
        self.ends(run('make', '-s', 'stage-pages', f'STAGE={self.folder}'), 0)
        pages = self.folder / 'share/doc/nvme-script'
        installed = [Page(str(path)) for path in (*pages.glob('*.md'), *pages.glob('dev/*.md'))]
        self.assertGreater(sum(len(page.links) for page in installed), 50)
        for page in installed:
            # what isn't installed, and is named all the same, is said to be in the repository
            self.assertIn('are in the repository', page.text.splitlines()[2], page.name)
        self.assertEqual([link for page in installed for link in page.broken_links()], [])

    def test_files(self):
        # files that a build makes exist only after a build
        self.assertEqual([f'{place}: {path}' for _, place, path in of_kind('files')
                          if not re.match(r'crates/[^/]*/out(/|$)', path) and not any(TOP.glob(path))], [])

    def test_words_of_clauses(self):
        known = words_of_sources()
        self.assertEqual([f'{place}: {word}' for _, place, word in of_kind('words') if word not in known], [])

    def test_blocks(self):
        for page, place, block, name in of_kind('blocks'):
            with self.subTest(place):
                path = TOP / name if (TOP / name).exists() else (TOP / page.name).parent / name
                self.assertTrue(stands(block, path.read_text()), f'{place}: the code above is not in {name}')

    def test_lines_are_not_wide(self):
        self.assertEqual([place for _, place, _ in of_kind('wide')], [])

    def test_no_folder_of_a_machine(self):
        # a page names only folders that every machine has
        for page in ALL:
            with self.subTest(page.name):
                folders = set(re.findall(r'(?<![\w.~$})\]>/"*-])/([A-Za-z_]\w*)/', page.text))
                self.assertEqual(folders - {'boot', 'dev', 'etc', 'proc', 'run', 'sys', 'tmp', 'usr'}, set())
                self.assertNotRegex(page.text, r'\b[Pp]apers?\b')


class Examples(Case, transcripts='examples_of_pages'):
    """Checks that the program writes what pages show."""

    def setUp(self):
        super().setUp()
        if IS_UNPROVED:
            self.skipTest('the examples of the pages are run by the proved program')

    def test_first_script_of_readme(self):
        """README has each line of an example beside what it prints."""
        table = text_of('README.md').partition('\n| Line | Prints |\n')[2].partition('\n\n')[0]
        rows = re.findall(r'(?m)^\| `(.*)` \| `(.*)` \|$', table)
        self.assertEqual(''.join(f'{line}\n' for line, _ in rows), text_of('examples/first.nvme'))
        shown = [text for _, texts in rows for text in texts.split('`<br>`')]
        ended = run(program('nvme_script'), source=TOP / 'examples/first.nvme', err='&1')
        self.ends(ended, 0, ''.join(f'{text}\n' for text in shown).encode())

    def test_scripts(self):
        """The lines after `>` in a block of `nvme`, which can name a subsystem file, write all its other lines."""
        for name in 'COMMANDS', 'GUIDE':
            blocks = re.findall(r'^```nvme *(.*?)\n(.*?)^```$', text_of(f'docs/{name}.md'), re.M | re.S)
            self.assertNotEqual(blocks, [])
            for subsystem, block in blocks:
                script = ''.join(re.findall(r'(?m)^> (.*\n)', block))
                arguments = ['--subsystem', TOP / subsystem] if subsystem else []
                with self.subTest(f'{name}: {script}'):
                    ended = run(program('nvme_script'), *arguments, source=script.encode(), err='&1')
                    self.assertEqual(ended.out.decode(), re.sub(r'(?m)^> .*\n', '', block), ended)


class Copies(Case):
    def test_pictures(self):
        """The pictures show what is in the sources, and are what the program makes, which sees what isn't."""
        self.ends(run(TOP / 'tools/pictures', '--check'), 0, b'', b'')
        for path in TOP.glob('docs/**/*.svg'):
            ElementTree.parse(path)
        pictures = runpy.run_path(str(TOP / 'tools/pictures'))
        for name in ('nv_queued', 'client/launched.c', 'nv_queue:SubmitRing::pushed', 'nv_queue:SubmitRings::push',
                     'nv_bus:Buses'):
            self.assertFalse(pictures['is_there'](name), name)
        self.assertTrue(pictures['uses']('nv_driver nv_bus'))
        self.assertFalse(pictures['uses']('nv_bus nv_driver'))

    def test_tables_of_architecture(self):
        """The table of crates has each one after those that it uses, and that of folders names the files in C."""
        page = text_of('docs/dev/ARCHITECTURE.md')
        order = re.findall(r'\[(nvm?e?_\w+)\]\(\.\./\.\./crates/', page.partition('\n**Two sides')[0])
        uses = dict(re.match(r'(\w+)[^:]*:(.*)', line).groups() for line in text_of('crates.txt').splitlines())
        self.assertEqual(sorted(order), sorted(uses))
        for place, name in enumerate(order):
            later = set(uses[name].split()) & set(order[place:])
            self.assertEqual(later, set(), f'{name} is above crates that it uses')
        for path in TOP.glob('client/*.c'):
            self.assertIn(f'`{path.name}`', page)

    def test_commands(self):
        """COMMANDS and the manual page list the commands that a line can begin with, and README their number."""
        commands = re.findall(r'Verb::\S+ => "([a-z-]+)",', text_of('crates/nv_line/src/verb.rt'))
        listed = re.search(r'\nThe commands are (.*?)\.\n', text_of('docs/COMMANDS.md'), re.S).group(1)
        self.assertEqual(re.findall('`([a-z-]+)`', listed), [*commands[:-2], 'list', 'reset'])
        self.assertEqual(set(re.findall(r'(?m)^\.It Ic ([a-z-]+)', text_of('docs/nvme-script.1'))), set(commands))
        self.assertIn(f'There are {len(commands)} commands', text_of('README.md'))

    def test_versions(self):
        """README names the last release, and CHANGELOG's first section is that of VERSION, which ends with ~dev before
        its release."""
        version, dev = re.fullmatch(r'([0-9.]+)(~dev)?\n', text_of('VERSION')).groups()
        sections = re.findall(r'(?m)^## ([^,\n]+)', text_of('CHANGELOG.md'))
        self.assertEqual(sections[0], 'Next' if dev else version)
        self.assertEqual(set(re.findall(r'[0-9]+\.[0-9]+\.[0-9]+', text_of('README.md'))), {sections[bool(dev)]})
        if shutil.which('rt') is None:
            self.skipTest('there is no toolchain')
        toolchain = run('rt', 'version').out.decode()
        for name in 'README.md', 'docs/dev/PROOFS.md':
            beginning, = re.findall(r'begins\s+with `(rattle-kit-[0-9]+)`', text_of(name))
            self.assertRegex(toolchain, rf'^{beginning}(?![0-9])', name)

    def test_libraries_of_proofs(self):
        """PROOFS names each library of the toolchain that a crate uses, besides the standard library's parts."""
        used = set(re.sub(r'(?m)^.*?:', '', text_of('crates.txt')).split()) - {'core', 'std_alloc', 'std_heap'}
        ports = {name for name in used if not (TOP / 'crates' / name).exists()}
        named, = re.findall(r'ports\s+of\s(.*?);', text_of('docs/dev/PROOFS.md'), re.S)
        self.assertEqual(set(re.findall(r'`(\w+)`', named)), ports)

    def test_packages(self):
        """README's line of packages begins with those of `.ci/run --quick`, and the gate needs all of them."""
        needed = re.findall(r'(?m)^[^#\s]+ (\S+)$', text_of('.ci/needed'))
        named, = re.findall(r'(?m)^    apt install (.*?) +# as root$', text_of('README.md'))
        self.assertEqual(named.split()[:2], needed[:2])
        self.assertLess(set(named.split()), set(needed))

    def test_each_example_has_a_sentence(self):
        gallery = text_of('examples/README.md')
        named = set(re.findall(r'\]\(([^)]+)\)|`(c/[^`]+)`', gallery))
        files = {str(path.relative_to(TOP / 'examples')) for pattern in ('*.nvme', '*.sh', 'c/*')
                 for path in TOP.glob(f'examples/{pattern}') if path.is_file()}
        self.assertEqual(files - {name for pair in named for name in pair}, set())

    def test_messages_of_support(self):
        """Each message that SUPPORT explains is in the sources, apart from what varies."""
        patterns = 'client/*.c', 'tools/unproved', 'nvme-model', 'crates/*/src/*.rt'
        sources = ''.join(path.read_text() for pattern in patterns for path in TOP.glob(pattern))
        messages = re.findall(r'(?m)^\| `([^`]+)`(?: \(0x[0-9a-f]+\))? \|', text_of('docs/SUPPORT.md'))
        self.assertGreater(len(messages), 11)
        # (in the sources, a long text is cut into several)
        sources = re.sub(r'"\n\s*"', '', sources)
        for message in messages:
            for piece in message.split('..'):
                self.assertIn(piece.strip(), sources, message)

    def test_counts_of_definitions(self):
        """PROOFS has the table of the tool, and its command prints as many definitions of a call as a table counts."""
        page = text_of('docs/dev/PROOFS.md')
        table = run(TOP / 'tools/believed', '--page').out.decode()
        self.assertTrue(table and f'\n{table}\n' in page, f'tools/believed --page prints\n{table}')
        command, crate, call = re.search(r'(?m)^    (tools/believed (\w+) (\w+))$', page).groups()
        count = re.search(rf'(?m)^\| `{call}` \| `{crate}` \| (\d+) \|', page)[1]
        ended = run('sh', '-c', command)
        self.ends(ended, 0, err=b'')
        said = rf'\A==== [\s\S]*\n==== {count} definitions, over \d+ names of the libraries\n\Z'
        self.assertRegex(ended.out.decode(), said)

    def test_demonstration_file(self):
        source_file, = TOP.glob('crates/*/src/demo.rt')
        source, = re.findall(r'r#"(.*?)"#;', source_file.read_text(), re.S)
        wanted = [line for line in text_of('examples/demo.toml').splitlines() if line]
        self.assertNotEqual(wanted, [])
        self.assertEqual([line for line in source.splitlines() if line], wanted)
