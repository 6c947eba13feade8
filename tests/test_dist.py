"""Makes the packages twice, and compares all bytes. The archive works below a folder with a blank in its name, where
its files are read-only and belong to another user, and its `install` copies it and removes all of it. Of the Debian
packages, it is checked which files they have, with which owners and versions, and that no link of their pages is
broken. The jobs of SUPPORT run with the archive. Each digest of each PROVED is compared. These tests need all that is
packed, see tools/dist, but one packs nvme-script and nvme-model alone."""

import functools
import gzip
import hashlib
import os
import re
import shutil
import tarfile
import unittest

from tests.modelled import VERSION
from tests.pages import Page
from tests.support import LIMIT, TOP, Case, library, process_folder, run

DIST = TOP / 'tools/dist'
ARCHIVE = f'nvme-script-{VERSION}-linux-x86_64'
PROGRAMS = {'nvme_script': 'lib/nvme-model/nvme_script', 'nvme_explain': 'lib/nvme-model/nvme_explain',
            'nvme_device': 'lib/nvme-model/nvme_device', 'nvme_trace': 'bin/nvme-trace', 'nvme_bench': 'bin/nvme-bench'}


@functools.lru_cache(maxsize=None)
def dist(number=0):
    """Makes the packages, the second time with other settings, and returns their folder, if all that is packed was
    built."""
    if shutil.which('dh_builddeb') is None:
        raise unittest.SkipTest('there is no debhelper')
    library()
    into = process_folder() / f'dist {number}'
    mask, settings = [('022', {}), ('077', {'TZ': 'Asia/Tokyo', 'LC_ALL': 'C.UTF-8', 'HOME': '/'})][number]
    ended = run('sh', '-c', f'umask {mask}; exec "$@"', 'sh', DIST, '--with-changes', '--into', into, env=settings)
    if b'there is no proved' in ended.err:
        raise unittest.SkipTest(ended.err.decode().splitlines()[0])
    if ended.status != 0:
        raise AssertionError(ended)
    return into


@functools.lru_cache(maxsize=None)
def unpacked():
    """Unpacks the packages, the archive to a read-only folder. Returns this folder, and one with the folders of the
    Debian packages."""
    place, roots = process_folder() / 'a folder', process_folder() / 'roots'
    place.mkdir()
    roots.mkdir()
    shutil.copy(dist() / f'{ARCHIVE}.tar.xz', place)
    ended = run('sh', '-ec', f'''umask 077; chmod 644 {ARCHIVE}.tar.xz
        tar xf {ARCHIVE}.tar.xz; chmod -R a+rX,a-w {ARCHIVE}
        for path in "$1"/*.deb; do
            name=${{path##*/}} && dpkg-deb -R "$path" "$2/${{name%%_*}}"
        done''', 'sh', dist(), roots, cwd=place)
    if ended.status != 0:
        raise AssertionError(ended)
    return place / ARCHIVE, roots


def files_of(folder):
    """Returns the files of a folder that are no links."""
    return [path for path in folder.rglob('*') if path.is_file() and not path.is_symlink()]


def sha256(path):
    return hashlib.sha256(path.read_bytes()).hexdigest()


def digests_in(folder):
    return {path.name: sha256(path) for path in folder.iterdir()}


def cloned(clone, *crates):
    """Makes a clone, to which the proved programs or calls of these crates are copied, with their stamps."""
    if run('git', 'status', '--porcelain').out:
        raise unittest.SkipTest('some files are not as they were committed')
    run('git', 'clone', '-q', TOP, clone)
    for name in crates:
        made = TOP / 'crates' / name / 'out'
        for path in *made.glob(name), *made.glob('*.a'), TOP / f'out/stamp.{name}':
            (clone / path.relative_to(TOP)).parent.mkdir(parents=True, exist_ok=True)
            shutil.copy(path, clone / path.relative_to(TOP))
    return clone


class DistCase(Case):
    @classmethod
    def setUpClass(cls):
        cls.archive, folder = unpacked()
        cls.roots = {path.name: path for path in sorted(folder.iterdir())}
        # each PROVED, with the folder of its programs
        cls.proved = {cls.archive / 'PROVED': cls.archive, **{
            root / f'usr/share/doc/{name}/PROVED': root / 'usr' for name, root in cls.roots.items()}}
        cls.env = {'archive': cls.archive, 'dist': dist(), 'roots': folder, 'version': VERSION}


class Archive(DistCase, transcripts='archive'):
    """What the archive does, which leaves it as it was."""

    def setUp(self):
        super().setUp()
        self.folder.chmod(0o777)
        before = self.times()
        self.addCleanup(lambda: self.assertEqual(self.times(), before))

    def times(self):
        return {path: path.lstat().st_mtime_ns for path in self.archive.rglob('*')}


class Packages(DistCase, transcripts='packages'):
    def test_two_runs_give_the_same_bytes(self):
        self.assertEqual(digests_in(dist()), digests_in(dist(1)))

    def test_archive_has_one_owner_and_date(self):
        date = int(run('git', 'log', '-1', '--format=%ct').out)
        with tarfile.open(dist() / f'{ARCHIVE}.tar.xz') as archive:
            members = archive.getmembers()
        self.assertEqual([member.name for member in members], sorted(member.name for member in members))
        self.assertEqual({(member.uid, member.gid, member.uname, member.gname, member.mtime) for member in members},
                         {(0, 0, 'root', 'root', date)})
        self.assertLessEqual({oct(member.mode) for member in members if not member.issym()}, {'0o755', '0o644'})

    def test_every_file_of_the_archive_is_in_one_package(self):
        packed = {hashlib.sha256(gzip.decompress(path.read_bytes())).hexdigest() if '/man/' in str(path) else
                  sha256(path) for root in self.roots.values() for path in files_of(root / 'usr')}
        self.assertEqual([path for path in files_of(self.archive) if path.suffix not in ('.md', '.pc')
                          and path.name not in ('PROVED', 'install') and sha256(path) not in packed], [])

    def test_links_of_pages(self):
        whole = self.folder / 'root'
        for root in self.roots.values():
            shutil.copytree(root / 'usr', whole / 'usr', dirs_exist_ok=True, symlinks=True)
        pages = [Page(str(path)) for path in whole.rglob('*.md')]
        self.assertGreater(len(pages), 9)
        self.assertEqual([link for page in pages for link in page.broken_links()], [])

    def test_what_proved_says_makes_the_same_packages(self):
        """A clone has only the proved programs and calls, with their stamps."""
        said, = {re.search(r'(?m)^# To make this again.*\n#\n((?:#     .*\n)+)', path.read_text())[1]
                 for path in self.proved}
        clone = cloned(self.folder / 'clone', *PROGRAMS, 'nvme_controller')
        self.ends(run('sh', '-ec', said.replace('# ', ''), cwd=clone, limit=3 * LIMIT), 0)
        self.assertEqual(digests_in(dist()), digests_in(clone / 'out/dist'))


class Proved(DistCase):
    def sections(self, path):
        """Returns the sections of a PROVED, by the first word of each but the first one."""
        first, *others = re.split(r'(?m)^#\n# (?=[A-Z].*:\n#\n)', path.read_text())
        return {'': first, **{re.match(r'\w+', other)[0]: other for other in others}}

    def digests(self, path, *names):
        """Returns the digest of each file in these sections."""
        text = ''.join(self.sections(path).get(name, '') for name in names)
        return {file: sum for sum, file in re.findall(r'(?m)^([0-9a-f]{64})  (.+)$', text)}

    def test_head(self):
        commit, toolchain, compiler = (run(*command.split()).out.decode().splitlines()[0] for command in (
            'git rev-parse HEAD', 'rt version', 'cc --version'))
        for path in self.proved:
            with self.subTest(path):
                sections = self.sections(path)
                head = sections[''].splitlines()
                self.assertEqual(head[:2], [f'# nvme-script {VERSION} for Linux on x86-64', f'# commit {commit}'])
                self.assertLessEqual({f'# toolchain {toolchain}', f'# C compiler {compiler}'}, set(head))
                self.assertTrue(sections['To'].endswith('\n#     make packages\n'), sections['To'])

    def test_digests_of_programs(self):
        for path, place in self.proved.items():
            with self.subTest(path):
                programs = self.digests(path, 'Proved', 'Programs')
                self.assertEqual({name: sha256(place / name) for name in programs}, programs)
                binaries = {str(file.relative_to(place)) for file in files_of(place)
                            if file.read_bytes()[:4] in (b'\x7fELF', b'!<ar')}
                self.assertLessEqual(binaries, set(programs))

    def test_proved_programs_are_those_that_were_built(self):
        wanted = {name: sha256(TOP / 'crates' / crate / 'out' / crate) for crate, name in PROGRAMS.items()}
        self.assertEqual(self.digests(self.archive / 'PROVED', 'Proved'), wanted)
        for path in self.proved:
            self.assertLessEqual(self.digests(path, 'Proved').items(), wanted.items(), path)

    def test_digests_of_sources(self):
        commands = [['git', 'ls-files', 'client', 'library', 'VERSION', 'nvme-describe', 'nvme-script'],
                    *([TOP / 'tools/stamp', 'files', crate] for crate in (*PROGRAMS, 'nvme_controller'))]
        wanted = {line for command in commands for line in run(*command).out.decode().splitlines()}
        self.assertGreater(len(wanted), 500)
        for path in self.proved:
            with self.subTest(path):
                sources = self.digests(path, 'Sources')
                self.assertEqual({name: sha256(TOP / name) for name in sources}, sources)
                self.assertLessEqual(set(sources), wanted)
        self.assertEqual(set(self.digests(self.archive / 'PROVED', 'Sources')), wanted)

    def test_digests_of_the_toolchain(self):
        kit = os.path.dirname(os.path.dirname(os.path.realpath(shutil.which('rt'))))
        listed = run('sh', '-c', 'cd "$1" && find bin c -type f -exec sha256sum {} +', 'sh', kit).out.decode()
        wanted = dict(reversed(line.split()) for line in listed.splitlines())
        for path in self.proved:
            self.assertEqual(self.digests(path, 'Toolchain'), wanted)


class Part(Case, transcripts='packages_of_two'):
    """A clone in which only nvme-script and nvme-model were built."""

    def setUp(self):
        super().setUp()
        for name in 'nvme_script', 'nvme_device':
            if run(TOP / 'tools/stamp', 'is-current', name).status != 0:
                self.skipTest(f'there is no proved {name} of these sources')
        self.env = {'clone': cloned(self.folder / 'clone', 'nvme_script', 'nvme_device'), 'version': VERSION}


class First(Case, transcripts='unbuilt'):
    pass
