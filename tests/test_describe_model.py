"""Tests nvme-describe over ./nvme-model: 200 random subsystem files and the largest come back, what it sends is in a
trace, and what a script left is in the file, or in the commands at its end. The first commands of README describe a
drive, and find what a script meets there. What is described of QEMU's controllers is what they are: this needs what
tests/test_qemu.py needs, and Python in the guest, whose files are copied from this machine."""

import json
import random
import re
import shutil
import tomllib

from tests.described import MASKS, random_file
from tests.modelled import PROGRAMS, ModelCase, installed
from tests.support import DEMO, TOP, program, run
from tests.test_qemu import initial_files, kernel, why_not
from tests.test_subsystem_files import largest

DESCRIBE = TOP / 'nvme-describe'
FILES, MOST_AT_ONCE, SEED = 200, 16, 1
PYTHON = shutil.which('python3', path='/usr/bin')
# Two controllers of one subsystem: a namespace of both, one of each, and one of neither.
MACHINE = ('-device nvme-subsys,id=subsystem,nqn=described -device nvme,id=a,serial=A,subsys=subsystem,mdts=0 '
           '-device nvme,id=b,serial=A,subsys=subsystem -device nvme-ns,bus=a,drive=d1,nsid=1,shared=on '
           '-device nvme-ns,bus=a,drive=d2,nsid=2,shared=off,logical_block_size=4096,physical_block_size=4096 '
           '-device nvme-ns,bus=b,drive=d3,nsid=3,shared=off,ms=8,mset=1 '
           '-device nvme-ns,bus=b,drive=d5,nsid=5,detached=on').split()
# The places of fields that comments name by their bytes.
PLACES = {'acl': 258, 'aerl': 259, 'ocfs': 534, 'sgls': 536, 'dlfeat': 33, 'nows': 72, 'npdg': 68, 'npda': 70,
          'mssrl': 74, 'mcl': 76, 'msrc': 80}


def gets(text, selects):
    """Returns the commands of a script that show all features of a file's controllers."""
    words = [*(f'-f {fid}' for fid in MASKS), *(f'-n {nsid} -f 5' for nsid in range(1, 9)),
             *(f'-f 4 -c {selector << 16}' for selector in (*range(9), *range(16, 25)))]
    return [f'get-feature /dev/nvme{place} -s {select} {more}'
            for place in range(text.count('[[controller]]')) for more in words for select in selects]


def operations(source, text):
    """Returns random changes of the features that a file's controllers have, each as set_features.py takes it."""
    file = tomllib.loads(text)
    for _ in range(source.randint(1, 30)):
        place = source.randrange(len(file['controller']))
        fid = source.choice([*MASKS, 4])
        cntlid = file['controller'][place]['cntlid']
        having = [keys['nsid'] for keys in file.get('namespace', []) if cntlid in keys.get('controllers', [])]
        nsid = source.choice([*having, 0xffffffff]) if fid == 5 else 0
        value = source.getrandbits(32) & MASKS.get(fid, 0xffff)
        if fid == 4:
            value |= source.choice([*range(9), *range(16, 25), 15, 31]) << 16
        yield place, fid, nsid, value, source.randint(0, 1)


def compared():
    """Returns a shell script that shows what is compared, each after a line with its name."""
    commands = ['id-ctrl {} -o json', 'list-ns {}', 'list-ns {} --all']
    commands += [f'id-ns {{}} -n {nsid} -o json' for nsid in (1, 2, 3, 5)]
    commands += [f'get-feature {{}} -f {fid} -s {select} -n {1 if fid == 5 else 0}'
                 for fid in (1, 2, 4, 5, 6, 7, 8, 10, 11) for select in (0, 1, 3)]
    return ''.join(f'echo "> {command}"; nvme {command} 2>&1\n'.replace('{}', node)
                   for node in ('/dev/nvme0', '/dev/nvme1') for command in commands)


def answers(text):
    """Returns the answer to each command, by its words."""
    pieces = re.split(r'(?m)^> (.*)\n', text)[1:]
    return dict(zip(pieces[::2], map(str.strip, pieces[1::2])))


def python_files():
    """Returns the files that Python needs to run the program, by their paths."""
    listing = ('import contextlib, encodings.latin_1, runpy, sys\nsys.argv = ["nvme-describe", "/dev/null"]\n'
               'with contextlib.suppress(SystemExit): runpy.run_path(sys.argv[0], run_name="__main__")\n'
               'print(*[m.__file__ for m in sys.modules.values() if getattr(m, "__file__", None)], sep="\\n")')
    ended = run(PYTHON, '-I', '-c', listing)
    assert ended.status == 0, ended
    files = [line for line in ended.out.decode().splitlines() if line.startswith('/')]
    objects = run('ldd', PYTHON, *(path for path in files if path.endswith('.so'))).out.decode()
    return sorted({PYTHON, *files, *re.findall(r'(/\S+) \(0x', objects)})


def guest_files(folder):
    """Packs the files of tests/test_qemu.py with Python, the program and another script."""
    root = folder / 'root'
    for path in python_files():
        place = root / path[1:]
        place.parent.mkdir(parents=True, exist_ok=True)
        shutil.copy(path, place)
    shutil.copy(TOP / 'nvme-describe', root)
    script = 'stty -F /dev/ttyS1 raw\nfor more in "" --current; do\n    /nvme-describe $more /dev/nvme*\n' \
             '    echo "STATUS $?"\ndone\n/nvme-describe /dev/nvme1 /dev/null; echo "STATUS $?"\n'
    (root / 'guest.sh').write_text(script + compared())
    names = '\n'.join(str(path.relative_to(root)) for path in root.rglob('*'))
    ended = run('busybox', 'cpio', '-o', '-H', 'newc', source=names.encode(), cwd=root)
    assert ended.status == 0, ended
    both = folder / 'guest.cpio'
    both.write_bytes(initial_files().read_bytes() + ended.out)
    return both


def differing(command, one, other):
    """Returns what differs in the answers to a command: the names of fields, or the feature."""
    if one == other:
        return []
    if command.startswith('get-feature'):
        return [re.search(r'-f (\d+)', command)[1]]
    assert one.startswith('{') and other.startswith('{'), f'{command}\n{one}\n{other}'
    one, other = json.loads(one), json.loads(other)
    # (nvme-cli doesn't show some fields if a feature of the namespace is missing)
    return [key for key in one.keys() | other.keys() if one.get(key, 0) != other.get(key, 0)]


def pattern(name):
    """Returns a pattern of the comments that name what differs."""
    named = {'psds': 'power states', 'npss': 'power states', '7': 'only the commands, features'}
    if name.isdigit():
        return named.get(name, rf"Feature {name} on the drive|doesn't report feature {name}\b")
    return named.get(name, rf'\b{name.upper()}\b')


def is_in_bytes(name, comments):
    """Returns whether the bytes of a field are among those that a comment names by numbers."""
    runs = re.findall(r'(\d+)(?: to (\d+))?', ' '.join(re.findall(r'bytes ([\d, to]+)', comments)))
    return any(int(first) <= PLACES.get(name, -1) <= int(last or first) for first, last in runs)


class Described(ModelCase):
    def shown(self, text, asked, done=()):
        """Returns what commands show over the subsystem of a file, after others, which must succeed."""
        path = self.file('shown.toml', text.encode())
        ended = run(program('nvme_script'), '--subsystem', path, source='\n'.join([*done, *asked]).encode())
        for message in ended.err.decode().splitlines():
            number = int(re.match(r'line (\d+): ', message)[1])
            self.assertGreater(number, len(done), f'{done[number - 1:number]}: {message}')
        return ended.out.decode(), ended.err.decode()

    def all_of(self, text):
        """Returns all that nvme-script shows of the subsystem of a file, which is whatever its keys say."""
        asked = [f'{command} /dev/nvme{place}' for place in range(text.count('[[controller]]'))
                 for command in ('id-ctrl', 'smart-log', 'list-ns', 'list-ns -a')]
        asked += [f'id-ns /dev/nvme0 -f -n {nsid}' for nsid in range(1, tomllib.loads(text)['nn'] + 1)]
        return self.shown(text, [*asked, 'id-ns /dev/nvme0 -n 4294967295', *gets(text, range(4))])

    def come_back(self, *texts):
        """Checks that the subsystems of these files, each described by its controllers, are those of the files. Of one
        file, all nodes are named, of which some are those of namespaces."""
        files = [self.file(f'{number}.toml', text.encode()) for number, text in enumerate(texts)]
        first, script = 0, ''
        for path, text in zip(files, texts):
            nodes = [f'/dev/nvme{first + number}' for number in range(text.count('[[controller]]'))]
            script += f'"$1" {" ".join(nodes) if texts[1:] else "/dev/nvme*"} > {path}.out || exit\n'
            first += len(nodes)
        options = [word for path in files for word in ('--subsystem', path)]
        self.ends(run(installed(), *options, 'sh', '-c', script, 'sh', DESCRIBE), 0, b'', b'')
        for path, text in zip(files, texts):
            found = path.with_suffix('.toml.out').read_text()
            self.assertEqual(self.all_of(text), self.all_of(found), found)
            # (nothing differs, but for the log entry of a threshold and Error Recovery without a namespace)
            for line in re.findall('(?m)^#.*', found)[2:]:
                self.assertRegex(line, r"^# (/dev/nvme\d+ is /dev/nvme\d+ in the model|"
                                       r"The drive doesn't report feature 5)")

    def test_random_files(self):
        source = random.Random(SEED)
        for _ in range(0, FILES, MOST_AT_ONCE):
            self.come_back(*[random_file(source, source.choice([1, 2, 3, 16]), source.choice([1, 4, 8, 100]))
                             for _ in range(MOST_AT_ONCE)])

    def test_single_files(self):
        source = random.Random(SEED)
        for text in *(random_file(source, 4, 8) for _ in range(4)), largest():
            self.come_back(text)

    def test_one_of_two_controllers(self):
        ended = self.model(DESCRIBE, '/dev/nvme1')
        self.ends(ended, 0, err=b'')
        self.assertIn(b'# On the drive (and in the model): CMIC 0x2 (0x0).\n', ended.out)
        self.assertEqual(ended.out.count(b'[[controller]]'), 1)

    def test_trace(self):
        """What is sent is only Identify, Get Features and Get Log Page, the latter with RAE."""
        trace = self.folder / 'trace'
        ended = self.model('sh', '-c', '"$1" /dev/nvme*', 'sh', DESCRIBE, options=[f'--trace={trace}'])
        self.ends(ended, 0, err=b'')
        taken = re.findall(r'(?m)^nvme\d taken .* \((0x\w+)\) .*?(?: cdw10=(\w+).*)?$', trace.read_text())
        self.assertEqual({opcode for opcode, _ in taken}, {'0x02', '0x06', '0x0a'})
        # (the launcher reads the health log too, for temperatures, and without RAE, as Linux does)
        self.assertEqual({dword10 for opcode, dword10 in taken if opcode == '0x02'},
                         {f'{2 | 1 << 15 | 127 << 16:#x}', f'{2 | 127 << 16:#x}'})

    def test_log_entries(self):
        """One command of each controller is refused, and enters the error log."""
        ended = self.shell('"$1" /dev/nvme* > /dev/null; "$1" /dev/nvme*', DESCRIBE)
        counts = re.findall(rb'num_err_log_entries .*', ended.out)
        self.assertEqual(counts, [b'num_err_log_entries 0x1 (0x0). (Likewise /dev/nvme1.)'], ended)

    def values(self, text, lines, select):
        """Returns all values of features in the subsystem of a file after these lines of a script."""
        return re.findall(r'get-feature:.*', self.shown(text, gets(text, [select]), lines)[0])

    def test_features(self):
        """What is set in the model is in the file that is described then, or in the commands at its end."""
        source = random.Random(SEED)
        for _ in range(12):
            text = random_file(source, 3, 8)
            asked = list(operations(source, text))
            given = self.file('given', ''.join(f'{" ".join(map(str, one))}\n' for one in asked).encode())
            path, setter = self.file('left.toml', text.encode()), PROGRAMS / 'set_features.py'
            script = '/usr/bin/python3 "$1" < "$2" && "$3" /dev/nvme* && echo "# END" && "$3" --current /dev/nvme*'
            ended = run(installed(), '--subsystem', path, 'sh', '-c', script, 'sh', setter, given, DESCRIBE)
            self.ends(ended, 0, err=b'')
            done = [f'set-feature /dev/nvme{place} -f {fid} -n {nsid} -v {value}' + ' -s' * save
                    for place, fid, nsid, value, save in asked]
            # (some are refused, which the values don't show)
            refused = {int(number) for number in re.findall(r'(?m)^line (\d+): ', self.shown(text, done)[1])}
            done = [line for number, line in enumerate(done, 1) if number not in refused]
            wanted = {select: self.values(text, done, select) for select in range(4)}
            for found, selects in zip(ended.out.decode().split('# END\n'), ((0, 1, 2, 3), (0, 2, 3))):
                lines = re.findall(r'(?m)^# (nvme set-feature .*)$', found)
                for select in selects:
                    got = self.values(found, lines, select)
                    self.assertEqual(len(wanted[select]), len(got), found)
                    values = list(zip(wanted[3], wanted[select], got))
                    # (the saved value of a feature that can't be saved is its default, which is now another one)
                    if select == 2 and 1 not in selects:
                        values = [row for row in values if int(row[0].rpartition(':')[2], 0) & 1]
                    self.assertEqual([row[1] for row in values], [row[2] for row in values], (asked, found))

    def test_first_commands_of_readme(self):
        """They describe a drive, here the model of one, and its script ends as the picture shows."""
        self.needs('nvme')
        block = re.search(r'(?m)(?:^    .*\n)+', (TOP / 'README.md').read_text())[0]
        describe, copy, rehearse = [line.partition('#')[0].strip() for line in block.splitlines()]
        (self.folder / 'nvme-describe').symlink_to(DESCRIBE)
        (self.folder / 'nvme-model').symlink_to(installed())
        shutil.copy(TOP / 'examples/split.sh', self.folder / 'provision.sh')
        drive = TOP / 'examples/split.toml'
        self.ends(run(installed(), '--subsystem', drive, 'sh', '-c', describe, cwd=self.folder), 0, b'', b'')
        self.assertEqual((self.folder / 'drive.toml').read_text(), drive.read_text())
        self.assertEqual(copy, 'scp server:drive.toml .')
        said = (TOP / 'examples/split.txt').read_bytes()
        self.ends(run('sh', '-c', rehearse, cwd=self.folder, err='&1'), 1, said)

    def test_example(self):
        """The example's file has what its script made. Its commands work, by nvme-cli too, and then the next script has
        all that the first one left."""
        left = self.model('sh', TOP / 'examples/keep.sh')
        self.ends(left, 0, (TOP / 'examples/keep.txt').read_bytes(), b'')
        page = (TOP / 'docs/SUBSYSTEM-FILE.md').read_text()
        # (the page's command keeps what a script prints out of the file)
        keeping = re.search(r"(?m)^    \./nvme-model --subsystem my\.toml sh -c '(.*)' > after\.toml$", page)[1]
        self.file('layout.sh', b"echo said\nnvme set-feature /dev/nvme0 --feature-id 6 --value 0\n")
        (self.folder / 'nvme-describe').symlink_to(DESCRIBE)
        describing = re.search(r'(?m)^    (\./nvme-describe .*) > drive\.toml +# as root$', page)[1]
        self.assertEqual(self.all_of(self.shell(describing, cwd=self.folder).out.decode()),
                         self.all_of(DEMO.read_text()))
        kept = self.shell(keeping, cwd=self.folder)
        self.assertEqual(kept.status, 0, kept)
        self.assertTrue(kept.err.startswith(b'said\n'), kept)
        self.assertEqual(kept.out.splitlines()[-1], b'# nvme set-feature /dev/nvme0 -f 6 --value 0x0', kept)
        command = re.search(r'`(sed -n .*) drive\.toml`', page)[1]
        restored = run('sh', '-c', command, source=left.out).out
        self.assertEqual(restored, b'nvme set-feature /dev/nvme0 -f 6 --value 0x0\n')
        script = restored + (b'nvme list-ns /dev/nvme1; nvme id-ns /dev/nvme1n3\n'
                             b'nvme get-feature /dev/nvme0 -f 6; nvme get-feature /dev/nvme0 -f 6 -s 1\n')
        words = '--subsystem', self.file('after.toml', left.out), 'sh', self.file('next.sh', script)
        ended = run(installed(), *words)
        self.ends(ended, 0, err=b'')
        for text in (rb'\[   0\]:0x2\n', rb'\nnsze *: 0x400\n', rb'Current value:00000000\n',
                     rb'Default value:0x00000001\n'):
            self.assertRegex(ended.out, text)

    def booted(self):
        """Runs the machine, and returns what the guest wrote."""
        console, results, words = self.folder / 'console', self.folder / 'results', []
        for name in 'd1', 'd2', 'd3', 'd5':
            words += ['-drive', f'if=none,format=raw,id={name},file={self.file(name, bytes(1 << 20))}']
        ended = run('qemu-system-x86_64', '-nodefaults', '-display', 'none', '-no-reboot', '-m', '512M', *words,
                    *MACHINE, '-serial', f'file:{console}', '-serial', f'file:{results}',
                    '-kernel', kernel()[0], '-initrd', guest_files(self.folder),
                    '-append', 'console=ttyS0 panic=-1 no_timer_check')
        self.ends(ended, 0, b'')
        text = results.read_text(errors='replace')
        self.assertIn('END OF SCRIPT\n', text, console.read_text(errors='replace')[-3000:])
        return text.partition('END OF SCRIPT\n')[0]

    def test_controllers_of_qemu(self):
        """QEMU's controllers (-device nvme), in a machine with Linux: nvme-cli shows the same values over a model of
        the described file, apart from those that the file's comments name."""
        if why_not() or not PYTHON:
            self.skipTest(why_not() or 'there is no Python in /usr/bin')
        text = self.booted()
        default, current, wrong, there = re.split(r'STATUS (?=\d)', text)
        self.assertEqual([piece[:2] for piece in (current, wrong, there)], ['0\n', '0\n', '1\n'])
        self.assertEqual(wrong[2:], 'nvme-describe: /dev/null: this is not an NVMe controller\n')
        for file in default, current[2:]:
            self.differs_as_said(file, answers(there))

    def differs_as_said(self, file, there):
        """Compares what nvme-cli shows of the drive with what it shows over a model of the file, after the commands at
        the file's end."""
        path = self.file('described.toml', file.encode())
        self.ends(run(program('nvme_script'), '--subsystem', path), 0, b'', b'')
        commands = ''.join(f'{command} > /dev/null || exit\n' for command in re.findall('(?m)^# (nvme set-.*)$', file))
        ended = run(installed(), '--subsystem', path, 'sh', '-c', commands + compared())
        self.ends(ended, 0, err=b'')
        comments = re.sub(r'\n# ', ' ', '\n'.join(re.findall('(?m)^#.*', file)))
        here, count = answers(ended.out.decode()), 0
        self.assertEqual(here.keys(), there.keys())
        for command, one in there.items():
            for name in differing(command, one, here[command]):
                count += 1
                self.assertTrue(re.search(pattern(name), comments) or is_in_bytes(name, comments),
                                f'{name}: {command}\n{one}\n{here[command]}\n{comments}')
        self.assertGreater(count, 10)
