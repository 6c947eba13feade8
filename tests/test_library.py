"""Tests the library nvme_controller from programs in C, C++ and Python: the mistakes that its callers can make, what it
does to their memory, its symbols, the structures of its headers, and the programs of examples/c, which print what
nvme-script prints. These tests need the library, which the gate or `make library` makes from the current sources."""

import copy
import inspect
import pathlib
import pickle
import re
import shutil
import struct
import typing
import unittest

from tests import records
from tests.as_client import module_of
from tests.support import DEMO, TOP, Case, library, program, run

FLAGS = '-Wall', '-Wextra', '-Werror', '-fsanitize=address,undefined', '-fno-sanitize-recover=all', '-g'
WRAPPED = [f'-Wl,--wrap={name}' for name in ('malloc', 'calloc', 'realloc', 'free')]
# The structures of nvme_records.h, by the names of their layouts in tests/records.py.
STRUCTURES = {'sqe': 'submission_entry', 'cqe': 'completion_entry', 'error_entry': 'error_entry',
              'smart': 'smart_health', 'lbaf': 'lba_format', 'id_ns': 'identify_namespace',
              'id_ctrl': 'identify_controller'}


class Library(Case):
    def setUp(self):
        super().setUp()
        self.library = library()

    def python(self, *words, cwd=TOP, **env):
        return run('/usr/bin/env', 'python3', *words, cwd=cwd,
                   env={'PYTHONPATH': self.library, 'PYTHONDONTWRITEBYTECODE': '1', **env})

    def compile(self, source, *options, compiler='cc', standard='c99'):
        made = self.folder / 'program'
        self.ends(run(compiler, f'-std={standard}', *FLAGS, '-I', self.library, '-o', made, source, *options,
                      self.library / 'libnvme_controller.a'), 0, b'', b'')
        return made

    def test_what_callers_get_wrong(self):
        for source, options in ('library.c', WRAPPED), ('library_queues.c', ()):
            with self.subTest(source):
                ended = run(self.compile(TOP / 'tests' / source, '-D_DEFAULT_SOURCE', *options))
                self.assertEqual((ended.status, ended.err), (0, b''), ended)
                self.assertRegex(ended.out, rb'\A\d{4,} checks, 0 failed\n\Z', ended)

    def test_symbols(self):
        """Other files can use the header's calls alone."""
        header = re.sub(r'/\*.*?\*/', '', (TOP / 'library/nvme_controller.h').read_text(), flags=re.S)
        calls = sorted(re.findall(r'(nvme_\w+)\(', header))
        self.assertIn('nvme_machine_turn', calls)
        for file, option in ('libnvme_controller.so', '--dynamic'), ('libnvme_controller.a', '--extern-only'):
            ended = run('nm', '--defined-only', '--format=posix', option, self.library / file)
            found = [line.split() for line in ended.out.decode().splitlines() if ' ' in line]
            self.assertEqual(sorted(words[0].split('@')[0] for words in found if words[1] in 'TDBRVW'), calls, ended)
        ended = run('readelf', '--dynamic', '--wide', self.library / 'libnvme_controller.so')
        for mark in b'soname: [libnvme_controller.so.1]', b'BIND_NOW':
            self.assertIn(mark, ended.out, ended)
        self.assertEqual(len(re.findall(rb'\(NEEDED\)', ended.out)), 1, ended)

    def test_beside_another_library_of_the_toolchain(self):
        memory = pathlib.Path(run('rt', 'doc').out.decode().strip()).parent / 'c/liblibc_c.a'
        # (the proved calls themselves, without those that have the names of the header's)
        other = self.folder / 'libother.a'
        self.ends(run('objcopy', '--wildcard', '--localize-symbol=nvme_*_queue_*',
                      TOP / 'crates/nvme_controller/out/libnvme_controller.a', other), 0, b'', b'')
        whole = '-Wl,--whole-archive', other, memory, self.library / 'libnvme_controller.a', '-Wl,--no-whole-archive'
        made = self.folder / 'program'
        self.ends(run('cc', '-I', self.library, '-o', made, TOP / 'tests/library/two.c', *whole), 0, b'', b'')
        self.ends(run(made), 0, b'', b'')

    def test_records(self):
        lines, wanted = [], []
        for kind, (layout, _) in records.LAYOUTS.items():
            record, size = f'struct nvme_{STRUCTURES[kind]}', struct.calcsize(layout)
            found = records.places(kind)
            lines += [*(f'SHOW({record}, {name})' for name in found), f'SIZE({record})']
            wanted += [*(f'{record} {name} {place} {length}' for name, (place, length) in found.items()),
                       f'{record} {size}']
        source, fields = TOP / 'tests/library/records.c', self.file('fields', '\n'.join(lines).encode())
        for standard in 'c99', 'c11':
            made = self.compile(source, f'-DFIELDS="{fields}"', '-Wpedantic', standard=standard)
            self.ends(run(made), 0, '\n'.join([*wanted, '']).encode(), b'')

    def test_bench(self):
        wanted = run(program('nvme_script'), '--subsystem', DEMO, source=TOP / 'tests/library/bench.nvme')
        self.assertIn(b'status_field        : 0x6115\n', wanted.out, wanted)
        self.assertEqual(wanted.err, b'line 5: NVMe status: Namespace Insufficient Capacity (0x6115)\n', wanted)
        made, python = self.compile(TOP / 'examples/c/bench.c'), TOP / 'examples/c/bench.py'
        for ended in run(made), run(made, DEMO), self.python(python), self.python(python, DEMO):
            self.ends(ended, 0, wanted.out, wanted.err[len('line 5: '):])

    def test_blocks(self):
        self.ends(run(self.compile(TOP / 'examples/c/blocks.c')), 0,
                  b'write: Success, 1 completion waits\nread: Success, 1 completion waits\none block\n', b'')

    def test_texts_of_faults(self):
        made = self.compile(TOP / 'examples/c/bench.c')
        for old, new, text in ((b'nn = 4', b'nn = 0', b'out of range top.nn'), (b'nn = 4', b'', b'missing top.nn'),
                               (b'nn = 4', b'nn = "4"', b'wrong kind top.nn'), (b'nn = 4', b'nn = ', b'not TOML'),
                               (b'\nmc', b'\nm', b'unknown key in top'), (b'tnvmcap =', b'tnvmcap = 1 #', b'capacity')):
            fault = self.file('fault.toml', DEMO.read_bytes().replace(old, new, 1))
            self.ends(run(made, fault), 3, b'', b'bench: ' + text + b'\n')

    @unittest.skipUnless(shutil.which('c++'), 'there is no C++ compiler')
    def test_header_in_cpp(self):
        self.ends(run(self.compile(TOP / 'tests/library/use.cpp', compiler='c++', standard='c++11')), 0, b'', b'')

    def test_speed_of_a_turn(self):
        """The command of EMBEDDING, in a folder like the repository's, prints how long each call took."""
        command, = re.findall(r'(?m)^    (cc .* && out/speed)$', (TOP / 'docs/EMBEDDING.md').read_text())
        (self.folder / 'out').mkdir()
        (self.folder / 'out/library').symlink_to(self.library)
        (self.folder / 'examples').symlink_to(TOP / 'examples')
        ended = run('sh', '-c', command, cwd=self.folder)
        self.ends(ended, 0, err=b'')
        self.assertRegex(ended.out, rb'\A(a (command with (a page|none)|register read|copy of a page) +\d+ ns\n){4}\Z')

    def test_python_finds_the_library(self):
        """In the folder of the module, in lib beside that folder or above, by the variable, and by pkg-config."""
        use = 'import nvme_controller as nvme; print(nvme.version(), nvme.Machine().controllers())'
        wanted = (TOP / 'VERSION').read_bytes().strip() + b' 2\n'
        made, elsewhere = self.library / 'libnvme_controller.so.1', self.folder / 'elsewhere'
        self.file('nvme_controller.pc', f'libdir={elsewhere}\nName: n\nDescription: d\nVersion: 1\n'.encode())
        rows = [('beside', 'beside', {}), ('one/share', 'one/lib', {}), ('two/share/module', 'two/lib', {}),
                ('variable', elsewhere, {'NVME_CONTROLLER': elsewhere / made.name})]
        rows += [('package', elsewhere, {'PKG_CONFIG_PATH': self.folder})] * bool(shutil.which('pkg-config'))
        for module, place, env in rows:
            with self.subTest(module):
                for name in module, place:
                    (self.folder / name).mkdir(parents=True, exist_ok=True)
                shutil.copy(self.library / 'nvme_controller.py', self.folder / module)
                shutil.copy(made, self.folder / place)
                self.ends(self.python('-c', use, PYTHONPATH=self.folder / module, **env), 0, wanted, b'')
        ended = self.python('-c', use, PYTHONPATH=self.folder / 'variable', PKG_CONFIG_PATH=elsewhere)
        self.assertEqual((ended.status, ended.out), (1, b''), ended)
        self.assertRegex(ended.err, rb'\nOSError: libnvme_controller.so.1: .*; the variable NVME_CONTROLLER can name')

    def test_example_of_a_unit_test(self):
        ended = self.python('-m', 'unittest', 'test_driver', cwd=TOP / 'examples/c')
        self.assertEqual(ended.status, 0, ended)
        self.assertRegex(ended.err, rb'Ran 4 tests in .*\n\nOK\n\Z')


def entry(opcode, cid, nsid=0, prp1=0, cdw10=0):
    return struct.pack('<BxHI16xQ8xI20x', opcode, cid, nsid, prp1, cdw10)


class Module(Case):
    """The calls in Python, in this process. A machine has two controllers, and a queue four slots."""

    def setUp(self):
        super().setUp()
        self.nvme = nvme = module_of(library())
        self.machine, self.memory = nvme.Machine(), bytearray(16 * 4096)
        self.submissions, self.completions = nvme.SubmissionQueue(1, 0x2000, 4), nvme.CompletionQueue(0x3000, 4)
        self.data = bytearray(4 * 512)
        self.blocks = nvme.Blocks(self.data, 1, 512)

    def refuses(self, error, *calls):
        for call, *arguments in calls:
            with self.subTest(f'{call} {arguments}'), self.assertRaises(error):
                call(*arguments)

    def test_names_of_statuses(self):
        found = re.findall(r'NVME_STATUS_(\w+) = (0x\w{3})\b', (TOP / 'library/nvme_records.h').read_text())
        self.assertEqual(len(found), 21)
        by_code = {int(code, 16): name for name, code in found}
        for status in range(0x10000):
            name = self.nvme.status_text(status).upper().replace(' ', '_')
            self.assertEqual(name, by_code.get(status & 0x7ff, 'UNKNOWN'), status)

    def test_machine(self):
        machine, nvme = self.machine, self.nvme
        self.assertEqual((machine.controllers(), machine.counts(0), machine.log_entry(0, 0)), (2, (0, 0), None))
        self.assertEqual((machine.read32(2, nvme.VS), machine.turn(0, bytearray(4096))), (0xffff_ffff, 0))
        machine.close()
        machine.close()
        self.refuses(ValueError, (machine.read32, 0, 0))

    def test_faults(self):
        for file, number, text in (b'[', 1, 'not TOML'), (b'', 2, 'missing top.version'):
            with self.assertRaises(self.nvme.Fault) as raised:
                self.nvme.Machine(file)
            fault = raised.exception
            for other in fault, pickle.loads(pickle.dumps(fault)), copy.copy(fault):
                self.assertEqual((other.number, str(other), repr(other)), (number, text, f"Fault({number}, '{text}')"))

    def test_answered_entries(self):
        # an entry that is completed, and one that is held
        machine, memory, nvme = self.machine, self.memory, self.nvme
        machine.write32(0, nvme.AQA, 0x00030003)
        machine.write64(0, nvme.ACQ, 0x1000)
        machine.write32(0, nvme.CC, 0x00460001)
        memory[:128] = entry(0x0c, 7) + entry(0x05, 8)
        self.assertIsNone(machine.next(0, memory))
        machine.write32(0, nvme.TAIL_DOORBELL, 2)
        self.assertEqual([machine.next(0, memory), machine.fetch(0, memory)], [memory[:64]] * 2)
        self.assertTrue(machine.complete(0, memory, nvme.Answer(status=0x4101)))
        self.assertIsNone(machine.next(0, memory))
        self.assertTrue(machine.post(0, memory, nvme.Answer(cid=7, dword0=3)))
        self.assertEqual(machine.counts(0), (0, 0))
        self.assertEqual(memory[0x1000:0x1020], struct.pack(
            '<IIHHHHIIHHHH', 0, 0, 2, 0, 8, 0x4101 << 1 | 1, 3, 0, 2, 0, 7, 1))
        self.assertEqual((machine.identify(0)[4:6], machine.identify(2), machine.namespace(0, 0)), (b'S0', None, None))
        self.assertEqual(machine.namespace(0, 1), machine.namespace(0, 1, True))

    def test_queues(self):
        nvme, memory, blocks, completions = self.nvme, self.memory, self.blocks, self.completions
        queues = self.submissions, completions, memory
        self.assertEqual((nvme.queue_next(*queues), nvme.queue_turn(*queues, blocks)), (None, None))
        memory[0x4000:0x4200] = b'b' * 512
        memory[0x2000:0x20c0] = entry(1, 1, 1, 0x4000, 3) + entry(2, 2, 1, 0x5000, 4) + entry(0, 3, 1)
        self.assertEqual([self.submissions.tail(3), self.submissions.tail(4)], [True, False])
        self.assertEqual((self.submissions.waiting(), nvme.queue_next(*queues)), (3, entry(1, 1, 1, 0x4000, 3)))
        self.assertEqual((nvme.queue_turn(*queues, blocks), self.data), (0, bytes(1536) + b'b' * 512))
        self.assertEqual(nvme.queue_turn(*queues, blocks), 0x4080)
        self.assertIs(nvme.queue_complete(*queues, nvme.Answer(status=2)), True)
        self.assertEqual([completions.waiting(), completions.head(3), completions.head(1), completions.waiting()],
                         [3, True, False, 0])
        self.assertIs(nvme.queue_complete(*queues, nvme.Answer()), False)
        for opcode, prp1, cdw10, zeroed in (8, 0, 2, [(1024, 512)]), (8, 0, 4, None), (2, 0x4000, 2, []):
            self.assertEqual(nvme.blocks_zeroing(blocks, entry(opcode, 9, 1, prp1, cdw10), memory), zeroed)
        self.assertEqual([nvme.entry_write(entry(6, 1, prp1=place), memory, b'data') for place in (0x6000, 1 << 20)],
                         [0, 0x4004])
        self.assertEqual(memory[0x6000:0x6004], b'data')

    def test_wrong_numbers(self):
        # those that a C type can't hold, and queues that aren't in the memory
        nvme, machine, memory, turn, wide = self.nvme, self.machine, self.memory, self.machine.turn, 1 << 64
        outside, queues = nvme.SubmissionQueue(1, 1 << 30, 4), (self.submissions, self.completions, memory)
        outside.tail(1)
        self.refuses(
            ValueError, (machine.read32, 0x10000, 0), (machine.read32, -1, 0), (machine.read32, 0, 1 << 32),
            (machine.read64, 0x10000, 0), (machine.write32, 0, nvme.ASQ, 1 << 32), (machine.write32, 0, nvme.ASQ, -1),
            (machine.write32, 0x10000, 0, 0), (machine.write64, 0, nvme.ASQ, wide), (machine.write64, 0, 1 << 32, 0),
            (machine.counts, 0x10000), (machine.log_entry, 0x10000, 0), (machine.log_entry, 0, wide),
            (machine.log_entry, 0, -1), (machine.error_log, 0x10000), (turn, 0x10000, memory),
            (turn, 0, memory, 1 << 32), (turn, 0, memory, 4096, 0x10000), (turn, 0, memory, 4095),
            (nvme.status_text, 0x10000), (nvme.SubmissionQueue, 1, 0, 1), (nvme.SubmissionQueue, 0x10000, 0, 4),
            (nvme.SubmissionQueue, 1, wide, 4), (nvme.CompletionQueue, 0, 4097), (nvme.CompletionQueue, -1, 4),
            (self.submissions.tail, 1 << 32), (self.completions.head, -1), (nvme.Answer, 0x8000),
            (nvme.Answer, 0, 1 << 32), (nvme.Answer, 0, 0, 0x10000), (nvme.queue_next, outside, *queues[1:]),
            (nvme.queue_next, *queues, 4095), (nvme.queue_complete, outside, *queues[1:], nvme.Answer()),
            (nvme.entry_write, b'', memory, b''), (nvme.queue_turn, *queues, nvme.Blocks(self.data, -1, 512)),
            (nvme.queue_turn, *queues, nvme.Blocks(self.data, 1, 512, wide)))
        self.assertIsNone(nvme.queue_turn(outside, *queues[1:], self.blocks))
        self.assertEqual((machine.read64(0, nvme.ASQ), machine.controllers()), (0, 2))

    def test_wrong_types(self):
        # also copies of a machine
        machine, nvme = self.machine, self.nvme
        self.refuses(TypeError, (machine.read32, 0, 1.0), (machine.read32, '0', 0), (nvme.Machine, 'version = 1'),
                     (machine.turn, 0, bytes(4096)), (copy.copy, machine), (copy.deepcopy, machine),
                     (pickle.dumps, machine))

    def test_type_hints(self):
        nvme, names = self.nvme, set()
        for owner in (nvme, nvme.Machine, nvme.Fault, nvme.ErrorEntry, nvme.Answer, nvme.SubmissionQueue,
                      nvme.CompletionQueue):
            for name, call in inspect.getmembers(owner, inspect.isroutine):
                if getattr(call, '__module__', None) == 'nvme_controller':
                    names.add(name)
                    wanted = {*inspect.signature(call).parameters, 'return'} - {'self', 'cls', '_'}
                    self.assertLessEqual(wanted, {*typing.get_type_hints(call)}, name)
        self.assertLess({'turn', 'status_text', 'error_log', '__enter__'}, names)
