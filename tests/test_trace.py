"""Runs nvme-trace. Transcripts compare its trace of examples/demo.nvme with examples/trace.txt, and the text after `| `
in a trace with what nvme-script writes for the same script. The scripts of tests/traces have the traces below them."""

import re

from tests.support import DEMO, TOP, Case, large_file, program, run
from tests.test_many_lines import REFUSAL, error_text

TRACE = program('nvme_trace')


class Traces(Case, transcripts='trace'):
    env = {'trace': TRACE, 'script': program('nvme_script'), 'device': program('nvme_device')}

    def test_whole_traces(self):
        files = sorted(TOP.glob('tests/traces/*.txt'))
        self.assertGreaterEqual(len(files), 3)
        for file in files:
            with self.subTest(file.name):
                text = re.sub(rb'(?m)^(#.*)?\n', b'', file.read_bytes())
                options, script = (b''.join(re.findall(rb'(?m)^%s (.*\n)' % mark, text)) for mark in (b'options', b'>'))
                wanted = re.sub(rb'(?m)^(options|>) .*\n', b'', text)
                self.ends(run(TRACE, *options.split(), source=script), 0, wanted, b'')

    def test_each_of_sixteen_controllers(self):
        # the most that a file can have; `list` sends two Identify commands to each
        file = self.file('sixteen.toml', large_file(range(16), []).encode())
        ended = run(TRACE, '--subsystem', file, source=b'list\n')
        self.ends(ended, 0, err=b'')
        for event in 'taken Identify', 'posted':
            found = re.findall(rf'(?m)^nvme([0-9]+) {event} ', ended.out.decode())
            self.assertEqual(found, [str(ctrl) for ctrl in range(16) for _ in range(2)], ended.line)


class DataPointers(Case):
    """Checks the offsets of PRP1 and PRP2 in their pages, in the last entry. Section "Physical Region Page Entry and
    List"."""

    entry = re.compile(r'(?m)^nvme0 taken .* \((0x\w+)\) cid=(0x\w+) .* prp1=(0x\w+) prp2=(0x\w+)')

    def last_entry(self, ended, place):
        """Returns the opcode and the data pointers of the last entry, which is at this place."""
        self.ends(ended, 0, err=b'')
        entries = [[int(number, 16) for number in entry] for entry in self.entry.findall(ended.out.decode())]
        opcode, cid, prp1, prp2 = entries[-1]
        self.assertEqual(len(entries), place + 1)
        return opcode, cid, prp1, prp2

    def test_data_begins_at_the_offset(self):
        script = b'list-ns /dev/nvme0\nid-ns /dev/nvme0n3\nlist-ns /dev/nvme0'
        for page_size, offset, has_second in (
                (4096, 0, False), (4096, 4, True), (4096, 4092, True), (65536, 61440, False), (65536, 61444, True)):
            options = f'--depth 2 --page-size {page_size} --offset {offset}'
            with self.subTest(options):
                ended = run(TRACE, *options.split(), source=script)
                opcode, cid, prp1, prp2 = self.last_entry(ended, 2)
                self.assertEqual((opcode, cid, prp1 % page_size), (6, 2, offset))
                self.assertEqual((prp2 % page_size, prp2 != 0), (0, has_second))
                self.assertIn(b'\nnvme0 write AQA=0x10001\n', ended.out)

    def test_a_log_of_256_errors_over_pages_of_each_kind(self):
        """The log takes five pages if it begins inside a page. The first Qword of its list is the address of the next
        list page, or two entries come before that address, or all four fit."""
        script = b'id-ns /dev/nvme0 -n 0\n' * 300 + b'error-log /dev/nvme0 -e 256\n'
        lines = [f'line {number}: {REFUSAL}\n' for number in range(1, 301)]
        lines += [error_text(index, 300 - index, 299 - index) for index in range(256)]
        for version in 1, 2:
            file = DEMO.read_text().replace('version = 1', f'version = {version}').replace('elpe = 3', 'elpe = 255')
            file = self.file('errors.toml', file.encode())
            for offset, list_offset in (0, 0), (4, 4088), (4, 4072), (4, 4064):
                options = f'--page-size 4096 --offset {offset} --list-offset {list_offset}'
                with self.subTest(options, version=version):
                    ended = run(TRACE, '--subsystem', file, *options.split(), source=script)
                    opcode, _, prp1, prp2 = self.last_entry(ended, 301)
                    self.assertEqual((opcode, prp1 % 4096, prp2 % 4096), (2, offset, list_offset))
                    ended.out = b''.join(re.findall(rb'(?m)^\| (.*\n)', ended.out))
                    self.ends(ended, 0, ''.join(lines).encode())
