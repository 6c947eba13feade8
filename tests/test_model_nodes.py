"""Tests what ./nvme-model shows to programs: nodes in /dev and files in /sys, the data of namespaces, a library that
stays in all processes, and the installed tools. Nothing succeeds that a drive of Linux refuses or does in another way:
names of nodes, partitions, lengths, transfers, files with the names of nodes, and delayed commands."""

import re
import subprocess

from tests.modelled import DELAYING, ModelCase, do_helpers, installed
from tests.support import TOP, USERS, large_file, run


class Nodes(ModelCase, transcripts='shown nodes data tools names_of_nodes refused'):
    def test_many_nodes(self):
        # sixteen controllers with 1,024 namespaces each
        self.subsystem = self.file('many.toml', large_file(range(16), range(16)).encode())
        ended = self.shell('ls /dev | grep -c "^n[vg]"; ls /sys/class/block | wc -l; cat /sys/block/nvme15n1024/nsid; '
                           'find /sys/devices/pci0001:* -mindepth 5 -type f | wc -l; stat -c %h /sys/block/nvme9n9/ro')
        self.ends(ended, 0, err=b'')
        # (58 files for each block device, 2 for each generic node, and 10 for each controller's power and temperature;
        # what is the same for each is one file)
        self.assertEqual(ended.out.splitlines(),
                         [b'32784', b'16384', b'1024', b'%d' % (16384 * 60 + 16 * 10), b'16384'])

    def test_delayed_command_after_a_reset(self):
        # it fails at once when its controller is reset, by whatever way, and isn't done
        for reset in ('nvme reset /dev/nvme0', 'echo 1 > /sys/class/nvme/nvme0/reset_controller'):
            for user in USERS:
                with self.subTest(reset, user=user):
                    running = self.stepped('D=/dev/nvme0n1; echo data > $D; nvme format $D -l 1 -f 2>&1 & '
                                           'nvme write-zeroes $D -s 0 -c 0 2>&1 & step; nvme reset /dev/nvme1; '
                                           f'echo two; {reset}; wait; blockdev --getss $D; head -c 4 $D; '
                                           'nvme format $D -l 1 -f; blockdev --getss $D',
                                           lambda: self.assertTrue(do_helpers(DELAYING, 2)), user=user,
                                           options=['--delay=format=50', '--delay=write-zeroes=50'])
                    out = running.end().out
                    self.assertEqual(len(re.findall(rb'Interrupted system call', out)), 2, out)
                    self.assertTrue(out.endswith(b'512\ndataSuccess formatting namespace:1\n4096\n'), out)

    def test_registers(self):
        for geometry in ('', '--depth 2 --page-size 65536', '--depth 4096 --window 16',
                         '--depth=3 --page-size=8192 --window 2'):
            for number in 0, 1:
                with self.subTest(geometry=geometry, controller=number):
                    ended = self.model('nvme', 'show-regs', f'/dev/nvme{number}',
                                       options=['--trace', *geometry.split()])
                    self.ends(ended, 0)
                    shown = {name: int(value, 16) for name, value in re.findall(rb'(?m)^(\w+)\s+: (\w+)$', ended.out)}
                    written = {name: int(value, 16) for name, value in
                               re.findall(rb'(?m)^nvme%d write (A?[SQC.A-Zlowhig]+)=0x(\w+)$' % number, ended.err)}
                    self.assertEqual([shown[b'cc'], shown[b'aqa'], shown[b'csts'], shown[b'version']],
                                     [written[b'CC'], written[b'AQA'], 1, 0x10400], ended)
                    for queue in b'ASQ', b'ACQ':
                        self.assertEqual(shown[queue.lower()],
                                         written[queue + b'.high'] << 32 | written[queue + b'.low'])

    def test_commands_of_the_page(self):
        # each command that a table of NVME-MODEL says is refused, with its status
        more = {'device-self-test': '-s 1', 'sanitize': '-a 2', 'fw-commit': '-s 1 -a 1', 'write-uncor': '-s 0 -c 0',
                'security-recv': '-p 0 -x 64 -t 64', 'dir-receive': '-D 0 -O 1', 'virt-mgmt': '-c 1 -a 1',
                'get-lba-status': '-s 0 -m 1 -a 16', 'telemetry-log': f'-o {self.folder}/log',
                'persistent-event-log': '-a 0', 'fw-download': f'-f {self.file("firmware", bytes(4096))}'}
        table = (TOP / 'docs/NVME-MODEL.md').read_text().partition('## Commands of nvme-cli\n')[2].partition('\n## ')[0]
        rows = re.findall(r'(?m)^\| (`.*`) \| .*\((0x\w+)\)', table)
        self.assertEqual(len(rows), 4)
        for commands, status in rows:
            for command in re.findall('`(.*?)`', commands):
                with self.subTest(command):
                    node = '/dev/nvme0n1' if status == '0x4001' or command == 'get-lba-status' else '/dev/nvme0'
                    ended = self.model('nvme', command, node, *more.get(command, '').split())
                    self.assertIn(f'({status})'.encode(), ended.err + ended.out, ended)

    def test_examples(self):
        for output in sorted((TOP / 'examples').glob('*.txt')):
            script, subsystem = output.with_suffix('.sh'), output.with_suffix('.toml')
            # (tests/test_vm.py runs the one that needs a kernel)
            if script.exists() and not subsystem.exists() and '--vm' not in script.read_text():
                with self.subTest(script.name):
                    self.ends(self.model('sh', script), 0, output.read_bytes(), b'')

    def test_layout_of_guide(self):
        """The layout of GUIDE, made a script of nvme-cli by the page's command, creates three namespaces."""
        command = re.search(r'^    (sed .*) > layout\.sh$', (TOP / 'docs/GUIDE.md').read_text(), re.M).group(1)
        script = subprocess.run(command, shell=True, cwd=TOP, check=True, capture_output=True).stdout
        self.needs('nvme')
        ended = run(installed(), '--subsystem', TOP / 'examples/guide.toml', 'sh', self.file('layout.sh', script))
        self.ends(ended, 0, err=b'')
        self.assertEqual(re.findall(rb'created nsid:(\d)', ended.out), [b'1', b'2', b'3'])
        self.assertEqual(len(re.findall(rb'(?m)^/dev/nvme', ended.out)), 4)
