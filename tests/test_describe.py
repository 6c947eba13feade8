"""Tests nvme-describe over drives that tests/described.py stands for: what it sends, drives that misbehave, what its
comments say, and 4,000 drives with random answers. What it prints is always a file that nvme-script accepts."""

import errno
import random
import re
import struct
import unittest.mock

from tests.described import (
    EVERY, GET_FEATURES, GET_LOG, GREATEST, IDENTIFY, PROGRAM, REFUSED, Drive, Plain, Wild, described, error, identity,
    namespace, ns_list, unnamed_differences, unnamed_values, with_fields)
from tests.support import TOP, Case, program, run

DRIVES = 4000


def changed(**fields):
    """Returns a plain drive whose controller has these fields."""
    return Plain({(IDENTIFY, 1): identity(**fields)})


def shaped(*lbads, **fields):
    """Returns a plain drive with a namespace of these formats and fields."""
    return Plain({(IDENTIFY, 0, EVERY): namespace(blocks=0, lbads=lbads)}, {1: namespace(lbads=lbads, **fields)})


def reporting(fid, current, capabilities=4, default=0, saved=0):
    """Returns a plain drive with these values of a feature."""
    values = {0: current, 1: default, 2: saved, 3: capabilities}
    return Plain({(GET_FEATURES, fid): lambda nsid, dword10, dword11: (0, values[dword10 >> 8 & 7], b'')})


class Describe(Case):
    def accepted(self, text):
        """Checks that nvme-script accepts a file, and returns it."""
        self.assertLessEqual(len(text), 1048576)
        self.ends(run(program('nvme_script'), '--subsystem', self.file('described.toml', text.encode())), 0, b'', b'')
        return text

    def file_of(self, plain, **more):
        return self.accepted(described(Drive(plain), **more))

    def stops(self, plain, message, paths=()):
        with self.assertRaisesRegex(SystemExit, f'^nvme-describe: {message}$'):
            described(Drive(plain), paths)

    def test_other_opcodes(self):
        drive = Drive(Plain())
        controller = PROGRAM.Controller.__new__(PROGRAM.Controller)
        controller.shown, controller.file = '/dev/nvme0', 1000
        with unittest.mock.patch('fcntl.ioctl', drive.ioctl):
            for opcode in range(256):
                if opcode not in (GET_LOG, IDENTIFY, GET_FEATURES):
                    with self.assertRaises(ValueError):
                        controller.send(opcode, 1, 0, size=4096)
            self.assertEqual(drive.sent, [])
            controller.send(IDENTIFY, 0, 1, size=4096)
        self.assertEqual(len(drive.sent), 1)

    def test_commands(self):
        """The commands of a plain drive: only these opcodes, Get Log Page with RAE, no Select where the drive has none,
        and one that is refused, for the threshold that it doesn't have."""
        for oncs, selects in (b'\x10', {0, 1, 3}), (b'\0', {0}):
            drive = Drive(changed(_520=oncs))
            self.accepted(described(drive))
            self.assertEqual({command[1] for command in drive.sent}, {GET_LOG, IDENTIFY, GET_FEATURES})
            self.assertEqual([command[3] for command in drive.sent if command[1] == GET_LOG], [2 | 1 << 15 | 127 << 16])
            found = {command[3] >> 8 for command in drive.sent if command[1] == GET_FEATURES}
            self.assertEqual(found, selects)
            refused = [command[1:4] for command in drive.sent if drive.answer(*command)[0] != 0]
            self.assertEqual(refused, [(GET_FEATURES, 0, 4)])

    def test_errors(self):
        """An error of any command ends the program with a message that names the node."""
        drive = Drive(Plain())
        described(drive)
        answers = [drive.answer(*command) for command in drive.sent]
        self.assertGreater(len(answers), 20)
        for number in range(len(answers)):
            failing = unittest.mock.Mock(side_effect=[*answers[:number], error(errno.EIO)], count=1)
            self.stops(failing, '/dev/nvme0: Input/output error')

    def test_messages(self):
        for number, message in ((errno.EACCES, 'Permission denied: root is needed'), (errno.ENODEV, 'No such device'),
                                (errno.EPERM, 'Operation not permitted: root is needed'),
                                (errno.ENOTTY, 'this is not an NVMe controller')):
            self.stops(Plain({(IDENTIFY, 1): error(number)}), f'/dev/nvme0: {message}')
        for change in REFUSED, b'', bytes(4096):
            self.stops(Plain({(IDENTIFY, 1): change}), '/dev/nvme0: the controller answers nothing to Identify')
        for listed in ns_list(3, 1), ns_list(1, 1), ns_list(1, 0, 2), ns_list(*range(1024, 0, -1)), ns_list(0, 5):
            for cns in 2, 0x10:
                self.stops(Plain({(IDENTIFY, cns): listed}), "/dev/nvme0: a list of namespaces doesn't ascend")

    def test_arguments(self):
        self.stops(Plain({(IDENTIFY, 1): identity()}, count=2), 'one controller is given twice: /dev/nvme0 /dev/nvme1')
        self.stops(Plain({(1, IDENTIFY, 1, 0): identity(_78=b'\1', _784=b'b')}, count=2),
                   'these are controllers of several subsystems: /dev/nvme0 /dev/nvme1')
        self.stops(Plain(count=17), 'a file has at most 16 controllers: .*')
        self.stops(changed(_78=b'\xf0\xff'), 'no file has a controller identifier above 65519: /dev/nvme0')
        self.stops(Plain(), 'none of these is a controller: /dev/nvme0n1 /dev/ng0n1 /dev/nvme-fabrics',
                   ['/dev/nvme0n1', '/dev/ng0n1', '/dev/nvme-fabrics'])

    def test_order_and_other_nodes(self):
        """Controllers are in the order of their numbers, and nodes of namespaces are passed over."""
        text = self.file_of(Plain(count=3), paths=['/dev/nvme10', '/dev/nvme2', '/dev/nvme1'])
        self.assertEqual(re.findall(r'(?m)^# (\S+) is (\S+) in the model', text),
                         [('/dev/nvme1', '/dev/nvme0'), ('/dev/nvme2', '/dev/nvme1'), ('/dev/nvme10', '/dev/nvme2')])
        self.assertEqual(re.findall(r'(?m)^cntlid = (\d+)', text), ['2', '1', '0'])

    def test_namespaces_that_go_away(self):
        for change in REFUSED, 0x402c, bytes(4096), b'':
            changes = {(IDENTIFY, 0, 2): change, (IDENTIFY, 0x11, 2): change}
            text = self.file_of(Plain(changes, {nsid: namespace() for nsid in (1, 2, 3)}))
            self.assertEqual(re.findall(r'(?m)^nsid = (\d+)', text), ['1', '3'])
            self.assertIn('# Left out (above 1024, with another format or without data): NSID 2.\n', text)

    def test_program(self):
        """The program itself, with arguments that name no controller."""
        for words, status, message in (
                ((), 2, b'usage: .*'), (('--bogus', '/dev/nvme0'), 2, b'usage: .*'), (('/none/nvme0',), 1, None),
                (('/dev/null',), 1, b'nvme-describe: /dev/null: this is not an NVMe controller\n'),
                ((self.folder,), 1, None),
                (('/none/\xff\n',), 1, rb'nvme-describe: /none/\S+: No such file or directory\n'),
                (('/dev/nvme0n1',), 1, b'nvme-describe: none of these is a controller: /dev/nvme0n1\n')):
            with self.subTest(words):
                ended = run(TOP / 'nvme-describe', *words)
                self.ends(ended, status, b'')
                self.assertRegex(ended.err, b'(?s)^' + (message or b'nvme-describe: .*\n') + b'$')
                self.assertNotIn(b'Traceback', ended.err)
        self.ends(run(TOP / 'nvme-describe', '--help'), 0, err=b'')

    def have(self, *rows, **more):
        """Checks that what the files of drives can't say is in these lines, in a comment above the line concerned."""
        for plain, *lines in rows:
            text = self.file_of(plain, **more)
            joined = re.sub(r'\n# (?=[a-z(0-9])(?!nvme set)', ' ', text)
            for line in lines:
                self.assertIn(f'\n{line}\n', f'\n{joined}')
        return text

    def test_controllers(self):
        self.have(
            (changed(_77=b'\0'), '# MDTS is 0 on the drive.\nmdts = 8'),
            (changed(_77=b'\1'), '# MDTS is 1 on the drive.\nmdts = 2'),
            (changed(_77=b'\x20'), '# MDTS is 32 on the drive.\nmdts = 8'),
            (changed(_525=b'\x08'), '# VWC is 8 on the drive.'),
            (changed(_516=bytes(4)), '# NN is 0 on the drive.\nnn = 1'),
            (changed(_516=b'\xff' * 4), '# NN is 4294967295 on the drive.\nnn = 1024'),
            (changed(_4=bytes(20)), "# SN is '' on the drive.\nsn = \"?\""),
            (changed(_4=b'a"\\\n\xff'.ljust(20)), r"""# SN is 'a"\\\n\xff' on the drive.""" + '\nsn = "a\\"\\\\??"'),
            (changed(_4=b' x\0\0'.ljust(20, b'\0')), 'sn = " x"'),
            (changed(_768=bytes(256)), '# The drive has no SUBNQN, and Linux would give it this one.'),
            (changed(_768=b'n' * 256), 'subnqn = "' + 'n' * 223 + '"'),
            (changed(_256=b'\0'), '# Only the model has Namespace Management, Format NVM.'),
            (changed(_280=b'\xff' * 16), f'# TNVMCAP is {2 ** 128 - 1} on the drive.\ntnvmcap = {GREATEST}'),
            (changed(_524=b'\7'), 'crypto_erase = true'))
        text = self.file_of(changed(_80=b'\0\3\1\0', _92=b'\0\1', _2048=b'\1', _3072=b'\1\1', _524=b'\3'))
        self.assertRegex(text, r'VER 0x10300 \(0x10400\), OAES 0x100 \(0x0\)(?s:.*)'
                               r'FNA 0x3 \(0x0\), power\n# states, bytes 3072 to 3073\.')

    def test_namespaces(self):
        self.have(
            (shaped(9, 0), '# LBADS is 0 on the drive.\nlbads = 9'), (shaped(9, 17), '# LBADS is 17 on the drive.'),
            (shaped(9, _48=b'\1\x20'), '# The drive has other values of NVMCAP.\nnsid = 1\nbytes = 4096'),
            (shaped(9, _8=b'\7'), '# The drive has other values of NCAP.'),
            (shaped(9, _16=b'\1', _24=b'\1', _104=b'\1', _4095=b'\1'),
             '# The drive has other values of NUSE, NSFEAT, NGUID, bytes 4095.'),
            (shaped(9, _26=b'\x10'), '# The drive has other values of FLBAS.'),
            (shaped(9, _48=b'\7\x10'), 'bytes = 4103'),
            (shaped(17, _48=bytes(8)),
             '# The drive has other values of NSZE, NCAP, NVMCAP.\nnsid = 1\nbytes = 1048576'),
            (shaped(*range(9, 17), *range(9, 17), 9, 9), '# The drive reports 18 formats.'))

    def test_many_namespaces(self):
        """Comments of many namespaces are one comment."""
        text = self.file_of(Plain({}, {nsid: namespace(_16=struct.pack('<Q', nsid)) for nsid in range(1, 1025)}))
        self.assertIn('# The drive has other values of NUSE. (Likewise NSID 2 to 1024.)\n', text)
        self.assertLess(text.count('#'), 10)
        plain = Plain({}, {nsid: namespace() for nsid in (5, 1024, 1025, 70000)})
        self.have((plain, '# Left out (above 1024, with another format or without data): NSID 1025, 70000.'))

    def test_formats_of_namespaces(self):
        plain = shaped(9, 12)
        plain.namespaces = {1: namespace(lbads=(12, 9)), 2: namespace(lbads=(10,)), 3: namespace(lbads=(9, 12))}
        text = self.have((plain, '# The drive has other values of FLBAS, the formats.', 'format = 1',
                          '# Left out (above 1024, with another format or without data): NSID 2.'))
        self.assertEqual(re.findall(r'(?m)^nsid = (\d+)', text), ['1', '3'])
        wide = shaped(*range(9, 17), *range(9, 17), 9)
        wide.namespaces = {1: namespace(lbads=(*range(9, 17), *range(9, 17), 10), _26=b'\x20')}
        self.have((wide, 'format = 1'))

    def test_what_is_refused(self):
        formats, lists = {(IDENTIFY, 0, EVERY): 0x400b}, {(IDENTIFY, 2): 0x4002, (IDENTIFY, 0x10): 0x4002}
        self.have(
            (Plain(formats, {}), '# The drive reports 0 formats.', 'lbads = 9'),
            (Plain(formats, {4: namespace(lbads=(12,))}), 'lbads = 12', 'nsid = 4'),
            (Plain({(IDENTIFY, 0x10): 0x4002}), "# The drive doesn't list the namespaces that no controller has.",
             'nsid = 1'),
            (Plain(lists, {3: namespace()}), 'nsid = 3\nbytes = 4096\nformat = 0\ncontrollers = [0]'),
            (Plain({GET_LOG: 0x4109}), '# The drive refuses its health log.'))

    def test_features(self):
        two = {1: namespace(), 2: namespace()}
        others = {(GET_FEATURES, 5, 2): lambda nsid, dword10, _: (0, 6 if dword10 >> 8 & 7 == 3 else 9, b'')}
        sensors = {(GET_FEATURES, 4): lambda nsid, dword10, dword11: (
            (0, 7 | dword11, b'') if dword11 >> 16 & 15 < 8 else (REFUSED, 0, b''))}
        self.have(
            (reporting(1, 7, default=7, capabilities=0), 'fid = 1\ndefault = 7\nchangeable = false'),
            (reporting(1, 0xff, default=0xff), '# Feature 1 on the drive: current value 0xff, default 0xff.'),
            (reporting(2, 3), '# Feature 2 on the drive: current value 0x3.'),
            (reporting(5, 0, capabilities=7), '# Feature 5 on the drive: capabilities 0x7.'),
            (reporting(10, 1, capabilities=0), '# Feature 10 on the drive: current value 0x1.'),
            (reporting(8, 5, 5, 3, 4), '# nvme set-feature /dev/nvme0 -f 8 --value 0x4 --save\n'
             '# nvme set-feature /dev/nvme0 -f 8 --value 0x5'),
            (Plain({(GET_FEATURES, 8): 0x4002}), "# The drive doesn't report feature 8."),
            (Plain({(GET_FEATURES, 5, 2): 0x4002}, two), "# The drive doesn't report feature 5."),
            (Plain(others, two), '# Feature 5 on the drive: default 0x9.\nfid = 5',
             '# nvme set-feature /dev/nvme0 -n 2 -f 5 --value 0x9'),
            (Plain(sensors), '# Feature 4 on the drive: capabilities 0x7, no threshold 0x18, no threshold 0x8.',
             'version = 2', 'over = [7, 7, 7, 7, 7, 7, 7, 7, 65535]', 'under = [7, 7, 7, 7, 7, 7, 7, 7, 0]'),
            (changed(_520=b'\0'), '# Feature 1 on the drive: capabilities not reported, default not reported.'))
        self.have((reporting(8, 5, 5, 3, 4), '# Feature 8 on the drive: default 0x3.\nfid = 8\ndefault = 5',
                   '# nvme set-feature /dev/nvme0 -f 8 --value 0x4 --save\n'
                   '# nvme set-feature /dev/nvme0 -f 8 --value 0x5'), is_current=True)

    def test_health(self):
        log = with_fields(bytearray(512), {'_32': b'\xff' * 16, '_176': b'\5', '_216': b'\1'})
        self.have((Plain({GET_LOG: log}),
                   f'# DATA_UNITS_READ is {2 ** 128 - 1} on the drive.\ndata_units_read = {GREATEST}',
                   '# On the drive (and in the model): num_err_log_entries 0x5 (0x0), bytes 216.'))

    def test_drives(self):
        """Drives with random answers give a file that nvme-script accepts, or a message."""
        texts, messages = [], []
        for seed in range(DRIVES):
            source = random.Random(seed)
            drive = Drive(Wild(source))
            with self.subTest(seed=seed):
                try:
                    texts.append(described(drive, is_current=source.random() < 0.3))
                except SystemExit as stopped:
                    messages.append(str(stopped))
                    self.assertRegex(messages[-1], r'^nvme-describe: [ -~]+$')
                    continue
                text = self.accepted(texts[-1])
                self.assertEqual(unnamed_differences(text, drive) + [*unnamed_values(text, drive)], [], text)
        self.assertGreater(len(texts), DRIVES / 3)
        self.assertGreater(len(messages), DRIVES / 10)
