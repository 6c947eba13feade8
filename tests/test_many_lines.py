"""Runs computed scripts, and checks what they write: lines of any bytes, each threshold by its selector, lists of many
namespaces, and hundreds of refusals. tests/scripts has the scripts that can be written as lines of text."""

import json

from tests.support import DEMO, Case, large_file, program, run

SCRIPT = program('nvme_script')
REFUSAL = 'NVMe status: Invalid Namespace or Format (0x600b)'
# The composite temperature and eight sensors, first the over and then the under temperature thresholds.
SELECTORS = [*range(9), *range(16, 25)]
OVER, UNDER = [*range(300, 309)], [*range(216, 225)]
USAGE, DEVICE, NSID = 'usage error', 'no such device', 'bad number for --namespace-id'
TOO_LONG, INVALID = 'line too long', 'NVMe status: Controller List Invalid (0x611c)'
LAST_NSID = b'[   0]:0x3\n'
# Scripts of any bytes, the messages of their lines, and their output.
ROWS = [
    (b'\r\nlist-ns /dev/nvme0\r\n', {1: USAGE, 2: DEVICE}),
    # a line has 4,095 bytes
    (b'#' + b'\xff' * 4094, {}),
    (b'#' + b'\xff' * 4095, {1: TOO_LONG}),
    (b' ' * 4096, {1: TOO_LONG}),
    # words of 4,000 bytes
    (b'a' * 4000, {1: USAGE}),
    (b'list-ns --' + b'a' * 4000, {1: USAGE}),
    (b'list-ns /dev/nvme0 -' + b'a' * 4000, {1: USAGE}),
    (b'list-ns -o ' + b'a' * 4000, {1: USAGE}),
    (b'list-ns /dev/nvme' + b'1' * 4000, {1: DEVICE}),
    (b'list-ns /dev/nvme0n' + b'1' * 4000, {1: DEVICE}),
    (b'list-ns /dev/nvme0 -n ' + b'1' * 4000, {1: NSID}),
    (b'list-ns /dev/nvme0 -n 0x' + b'f' * 4000, {1: NSID}),
    # as many controllers as a line holds, of which each but the first has two bytes, and an empty one
    (b'detach-ns /dev/nvme0n1 -c7' + b',7' * 2034, {1: INVALID}),
    *((b'detach-ns /dev/nvme0n1 -c7' + b',7' * more, {1: TOO_LONG}) for more in (2035, 2046, 2047)),
    (b'attach-ns /dev/nvme0n1 -c 7' + b',7' * 2033, {1: INVALID}),
    (b'attach-ns /dev/nvme0n1 -c 7' + b',7' * 2033 + b',', {1: 'bad number for --controllers'}),
    (b'list-ns /dev/nvme0 -n 0x' + b'0' * 4000 + b'3', {}, LAST_NSID),
    # other blanks, and NUL bytes
    (b'\tlist-ns\t /dev/nvme0\t\t-n\t3\t\nlist-ns\0 /dev/nvme0\nlist-ns /dev/nvme0\0\n'
     b'list-ns /dev/nvme0 -n 3\0\nlist-ns /dev/nvme0 -n\x0b3\n \t\n\0\n',
     {2: USAGE, 3: DEVICE, 4: NSID, 5: NSID, 7: USAGE}, LAST_NSID),
]


def error_text(index, count, cid):
    """Returns what `error-log` shows of a refused Identify."""
    return (f'entry               : {index}\nerror_count         : {count}\nsqid                : 0\n'
            f'cmdid               : {cid:#x}\nstatus_field        : 0x600b\nparm_err_loc        : 0xffff\n'
            'lba                 : 0x0\nnsid                : 0x0\nvs                  : 0x0\n'
            'cs                  : 0x0\n')


class AnyBytes(Case):
    """Lines as long as a line may be and longer, very long words, carriage returns and NUL bytes."""

    def leaves(self, script, messages, output=b''):
        """Checks what a script leaves, whose last line is the last one with a message."""
        status = 2 if INVALID in messages.values() else 1 if messages else 0
        told = ''.join(f'line {number}: {message}\n' for number, message in messages.items())
        self.ends(run(SCRIPT, source=script), status, output, told.encode())

    def test_rows(self):
        for script, messages, *output in ROWS:
            with self.subTest(script[:30], length=len(script)):
                self.leaves(script, messages, *output)

    def test_long_lines_of_each_byte(self):
        for byte in set(range(256)) - set(b'\n'):
            fault = {} if byte in b' \t#' else {1: 'not UTF-8 text' if byte >= 128 else USAGE}
            for end in b'', b'\n':
                with self.subTest(byte, end=end):
                    self.leaves(bytes([byte]) * 4095 + end, fault)
                    self.leaves(bytes([byte]) * 4096 + end, {1: TOO_LONG})


class Scripts(Case):
    def leaves(self, script, output='', messages='', status=0, file=None, options=''):
        """Checks what a script leaves over the subsystem of this text, with a driver of these options."""
        arguments = ['--subsystem', self.file('file.toml', file.encode())] if file else []
        ended = run(SCRIPT, *arguments, *options.split(), source=script.encode())
        self.ends(ended, status, output.encode(), messages.encode())


def usual(selector):
    """Returns the value of a threshold that the file doesn't give. Section "Temperature Threshold (Feature Identifier
    04h)"."""
    return 0 if selector >= 16 else 0xffff if selector else 343


class Thresholds(Scripts):
    def setUp(self):
        super().setUp()
        self.script = self.output = ''

    def set(self, selector, threshold, save=0):
        """Adds a line that sets the thresholds of a selector."""
        value = selector << 16 | threshold
        self.script += f'set-feature /dev/nvme0 -f 4 -v {value}{" -s" * save}\n'
        self.output += f'set-feature:0x4 (Temperature Threshold), value:{value:#x}, save:{save}\n'

    def get(self, selector, **thresholds):
        """Adds lines that ask for the thresholds of these kinds."""
        for kind, threshold in thresholds.items():
            sel = ['Current', 'Default', 'Saved'].index(kind)
            self.script += f'get-feature /dev/nvme0 -f 4 -s {sel} -c {selector << 16}\n'
            self.output += f'get-feature:0x4 (Temperature Threshold), {kind} value:{threshold:#x}\n'

    def check(self, keys='saveable = true\n', controller=''):
        """Checks what the lines so far write, if the first controller's thresholds have these keys."""
        file = DEMO.read_text().replace('version = 1', 'version = 2').replace('elpe = 3\n', f'elpe = 3\n{controller}')
        table = '[[controller.feature]]\n'
        self.leaves(self.script, self.output, file=file.replace(table, f'{table}fid = 4\n{keys}\n{table}'))
        self.script = self.output = ''

    def test_each_is_set_and_saved_alone(self):
        for chosen in SELECTORS:
            self.set(chosen, 0x1234, save=1)
            self.set(chosen, 0xfedc)
            for selector in SELECTORS:
                current, saved = (0xfedc, 0x1234) if selector == chosen else 2 * (usual(selector),)
                self.get(selector, Current=current, Saved=saved, Default=usual(selector))
            self.check()

    def test_all_of_a_kind_are_set_at_once(self):
        for every, is_saved in (15, False), (15, True), (31, False), (31, True):
            if is_saved:
                self.set(every, 0x30, save=1)
            self.set(every, 0x20)
            for selector in SELECTORS:
                is_set = (selector >= 16) == (every >= 16)
                self.get(selector, Current=0x20 if is_set else usual(selector),
                         Saved=0x30 if is_set and is_saved else usual(selector), Default=usual(selector))
            self.check()

    def test_each_keeps_its_saved_value(self):
        for more, save in (256, 1), (512, 0):
            for selector in SELECTORS:
                self.set(selector, selector + more, save)
        for selector in SELECTORS:
            self.get(selector, Current=selector + 512, Saved=selector + 256, Default=usual(selector))
        self.check()

    def test_the_lists_of_the_file_are_the_defaults(self):
        for over, under in (OVER, UNDER), (OVER, []), ([], UNDER), ([], []):
            given = dict(zip(range(9), over)) | dict(zip(range(16, 25), under))
            for selector in SELECTORS:
                default = given.get(selector, usual(selector))
                self.get(selector, Default=default, Current=default, Saved=default)
            self.check(f'over = {over}\n' * bool(over) + f'under = {under}\n' * bool(under))

    def test_the_first_default_is_the_controllers_warning(self):
        for keys, first, second in (('', 300, 0xffff), (f'under = {UNDER}\n', 300, 0xffff),
                                    (f'over = {[*range(1, 10)]}\n', 1, 2)):
            self.get(0, Current=first, Default=first)
            self.get(1, Current=second)
            self.check(keys, 'wctemp = 300\n')


def listed(rows):
    """Returns what `list` prints, with a line of 120 bytes for each namespace, and its JSON. A row has the number of
    the controller, the NSID, and the number of blocks, of 512 bytes."""
    lines, devices = '', []
    for place, nsid, blocks in rows:
        node, serial, size = f'/dev/nvme{place}n{nsid}', f'S{place}', blocks * 512
        lines += f'{node:<18} {serial:<20} {"M":<40} {nsid:>10} {size:>20} {512:>6}\n'
        devices.append({'block_size': 512, 'bytes': size, 'model': 'M', 'namespace': nsid, 'node': node,
                        'serial': serial})
    return lines, json.dumps({'devices': devices}, separators=(',', ':')) + '\n'


class Many(Scripts):
    # two controllers, and forty namespaces that are attached to both; namespace n has n blocks and one more byte
    shared = ('version = 1\nnn = 40\ntnvmcap = 419880\nsubnqn = "n"\n[[format]]\nlbads = 9\n'
              '[[controller]]\ncntlid = 7\nsn = "S0"\nmn = "M"\nfr = "1"\n'
              '[[controller]]\ncntlid = 3\nsn = "S1"\nmn = "M"\nfr = "1"\n'
              + ''.join(f'[[namespace]]\nnsid = {nsid}\nbytes = {512 * nsid + 1}\nformat = 0\nshared = true\n'
                        'controllers = [3, 7]\n' for nsid in range(1, 41)))

    def test_the_same_whatever_the_geometry_is(self):
        """`list` sends two commands and forty to each controller, twice. Their number is the next command's
        identifier."""
        text, of_json = listed((place, nsid, nsid) for place in (0, 1) for nsid in range(1, 41))
        self.assertEqual(len(text), 9600)
        script = 'list\nlist -o json\n' + ''.join(
            f'id-ns /dev/nvme{place} -n 0\nerror-log /dev/nvme{place}\n' for place in (0, 1))
        output = text + of_json + 2 * error_text(0, 1, 84)
        geometries = [f'--depth {depth} --window {window} --pace {pace}'
                      for depth, window in ((2, 1), (17, 16), (4, 3), (4096, 16)) for pace in (1, 5)]
        geometries += ['--depth 17 --window 16 --pace 16 --page-size 65536 --offset 65532 --list-offset 65528']
        for options in geometries:
            for version in 1, 2:
                file = self.shared.replace('version = 1', f'version = {version}')
                self.leaves(script, output, f'line 3: {REFUSAL}\nline 5: {REFUSAL}\n', file=file, options=options)

    def test_1024_namespaces_of_each_of_sixteen_controllers(self):
        _, output = listed((place, nsid, 1) for place in range(16) for nsid in range(1, 1025))
        for options in '', '--depth 17 --window 16 --pace 16':
            self.leaves('list -o json', output, file=large_file(range(1, 17), range(1, 17)), options=options)

    def test_1024_namespaces_of_the_last_of_sixteen_controllers(self):
        """The identifiers of the controllers go down from 100, and the last controller has all namespaces."""
        file = large_file(range(100, 84, -1), [85])
        self.leaves('list-ns /dev/nvme15 -n 1022\nlist-ns /dev/nvme0\nlist-ns /dev/nvme16\n',
                    '[   0]:0x3fe\n[   1]:0x3ff\n[   2]:0x400\n', 'line 3: no such device\n', 1, file)
        output, _ = listed((15, nsid, 1) for nsid in range(1, 1025))
        last = f'/dev/nvme15n1024   S15                  M{46 * " "}1024                  512    512\n'
        self.assertEqual(output[-120:], last)
        self.leaves('list', output, file=file, options='--window 16 --pace 4096')

    def test_a_reset_among_300_refusals(self):
        """Slots and phase tags begin anew, and command identifiers continue. Two commands read the log."""
        lines = ['id-ns /dev/nvme0 -n 0\n'] * 301
        lines[150] = 'reset /dev/nvme0\n'
        messages = ''.join(f'line {number}: {REFUSAL}\n' for number in range(1, 302) if number != 151)
        script = ''.join(lines) + 'error-log /dev/nvme0 -e 1\n' + lines[0] + 'error-log /dev/nvme0 -e 1\n'
        output = 'reset: Success\n' + error_text(0, 300, 299) + error_text(0, 301, 302)
        for depth in 2, 3, 4096:
            self.leaves(script, output, messages + f'line 303: {REFUSAL}\n', options=f'--depth {depth}')
