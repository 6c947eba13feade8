"""What the tests of nvme-describe share: random subsystem files; drives that answer what a test wants, in place of the
ioctl of Linux, over which `described` runs the code of nvme-describe; and what a file says of a drive."""

import collections
import ctypes
import errno
import json
import os
import re
import runpy
import struct
import tomllib
import types
import unittest.mock

from tests.records import places
from tests.support import TOP

GET_LOG, IDENTIFY, GET_FEATURES = 0x02, 0x06, 0x0a
REFUSED, EVERY = 0x4002, 0xffffffff
COMMAND = struct.Struct('=BBHIIIQQII8I')
# The program as a module.
PROGRAM = types.SimpleNamespace(**runpy.run_path(str(TOP / 'nvme-describe')))
# The keys of a controller's table [controller.smart] that are numbers.
SMART = [key for key in places('smart') if key not in ('num_err_log_entries', 'sensors')]
# The bits that a feature's value can have.
MASKS = {1: 0xffffff07, 2: 0xe0, 5: 0x1ffff, 6: 1, 8: 0xffff, 10: 1, 11: 0x7fff}
GREATEST = 2 ** 63 - 1


def text_of(random, most):
    """Returns a random text of printable ASCII that doesn't end with a space."""
    alphabet = [chr(byte) for byte in range(0x20, 0x7f)] if random.random() < 0.3 else list('abcXYZ0189-. ')
    return ''.join(random.choices(alphabet, k=random.randint(0, most - 1))) + random.choice('aZ9"\\~')


def lines(keys):
    return ''.join(f'{key} = {json.dumps(value)}\n' for key, value in keys.items())


def some(random, **keys):
    """Returns some of these keys, in a random order."""
    return dict(random.sample(sorted(keys.items()), random.randint(0, len(keys))))


def degrees(random, count):
    return [random.choice([0, 65535, random.randint(0, 65535)]) for _ in range(count)]


def random_feature(random, fid):
    keys = {'over': degrees(random, 9), 'under': degrees(random, 9)} if fid == 4 else {
        'default': random.getrandbits(32) & MASKS[fid]}
    more = some(random, **keys, changeable=random.random() < 0.5, saveable=fid != 5 and random.random() < 0.5)
    return '\n[[controller.feature]]\n' + lines({'fid': fid, **more})


def random_controller(random, cntlid, version):
    bits = {'vid': 16, 'ssvid': 16, 'rab': 8, 'ieee': 24, 'elpe': 8, 'wctemp': 16, 'cctemp': 16, 'vwc': 3}
    fids = sorted({*MASKS, *[4] * (version == 2)})
    text = '\n[[controller]]\n' + lines({
        'cntlid': cntlid, **{key: text_of(random, most) for key, most in (('sn', 20), ('mn', 40), ('fr', 8))},
        **some(random, mdts=random.randint(2, 8), crypto_erase=random.random() < 0.5,
               **{key: random.getrandbits(count) for key, count in bits.items()})})
    text += ''.join(random_feature(random, fid) for fid in random.sample(fids, random.randint(0, len(fids))))
    if random.random() < 0.7:
        keys = {key: random.choice([0, 1, 255, random.getrandbits(8)]) for key in SMART}
        keys.update({key: random.choice([GREATEST, random.getrandbits(40)]) for key in list(keys)[5:14]})
        text += '\n[controller.smart]\n' + lines(some(random, sensors=degrees(random, random.randint(0, 8)), **keys))
    return text


def random_file(random, controllers, namespaces):
    """Returns a random valid subsystem file with up to as many controllers and namespaces."""
    version, mc = random.choice([1, 2]), random.randint(0, 3)
    formats = [(random.randint(9, 16), random.choice([0, 8, 65535])) for _ in range(random.randint(1, 16))]
    identifiers = random.sample(range(65520), random.randint(1, controllers))
    nn = random.randint(1, namespaces)
    tables, used = [], 0
    for nsid in random.sample(range(1, nn + 1), random.choice([0, nn, random.randint(0, nn)])):
        place = random.randrange(len(formats))
        size = random.choice([1 << formats[place][0], random.randint(1 << formats[place][0], 2 ** 44)])
        is_shared = random.random() < 0.5
        having = random.sample(identifiers, random.randint(0, len(identifiers) if is_shared else 1))
        used += size
        is_extended = mc & 1 == 1 and formats[place][1] > 0 and random.random() < 0.5
        tables.append('\n[[namespace]]\n' + lines({'nsid': nsid, 'bytes': size, 'format': place, 'shared': is_shared,
                                                   'extended': is_extended, 'controllers': having}))
    text = lines({'version': version, 'nn': nn, 'tnvmcap': random.choice([used, used + 12345, GREATEST]), 'mc': mc,
                  'subnqn': text_of(random, random.choice([5, 223]))})
    for power, metadata in formats:
        more = {'ms': metadata} if metadata else some(random, ms=0, rp=random.randint(0, 3))
        text += '\n[[format]]\n' + lines({'lbads': power, **more})
    return text + ''.join(random_controller(random, cntlid, version) for cntlid in identifiers) + ''.join(tables)


class Drive:
    """A drive, by what its controllers answer: `answer` takes a controller, an opcode, an NSID, dwords 10 and 11 and
    the size of the data, and returns a status, the completion's dword and the data, or raises an OSError. The drive
    keeps what it was sent, and the records and values that it returned."""

    def __init__(self, answer):
        self.answer, self.sent, self.records, self.values = answer, [], {}, {}

    def ioctl(self, file, request, command):
        """Answers as Linux does."""
        assert request == 0xc0484e41 and len(command) == COMMAND.size == 72, (request, command)
        opcode, flags, _, nsid, *_, metadata, address, _, size, dword10, dword11 = COMMAND.unpack(command)[:12]
        assert not flags and not metadata and not any(COMMAND.unpack(command)[12:]), command
        self.sent.append((file - 1000, opcode, nsid, dword10, dword11, size))
        status, dword, data = self.answer(*self.sent[-1])
        assert len(data) <= size
        if opcode == GET_FEATURES:
            key = file - 1000, dword10 & 0xff, nsid or dword11 >> 16
            self.values.setdefault(key, {})[dword10 >> 8 & 7] = dword if status == 0 else None
        if status == 0 and size:
            self.records[file - 1000, opcode, dword10 & 0xff, nsid] = bytes(data).ljust(size, b'\0')
        ctypes.memmove(address, bytes(data), len(data))
        struct.pack_into('=I', command, 68, dword)
        return status


def described(drive, paths=(), is_current=False):
    """Returns the file that the program prints for the controllers at these paths, or for /dev/nvme0 and so on, which
    are the drive's in their order, or raises SystemExit with its message."""
    paths = list(paths) or [f'/dev/nvme{at}' for at in range(drive.answer.count)]

    def opened(path, flags):
        assert flags & os.O_ACCMODE == os.O_RDONLY
        if path not in paths:
            raise OSError(errno.ENOENT, os.strerror(errno.ENOENT), path)
        return 1000 + paths.index(path)

    with unittest.mock.patch('fcntl.ioctl', drive.ioctl), unittest.mock.patch('os.open', opened):
        return PROGRAM.describe(PROGRAM.chosen(paths), is_current)


def with_fields(data, fields):
    for at, field in fields.items():
        data[int(at[1:]):int(at[1:]) + len(field)] = field
    return bytes(data)


def identity(**fields):
    """Returns the data of Identify Controller of a plain drive, with these fields as bytes at their places."""
    data = bytearray(4096)
    data[4:72] = b'SERIAL'.ljust(20) + b'A Drive'.ljust(40) + b'1.0'.ljust(8)
    struct.pack_into('<I', data, 80, 0x10400)
    data[77], data[256], data[260], data[261], data[512], data[513] = 5, 10, 2, 4, 0x66, 0x44
    struct.pack_into('<IH', data, 516, 8, 16)
    data[768:785] = b'nqn.2014-08.org:a'
    return with_fields(data, fields)


def namespace(blocks=8, lbads=(9,), **fields):
    """Returns the data of Identify Namespace, with these fields as bytes at their places."""
    data = bytearray(4096)
    struct.pack_into('<QQ', data, 0, blocks, blocks)
    struct.pack_into('<QQ', data, 48, blocks << lbads[0], 0)
    data[25] = len(lbads) - 1
    for at, power in enumerate(lbads):
        data[130 + 4 * at] = power
    return with_fields(data, fields)


def ns_list(*nsids):
    return struct.pack(f'<{len(nsids)}I', *nsids).ljust(4096, b'\0')


def error(number):
    return OSError(number, os.strerror(number))


class Plain:
    """The answers of a plain drive with one or more controllers and these namespaces. Others are given by the key of a
    command: its opcode and its CNS, LID or FID, and perhaps the NSID, and first the controller."""

    def __init__(self, changes=(), namespaces=None, count=1):
        self.namespaces = {1: namespace()} if namespaces is None else namespaces
        self.count, self.changes = count, dict(changes)

    def __call__(self, controller, opcode, nsid, dword10, dword11, size):
        what = dword10 & 0xff
        keys = (controller, opcode, what, nsid), (opcode, what, nsid), (opcode, what), opcode
        change = next((self.changes[key] for key in keys if key in self.changes), None)
        if change is None:
            change = self.plain(controller, opcode, nsid, dword10 >> 8 & 7, what)
        if isinstance(change, Exception):
            raise change
        if isinstance(change, int):
            return change, 0, b''
        return (0, 0, change) if isinstance(change, bytes) else change(nsid, dword10, dword11)

    def plain(self, controller, opcode, nsid, select, what):
        if opcode == GET_LOG:
            return bytes(512)
        if opcode == GET_FEATURES:
            return REFUSED if what == 4 else lambda *_: (0, (6 if what == 5 else 4) * (select == 3), b'')
        if what == 1:
            return identity(_78=struct.pack('<H', controller))
        if what in (2, 0x10):
            return ns_list(*sorted(self.namespaces))
        return namespace(blocks=0) if nsid == EVERY else self.namespaces.get(nsid, bytes(4096))


class Wild:
    """A drive with random answers: records with random fields, of random bytes or short, refusals, and errors."""

    statuses = 0x1, 0x2, 0x4001, 0x4002, 0x400b, 0x402c, 0x6002, 0x6109, 0x7fff
    errors = errno.EIO, errno.ENOTTY, errno.EACCES, errno.EPERM, errno.ENODEV, errno.EINTR, errno.EINVAL, errno.ENOMEM

    def __init__(self, random):
        self.random, self.count = random, random.choice([1, 1, 1, 2, 2, 3, 3, 17])
        self.refuses, self.fails = random.choice([0, 0, 0.1, 0.5]), random.choice([0, 0, 0, 0, 0.01])
        self.changes = random.choice([0, 1, 3, 20])
        self.is_wild = random.random() < 0.2

    def __call__(self, controller, opcode, nsid, dword10, dword11, size):
        random, what = self.random, dword10 & 0xff
        if random.random() < self.fails:
            raise error(random.choice(self.errors))
        if random.random() < self.refuses and (opcode, what) != (IDENTIFY, 1):
            return random.choice(self.statuses), random.getrandbits(32), b''
        if opcode == GET_FEATURES:
            value = random.choice([0, 1, 7, random.getrandbits(16), random.getrandbits(32), EVERY])
            return 0, value if dword10 >> 8 & 7 < 3 else random.randrange(8), b''
        data = bytearray(self.record(controller, opcode, what, size))
        if self.is_wild and random.random() < 0.3:
            data = bytearray(random.choice([bytes(size), b'\xff' * size, random.randbytes(size), data[:100], b'']))
        return 0, 0, bytes(data)

    def record(self, controller, opcode, what, size):
        """Returns a record with some random fields."""
        random = self.random
        if opcode == IDENTIFY and what in (2, 0x10):
            most = random.choice([8, 8, 8, 1024, 2 ** 32 - 3])
            return ns_list(*sorted({random.randint(1, most) for _ in range(random.choice([0, 1, 3, 5, 8]))}))
        plain = identity(_78=struct.pack('<H', controller)) if what == 1 else namespace(lbads=(9, 12))
        data = bytearray(bytes(size) if opcode == GET_LOG else plain)
        # (the fields that the program reads are most of the first bytes)
        for _ in range(random.randint(0, self.changes)):
            at, length = random.randrange(random.choice([size, 140])), random.choice([1, 1, 2, 4, 8, 16])
            there = random.choice([bytes(length), b'\xff' * length, random.randbytes(length)])
            if not (opcode == IDENTIFY and what == 1 and at + length > 768 and not self.is_wild):
                data[at:at + length] = there
        return data[:size]


# The keys that are fields of a controller, the places of fields that tests/records.py doesn't name, and what the fields
# of a controller without a key are in the model.
OF_CONTROLLER = 'cntlid', 'vid', 'ssvid', 'sn', 'mn', 'fr', 'rab', 'ieee', 'mdts', 'elpe', 'wctemp', 'cctemp', 'vwc'
OTHERS = {'oaes': (92, 4), 'ctratt': (96, 4), 'eui64': (120, 8)}
NAMED = {'ver': 0x10400, 'oacs': 10, 'frmw': 2, 'lpa': 4, 'npss': 0, 'sqes': 0x66, 'cqes': 0x44, 'oncs': 16, 'oaes': 0,
         'ctratt': 0}


def notes_in(text):
    """Returns the comments of each table of a file, by its kind and place: the NSID of a namespace, or the position of
    a controller, with which its features and health log are. A comment of several tables is with each."""
    found, kind, place, counts = {}, 'top', 0, collections.Counter()
    for table in text.replace('\n# (Likewise ', ' (Likewise ').split('\n\n'):
        heading, nsid = re.match(r'\[\[(controller|format|namespace)\]\]', table), re.search('(?m)^nsid = (.*)', table)
        if heading:
            kind = heading[1]
            place = int(nsid[1]) if nsid else counts[kind]
            counts[kind] += 1
        for note in re.findall(r'(?ms)^# (?!nvme set-)(.*?(?:\.\)?|:))$', table):
            note, _, others = note.replace('\n#', '').partition(' (Likewise ')
            for first, last in [(place, ''), *re.findall(r'(\d+)(?: to (\d+))?', others)]:
                for other in range(int(first), int(last or first) + 1):
                    found.setdefault((kind, other), set()).add(note)
    return found


def fields_of(kind, record):
    """Returns the bytes of the values in a record by their keys."""
    return {key: record[at:at + size] for key, (at, size) in {**places(kind), **OTHERS}.items()}


def unnamed(keys, said, fields, notes):
    """Yields those of these keys whose values differ from the fields of a record, and aren't named in a comment."""
    for key in keys:
        here, there, named = said.get(key, 0), fields[key], f'{key.upper()} is '
        if isinstance(here, str):
            here, there = here.encode(), there.rstrip(b' \0')
        else:
            there = int.from_bytes(there, 'little')
            named += f'{there} on the drive.'
        if here != there and not any(note.startswith(named) for note in notes):
            yield key


def unnamed_differences(text, drive):
    """Returns what differs in a file from the records of a drive, and isn't named in a comment of its table."""
    file, notes = tomllib.loads(text), notes_in(text)
    wrong = [*unnamed(('nn', 'tnvmcap'), file, fields_of('id_ctrl', drive.records[0, 6, 1, 0]), notes['top', 0])]
    for place, keys in enumerate(file['controller']):
        fields, said = fields_of('id_ctrl', drive.records[place, 6, 1, 0]), notes['controller', place]
        health = fields_of('smart', drive.records.get((place, 2, 2, 0xffffffff), bytes(512)))
        others = ''.join(note for note in said if note.startswith('On the drive'))
        wrong += [(place, key) for key in [
            *unnamed(OF_CONTROLLER, keys, fields, said), *unnamed(SMART, keys.get('smart', {}), health, said),
            *(key for key, here in NAMED.items()
              if int.from_bytes(fields[key], 'little') != here and f' {key.upper()} 0x' not in others)]]
    formats = [(keys['lbads'], keys.get('ms', 0), keys.get('rp', 0)) for keys in file['format']]
    for keys in file.get('namespace', []):
        said = ''.join(notes.get(('namespace', keys['nsid']), ()))
        records = [record for (_, opcode, cns, nsid), record in drive.records.items()
                   if (opcode, nsid) == (6, keys['nsid']) and cns in (0, 0x11) and any(record[:8])]
        wrong += [(keys['nsid'], field) for field in differing_fields(keys, records[-1], formats)
                  if not re.search(rf'\b{field}\b', said)]
    return wrong


def differing_fields(keys, record, formats):
    """Returns the fields of Identify Namespace that differ from a table of the file."""
    blocks, fields = keys['bytes'] >> formats[keys['format']][0], fields_of('id_ns', record)
    wanted = {'nsze': blocks, 'ncap': blocks, 'flbas': keys['format'] | 16 * keys.get('extended', False),
              'nmic': keys.get('shared', False), 'nvmcap': keys['bytes'],
              **dict.fromkeys(('nuse', 'nsfeat', 'dpc', 'dps', 'eui64'), 0)}
    own = [(power, ms, rp & 3) for ms, power, rp in
           struct.iter_unpack('<HBB', record[128:132 + 4 * min(fields['nlbaf'][0], 63)])]
    usual = all(9 <= power <= 16 for power, _, _ in own)
    return [key.upper() for key, here in wanted.items() if int.from_bytes(fields[key], 'little') != here] + [
        'formats'] * (usual and own != formats)


def states(text):
    """Returns the state of each feature in the model of a file after the commands at its end: the default, saved and
    current value by the controller, the feature, and the NSID or the selector, which is None for all others; and the
    capabilities by the controller and the feature."""
    values, capabilities = {}, {}
    for place, controller in enumerate(tomllib.loads(text)['controller']):
        for keys in [*({'fid': fid} for fid in MASKS), *controller.get('feature', [])]:
            fid = keys['fid']
            capabilities[place, fid] = keys.get('saveable', False) | 2 * (fid == 5) | 4 * keys.get('changeable', True)
            values[place, fid, None] = 3 * [keys.get('default', 0)]
            for at, value in enumerate(keys.get('over', []) + keys.get('under', [])):
                values[place, fid, at if at < 9 else at + 7] = 3 * [value]
    for line in re.findall('(?m)^# nvme set-feature /dev/nvme(.*)$', text):
        found = re.fullmatch(r'(\d+)(?: -n (\d+))? -f (\d+) --value (0x\w+)( --save)?', line)
        place, fid, value = int(found[1]), int(found[3]), int(found[4], 16)
        key = value >> 16 if fid == 4 else int(found[2]) if found[2] else None
        value &= 0xffff if fid == 4 else 0xffffffff
        key = None if key == 0xffffffff else key
        state = values.setdefault((place, fid, key), list(values[place, fid, None]))
        state[1:] = [value if found[5] else state[1], value]
    return values, capabilities


def unnamed_values(text, drive):
    """Yields the values of features that differ in the model of a file from those of a drive, and aren't named."""
    notes, (values, capabilities) = notes_in(text), states(text)
    for (place, fid, key), told in drive.values.items():
        said = ''.join(note for note in notes['controller', place] if note.startswith(f'Feature {fid} on the drive'))
        is_missing = f"The drive doesn't report feature {fid}." in notes['controller', place]
        if told[0] is None or is_missing:
            if not is_missing and fid != 4:
                yield place, fid, key
            continue
        mask = 0xffff if fid == 4 else 0xffffffff
        default, saved, current = values.get((place, fid, key if fid in (4, 5) else None)) or values[place, fid, None]
        for select, name, here in ((0, 'current value', current), (1, 'default', default), (2, 'saved value', saved),
                                   (3, 'capabilities', capabilities[place, fid])):
            there = told.get(select)
            if there is not None and there & mask != here and f'{name} {there & mask:#x}' not in said:
                yield place, fid, key, name, there, here
