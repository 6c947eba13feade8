"""Requests to nvme-device and their responses, byte by byte. docs/BUS.md defines their bytes, and the values are
those of the standard."""

import re
import struct

from tests.support import Case, program, run

DEVICE = program('nvme_device')
ENTRY, RESET, LIST = range(3)
NO_CONTROLLER, NO_KIND, TOO_LONG = range(1, 4)


def request(controller=0, kind=ENTRY, length=0, opcode=0, nsid=0, cdw10=0, sent=b''):
    """Returns the bytes of a request. The command identifier and the data pointer of its entry are ignored."""
    entry = struct.pack('<BBHIQQQQI20x', opcode, 0, 0xffff, nsid, 0, 0, 3, 5, cdw10)
    return struct.pack('<HHI', controller, kind, length) + entry + sent


def answer(dword0=0, status=0, outcome=0, data=b''):
    return struct.pack('<IHHI', dword0, status, outcome, len(data)) + data


# The namespaces of both controllers, the serial number of the first, a namespace that is attached to the second,
# requests that reach no controller, a reserved opcode with data, and the log with its error. That was the fifth command
# of its controller, so its command identifier is 4.
ENTRIES = [
    (request(kind=LIST, length=8), answer(2, data=b'\1\0\0\0\3\0\0\0')),
    (request(length=24, opcode=0x06, cdw10=1), answer(data=bytes(4) + b'S0'.ljust(20))),
    (request(length=4, opcode=0x15, nsid=1, sent=b'\1\0\1\0'), answer()),
    (request(1, LIST, 8), answer(2, data=b'\1\0\0\0\0\0\0\0')),
    (request(2, length=3, opcode=0x15, sent=b'\t\t\t'), answer(outcome=NO_CONTROLLER)),
    (request(kind=3, length=3, opcode=0x06, cdw10=1), answer(outcome=NO_KIND)),
    (request(opcode=0x0a, cdw10=6), answer(1)),
    (request(length=2, opcode=0xff, nsid=5, sent=b'\t\t'), answer(status=0x6001)),
    (request(length=12, opcode=0x02, cdw10=0x000f0001), answer(data=b'\1\0\0\0\0\0\0\0\0\0\4\0')),
]
# A feature that is changed, and has its default again after a reset. The last request is too long.
RESETS = [
    (request(opcode=0x09, cdw10=6), answer()),
    (request(opcode=0x0a, cdw10=6), answer()),
    (request(kind=RESET), answer()),
    (request(opcode=0x0a, cdw10=6), answer(1)),
    (request(length=1048577, opcode=0x06, cdw10=1), answer(outcome=TOO_LONG)),
]


# Requests with their answers, options, how many entries the first controller was sent, the status and the messages.
ROWS = [
    (ENTRIES, '--page-size 65536', 6, 0, b''),
    (ENTRIES, '--depth 2 --offset 4 --list-offset 4088', 6, 0, b''),
    (RESETS, '', 3, 4, b'nvme-device: request too long\n'),
    ([(b'', b'')], '', 0, 0, b''),
    # a request that is cut short is not executed
    *(([(ENTRIES[2][0][:length], b'')], '', 0, 4, b'nvme-device: request cut short\n') for length in (1, 71, 72, 75)),
    ([(bytes(72), b'')], '--depth 1', 0, 3, b'nvme-device: geometry: depth\n'),
]


class Requests(Case):
    def test_rows(self):
        for rows, options, sent, status, err in ROWS:
            requests, answers = (b''.join(column) for column in zip(*rows))
            with self.subTest(options, length=len(requests)):
                self.ends(run(DEVICE, *options.split(), source=requests), status, answers, err)
                traced = run(DEVICE, '--trace', *options.split(), source=requests)
                self.assertEqual((traced.out, traced.err.count(b'nvme0 taken ')), (answers, sent), traced)

    def test_pointers_of_an_entry_by_the_offsets(self):
        """Get Log Page of 131,072 bytes: the data and the list begin at the geometry's offsets in their pages."""
        long_log = request(length=4, opcode=0x02, cdw10=0x7fff0001)
        for page_size, offset, list_offset in (4096, 4, 4088), (8192, 8188, 8), (32768, 0, 16):
            options = f'--page-size {page_size} --offset {offset} --list-offset {list_offset}'
            with self.subTest(options):
                ended = run(DEVICE, '--trace', *options.split(), source=long_log)
                self.ends(ended, 0, answer(data=bytes(4)))
                (prp1, prp2), = re.findall(rb'nvme0 taken Get Log Page .* prp1=(0x\w+) prp2=(0x\w+) ', ended.err)
                self.assertEqual((int(prp1, 16) % page_size, int(prp2, 16) % page_size), (offset, list_offset))
