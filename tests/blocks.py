"""I/O queues of a guest of tests/as_client.py, with a driver that puts entries into them and takes their completions,
and what tests of them share."""

import struct

from tests.as_client import Guest
from tests.driver import COMMAND, HEAD, MASTER, PAGE, TAIL, Queue, entry_of
from tests.served import Served

DELETE_SUBMISSIONS, CREATE_SUBMISSIONS, GET_LOG, DELETE_COMPLETIONS, CREATE_COMPLETIONS, ABORT = 0, 1, 2, 4, 5, 8
SET_FEATURES, GET_FEATURES, REQUEST_EVENT, MANAGE, ATTACH, FORMAT = 9, 0xa, 0xc, 0xd, 0x15, 0x80
FLUSH, WRITE, READ, COMPARE, WRITE_ZEROES, DATASET, VERIFY = 0, 1, 2, 5, 8, 9, 0xc
INVALID_OPCODE, INVALID_FIELD, INVALID_NAMESPACE, SEQUENCE_ERROR, OUT_OF_RANGE, NO_CAPACITY, DIFFERS = (
    1, 2, 0xb, 0xc, 0x80, 0x81, 0x285)
(NO_COMPLETION_QUEUE, INVALID_QUEUE, INVALID_SIZE, TOO_MANY_REQUESTS, INVALID_VECTOR, INVALID_DELETION, NOT_SAVEABLE,
 NOT_OF_NAMESPACE) = 0x100, 0x101, 0x102, 0x105, 0x108, 0x10c, 0x10d, 0x10f


class Drive(Guest):
    """A guest that has I/O queues, and the size of the blocks that it stores and loads."""

    block = 512

    def dword0_of(self, *command, **more):
        """Returns dword 0 of a command's completion, which must be a success."""
        self.put(*command, **more)
        found = self.completion()
        assert self.take() == 0, found
        return found.dword0

    def create_completions(self, number, ring, depth=16, flags=3, vector=0):
        status = self.status_of(CREATE_COMPLETIONS, ring, 0, 0, number | depth - 1 << 16, flags | vector << 16)
        if status == 0:
            self.completions[number] = Queue(ring, depth)
        return status

    def create_submissions(self, number, ring, depth=16, completions=None, flags=1):
        completions = number if completions is None else completions
        status = self.status_of(CREATE_SUBMISSIONS, ring, 0, 0, number | depth - 1 << 16, flags | completions << 16)
        if status == 0:
            self.submissions[number] = Queue(ring, depth, completions)
        return status

    def put_io(self, number, entry, rings=True):
        """Writes an entry, and rings the tail doorbell."""
        self.put_entry(entry, number)
        if rings:
            self.set_register(TAIL + 8 * number, self.submissions[number].next)

    def take_io(self, number, rings=True):
        """Takes the next completion of a queue, if there is one."""
        self.register(0)
        found = self.completion(number)
        if found:
            assert found[:2] == (0, 0), found
            self.completions[number].advance()
            if rings:
                self.set_register(HEAD + 8 * number, self.completions[number].next)
        return found

    def io(self, opcode, nsid, first=0, count=1, prp1=0, prp2=0, number=1, **more):
        """Sends a command for blocks, and returns its status."""
        queue = self.submissions[number]
        self.put_io(number, block_entry(opcode, nsid, first, count, prp1, prp2, **more))
        found = self.take_io(queue.completions)
        assert found[2:5] == (queue.next, number, 77), (found, number, queue.next)
        return found.status

    def pages(self, place, count):
        """Returns both PRP entries for this many bytes from a place on, perhaps with a list in page 14."""
        rest = range(place + PAGE - place % PAGE, place + count, PAGE)
        if len(rest) < 2:
            return place, rest[0] if rest else 0
        self.at(14 * PAGE, 8 * len(rest))[:] = struct.pack(f'<{len(rest)}Q', *rest)
        return place, 14 * PAGE

    def store(self, nsid, first, data, place=32 * PAGE, number=1, opcode=WRITE):
        """Writes blocks, or compares them, from a place in memory, and returns the status."""
        self.at(place, len(data))[:] = data
        return self.io(opcode, nsid, first, len(data) // self.block, *self.pages(place, len(data)), number)

    def load(self, nsid, first, count, place=32 * PAGE, number=1):
        """Returns blocks that were read."""
        size = count * self.block
        self.at(place, size)[:] = b'\x5a' * size
        status = self.io(READ, nsid, first, count, *self.pages(place, size), number)
        assert status == 0, hex(status)
        return bytes(self.at(place, size))

    def read_status(self, nsid, first=0):
        """Returns the status of a command that reads a block."""
        return self.io(READ, nsid, first, 1, 40 * PAGE)

    def create(self, blocks, flbas=0):
        """Creates a namespace, attaches it to this controller, and returns its NSID."""
        self.at(2 * PAGE, PAGE)[:] = struct.pack('<QQ10xBxxBB', blocks, blocks, flbas, 0, 1).ljust(PAGE, b'\0')
        nsid = self.dword0_of(MANAGE, 2 * PAGE)
        assert self.attach(nsid, [self.ctrl]) == 0
        return nsid

    def delete(self, nsid):
        return self.status_of(MANAGE, nsid=nsid, dword10=1)

    def format(self, nsid, how=0):
        return self.status_of(FORMAT, nsid=nsid, dword10=how)

    def attach(self, nsid, ctrls, detach=0):
        self.at(2 * PAGE, PAGE)[:] = controller_list(ctrls)
        return self.status_of(ATTACH, 2 * PAGE, nsid=nsid, dword10=detach)


def controller_list(ctrls):
    return struct.pack(f'<{len(ctrls) + 1}H', len(ctrls), *ctrls).ljust(PAGE, b'\0')


def block_entry(opcode, nsid, first=0, count=1, prp1=0, prp2=0, flags=0, identifier=77):
    dwords = first % 2 ** 32, first >> 32, count - 1 & 0xffff
    return entry_of(opcode, identifier, nsid, prp1, prp2, *dwords, flags=flags)


class Blocks(Served):
    def drive(self, ctrl=0, pairs=1, **more):
        """Returns a guest with pairs of I/O queues whose rings begin at page 4."""
        drive = Drive(f'{self.path}{ctrl}', ctrl=ctrl, **more)
        self.addCleanup(drive.close)
        self.begin(drive, pairs)
        return drive

    def begin(self, drive, pairs=1):
        drive.set_config(COMMAND, MASTER, 2)
        drive.enable()
        for number in range(1, pairs + 1):
            ring = (2 + 2 * number) * PAGE
            drive.at(ring + PAGE, PAGE)[:] = bytes(PAGE)
            self.gives((drive.create_completions, number, ring + PAGE, 0), (drive.create_submissions, number, ring, 0))
