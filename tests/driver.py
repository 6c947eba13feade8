"""A driver of a controller's admin queues, by its registers and a guest's memory, which the clients of both protocols
have (tests/as_client.py, tests/as_qemu.py)."""

import collections
import os
import select
import struct

PAGE = 4096
CC, CSTS, AQA, ASQ, ACQ, TAIL, HEAD = 0x14, 0x1c, 0x24, 0x28, 0x30, 0x1000, 0x1004
COMMAND, BASE = 4, 0x10
MASTER, NO_INTERRUPT, ENABLED = 6, 0x400, 0x0046_0001
IDENTIFY, TRANSFER_ERROR, INVALID_OFFSET = 6, 4, 0x13
NOWHERE = 2 ** 64 - PAGE
ENTRY, COMPLETION = struct.Struct('<BBHIQQQQ6I'), struct.Struct('<IIHHHH')
Completion = collections.namedtuple('Completion', 'dword0 reserved head submissions identifier status')


def counter():
    """Returns an event counter whose reads don't wait."""
    return os.eventfd(0, os.EFD_NONBLOCK | os.EFD_CLOEXEC)


def is_raised(number, seconds=0):
    """Returns whether an event counter was raised since the last call, or is raised within some time."""
    return bool(select.select([number], [], [], seconds)[0]) and os.read(number, 8) != b''


def memory_file(length):
    """Returns a file of memory without seals."""
    file = os.memfd_create('ram', os.MFD_CLOEXEC | os.MFD_ALLOW_SEALING)
    os.ftruncate(file, length)
    return file


def kept(process):
    """Returns how many descriptors a process has."""
    return len(os.listdir(f'/proc/{process}/fd'))


def chosen(lot, bits=64):
    """Returns a number that is likely to be wrong, or to be right."""
    near = lot.choice((0, 0, 1, 2, 4, 7, CC, AQA, ASQ, ACQ, TAIL, HEAD, PAGE, 2 * PAGE, 64 * PAGE, 1 << 20, 1 << 31,
                       1 << 63))
    return lot.choice((near, near, lot.getrandbits(64), lot.getrandbits(12), near + lot.randrange(-8, 9))) % 2 ** bits


def entry_of(opcode, identifier, nsid=0, first=0, second=0, *dwords, flags=0, reserved=(0, 0)):
    """Returns a submission queue entry with these PRP entries, and dwords from 10 on."""
    return ENTRY.pack(opcode, flags, identifier, nsid, *reserved, first, second, *dwords, *[0] * (6 - len(dwords)))


class Queue:
    """A queue, from either side: its ring and depth, the next slot, what the doorbell says, the phase of the next
    completion, and for submissions the number of the completion queue."""

    def __init__(self, ring, depth, completions=None):
        self.ring, self.depth, self.completions = ring, depth, completions
        self.next = self.doorbell = 0
        self.phase = 1

    def advance(self):
        self.next = (self.next + 1) % self.depth
        self.phase ^= self.next == 0


class Driver:
    """A driver. A class that is one has `at`, which returns the bytes of memory at an address, and `set_register`. The
    queues with the number 0 are the admin queues."""

    def set(self, offset, value, size=4):
        """Writes a register."""
        self.set_register(offset, value, size)

    def enable(self, rings=None, slots=(16, 16), power=0):
        """Enables the controller with pages of 4,096 bytes, doubled `power` times, of which two are the queues unless
        other places are given."""
        self.page = PAGE << power
        rings = rings or (0, self.page)
        self.submissions, self.completions = {0: Queue(rings[0], slots[0], 0)}, {0: Queue(rings[1], slots[1])}
        self.taken = 0
        attributes = slots[0] - 1 | slots[1] - 1 << 16
        for offset, value in ((CC, 0), (AQA, attributes), (ASQ, rings[0]), (ACQ, rings[1]), (CC, ENABLED | power << 7)):
            self.set(offset, value, 8 if offset in (ASQ, ACQ) else 4)

    def put_entry(self, entry, number=0):
        """Writes an entry to a queue."""
        queue = self.submissions[number]
        self.at(queue.ring + 64 * queue.next, 64)[:] = entry
        queue.advance()

    def put(self, opcode, first=0, second=0, nsid=0, dword10=0, dword11=0, dword12=0, flags=0, rings=True):
        """Writes an entry to the admin queue, and rings the tail doorbell."""
        identifier = self.submissions[0].next + 100
        self.put_entry(entry_of(opcode, identifier, nsid, first, second, dword10, dword11, dword12, flags=flags))
        if rings:
            self.set(TAIL, self.submissions[0].next)

    def completion(self, number=0):
        """Returns the next completion of a queue, or nothing if there is none."""
        queue = self.completions[number]
        *fields, status = COMPLETION.unpack(self.at(queue.ring + 16 * queue.next, 16))
        return Completion(*fields, status >> 1 & 0x7ff) if status & 1 == queue.phase else None

    def advance(self):
        """Goes past the next completion, which must be that of the oldest command, and returns its status."""
        found = self.completion()
        assert found and found.identifier - 100 == self.taken % self.submissions[0].depth, (found, self.taken)
        self.taken += 1
        self.completions[0].advance()
        return found.status

    def take(self):
        """Takes the next completion, and returns its status."""
        status = self.advance()
        self.set(HEAD, self.completions[0].next)
        return status

    def status_of(self, *command, **more):
        self.put(*command, **more)
        return self.take()

    def identify(self, first, second=0):
        """Sends Identify Controller, and returns its status."""
        return self.status_of(IDENTIFY, first, second, dword10=1)

    def serial(self, page=None):
        """Returns the serial number in the Identify Controller data, in the page after the queues or in another one."""
        page = 2 * self.page if page is None else page
        assert self.identify(page) == 0
        return bytes(self.at(page + 4, 20)).decode().strip()
