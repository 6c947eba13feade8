"""A plain model of I/O queues, for tests of ./nvme-model --vfio-user: what entries do to a guest's memory and to the
data of namespaces, by the rules of the standard, one entry after the other. It is told what a host does."""

import struct

from tests import blocks as nvme
from tests.driver import COMPLETION, ENTRY, INVALID_OFFSET, PAGE, TRANSFER_ERROR

REACHED, ALL = 128 << 30, 2 ** 32 - 1
# The reserved bits of the dwords 10 to 15.
RESERVED = {nvme.FLUSH: (ALL,) * 6, nvme.WRITE: (0, 0, 0x030f_0000, 0xff00, 0, 0),
            nvme.READ: (0, 0, 0x03ff_0000, 0xffff_ff00, 0, 0), nvme.COMPARE: (0, 0, 0x03ff_0000, ALL, 0, 0),
            nvme.WRITE_ZEROES: (0, 0, 0x01ff_0000, ALL, 0, 0), nvme.VERIFY: (0, 0, 0x03ff_0000, ALL, 0, 0),
            nvme.DATASET: (0xffff_ff00, 0xffff_fff8, ALL, ALL, ALL, ALL)}


class Refused(Exception):
    """A command is refused with this status."""


def page_of(address, unit):
    """Returns an address that is a multiple of a number and that a controller reaches."""
    if address % unit or address >= REACHED:
        raise Refused(INVALID_OFFSET if address % unit else TRANSFER_ERROR)
    return address


class Model:
    def __init__(self, memory, most):
        """`memory` is the guest's from address 0 on; what is above it is a hole. `most` is the greatest transfer."""
        self.memory, self.most = memory, most
        self.data = {}  # the active namespaces, by NSID: data and block size
        self.submissions, self.completions = {}, {}
        self.has_failed = False

    def get(self, address, length):
        """Reads memory. A hole has FFh."""
        return bytes(self.memory[address:address + length]).ljust(length, b'\xff')

    def put(self, address, data):
        self.memory[address:address + len(data)] = data[:max(0, len(self.memory) - address)]

    def spans(self, prp1, prp2, length):
        """Returns the places and lengths of a transfer."""
        first = min(length, PAGE - prp1 % PAGE)
        found, left, at = [(page_of(prp1, 4), first)], length - first, prp2
        if 0 < left <= PAGE:
            return [*found, (page_of(prp2, PAGE), left)]
        if left:
            page_of(prp2, 8)
        while left:
            if at % PAGE == PAGE - 8 and left > PAGE:
                at = page_of(int.from_bytes(self.get(at, 8), 'little'), PAGE)
            found.append((page_of(int.from_bytes(self.get(at, 8), 'little'), PAGE), min(left, PAGE)))
            left -= found[-1][1]
            at += 8
        return found

    def perform(self, entry):
        """Does a command, or raises why it is refused."""
        opcode, flags, _, nsid, _, _, prp1, prp2, *dwords = ENTRY.unpack(entry)
        if opcode not in RESERVED:
            raise Refused(nvme.INVALID_OPCODE)
        if flags & 0xc3:
            raise Refused(nvme.INVALID_FIELD)
        if nsid not in self.data:
            raise Refused(nvme.INVALID_NAMESPACE)
        if any(dword & mask for dword, mask in zip(dwords, RESERVED[opcode])):
            raise Refused(nvme.INVALID_FIELD)
        data, block = self.data[nsid]
        if opcode == nvme.DATASET:
            self.deallocate(data, block, prp1, prp2, dwords)
        elif opcode != nvme.FLUSH:
            first, length = (dwords[0] | dwords[1] << 32) * block, ((dwords[2] & 0xffff) + 1) * block
            transfers = opcode in (nvme.READ, nvme.WRITE, nvme.COMPARE)
            if transfers and length > self.most:
                raise Refused(nvme.INVALID_FIELD)
            if first + length > len(data):
                raise Refused(nvme.OUT_OF_RANGE)
            if transfers:
                self.transfer(opcode, data, first, self.spans(prp1, prp2, length))
            elif opcode == nvme.WRITE_ZEROES:
                data[first:first + length] = bytes(length)

    def transfer(self, opcode, data, at, spans):
        if opcode == nvme.COMPARE:
            told = b''.join(self.get(*span) for span in spans)
            if told != data[at:at + len(told)]:
                raise Refused(nvme.DIFFERS)
            return
        for address, length in spans:
            if opcode == nvme.READ:
                self.put(address, data[at:at + length])
            else:
                data[at:at + length] = self.get(address, length)
            at += length

    def deallocate(self, data, block, prp1, prp2, dwords):
        told = b''.join(self.get(*span) for span in self.spans(prp1, prp2, 16 * ((dwords[0] & 0xff) + 1)))
        ranges = [(first * block, length * block) for length, first in struct.iter_unpack('<4xIQ', told)]
        if any(first + length > len(data) for first, length in ranges):
            raise Refused(nvme.OUT_OF_RANGE)
        for first, length in ranges if dwords[1] & 4 else ():
            data[first:first + length] = bytes(length)

    def take(self, number):
        """Takes the next entry of a submission queue, and returns whether there was one that could be completed."""
        queue = self.submissions[number]
        to = self.completions[queue.completions]
        if self.has_failed or queue.next == queue.doorbell or (to.next + 1) % to.depth == to.doorbell:
            return False
        at, slot = queue.ring + 64 * queue.next, to.ring + 16 * to.next
        self.has_failed = max(at, slot) >= len(self.memory)
        if self.has_failed:
            return False
        entry, status = self.get(at, 64), 0
        try:
            self.perform(entry)
        except Refused as refused:
            status = refused.args[0] | 0x4000
        queue.advance()
        identifier = ENTRY.unpack(entry)[2]
        self.put(slot, COMPLETION.pack(0, 0, queue.next, number, identifier, status << 1 | to.phase))
        to.advance()
        return True

    def ring_tail(self, number, value):
        if number in self.submissions and value < self.submissions[number].depth:
            self.submissions[number].doorbell = value

    def ring_head(self, number, value):
        queue = self.completions.get(number)
        if queue and value < queue.depth and (
                (value - queue.doorbell) % queue.depth <= (queue.next - queue.doorbell) % queue.depth):
            queue.doorbell = value
