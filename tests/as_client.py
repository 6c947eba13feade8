"""A client of the protocol vfio-user, as the tests of `./nvme-model --vfio-user` need it: it sends what QEMU 11.1
sends, or anything else, and keeps a second machine of the library beside the server's, whose registers and memory must
agree with the server's in each byte."""

import contextlib
import functools
import importlib
import mmap
import os
import socket
import struct
import sys

from tests.driver import (
    ACQ, AQA, ASQ, CC, COMMAND, CSTS, HEAD, IDENTIFY, MASTER, PAGE, TAIL, Driver, counter, memory_file)
from tests.support import LIMIT

REACHED = 128 << 30
(VERSION, DMA_MAP, DMA_UNMAP, DEVICE_INFO, REGION_INFO, IRQ_INFO, SET_IRQS, REGION_READ, REGION_WRITE,
 RESET) = 1, 2, 3, 4, 5, 7, 8, 9, 10, 13
REQUEST, ANSWER, WANTS_NONE, ERROR = 0, 1, 0x10, 0x20
BAR, CONFIG = 0, 7
PIN, MESSAGES = 0, 1
READ, WRITE = 1, 2
BIND, UNBIND, MASK, UNMASK, BIND_UNMASK = 0x24, 0x21, 0x09, 0x11, 0x14
STATUS, MESSAGE_CONTROL = 6, 0x42
QEMU_CAPABILITIES = (b'{"capabilities": {"pgsizes": 4096, "max_msg_fds": 16, "max_dma_maps": 65535, '
                     b'"max_data_xfer_size": 1048576, "migration": {"pgsize": 4096, "max_bitmap_size": 8192}, '
                     b'"write_multiple": true}}\0')


def message(command, payload=b'', number=1, flags=REQUEST, size=None):
    return struct.pack('<HHIII', number, command, 16 + len(payload) if size is None else size, flags, 0) + payload


def mapping(address=0, size=PAGE, offset=0, flags=READ | WRITE):
    """Returns the payload of a request to map memory."""
    return struct.pack('<IIQQQ', 32, flags, offset, address, size)


def access(region, offset, count):
    """Returns what the payload of an access to a region begins with."""
    return struct.pack('<QII', offset, region, count)


class Client:
    """A connection to a function's socket."""

    def __init__(self, path):
        self.socket = socket.socket(socket.AF_UNIX)
        self.socket.settimeout(LIMIT)
        self.socket.connect(os.fspath(path))
        self.number = 0

    def close(self):
        self.socket.close()

    def say(self, command, payload=b'', files=(), flags=REQUEST):
        """Sends a message, with descriptors at its first byte."""
        self.number = (self.number + 1) % 2 ** 16
        socket.send_fds(self.socket, [message(command, payload, self.number, flags)], files)

    def receive(self, length):
        data = b''
        while len(data) < length:
            data += (piece := self.socket.recv(length - len(data)))
            assert piece, 'the server closed the connection'
        return data

    def heard(self):
        """Returns the number, command, flags and error of the next answer, and its payload."""
        number, command, size, flags, error = struct.unpack('<HHIII', self.receive(16))
        return number, command, flags, error, self.receive(size - 16)

    def asked(self, command, payload=b'', files=()):
        """Sends a request, and returns the error in its answer, or 0, and the payload."""
        self.say(command, payload, files)
        number, answered, flags, error, reply = self.heard()
        assert (number, answered) == (self.number, command), (number, answered)
        assert flags == (ANSWER | ERROR if error else ANSWER) and not (error and reply), (flags, error, reply)
        return error, reply

    def ask(self, *request):
        """Sends a request, and returns the payload of its answer."""
        error, reply = self.asked(*request)
        assert error == 0, error
        return reply

    def refusal(self, *request, **more):
        """Returns with which error a request is refused, or 0."""
        return self.asked(*request, **more)[0]

    def greet(self):
        return self.ask(VERSION, bytes(4) + QEMU_CAPABILITIES)

    def map(self, address, size, file=None, offset=0, flags=READ | WRITE):
        return self.refusal(DMA_MAP, mapping(address, size, offset, flags), files=[] if file is None else [file])

    def unmap(self, address, size, flags=0):
        return self.refusal(DMA_UNMAP, struct.pack('<IIQQ', 24, flags, address, size))

    def read(self, region, offset, count):
        reply = self.ask(REGION_READ, access(region, offset, count))
        assert reply[:16] == access(region, offset, count) and len(reply) == 16 + count
        return reply[16:]

    def write(self, region, offset, data, posted=False):
        payload = access(region, offset, len(data)) + data
        if posted:
            self.say(REGION_WRITE, payload, flags=WANTS_NONE)
        else:
            assert self.ask(REGION_WRITE, payload) == payload[:16]

    def set_irqs(self, flags, index, count=1, *files, first=0):
        return self.refusal(SET_IRQS, struct.pack('<5I', 20, flags, index, first, count), files)

    def config(self, offset, length=4):
        return int.from_bytes(self.read(CONFIG, offset, length), 'little')

    def set_config(self, offset, value, length=4):
        self.write(CONFIG, offset, value.to_bytes(length, 'little'))

    def register(self, offset, size=4):
        return int.from_bytes(self.read(BAR, offset, size), 'little')

    def set_register(self, offset, value, size=4):
        """Writes a register as QEMU does, without an answer."""
        self.write(BAR, offset, value.to_bytes(size, 'little'), posted=True)

    def is_closed(self):
        """Waits until the server closes the connection, after answers that nobody reads."""
        with contextlib.suppress(ConnectionError):
            while self.socket.recv(65536):
                pass
        return True


def register_of(machine, ctrl, offset):
    """Returns a register of the library's machine, with what a drive adds: a shutdown that was announced is over. (The
    machine keeps nothing of it, so `machine.notices` does.)"""
    value, notice = machine.read32(ctrl, offset), getattr(machine, 'notices', {}).get(ctrl, 0)
    return value | (notice if offset == CC else 8 if offset == CSTS and notice >> 14 in (1, 2) else 0)


def write_register(machine, ctrl, offset, value):
    """Writes a register of the library's machine."""
    machine.write32(ctrl, offset, value)
    if offset == CC:
        machine.notices = {**getattr(machine, 'notices', {}), ctrl: value & 3 << 14}


@functools.lru_cache(maxsize=None)
def module_of(place):
    """Returns the Python module of the library in this folder."""
    sys.path.insert(0, str(place))
    return importlib.import_module('nvme_controller')


class Piece:
    """A piece of a guest's memory."""

    def __init__(self, address, length, file=None, offset=0):
        self.address, self.length, self.offset = address, length, offset
        self.file = memory_file(offset + length) if file is None else file
        self.bytes = mmap.mmap(self.file, length, offset=offset)


class Guest(Driver, Client):
    """A client with memory and a driver. Beside it there may be a machine of the library, to which the same is done;
    `ctrl` is the controller's number in it. The machine is lent all that a controller reaches. These of its pages are
    no memory, but hold FFh at the beginning of each turn."""

    def __init__(self, path, machine=None, ctrl=0, layout=((0, 64 * PAGE),), command=MASTER, holes=()):
        super().__init__(path)
        self.machine, self.ctrl, self.pieces, self.holes = machine, ctrl, [], holes
        self.identities = []  # where Identify Controller was asked for
        if machine:
            self.flat = mmap.mmap(-1, REACHED, flags=mmap.MAP_PRIVATE | mmap.MAP_ANONYMOUS | 0x4000)  # (MAP_NORESERVE)
        self.greet()
        for address, length in layout:
            self.add(Piece(address, length))
        self.set_config(COMMAND, command, 2)

    def close(self):
        super().close()
        for piece in self.pieces:
            os.close(piece.file)
        self.pieces = []

    def add(self, piece):
        self.pieces.append(piece)
        assert self.map(piece.address, piece.length, piece.file, piece.offset) == 0

    def at(self, address, length):
        """Returns the bytes of the guest's memory at an address, which can be written."""
        for piece in self.pieces:
            if piece.address <= address and address + length <= piece.address + piece.length:
                start = address - piece.address
                return memoryview(piece.bytes)[start:start + length]
        raise IndexError(hex(address))

    def put(self, opcode, first=0, second=0, nsid=0, dword10=0, *rest, **more):
        if opcode == IDENTIFY and dword10 == 1:
            self.identities.append((first, second))
        super().put(opcode, first, second, nsid, dword10, *rest, **more)

    def add_bits(self):
        """Sets in the machine's answers to Identify Controller what a drive adds (OAES, AERL, ONCS)."""
        for first, second in self.identities:
            places = [first + at if at < self.page - first % self.page else second + at - self.page + first % self.page
                      for at in (93, 259, 520)]
            if places[2] < REACHED and self.flat[places[2]] == 0x10:
                for place, bits in zip(places, (1, 3, 0x8d)):
                    self.flat[place] |= bits

    def set(self, offset, value, size=4):
        """Writes a register, also that of the machine, which then takes its turn. All memory must then agree."""
        for piece in self.pieces if self.machine else ():
            self.flat[piece.address:piece.address + piece.length] = piece.bytes[:]
        for hole in self.holes:
            self.flat[hole:hole + PAGE] = b'\xff' * PAGE
        self.set_register(offset, value, size)
        if not self.machine:
            self.register(CSTS)
            return
        for part in range(0, size, 4):
            write_register(self.machine, self.ctrl, offset + part, value >> 8 * part & 0xffff_ffff)
        if offset in (TAIL, HEAD):
            self.machine.turn(self.ctrl, self.flat, PAGE << (self.machine.read32(self.ctrl, CC) >> 7 & 15))
            self.add_bits()
        self.agree()

    def agree(self):
        """Compares the registers, and each byte of the memory."""
        for offset in 0, 4, 8, CC, CSTS, AQA, ASQ, ASQ + 4, ACQ, ACQ + 4, TAIL, HEAD:
            got, wanted = self.register(offset), register_of(self.machine, self.ctrl, offset)
            assert got == wanted, (hex(offset), hex(got), hex(wanted))
        for piece in self.pieces:
            wanted = self.flat[piece.address:piece.address + piece.length]
            assert piece.bytes[:] == wanted, (hex(piece.address), differing(piece.bytes[:], wanted))

    def counters(self):
        """Binds event counters to the pin and to messages, and returns them."""
        found = counter(), counter()
        assert [self.set_irqs(BIND, index, 1, bell) for index, bell in enumerate(found)] == [0, 0]
        return found


def differing(got, wanted):
    """Returns the first offset at which two pieces differ, and what they hold there."""
    place = next(at for at, (one, other) in enumerate(zip(got, wanted)) if one != other)
    return hex(place), got[place:place + 16].hex(), wanted[place:place + 16].hex()

