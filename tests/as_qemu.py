"""Takes QEMU's place in the tests of `./nvme-model --qemu`, as a program that is run with QEMU's options: it sends the
PCI functions the messages of a scenario of this file, `python3 -m tests.as_qemu SCENARIO[:ARGUMENT..] OPTION..`. Its
expectations are assertions, and its status is 0 if they hold."""

import contextlib
import mmap
import os
import random
import re
import signal
import socket
import struct
import sys

from tests.driver import (
    ASQ, BASE, CC, COMMAND, CSTS, IDENTIFY, MASTER, PAGE, Driver, chosen, counter, is_raised, kept, memory_file)
from tests.support import LIMIT, until

MEMORY, ANSWER, CONFIG_WRITE, CONFIG_READ, BAR_WRITE, BAR_READ, INTERRUPT, RESET = range(8)


class Function(Driver):
    """A PCI function, as QEMU sees it."""

    def __init__(self, number):
        self.socket = socket.socket(fileno=number)
        self.ram = self.interrupt = self.seen = None

    def say(self, kind, body=b'', files=(), size=None):
        """Sends a message. Descriptors are sent with its header."""
        header = struct.pack('=iiQ', kind, 0, len(body) if size is None else size)
        socket.send_fds(self.socket, [header, body], files)

    def ask(self, kind, body=b'', files=()):
        """Sends a message, and returns the number in its answer."""
        self.say(kind, body, files)
        kind, size, value = struct.unpack('=i4xQQ', self.socket.recv(24, socket.MSG_WAITALL))
        assert (kind, size) == (ANSWER, 8)
        return value

    def config(self, address, length=4):
        return self.ask(CONFIG_READ, struct.pack('=IIi', address, 0, length))

    def set_config(self, address, value, length=4):
        self.ask(CONFIG_WRITE, struct.pack('=IIi', address, value, length))

    def register(self, offset, size=4):
        return self.ask(BAR_READ, struct.pack('=QQIB3x', 0xfebd_4000 + offset, 0, size, 1))

    def set_register(self, offset, value, size=4):
        self.ask(BAR_WRITE, struct.pack('=QQIB3x', 0xfebd_4000 + offset, value, size, 1))

    def sections(self, rows, files):
        """Sends the sections of memory, as rows of an address, a size and an offset in the file."""
        columns = zip(*[*rows, *[(0, 0, 0)] * 8][:8])
        self.say(MEMORY, b''.join(struct.pack('=8Q', *column) for column in columns), files)

    def at(self, address, length):
        return memoryview(self.ram)[address:address + length]

    def begin(self):
        """Gives the function memory without holes, and enables the controller with queues of 16 slots."""
        file = memory_file(64 * PAGE)
        self.sections([(0, 64 * PAGE, 0)], [file])
        self.ram = mmap.mmap(file, 64 * PAGE)
        os.close(file)
        self.set_config(COMMAND, MASTER, 2)
        self.enable()

    def listen(self):
        """Gives the function its event counters."""
        self.interrupt, self.seen = counter(), counter()
        self.say(INTERRUPT, files=[self.interrupt, self.seen])

    def is_raised(self, seconds=0):
        """Returns whether the interrupt was raised since the last call, after waiting until earlier messages have been
        handled, or is raised within some time."""
        self.config(0)
        return is_raised(self.interrupt, seconds)


def keeps(count, *about):
    """Waits until the program has so many descriptors."""
    assert until(lambda: kept(os.getppid()) == count), (kept(os.getppid()), count, *about)


def configuration(first, second):
    """QEMU's reads and writes before its machine starts. (tests/test_vfio_user.py tries each register.)"""
    for function in first, second:
        for address, length, value in ((0, 4, 0x0010_1b36), (0x0a, 2, 0x0108), (8, 1, 2), (9, 1, 2), (0x3d, 1, 1)):
            assert function.config(address, length) == value
        for address, value in (0, 0x0010_1b36), (COMMAND, 0x406), (BASE, 0xffff_c000), (BASE + 4, 0):
            function.set_config(address, 0xffff_ffff)
            assert function.config(address) == value
        for address, length in (256, 1), (255, 2), (0, 5), (0, -1), (0, 0), (0xffff_ffff, 4), (-4 & 0xffff_ffff, 4):
            function.set_config(address, 0x1234, length)
            assert function.config(address, length) == 0
        function.set_config(0x3c, 11, 1)
        assert function.config(0x3c, 2) == 0x010b


def registers(first, second):
    """Registers are read and written in each size. Section "Controller Properties" defines their bits."""
    assert first.register(0, 8) == 0x0040_0020_0101_0fff and first.register(8) == 0x0001_0400
    assert first.register(1, 1) == 0x0f and first.register(2, 2) == 0x0101 and first.register(3, 2) == 0x2001
    for size in 0, 3, 16, 0xffff_ffff:
        first.register(0, size)
        first.set_register(ASQ, 0x1000, size)
    assert first.register(ASQ, 8) == 0
    first.set_register(ASQ, 0x1_0000_2000, 8)
    assert first.register(ASQ, 8) == 0x1_0000_2000 and second.register(ASQ, 8) == 0
    first.register(0x3ffc, 8)
    first.set_register(0x3ffc, 1, 8)


def commands(first, second):
    """Both controllers take commands, each over its own memory and past the end of its queues, and one is reset."""
    first.begin()
    second.begin()
    for _ in range(20):
        assert first.serial() == 'S0' and second.serial() == 'S1'
    assert first.register(CSTS) == 1 and first.status_of(0x18) == 1, 'a refused opcode'
    first.ask(RESET)
    assert first.register(CC) == first.register(CSTS) == first.config(COMMAND) == 0 and second.serial() == 'S1'
    first.set_config(COMMAND, MASTER, 2)
    first.enable()
    assert first.serial() == 'S0'


def interrupts(first, second):
    """The interrupt is raised at a completion, and again once it was seen, if the completion still waits."""
    first.listen()
    first.begin()
    assert not first.is_raised()
    first.put(IDENTIFY, 2 * PAGE, dword10=1)
    assert first.is_raised() and not first.is_raised()
    os.eventfd_write(first.seen, 1)
    assert first.is_raised(LIMIT)
    first.take()
    os.eventfd_write(first.seen, 1)
    assert not first.is_raised(0.1)
    # (the pin has no vectors: Create I/O Completion Queue is refused with Invalid Interrupt Vector)
    assert first.status_of(5, 8 * PAGE, dword10=15 << 16 | 1, dword11=1 << 16 | 3) == 0x108
    # (anything but two counters leaves none, and isn't kept)
    pipe, before = os.pipe()[0], kept(os.getppid())
    for files in ([], [first.interrupt], [pipe] * 2, [first.interrupt] * 3, [pipe, first.interrupt],
                  [first.interrupt, pipe]):
        first.listen()
        first.say(INTERRUPT, files=files)
        assert first.identify(2 * PAGE) == 0 and not first.is_raised()
        keeps(before - 2, files)


def sections(first, second):
    """After sections that aren't memory, the function has no memory, and keeps none of the given files."""
    plain, short = memory_file(1 << 20), memory_file(PAGE)
    other = os.open('/dev/zero', os.O_RDWR)
    whole, top = (0, 1 << 20, 0), 1 << 63
    wrong = [
        ([], []), ([whole], []), ([whole], [short]), ([whole], [other]), ([whole], [first.socket.fileno()]),
        ([whole], [plain] * 2), ([(0, top, 0)], [plain]), ([(1 << 40, PAGE, 0)], [plain]),
        ([whole, (0x8000, PAGE, 0)], [plain] * 2), ([whole], [plain] * 8), ([whole] * 8, [plain] * 12)]
    before = kept(os.getppid())
    for rows, files in wrong:
        first.begin()
        assert first.serial() == 'S0'
        first.sections(rows, files)
        first.put(IDENTIFY, 2 * PAGE, dword10=1)
        assert first.register(CSTS) & 2, (rows, files)
        keeps(before, rows)
    # what lies apart is there, in any order
    first.sections([(2 << 20, 1 << 20, 0), whole], [memory_file(1 << 20), plain])
    first.ram = mmap.mmap(plain, 1 << 20)
    first.enable()
    assert first.identify(2 << 20) == 0
    # more descriptors come with the body than are allowed
    before = kept(os.getppid())
    first.say(MEMORY, files=[plain] * 5, size=192)
    for _ in range(2):
        socket.send_fds(first.socket, [bytes(96)], [plain] * 5)
    first.config(0)
    keeps(before - 2)


def said(*words, body=b''):
    return struct.pack('=iiQ', *words) + body


BROKEN = {
    'kind_below': said(-1, 0, 0), 'kind_above': said(8, 0, 0), 'kind_answer': said(ANSWER, 0, 8, body=bytes(8)),
    'no_size': said(CONFIG_READ, 0, 0), 'other_size': said(CONFIG_READ, 0, 13, body=bytes(13)),
    'greatest_size': said(BAR_WRITE, 0, 2 ** 64 - 1), 'great_size': said(MEMORY, 0, 1 << 40),
    'size_of_reset': said(RESET, 0, 1, body=b'x'), 'cut_header': said(RESET, 0, 0)[:15],
    'cut_body': said(BAR_READ, 0, 24, body=bytes(23)), 'no_body': said(MEMORY, 0, 192), 'first_byte': b'\0'}


def broken(first, second, name):
    """After an invalid message, the other process ends."""
    first.socket.sendall(BROKEN[name])
    first.socket.shutdown(socket.SHUT_WR)
    signal.pause()


def gone(first, second):
    """QEMU releases a function because its device is unplugged, and the other function continues."""
    first.socket.close()
    second.begin()
    assert second.serial() == 'S1'


def random_body(lot, kind):
    if kind == MEMORY:
        numbers = (chosen(lot) // lot.choice((1, PAGE)) * lot.choice((1, PAGE)) % 2 ** 64 for _ in range(24))
        return struct.pack('=24Q', *numbers)
    if kind in (CONFIG_READ, CONFIG_WRITE):
        address = lot.choice((COMMAND, lot.randrange(260), chosen(lot, 32)))
        return struct.pack('=IIi', address, chosen(lot, 32), lot.choice((1, 2, 4, lot.randrange(-9, 9))))
    if kind in (BAR_READ, BAR_WRITE):
        return struct.pack('=QQII', chosen(lot), chosen(lot), lot.choice((4, 4, 8, lot.randrange(20))), 1)
    return b''


def random_messages(first, second, seed, count):
    """Random messages, in which valid memory and random queues recur."""
    lot = random.Random(int(seed))
    files = [memory_file(64 * PAGE), memory_file(PAGE), counter(), os.open('/dev/null', os.O_RDWR)]
    for turn in range(int(count)):
        function = lot.choice((first, second))
        if turn % 50 == 0:
            function.begin()
            function.listen()
            os.close(function.interrupt), os.close(function.seen)
        if function.ram and turn % 3 == 0:
            function.ram[:2 * PAGE] = lot.randbytes(2 * PAGE) if turn % 2 else bytes(2 * PAGE)
        kind = lot.choice((MEMORY, CONFIG_WRITE, CONFIG_READ, *[BAR_WRITE] * 3, BAR_READ, INTERRUPT, RESET))
        given = lot.choices(files, k=lot.choice((0, 0, 1, 2, 3, 8, 12)))
        if kind in (MEMORY, INTERRUPT):
            function.say(kind, random_body(lot, kind), given)
        else:
            function.ask(kind, random_body(lot, kind), given if turn % 7 == 0 else [])
    first.say(lot.randrange(-3, 12), lot.randbytes(lot.randrange(40)), size=lot.getrandbits(64))
    # (nvme-model ends at this message, and nothing else comes)
    with contextlib.suppress(ConnectionError):
        first.socket.recv(1)


if __name__ == '__main__':
    name, *arguments = sys.argv[1].split(':')
    numbers = re.findall(r'x-pci-proxy-dev,fd=(\d+)', ' '.join(sys.argv))
    globals()[name](*(Function(int(number)) for number in numbers), *arguments)
