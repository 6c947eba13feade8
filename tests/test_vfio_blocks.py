"""Tests the I/O queues of ./nvme-model --vfio-user, and the admin commands of a drive. Statuses are those of the
standard."""

import struct

from tests import blocks as nvme
from tests.as_client import BAR, BIND, MESSAGES, REGION_WRITE, RESET, WANTS_NONE, access, message
from tests.blocks import FLUSH, block_entry, controller_list
from tests.driver import (
    CC, CSTS, ENABLED, HEAD, IDENTIFY, INVALID_OFFSET, NOWHERE, PAGE, TAIL, TRANSFER_ERROR, counter, is_raised)
from tests.served import EVERY, GIBIBYTE
from tests.support import DEMO


class Queues(nvme.Blocks):
    def test_numbers(self):
        # up to 64 queues of each kind, as many as the host asked for, if there are none yet
        drive = self.drive(pairs=0)
        self.answers(lambda which: drive.dword0_of(nvme.GET_FEATURES, dword10=7 | which << 8),
                     (0, 63 << 16 | 63), (1, 63 << 16 | 63), (2, 63 << 16 | 63), (3, 4))
        for asked, granted in ((1 << 16 | 1, 1 << 16 | 1), (0, 0), (0xfffe_fffe, 63 << 16 | 63),
                               (5 << 16 | 99, 5 << 16 | 63)):
            self.assertEqual(drive.dword0_of(nvme.SET_FEATURES, dword10=7, dword11=asked), granted)
            self.assertEqual(drive.dword0_of(nvme.GET_FEATURES, dword10=7), granted)
        self.answers(lambda *words: drive.status_of(nvme.SET_FEATURES, 0, 0, *words),
                     (0, 7, 0xffff, nvme.INVALID_FIELD), (0, 7, 0xffff_0000, nvme.INVALID_FIELD),
                     (0, 7 | 1 << 31, 0, nvme.NOT_SAVEABLE), (1, 7, 0, nvme.NOT_OF_NAMESPACE))
        self.assertEqual(drive.status_of(nvme.GET_FEATURES, dword10=7 | 4 << 8), nvme.INVALID_FIELD)
        self.assertEqual(drive.dword0_of(nvme.GET_FEATURES, dword10=7), 5 << 16 | 63)
        # (6 completion queues and 64 submission queues)
        self.gives((drive.create_completions, 7, 8 * PAGE, nvme.INVALID_QUEUE),
                   (drive.create_completions, 6, 8 * PAGE, 0), (drive.create_submissions, 64, 9 * PAGE, 16, 6, 0),
                   (drive.status_of, nvme.SET_FEATURES, 0, 0, 0, 7, nvme.SEQUENCE_ERROR))
        # all 64 pairs, after a reset
        drive.enable()
        for number in *range(1, 65), 65, 66, 0xffff:
            status = nvme.INVALID_QUEUE if number > 64 else 0
            self.gives((drive.create_completions, number, 8 * PAGE, 2, status),
                       (drive.create_submissions, number, 9 * PAGE, 2, min(number, 64), status))

    def test_creation(self):
        drive, ring = self.drive(pairs=0), 8 * PAGE
        self.answers(drive.create_completions,
                     (0, ring, nvme.INVALID_QUEUE), (65, ring, nvme.INVALID_QUEUE), (1, ring, 1, nvme.INVALID_SIZE),
                     (1, ring, 4097, nvme.INVALID_SIZE), (1, ring, 65536, nvme.INVALID_SIZE),
                     (1, ring + 8, INVALID_OFFSET), (1, ring, 16, 2, nvme.INVALID_FIELD),
                     (1, ring, 16, 3, 1, nvme.INVALID_VECTOR), (1, ring, 4096, 0), (1, ring, nvme.INVALID_QUEUE),
                     (2, ring, 2, 1, 0))
        self.answers(drive.create_submissions,
                     (0, ring, 16, 1, nvme.INVALID_QUEUE), (65, ring, 16, 1, nvme.INVALID_QUEUE),
                     (1, ring, 1, 1, nvme.INVALID_SIZE), (1, ring, 4097, 1, nvme.INVALID_SIZE),
                     (1, ring + 4, 16, 1, INVALID_OFFSET), (1, ring, 16, 1, 0, nvme.INVALID_FIELD),
                     (1, ring, 16, 0, nvme.INVALID_QUEUE), (1, ring, 16, 65, nvme.INVALID_QUEUE),
                     (1, ring, 16, 3, nvme.NO_COMPLETION_QUEUE), (1, ring, 16, 2, 7, 0),
                     (1, ring, 16, 1, nvme.INVALID_QUEUE), (64, ring, 4096, 2, 0))
        # deletion: a completion queue goes after its submission queues
        completions, submissions = nvme.DELETE_COMPLETIONS, nvme.DELETE_SUBMISSIONS
        for opcode, status, *numbers in (
                (completions, nvme.INVALID_QUEUE, 0, 3, 0xffff), (completions, nvme.INVALID_DELETION, 2),
                (submissions, nvme.INVALID_QUEUE, 0, 2, 0xffff), (submissions, 0, 1),
                (submissions, nvme.INVALID_QUEUE, 1), (completions, nvme.INVALID_DELETION, 2), (submissions, 0, 64),
                (completions, 0, 2), (completions, nvme.INVALID_QUEUE, 2), (completions, 0, 1)):
            for number in numbers:
                self.assertEqual(drive.status_of(opcode, dword10=number), status, (opcode, number))
        # fused commands and SGLs are refused, as by the controller
        for flags in 1, 0x40:
            self.assertEqual(drive.status_of(completions, dword10=1, flags=flags), nvme.INVALID_FIELD)

    def test_shared_completions(self):
        # two submission queues of other depths, and completions in one queue without interrupts
        drive, bell = self.drive(pairs=0), counter()
        self.gives((drive.create_completions, 9, 8 * PAGE, 5, 1, 0), (drive.create_submissions, 1, 9 * PAGE, 2, 9, 0),
                   (drive.create_submissions, 7, 10 * PAGE, 100, 9, 0), (drive.set_irqs, BIND, MESSAGES, 1, bell, 0))
        is_raised(bell)
        for turn in range(300):
            number, count = 7 if turn % 3 else 1, 3 if turn % 6 == 5 else 1
            for extra in range(count):
                drive.put_io(number, block_entry(FLUSH, 1, identifier=turn + 1000 * extra))
            for extra in range(count):
                self.assertEqual(drive.take_io(9)[3:], (number, turn + 1000 * extra, 0))
        self.assertFalse(is_raised(bell))
        # entries wait for room in the completion queue
        for turn in range(10):
            drive.put_io(7, block_entry(FLUSH, 1, identifier=turn))
        self.assertEqual([drive.take_io(9, rings=False).identifier for _ in range(4)], [0, 1, 2, 3])
        self.assertIsNone(drive.take_io(9, rings=False))
        self.sleeps()
        drive.set_register(HEAD + 8 * 9, drive.completions[9].next)
        self.assertEqual([drive.take_io(9).identifier for _ in range(6)], [4, 5, 6, 7, 8, 9])

    def test_turns(self):
        # queues take turns, and an entry waits for no more than one of each other queue
        drive, tails = self.drive(pairs=0), ((1, 40), (2, 3))
        self.assertEqual(drive.create_completions(1, 8 * PAGE, 100), 0)
        for number, tail in tails:
            self.assertEqual(drive.create_submissions(number, (8 + number) * PAGE, 64, 1), 0)
            for _ in range(tail):
                drive.put_io(number, block_entry(FLUSH, 1), rings=False)
        # (both doorbells come at once)
        drive.socket.sendall(b''.join(
            message(REGION_WRITE, access(BAR, TAIL + 8 * number, 4) + struct.pack('<I', tail), flags=WANTS_NONE)
            for number, tail in tails))
        self.sleeps()
        queues = [drive.take_io(1).submissions for _ in range(43)]
        first = queues.index(2)
        self.assertLess(first, 18)
        self.assertEqual(queues[first:first + 5], [2, 1, 2, 1, 2])

    def test_interrupts(self):
        # one message for each completion that is taken alone
        drive = self.drive()
        bell = drive.counters()[1]
        is_raised(bell)
        for _ in range(20):
            self.assertEqual((drive.io(FLUSH, 1), is_raised(bell)), (0, True))
        self.assertFalse(is_raised(bell))

    def test_doorbells(self):
        # values that a queue can't have, the admin queues too, and doorbells without a queue, are ignored
        drive = self.drive()
        for value in 16, 17, 0xffff, 0x1_0000, 0xffff_ffff, 1:
            for offset in range(0x1010 if value == 1 else 0x1000, 0x4000, 4):
                drive.set_register(offset, value)
        for offset, value in (HEAD, 5), (HEAD + 8, 3):
            drive.set_register(offset, value)
        self.assertEqual((drive.io(FLUSH, 1), drive.serial(), drive.register(CSTS)), (0, 'S0', 1))
        self.assertEqual(drive.read(BAR, 0x1000, 0x3000), bytes(0x3000))

    def test_rings_in_holes(self):
        # a slot outside of memory is fatal, and a reset brings the controller back
        drive = self.drive(pairs=0)
        for hole in 64 * PAGE, GIBIBYTE, 128 * GIBIBYTE, NOWHERE:
            for rings in (hole, 9 * PAGE), (8 * PAGE, hole):
                self.begin(drive, 0)
                self.gives((drive.create_completions, 1, rings[1], 0), (drive.create_submissions, 1, rings[0], 0))
                drive.set_register(TAIL + 8, 1)
                self.assertEqual(drive.register(CSTS), 3, rings)
                drive.put(IDENTIFY, 2 * PAGE, dword10=1)
                self.assertIsNone(drive.completion())
        self.begin(drive)
        self.assertEqual(drive.io(FLUSH, 1), 0)

    def test_shutdown(self):
        drive = self.drive()
        for value, status in ((ENABLED | 1 << 14, 9), (ENABLED | 2 << 14, 9), (ENABLED | 3 << 14, 1), (ENABLED, 1),
                              (ENABLED | 1 << 14, 9), (ENABLED & ~1, 0)):
            drive.set_register(CC, value)
            self.assertEqual(drive.register(CSTS), status)
        # (nothing is left of the queues)
        drive.put_io(1, block_entry(FLUSH, 1))
        self.assertIsNone(drive.take_io(1))
        self.begin(drive)
        self.assertEqual((drive.register(CSTS), drive.io(FLUSH, 1)), (1, 0))

    def test_several_controllers(self):
        # one namespace at both, with different memory and queues
        first, second = self.drive(0, pairs=2), self.drive(1)
        both = b'one' * 170 + b'on' + b'two!' * 128 + (b'one' * 512)[1024:]
        self.gives((second.read_status, 1, nvme.INVALID_NAMESPACE), (first.attach, 1, [1], 0),
                   (first.store, 1, 5, b'one' * 512, 0), (second.load, 1, 5, 3, b'one' * 512),
                   (second.store, 1, 6, b'two!' * 128, 0), (first.load, 1, 5, 3, 32 * PAGE, 2, both),
                   (second.read_status, 3, nvme.INVALID_NAMESPACE), (first.attach, 1, [0], 1, 0),
                   (first.read_status, 1, nvme.INVALID_NAMESPACE), (second.load, 1, 6, 1, b'two!' * 128),
                   # (a reset of one leaves the other's queues)
                   (first.ask, RESET, b''), (second.load, 1, 6, 1, b'two!' * 128))


def event(drive):
    """Takes an event of the admin queue, if there is one, and returns its command identifier."""
    drive.register(0)
    found = drive.completion()
    if found:
        drive.completions[0].advance()
        drive.set(HEAD, drive.completions[0].next)
        assert (found.dword0, found.status) == (0x0004_0002, 0), found
    return found and found.identifier


def request(drive):
    """Requests an event, and returns the command identifier."""
    drive.put(nvme.REQUEST_EVENT)
    drive.taken += 1
    return (drive.submissions[0].next - 1) % 16 + 100


class Commands(nvme.Blocks):
    def page(self, drive, opcode, **more):
        """Returns a page of FFh to which a command wrote its data."""
        drive.at(2 * PAGE, PAGE)[:] = b'\xff' * PAGE
        self.assertEqual(drive.status_of(opcode, 2 * PAGE, **more), 0)
        return bytes(drive.at(2 * PAGE, PAGE))

    def test_identify(self):
        # what Identify Controller says of what a drive has beside the controller
        drive = self.drive(pairs=0)
        for place in 2 * PAGE, 2 * PAGE + 0xf00, 2 * PAGE + 0xfa4:
            self.assertEqual(drive.status_of(IDENTIFY, place, 3 * PAGE, dword10=1), 0)
            page = bytes(drive.at(place, PAGE))
            self.assertEqual(struct.unpack_from('<I', page, 92) + struct.unpack_from('<H', page, 520), (0x100, 0x9d))
            self.assertEqual((page[258], page[259], page[261], page[4:6]), (0, 3, 4, b'S0'))
        # (and no command is aborted)
        self.assertEqual(drive.dword0_of(nvme.ABORT, dword10=1), 1)

    def test_descriptors(self):
        drive = self.drive(pairs=0)
        self.answers(lambda nsid, place=2 * PAGE: drive.status_of(IDENTIFY, place, nsid=nsid, dword10=3),
                     (1, 2 * PAGE + 1, INVALID_OFFSET), (1, NOWHERE, TRANSFER_ERROR), (3, 0), (2, nvme.INVALID_FIELD),
                     *((nsid, nvme.INVALID_NAMESPACE) for nsid in (0, 5, EVERY)))
        self.assertEqual(self.page(drive, IDENTIFY, nsid=1, dword10=3), bytes([4, 1, 0, 0, 0]).ljust(PAGE, b'\0'))

    def test_controllers(self):
        drive = self.drive(pairs=0)

        def lists(*rows):
            for nsid, dword10, wanted in rows:
                self.assertEqual(self.page(drive, IDENTIFY, nsid=nsid, dword10=dword10), controller_list(wanted))
        lists((0, 0x13, [0, 1]), (0, 0x13 | 1 << 16, [1]), (0, 0x13 | 2 << 16, []), (1, 0x12, [0]),
              (1, 0x12 | 1 << 16, []), (3, 0x12, [0]))
        self.answers(lambda nsid: drive.status_of(IDENTIFY, 2 * PAGE, nsid=nsid, dword10=0x12),
                     (2, nvme.INVALID_FIELD), (0, nvme.INVALID_NAMESPACE), (5, nvme.INVALID_NAMESPACE),
                     (EVERY, nvme.INVALID_FIELD))
        self.assertEqual(drive.attach(1, [1]), 0)
        lists((1, 0x12, [0, 1]))

    def test_firmware(self):
        drive = self.drive(pairs=0)
        page = (b'\1' + bytes(7) + b'1.0     ').ljust(512, b'\0')
        for offset, length in (0, 512), (0, 4), (8, 8), (256, 256), (512, 4), (500, 512):
            got = self.page(drive, nvme.GET_LOG, nsid=EVERY, dword10=3 | length // 4 - 1 << 16, dword12=offset)
            self.assertEqual(got, page[offset:offset + length].ljust(length, b'\0').ljust(PAGE, b'\xff'))
        self.answers(lambda nsid, *dwords: drive.status_of(nvme.GET_LOG, 2 * PAGE, 0, nsid, 3 | 127 << 16, *dwords),
                     *((*row, nvme.INVALID_FIELD) for row in ((1, 0, 0), (0, 0, 2), (0, 0, 516), (0, 1, 0))))

    def test_events(self):
        # a controller hears of what another one does, once until its log was read
        first, second = self.drive(0, pairs=0), self.drive(1, pairs=0)

        def log(drive=second, keeps=0):
            page = self.page(drive, nvme.GET_LOG, nsid=EVERY, dword10=4 | keeps << 15 | 1023 << 16)
            return [number for number in struct.unpack('<1024I', page) if number]

        def enable(drive=second):
            return drive.status_of(nvme.SET_FEATURES, dword10=0xb, dword11=0x100)

        def attach(detach=0):
            return first.attach(1, [1], detach)

        def manage(opcode):
            return first.status_of(opcode, nsid=nsid, dword10=1)
        bell = second.counters()[1]
        held = [request(second) for _ in range(4)]
        self.gives((event, second, None), (second.status_of, nvme.REQUEST_EVENT, nvme.TOO_MANY_REQUESTS), (attach, 0),
                   (event, second, None), (log, [1]), (enable, 0))
        is_raised(bell)
        self.gives((attach, 1, 0), (is_raised, bell, 5, True), (event, second, held[0]),
                   # (no more come until the log was read)
                   (attach, 0))
        nsid = first.create(8)
        self.gives((first.attach, nsid, [1], 0), (event, second, None), (log, second, 1, [1, 2]),
                   (attach, 1, 0), (event, second, None), (log, [1, 2]), (log, []),
                   (manage, nvme.FORMAT, 0), (event, second, held[1]), (log, [2]),
                   (manage, nvme.MANAGE, 0), (event, second, held[2]),
                   # the next request is answered at once if something changed meanwhile
                   (log, [2]), (attach, 0), (event, second, held[3]), (log, [1]),
                   (attach, 1, 0), (event, second, None), (event, second, None))
        late = request(second)
        self.assertEqual(event(second), late)
        # (also at a controller that was looked at before the one whose command it was)
        bell = first.counters()[1]
        self.gives((enable, first, 0), (log, first, [2]))
        late = request(first)
        self.sleeps()
        is_raised(bell)
        second.at(2 * PAGE, 4)[:] = struct.pack('<2H', 1, 0)
        second.put(nvme.ATTACH, 2 * PAGE, nsid=1, dword10=1, rings=False)
        second.set_register(TAIL, second.submissions[0].next)
        self.gives((is_raised, bell, 5, True), (second.take, 0), (event, first, late))
        # after a reset, nothing is left of requests and changes
        request(first)
        first.enable()
        self.gives((attach, 0), (log, first, []))

    def test_saved_wish_for_events(self):
        # a controller that was reset tells of changes if the host has saved that it wants to know
        feature = b'[[controller.feature]]\nfid = 11\nsaveable = true\n\n[[controller]]\ncntlid = 1'
        self.restart('--subsystem', self.file('wish.toml', DEMO.read_bytes().replace(
            b'[[controller]]\ncntlid = 1', feature)))
        drive = self.drive(pairs=0)
        for dword10, dword11, is_told in ((0xb, 0x100, False), (0xb | 1 << 31, 0x100, True), (0xb, 0, True),
                                          (0xb | 1 << 31, 0, False)):
            self.assertEqual(drive.status_of(nvme.SET_FEATURES, dword10=dword10, dword11=dword11), 0)
            drive.at(PAGE, PAGE)[:] = bytes(PAGE)
            drive.enable()
            self.assertEqual(drive.dword0_of(nvme.GET_FEATURES, dword10=0xb), 0x100 * is_told)
            held = request(drive)
            drive.create(8)
            self.gives((event, drive, held if is_told else None),
                       (drive.status_of, nvme.MANAGE, 0, 0, 2, 1, 0))
