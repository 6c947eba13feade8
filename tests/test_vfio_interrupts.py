"""Tests the interrupts of ./nvme-model --vfio-user: completions raise them, none is lost, and there are few others. And
what else a function's configuration space does: MSI-X, and resets."""

import os
import random
import select
import struct
import time
import timeit

from tests.as_client import (
    BAR, BIND, BIND_UNMASK, IRQ_INFO, MASK, MESSAGES, MESSAGE_CONTROL, PIN, REGION_WRITE, STATUS, UNBIND, UNMASK,
    WANTS_NONE, access, message)
from tests.blocks import FLUSH, INVALID_VECTOR, SET_FEATURES, Blocks, block_entry
from tests.driver import (
    CC, COMMAND, CSTS, HEAD, IDENTIFY, MASTER, NO_INTERRUPT, PAGE, TAIL, counter, is_raised, memory_file)
from tests.modelled import is_there
from tests.served import EINVAL, Served
from tests.support import DEMO, LIMIT, left_running, table, until
from tests.test_vfio_blocks import event, request

VECTORS, VECTOR_CONTROL = 2, 0xa2  # the index of MSI-X, and its register


class Processors:
    """A guest with two processes that send commands one by one, and a handler of its interrupt, in any order. QEMU is
    between it and the server: after an access to a register, it lowers the pin if that was raised, and unmasks it. An
    interrupt that was lowered may have been seen, or not."""

    def __init__(self, driver, pin):
        self.driver, self.pin, self.lot = driver, pin, random.Random(1)
        self.is_high = self.is_seen = False
        self.interrupts = self.handled = 0

    def access(self, call, *arguments):
        """Writes or reads a register."""
        call(*arguments)
        self.look()
        if self.is_high:
            self.is_high = False
            self.is_seen |= self.lot.random() < 0.9
            assert self.driver.set_irqs(UNMASK, PIN) == 0

    def look(self, seconds=0):
        """Raises the pin if the server did."""
        if is_raised(self.pin, seconds):
            self.is_high = True
            self.interrupts += 1

    def send(self):
        """A process sends a command. Another one looks at a register meanwhile."""
        self.driver.put(IDENTIFY, 2 * PAGE, dword10=1, rings=False)
        self.access(self.driver.set_register, TAIL, self.driver.submissions[0].next)
        self.access(self.driver.register, CSTS)

    def handle(self):
        """The handler takes all completions, and says so."""
        self.is_seen, before = False, self.driver.taken
        while self.driver.completion():
            self.driver.advance()
        if self.driver.taken > before:
            self.handled += 1
            self.access(self.driver.set_register, HEAD, self.driver.completions[0].next)

    def run(self, count):
        """Runs until so many commands have ended."""
        sent, end = 0, time.monotonic() + LIMIT
        while self.driver.taken < count and time.monotonic() < end:
            # (if both processes wait, only an interrupt goes on)
            waits = sent in (self.driver.taken + 2, count)
            self.look(0.05 if waits and not (self.is_high or self.is_seen) else 0)
            if (self.is_high or self.is_seen) and (waits or self.lot.random() < 0.5):
                self.handle()
            elif not waits:
                self.send()
                sent += 1


def fill(bell):
    """Fills an event counter, so that a write to it waits."""
    os.set_blocking(bell, True)
    os.eventfd_write(bell, 2 ** 64 - 2)
    return bell


def written(offset, value):
    """Returns the message by which QEMU writes a register."""
    return message(REGION_WRITE, access(BAR, offset, 4) + struct.pack('<I', value), flags=WANTS_NONE)


class Interrupts(Served):
    def setUp(self):
        super().setUp()
        self.begin()

    def begin(self):
        """Begins with a guest, and with the steps that it takes."""
        driver = self.driver = self.guest()
        seen = counter()
        self.steps = {
            'bind': lambda: self.bind(PIN),
            'put': lambda: driver.put(IDENTIFY, 2 * PAGE, dword10=1),
            'take': lambda: driver.take() == 0,
            'mask': lambda: driver.set_irqs(MASK, PIN) == 0,
            'unmask': lambda: driver.set_irqs(UNMASK, PIN) == 0,
            'disable': lambda: driver.set_config(COMMAND, MASTER | NO_INTERRUPT, 2),
            'enable': lambda: driver.set_config(COMMAND, MASTER, 2),
            'reset': driver.enable,
            'look': lambda: driver.register(CSTS),
            'waiting': lambda: driver.config(STATUS, 2) == 0x18,
            'ended': lambda: driver.config(STATUS, 2) == 0x10,
            'tell': lambda: driver.set_irqs(BIND_UNMASK, PIN, 1, seen) == 0,
            'seen': lambda: os.eventfd_write(seen, 1),
            'messages': lambda: driver.set_config(MESSAGE_CONTROL, 1, 2),
            # (the counter is raised, or will be; it will be, and isn't read; it isn't raised, or won't be)
            'raised': lambda: is_raised(self.bell),
            'later': lambda: is_raised(self.bell, LIMIT),
            'unread': lambda: bool(select.select([self.bell], [], [], LIMIT)[0]),
            'low': lambda: not is_raised(self.bell),
            'idle': lambda: self.stays_low(self.bell)}

    def follow(self, steps):
        """Takes these steps, each of which must succeed."""
        for at, step in enumerate(steps.split()):
            self.assertIsNot(self.steps[step](), False, f'{step}, step {at} of {steps}')

    def bind(self, index, bell=None):
        """Binds a counter to the pin or to messages, which is the one that steps look at."""
        self.bell = counter() if bell is None else bell
        self.assertEqual(self.driver.set_irqs(BIND, index, 1, self.bell), 0)

    def test_messages(self):
        # one for each completion, and one that finds no counter is kept until there is one
        pin, self.bell = self.driver.counters()
        self.follow('messages' + 100 * ' put raised take low')
        self.assertEqual(self.driver.set_irqs(UNBIND, MESSAGES, 0), 0)
        self.follow('put low')
        self.bind(MESSAGES, self.bell)
        self.follow('raised')
        # (a binding without a descriptor unbinds, and a new counter replaces the former one)
        self.assertEqual(self.driver.set_irqs(BIND, MESSAGES), 0)
        former = self.bell
        self.bind(MESSAGES)
        self.follow('raised put raised')
        self.assertFalse(is_raised(former) or is_raised(pin))

    def test_pin(self):
        for what, steps in table('pin'):
            with self.subTest(what):
                self.driver.close()
                self.restart()
                self.begin()
                self.follow(steps)

    def test_pin_that_was_lowered(self):
        # an access lowers the pin before the processor has seen it: it is raised again, but only every 10 milliseconds
        self.bind(PIN)
        for _ in range(20):
            begun_at = time.monotonic()
            self.follow('put raised' + 5 * ' put unmask' + ' unread')
            self.assertLessEqual(os.eventfd_read(self.bell), (time.monotonic() - begun_at) / 0.009)
            # (a head frees some of the completions, and the pin is raised at once for the others)
            self.follow('unmask take raised' + 5 * ' take' + ' unmask low')

    def test_two_submitters(self):
        # two processes and an interrupt handler, with QEMU between them: no interrupt is lost, and there are few
        self.bind(PIN)
        machine = Processors(self.driver, self.bell)
        seconds = timeit.timeit(lambda: machine.run(2000), number=1)
        self.assertEqual(self.driver.taken, 2000)
        # (there is one for what the handler takes at a time, and others come only every 10 milliseconds)
        self.assertLess(machine.interrupts, machine.handled + seconds / 0.009)
        self.follow('idle')

    def test_calls_of_the_kernel(self):
        # two doorbells that come together cost the server three: it waits, sees them, and takes them as it interrupts
        if not is_there('strace'):
            self.skipTest('strace is not installed')
        trace = self.folder / 'trace'
        self.restart(by=('strace', '-D', '-o', trace))
        driver = self.guest()
        bell = driver.counters()[1]
        for _ in range(50):
            driver.put(IDENTIFY, 2 * PAGE, dword10=1, rings=False)
            heads = written(HEAD, driver.completions[0].next)
            driver.socket.sendall(heads + written(TAIL, driver.submissions[0].next))
            self.assertTrue(is_raised(bell, LIMIT))
            self.assertEqual(driver.advance(), 0)
        self.stop(self.server)
        self.assertTrue(until(lambda: not left_running()), 'the trace has no end')
        self.server = self.start()
        calls = ' '.join(line.partition('(')[0] for line in trace.read_text().splitlines())
        self.assertIn(' '.join(['io_submit poll recvmsg'] * 49 + ['io_submit']), calls)

    def test_many_full_counters(self):
        # fifteen of them don't slow down the commands of another client
        self.restart(*['--subsystem', DEMO] * 8, last=15)
        other, *guests = [self.guest(number) for number in range(16)]
        serial = timeit.Timer(lambda: self.assertEqual(other.serial(), 'S0'))
        usual, waits = [], []
        for _ in range(20):
            usual.append(serial.timeit(1))
            for guest in guests:
                full = fill(counter())
                self.assertEqual(guest.set_irqs(BIND, MESSAGES, 1, full), 0)
                os.close(full)
                guest.put(IDENTIFY, 2 * PAGE, dword10=1, rings=False)
            for guest in guests:
                guest.set_register(TAIL, guest.submissions[0].next)
            waits.append(serial.timeit(1))
            for guest in guests:
                guest.take()
        # (a busy machine makes both slow)
        self.assertLess(min(waits), 0.1 + 10 * min(usual))


class Vectors(Blocks):
    """The messages of MSI-X, which a server offers if it is told so, and resets of a function."""

    def setUp(self):
        super().setUp()
        self.restart('--msix')

    def ready(self, vectors):
        """Returns a drive with counters for all vectors, and a pair of queues for each of these vectors."""
        drive = self.drive(pairs=0, layout=[(0, 128 * PAGE)])
        drive.bells = [counter() for _ in range(64)]
        self.bind(drive)
        for number, vector in enumerate(vectors, 1):
            self.pair(drive, number, vector)
        self.raised(drive)
        return drive

    def bind(self, drive, vectors=range(64)):
        """Binds the counters of these vectors, eight at a time as QEMU does."""
        for first in vectors[::8]:
            bells = drive.bells[first:min(first + 8, vectors.stop)]
            self.assertEqual(drive.set_irqs(BIND, VECTORS, len(bells), *bells, first=first), 0)

    def pair(self, drive, number, vector, flags=3):
        ring = (2 + 2 * number) * PAGE
        drive.at(ring + PAGE, PAGE)[:] = bytes(PAGE)
        self.gives((drive.create_completions, number, ring + PAGE, 16, flags, vector, 0),
                   (drive.create_submissions, number, ring, 0))

    def raised(self, drive):
        """Returns the vectors that were raised since the last call."""
        drive.register(0)
        return [vector for vector, bell in enumerate(drive.bells) if is_raised(bell)]

    def flush(self, drive, *numbers):
        """Puts an entry into each of these queues, rings their doorbells at once, and returns what was raised."""
        for number in numbers:
            drive.put_io(number, block_entry(FLUSH, 1), rings=False)
        drive.socket.sendall(b''.join(written(TAIL + 8 * number, drive.submissions[number].next) for number in numbers))
        return self.raised(drive)

    def test_capability(self):
        # 64 vectors, with a table and pending bits behind the doorbells, before the capabilities of every server
        client = self.greeted()
        self.answers(client.config, (0x34, 0xa0), (0xa0, 0x3f4011), (0xa4, 0x2000), (0xa8, 0x3000))
        self.answers(lambda index: struct.unpack('<4I', client.ask(IRQ_INFO, struct.pack('<4I', 16, 0, index, 0))),
                     (0, (16, 7, 0, 1)), (1, (16, 9, 1, 1)), (2, (16, 1, 2, 64)))
        self.restart()
        client = self.greeted()
        client.set_config(VECTOR_CONTROL, 0xffff, 2)
        self.answers(client.config, (0x34, 1, 0x40), (0x41, 1, 0x60), (0x61, 1, 0), (0xa0, 0), (0xa4, 0), (0xa8, 0))
        self.assertEqual(client.set_irqs(BIND, VECTORS, 1, counter()), EINVAL)

    def test_each_queue_has_its_vector(self):
        drive = self.ready((5, 63, 5, 0))
        self.pair(drive, 5, vector=9, flags=1)
        self.gives((self.raised, drive, [0]), *((self.flush, drive, *row) for row in (
            (1, [5]), (2, [63]), (3, [5]), (4, [0]), (5, []), (1, 2, 3, [5, 63]))))
        self.answers(lambda vector: drive.create_completions(9, 32 * PAGE, vector=vector),
                     (64, INVALID_VECTOR), (65, INVALID_VECTOR), (0xffff, INVALID_VECTOR), (63, 0))

    def test_pin_beside_vectors(self):
        # enabled messages hold it back, even before their counters come
        drive, pin = self.drive(pairs=0), counter()
        self.assertEqual(drive.set_irqs(BIND, PIN, 1, pin), 0)
        for control, is_high in (0x8000, False), (0x4000, True):
            drive.set_config(VECTOR_CONTROL, control, 2)
            drive.put(IDENTIFY, 2 * PAGE, dword10=1)
            self.gives((drive.config, VECTOR_CONTROL, 2, control | 63), (is_raised, pin, is_high))

    def test_absent_counters(self):
        # a message that finds no counter is kept until there is one, and all or some can be unbound
        drive = self.ready((7, 8))
        for flags, first, count in (UNBIND, 0, 0), (BIND, 0, 64), (BIND, 7, 2):
            self.assertEqual(drive.set_irqs(flags, VECTORS, count, first=first), 0)
            self.assertEqual(self.flush(drive, 1, 2), [])
            for vectors, raised in (range(8, 9), [8]), (range(8), [7]):
                self.bind(drive, vectors)
                self.assertEqual(self.raised(drive), raised)
            drive.take_io(1)
            drive.take_io(2)
            self.bind(drive, range(7, 9))
            self.assertEqual(self.raised(drive), [])

    def test_invalid_requests(self):
        drive, pipe, kept = self.ready((1,)), os.pipe(), self.kept()
        bell, memory, most = drive.bells[2], memory_file(8), 2 ** 32 - 1
        rows = {
            (VECTORS, BIND): ((64, 1, bell), (63, 2, bell, bell), (63, 2), (0, 65), (1, most), (most, 1, bell),
                              (2 ** 31, 2 ** 31), (0, 2, bell), (0, 1, bell, bell), (0, 0, bell), (0, 9, *[bell] * 9),
                              (0, 2, bell, pipe[0]), (0, 1, memory)),
            (VECTORS, UNBIND): ((64, 0), (0, 1), (0, 0, bell)), (VECTORS, BIND_UNMASK): ((0, 1, bell),),
            (VECTORS, MASK): ((0, 1),), (VECTORS, UNMASK): ((0, 1),),
            (MESSAGES, BIND): ((1, 1, bell), (0, 2, bell), (1, most, bell), (0, 1, pipe[1])),
            (MESSAGES, BIND_UNMASK): ((0, 1, bell),), (MESSAGES, MASK): ((0, 1),),
            (PIN, BIND): ((0, 0), (0, 1, memory), (0, 1, bell, bell)), (PIN, BIND_UNMASK): ((0, 1, pipe[0]),),
            (PIN, UNBIND): ((0, 0, bell), (0, 1)), (PIN, UNMASK): ((0, 0),),
            **{(PIN, flags): ((0, 1),) for flags in (0x22, 0x23, 0x64, 0x38, 0)},
            (3, BIND): ((0, 1, bell),), (most, BIND): ((0, 1, bell),)}
        for (index, flags), requests in rows.items():
            for first, *rest in requests:
                refused = drive.set_irqs(flags, index, *rest, first=first)
                self.assertEqual(refused, EINVAL, (index, hex(flags), first, rest))
        self.assertEqual(self.flush(drive, 1), [1])
        self.keeps(kept)

    def test_full_counters(self):
        # no counter on which a write waits holds up the server, and each is raised once it is read
        drive = self.ready(range(1, 25))
        for bell in drive.bells:
            fill(bell)
        for raised in range(64), range(1, 25):
            self.assertEqual(self.flush(drive, *range(1, 25)), [*raised])

    def test_reset_of_what_is_due(self):
        # a controller that is reset before its messages were sent has no completions, and so sends none
        drive = self.ready((3,))
        drive.put_io(1, block_entry(FLUSH, 1), rings=False)
        drive.socket.sendall(written(TAIL + 8, 1) + written(CC, 0))
        self.assertEqual(self.raised(drive), [])

    def test_function_reset(self):
        # by the bit Initiate Function Level Reset; counters and data stay
        drive, data = self.ready((3,)), b'kept' * 128
        self.gives((drive.store, 1, 5, data, 0), (drive.config, 0x64, 0x1000_8000))
        for control, length in (0x800f, 2), (0x80, 1):
            drive.set_config(VECTOR_CONTROL, 0xc000, 2)
            drive.set_config(0x68, 0x7f0f, 2)
            self.gives((drive.config, VECTOR_CONTROL, 2, 0xc03f), (drive.config, 0x68, 2, 0xf),
                       (drive.register, CSTS, 1))
            drive.set_config(0x6a - length, control, length)
            self.gives((drive.register, CC, 0), (drive.register, CSTS, 0), (drive.config, COMMAND, 2, 0),
                       (drive.config, VECTOR_CONTROL, 2, 63), (drive.config, 0x68, 2, 0))
            self.begin(drive, 0)
            self.pair(drive, 1, vector=3)
            self.raised(drive)
            self.assertEqual((self.flush(drive, 1), drive.take_io(1).status), ([3], 0))
            self.assertEqual(drive.load(1, 5, 1), data)

    def test_first_wish_for_events(self):
        # a host is told of changes as the subsystem file says, also after a reset, until it saves another wish
        controller = b'[[controller]]\ncntlid = 1'
        feature = b'[[controller.feature]]\nfid = 11\ndefault = 256\nsaveable = true\n\n'
        text = DEMO.read_bytes().replace(controller, feature + controller)
        self.restart('--subsystem', self.file('wish.toml', text))
        first, second = self.drive(0, pairs=0), self.drive(1, pairs=0)
        for turn, is_told in enumerate((True, True, False)):
            held = request(first)
            request(second)
            nsid = first.create(8)
            self.gives((event, first, held if is_told else None), (first.attach, nsid, [1], 0), (event, second, None),
                       (first.delete, nsid, 0),
                       (first.status_of, SET_FEATURES, 0, 0, 0, 0xb | min(turn, 1) << 31, 0))
            for drive in first, second:
                drive.at(PAGE, PAGE)[:] = bytes(PAGE)
                drive.enable()

    def test_random_requests(self):
        # counters come and go while queues are used, and what remains is a server that works
        lot, drive = random.Random(1), self.ready(range(1, 9))
        for _ in range(2000):
            first = lot.choice((0, 7, 56, 63, lot.randrange(70)))
            count = lot.choice((0, 1, 2, 8, 64, lot.getrandbits(32)))
            files = lot.choices(drive.bells, k=lot.choice((0, min(count, 8), lot.randrange(9))))
            flags = lot.choice((BIND, BIND, BIND, UNBIND, lot.getrandbits(7)))
            self.assertIn(drive.set_irqs(flags, VECTORS, count, *files, first=first), (0, EINVAL))
            self.assertEqual(drive.io(FLUSH, 1, number=lot.randrange(1, 9)), 0)
        self.bind(drive)
        self.raised(drive)
        self.assertEqual(self.flush(drive, *range(1, 9)), [*range(1, 9)])
