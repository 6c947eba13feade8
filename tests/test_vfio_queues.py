"""Tests I/O queues of ./nvme-model --vfio-user with random entries, lists and doorbells, beside a plain model
(tests/block_model.py): after each step, all of the guest's memory and of the data is as in the model. NVME_TEST_STEPS
sets the steps of each seed."""

import contextlib
import os
import random
import struct

from tests.as_client import differing
from tests.block_model import Model
from tests.blocks import COMPARE, DATASET, FLUSH, READ, VERIFY, WRITE, WRITE_ZEROES, Drive
from tests.driver import COMMAND, CSTS, HEAD, MASTER, NOWHERE, PAGE, TAIL, Queue, entry_of
from tests.served import EVERY, Served
from tests.support import DEMO, until

SEEDS, STEPS = range(8), int(os.environ.get('NVME_TEST_STEPS', 300))
PAGES = 64
OPCODES = READ, READ, READ, WRITE, WRITE, WRITE, COMPARE, WRITE_ZEROES, DATASET, VERIFY, FLUSH
# The namespaces that are active: their NSIDs, blocks, and the sizes of blocks.
NAMESPACES = (1, 2048, 512), (2, 40, 4096), (3, 9, 512), (4, 100, 520)


def near(lot, number):
    return max(0, number + lot.choice((0, 0, 0, -1, 1, -2, 2, lot.randrange(-9, 9))))


def place(lot):
    """Returns an address that is likely to be in memory, at the beginning of a page."""
    page = lot.randrange(PAGES) * PAGE
    return lot.choice((page, page, page, page, page + 4 * lot.randrange(1024), page + lot.randrange(PAGE),
                       (PAGES + lot.randrange(3)) * PAGE, (128 << 30) - PAGE, 128 << 30, NOWHERE, lot.getrandbits(64)))


def entry(lot, identifier):
    nsid, blocks, size = lot.choice(NAMESPACES)
    nsid = lot.choice((*[nsid] * 12, 0, 5, EVERY, 2 ** 31))
    count = lot.choice((1, 1, 2, near(lot, 8), near(lot, 256), lot.randrange(1, 300), lot.randrange(1, 65537)))
    first = lot.choice((0, near(lot, blocks - count), lot.randrange(blocks), near(lot, blocks), lot.getrandbits(64)))
    opcode = lot.choice((*OPCODES, lot.randrange(256)) if lot.random() < 0.1 else OPCODES)
    flags = lot.choice((1, 2, 0x40, 0x80)) if lot.random() < 0.03 else 0
    dwords = [first % 2 ** 32, first >> 32 & 2 ** 32 - 1, max(count, 1) - 1, 0, 0, 0]
    if opcode == DATASET:
        dwords = [lot.choice((0, 0, 1, 3, 255)), lot.choice((4, 4, 4, 0, 7)), 0, 0, 0, 0]
    if opcode == FLUSH:
        dwords = [0] * 6
    if lot.random() < 0.05:
        dwords[lot.randrange(6)] ^= 1 << lot.randrange(32)
    reserved = lot.getrandbits(64), lot.getrandbits(64)
    return entry_of(opcode, identifier % 2 ** 16, nsid, place(lot), place(lot), *dwords, flags=flags, reserved=reserved)


class Random(Served):
    def setUp(self):
        super().setUp()
        file = DEMO.read_bytes() + (b'[[namespace]]\nnsid = 2\nbytes = 163840\nformat = 1\ncontrollers = [0]\n'
                                    b'[[namespace]]\nnsid = 4\nbytes = 51200\nformat = 2\nextended = true\n'
                                    b'controllers = [0]\n')
        self.kept = self.folder / 'kept'
        self.kept.mkdir()
        self.restart('--subsystem', self.file('four.toml', file), '--data', self.kept)
        self.sleeps()  # (it has said where it listens before it has made the files)

    def test_random_entries(self):
        for seed in SEEDS:
            with self.subTest(seed):
                self.random_entries(random.Random(seed))

    def random_entries(self, lot):
        self.model = Model(bytearray(PAGES * PAGE), 32 * PAGE)
        for nsid, blocks, size in NAMESPACES:
            self.model.data[nsid] = bytearray((self.kept / f'subsystem0.namespace{nsid}').read_bytes()), size
            self.assertEqual(len(self.model.data[nsid][0]), blocks * size)
        with contextlib.closing(Drive(f'{self.path}0', layout=[(0, PAGES * PAGE)])) as drive:
            for step in range(STEPS):
                if step == 0 or self.model.has_failed or lot.random() < 0.01:
                    self.begin(drive, lot)
                self.step(drive, lot, step)
                self.agree(drive, step)

    def begin(self, drive, lot):
        """Enables the controller with its own queues in the last pages, and creates random queues."""
        drive.set_config(COMMAND, MASTER, 2)
        drive.enable(rings=((PAGES - 2) * PAGE, (PAGES - 1) * PAGE), slots=(64, 64))
        model = self.model
        model.submissions, model.completions, model.has_failed = {}, {}, False
        for number, to in zip(lot.sample(range(1, 65), 3), lot.sample(range(1, 65), 3)):
            rings, depths = lot.sample(range(PAGES - 4), 2), lot.choices((2, 3, 16, 64), k=2)
            if lot.random() < 0.02:
                rings[lot.randrange(2)] = PAGES + 1
            self.assertEqual(drive.create_completions(to, rings[0] * PAGE, depths[0]), 0)
            self.assertEqual(drive.create_submissions(number, rings[1] * PAGE, depths[1], to), 0)
            model.completions[to] = Queue(rings[0] * PAGE, depths[0])
            model.submissions[number] = Queue(rings[1] * PAGE, depths[1], to)
        drive.register(0)
        model.memory[:] = drive.pieces[0].bytes[:]

    def fill(self, drive, address, data):
        """Writes the guest's memory, also in the model."""
        if address + len(data) <= (PAGES - 2) * PAGE:
            drive.at(address, len(data))[:] = data
            self.model.put(address, data)

    def step(self, drive, lot, step):
        """Puts entries into a queue, with lists and data, and rings doorbells of any queue."""
        model = self.model
        number, queue = lot.choice([*model.submissions.items()])
        for _ in range(lot.randrange(4)):
            kind = lot.randrange(4)
            if kind == 0:
                self.fill(drive, place(lot), lot.randbytes(lot.randrange(3 * PAGE)))
            elif kind == 1:  # a list
                self.fill(drive, place(lot) & ~7, struct.pack('<40Q', *(place(lot) for _ in range(40))))
            elif kind == 2:  # ranges
                blocks = lot.choice(NAMESPACES)[1]
                ranges = [(0, lot.randrange(9), near(lot, lot.randrange(blocks))) for _ in range(4)]
                self.fill(drive, place(lot) & ~3, b''.join(struct.pack('<IIQ', *each) for each in ranges))
            else:            # what is stored, for a comparison
                data, size = model.data[lot.choice(NAMESPACES)[0]]
                self.fill(drive, place(lot), bytes(data[:8 * size]))
        to = queue.completions
        head = lot.choice((*[model.completions[to].next] * 2, lot.randrange(70), lot.getrandbits(32)))
        drive.set_register(HEAD + 8 * to, head)
        model.ring_head(to, head)
        self.run_all()
        self.agree(drive, step)
        count = lot.randrange(queue.depth)
        for at in range(count):
            self.fill(drive, queue.ring + 64 * ((queue.doorbell + at) % queue.depth), entry(lot, step + at))
        tail = lot.choice((*[(queue.doorbell + count) % queue.depth] * 6, lot.randrange(70), lot.getrandbits(32)))
        drive.set_register(TAIL + 8 * number, tail)
        model.ring_tail(number, tail)
        self.run_all()

    def run_all(self):
        """Lets the model take all entries for which there is room. (Each submission queue has its own completion
        queue.)"""
        for number in self.model.submissions:
            while self.model.take(number):
                pass

    def agree(self, drive, step):
        """Waits until all of the memory is as in the model, and compares the data from time to time."""
        model = self.model

        def is_equal():
            return drive.register(CSTS) == (3 if model.has_failed else 1) and drive.pieces[0].bytes[:] == model.memory
        if not is_equal() and not until(is_equal, 5):
            self.assertEqual(drive.register(CSTS), 3 if model.has_failed else 1, step)
            self.fail((step, differing(drive.pieces[0].bytes[:], model.memory)))
        if step % 20 == 19:
            for nsid, (data, _) in model.data.items():
                stored = (self.kept / f'subsystem0.namespace{nsid}').read_bytes()
                self.assertEqual(stored, data, (step, nsid))
