"""Tests the data of ./nvme-model --vfio-user: it is what was written last, whatever happens to clients, files and
servers."""

import itertools
import os
import pathlib
import random
import struct
import tempfile

from tests import blocks as nvme
from tests.as_client import RESET, Piece
from tests.block_model import RESERVED
from tests.blocks import COMPARE, DATASET, FLUSH, READ, VERIFY, WRITE, WRITE_ZEROES, block_entry
from tests.driver import CSTS, INVALID_OFFSET, NOWHERE, PAGE, TAIL, TRANSFER_ERROR, entry_of
from tests.served import EVERY, GIBIBYTE
from tests.support import DEMO


class Data(nvme.Blocks):
    def test_reads_and_writes(self):
        # a read gives what was written last, at each place and length, and beside it nothing changes
        drive, lot, model = self.drive(pairs=3), random.Random(3), bytearray(2048 * 512)
        for turn in range(400):
            count = lot.choice((1, 2, 7, 8, 9, 16, lot.randrange(1, 257)))
            first = lot.choice((0, 2048 - count, lot.randrange(2049 - count)))
            place, data = 16 * PAGE + lot.choice((0, 0, 512, 4 * lot.randrange(1024))), lot.randbytes(count * 512)
            drive.pieces[0].bytes[15 * PAGE:] = bytes(49 * PAGE)
            if turn % 3:
                self.assertEqual(drive.store(1, first, data, place, 1 + turn % 3), 0)
                model[512 * first:512 * (first + count)] = data
            else:
                self.assertEqual(drive.load(1, first, count, place), model[512 * first:512 * (first + count)])
                self.assertFalse(any(drive.pieces[0].bytes[place + count * 512:]))
        self.answers(lambda first: drive.load(1, first, 256, 16 * PAGE),
                     *((first, model[512 * first:][:256 * 512]) for first in range(0, 2048, 256)))
        self.assertEqual(drive.load(3, 0, 9), bytes(9 * 512))
        # (after work the server sleeps, and nothing wakes it)
        self.sleeps()

    def test_refusals(self):
        drive, size, place, kept = self.drive(), 9, 40 * PAGE, b'kept' * 128 * 9
        self.assertEqual(drive.store(3, 0, kept), 0)
        for opcode in WRITE, READ, COMPARE, WRITE_ZEROES, VERIFY:
            for first, count in ((size, 1), (size - 1, 2), (0, size + 1), (2 ** 64 - 1, 1), (2 ** 64 - 1, 2),
                                 (2 ** 63, 9), (0, 65536)):
                is_long = count > 300 and opcode in (WRITE, READ, COMPARE)
                self.assertEqual(drive.io(opcode, 3, first, count, place, 41 * PAGE),
                                 nvme.INVALID_FIELD if is_long else nvme.OUT_OF_RANGE, (opcode, first, count))
            for nsid in 0, 2, 4, 5, 1025, EVERY - 1, EVERY:
                self.assertEqual(drive.io(opcode, nsid, 0, 1, place), nvme.INVALID_NAMESPACE, (opcode, nsid))
            for flags in 1, 0x40:
                self.assertEqual(drive.io(opcode, 3, 0, 1, place, flags=flags), nvme.INVALID_FIELD)
        for opcode in WRITE, READ, COMPARE:
            self.answers(lambda *words: drive.io(opcode, 3, 0, *words),
                         (1, place + 2, INVALID_OFFSET), (1, NOWHERE, TRANSFER_ERROR),
                         (1, 128 * GIBIBYTE, TRANSFER_ERROR), (9, place, place + 8, INVALID_OFFSET),
                         (9, place, NOWHERE, TRANSFER_ERROR))
            # (MDTS 5: 128 KiB)
            self.assertEqual(drive.io(opcode, 1, 0, 257, *drive.pages(32 * PAGE, 129 * 1024)), nvme.INVALID_FIELD)
        for opcode in 3, 4, 6, 7, 0xa, 0xd, 0xe, 0x11, 0x15, 0x80, 0xff:
            self.assertEqual(drive.io(opcode, 1, 0, 1, place), nvme.INVALID_OPCODE, opcode)
        for opcode, at, bit in itertools.product(RESERVED, range(6), range(32)):
            if RESERVED[opcode][at] >> bit & 1:
                drive.put_io(1, entry_of(opcode, 77, 3, place, 0, *[0] * at, 1 << bit))
                self.assertEqual(drive.take_io(1).status, nvme.INVALID_FIELD, (opcode, at, bit))
        self.assertEqual(drive.load(3, 0, 9), kept)

    def test_other_commands(self):
        drive, data = self.drive(), random.Random(5).randbytes(64 * 512)
        self.gives((drive.store, 1, 100, data, 0), (drive.io, FLUSH, 1, 0))
        self.answers(lambda first, told: drive.store(1, first, told, opcode=COMPARE), (100, data, 0),
                     (100, data[:-1] + bytes([data[-1] ^ 1]), nvme.DIFFERS), (99, data, nvme.DIFFERS))
        self.gives((drive.io, VERIFY, 1, 100, 64, 0), (drive.io, WRITE_ZEROES, 1, 103, 7, 0))
        data = data[:3 * 512] + bytes(7 * 512) + data[10 * 512:]
        # of ranges that are deallocated, all are in the namespace
        inside, outside = struct.pack('<IIQIIQ', 0, 5, 120, 0, 1, 163), struct.pack('<IIQIIQ', 0, 5, 120, 0, 2049, 0)
        for ranges, dword11, status in (inside, 0, 0), (outside, 4, nvme.OUT_OF_RANGE), (inside, 4, 0):
            self.assertEqual(drive.load(1, 100, 64), data)
            drive.at(40 * PAGE, 32)[:] = ranges
            self.assertEqual(drive.io(DATASET, 1, 1 | dword11 << 32, 1, 40 * PAGE), status)
        data = data[:20 * 512] + bytes(5 * 512) + data[25 * 512:63 * 512] + bytes(512)
        self.assertEqual(drive.load(1, 100, 64), data)

    def test_management(self):
        # data is zeros after a create and a format, and stays over a detach and resets
        drive = self.drive()
        nsid, data, block, last = drive.create(64), b'data' * 128 * 64, b'data' * 128, b'last' * 1024
        stays = drive.load, nsid, 0, 64, data
        self.gives((drive.load, nsid, 0, 64, bytes(64 * 512)), (drive.store, nsid, 0, data, 0),
                   (drive.attach, nsid, [0], 1, 0), (drive.read_status, nsid, nvme.INVALID_NAMESPACE),
                   (drive.attach, nsid, [0], 0), (self.begin, drive, None), stays,
                   (drive.ask, RESET, b''), (self.begin, drive, None), stays, (drive.format, nsid, 1, 0))
        drive.block = 4096
        self.gives((drive.load, nsid, 0, 8, bytes(8 * 4096)), (drive.read_status, nsid, 8, nvme.OUT_OF_RANGE),
                   (drive.store, nsid, 7, last, 0), (drive.load, nsid, 0, 8, bytes(7 * 4096) + last),
                   # (a refused format clears nothing)
                   (drive.format, nsid, 9, 0x10a), (drive.load, nsid, 7, 1, last),
                   # with metadata at the end of each block
                   (drive.format, nsid, 2 | 1 << 4, 0))
        drive.block = 520
        self.gives((drive.store, nsid, 3, b'x' * 1040, 0), (drive.load, nsid, 63, 1, bytes(520)),
                   (drive.load, nsid, 2, 4, bytes(520) + b'x' * 1040 + bytes(520)),
                   (drive.delete, nsid, 0), (drive.read_status, nsid, nvme.INVALID_NAMESPACE), (drive.create, 64, nsid))
        drive.block = 512
        self.gives((drive.load, nsid, 0, 64, bytes(64 * 512)), (drive.store, 1, 0, block, 0),
                   (drive.store, 3, 0, block, 0), (drive.store, nsid, 0, block, 0),
                   # all at once, but those that aren't attached to the controller
                   (drive.attach, 3, [0], 1, 0), (drive.format, EVERY, 0), (drive.attach, 3, [0], 0),
                   (drive.load, 1, 0, 1, bytes(512)), (drive.load, nsid, 0, 1, bytes(512)),
                   (drive.load, 3, 0, 1, block), (drive.delete, EVERY, 0),
                   (drive.read_status, 1, nvme.INVALID_NAMESPACE))

    def test_ends(self):
        # what completed writes left is there for the next client, whenever one ends
        for turn in range(10):
            drive = self.drive()
            if turn:
                self.assertEqual(drive.load(1, 0, 256, 16 * PAGE), bytes([turn]) * 256 * 512)
            self.assertEqual(drive.store(1, 0, bytes([turn + 1]) * 256 * 512, 16 * PAGE), 0)
            for at in range(15):
                drive.put_io(1, block_entry(WRITE, 1, 512 + at, 1, 8 * PAGE), rings=False)
            drive.set_register(TAIL + 8, drive.submissions[1].next)
            drive.close()

    def test_limit(self):
        # a write beyond the limit is refused, and one to what was written is not
        self.restart('--data-limit', '64K')
        drive, data = self.drive(), random.Random(1).randbytes(32768)
        self.gives((drive.store, 1, 0, data, 0), (drive.load, 1, 0, 256, 16 * PAGE, data + bytes(3 * 32768)),
                   (drive.load, 1, 1024, 256, 16 * PAGE, bytes(256 * 512)), (drive.store, 1, 64, data, 0),
                   *((drive.store, 1, first, data[:512], nvme.NO_CAPACITY) for first in (128, 2040)),
                   (drive.store, 1, 64, data[::-1], 0), (drive.store, 1, 100, data, nvme.NO_CAPACITY),
                   (drive.load, 1, 0, 128, data + data[::-1]),
                   # a format gives it back, and commands that are refused take none
                   (drive.format, 1, 0))
        self.answers(lambda *place: drive.io(WRITE, 1, *place, 32 * PAGE, 14 * PAGE),
                     (2000, 128, nvme.OUT_OF_RANGE), (2048, 64, nvme.OUT_OF_RANGE), (1 << 40, 1, nvme.OUT_OF_RANGE),
                     (0, 65536, nvme.INVALID_FIELD))
        self.assertEqual(drive.store(1, 100, data), 0)
        for word in '', '5X', '-1', '1KK':
            self.assertEqual(self.ended(self.path, '--data-limit', word).status, 72)

    def test_folder(self):
        # data stays from one server to the next, even if that is killed, unless it doesn't fit
        place = pathlib.Path(tempfile.mkdtemp(dir=self.folder))
        files = {nsid: place / f'subsystem0.namespace{nsid}' for nsid in (1, 2, 3)}

        def refused(path, text):
            self.ends(self.ended(f'{self.path}x', '--data', place), 72, b'', f'nvme-model: {path}{text}\n'.encode())
        self.stop(self.server)
        for turn in range(3):
            self.server = self.start('--data', place)
            drive = self.drive()
            self.gives((drive.load, 1, 7, 2, bytes([turn]) * 512 + bytes(512)),
                       (drive.store, 1, 7, bytes([turn + 1]) * 512, 0), (drive.create, 8, 2))
            self.assertEqual({*place.iterdir()}, {*files.values()})
            self.assertEqual(drive.store(2, 0, b'x' * 512), 0)
            # (while one server uses it, no other one does)
            refused(files[1], ' is in use, or not a file')
            self.assertEqual(drive.delete(2), 0)
            self.assertEqual({*place.iterdir()}, {files[1], files[3]})
            # (a file that someone else made isn't the data of a new namespace)
            files[2].write_bytes(b'foreign')
            self.gives((drive.create, 8, 2), (drive.io, WRITE, 2, 0, 1, 32 * PAGE, nvme.INVALID_NAMESPACE),
                       (files[2].read_bytes, b'foreign'))
            files[2].unlink()
            drive.close()
            if turn % 2:
                self.kill()
            else:
                self.stop(self.server)
        for nsid, make, text in (
                (2, lambda path: path.write_bytes(b''), ': the subsystem file has no such namespace'),
                (1, lambda path: os.truncate(path, 512), ': the file has 512 bytes, and the namespace 1048576'),
                (1, os.mkfifo, ' is in use, or not a file'),
                (1, lambda path: path.symlink_to('none'), ': Too many levels of symbolic links')):
            make(files[nsid])
            refused(files[nsid], text)
            files[nsid].unlink()
        self.server = self.start('--data', place)
        self.assertEqual(self.drive().load(1, 7, 1), bytes(512))

    def test_folder_of_a_start_that_fails(self):
        # nothing is made in the folder, whatever the start fails for
        place = pathlib.Path(tempfile.mkdtemp(dir=self.folder))
        later, broken = place / 'subsystem0.namespace3', self.file('broken.toml', b'version = 1\n')
        for make, *words in ((lambda: later.write_bytes(b'x'),), (lambda: os.mkfifo(later),),
                             (lambda: None, '--subsystem', DEMO, '--subsystem', broken),
                             (lambda: None, '--socket', f'{self.path}{"x" * 108}')):
            make()
            before = os.listdir(place)
            said = self.ended(f'{self.path}x', '--data', place, *words)
            self.assertEqual((said.status, os.listdir(place)), (72, before), said)
            later.unlink(missing_ok=True)

    def test_lost_data(self):
        # a file that another program cuts is fatal for a controller that uses what is lost, and for nobody else
        place = pathlib.Path(tempfile.mkdtemp(dir=self.folder))
        self.restart('--data', place)
        drive, other = self.drive(), self.greeted(1)
        first = drive.load, 1, 0, 8, b'data' * 128 + bytes(7 * 512)
        self.assertEqual(drive.store(1, 0, b'data' * 128), 0)
        os.truncate(place / 'subsystem0.namespace1', 4096)
        self.gives(first)
        for opcode in READ, WRITE:
            drive.put_io(1, block_entry(opcode, 1, 100, 1, 40 * PAGE))
            self.gives((drive.register, CSTS, 3), (drive.take_io, 1, None), (other.config, 0, 0x0010_1b36))
            self.begin(drive)
        self.gives(first)
        os.truncate(place / 'subsystem0.namespace1', 1048576)
        self.gives((drive.store, 1, 100, b'more' * 128, 0), (drive.load, 1, 100, 1, b'more' * 128))

    def test_shrunk_guest(self):
        # memory of the guest that is taken away reads as FFh, and the data is as written
        drive = self.drive()
        drive.add(Piece(GIBIBYTE, 16 * PAGE))
        self.assertEqual(drive.store(1, 0, b'data' * 128, GIBIBYTE), 0)
        os.ftruncate(drive.pieces[1].file, 0)
        self.gives((drive.io, WRITE, 1, 1, 1, GIBIBYTE, 0), (drive.io, READ, 1, 0, 1, GIBIBYTE, 0),
                   (drive.load, 1, 0, 2, b'data' * 128 + b'\xff' * 512))

    def test_sparse(self):
        # a namespace of 4 TiB takes memory only for what was written, even if all of it is read
        file = self.file('large.toml', DEMO.read_bytes().replace(b'tnvmcap = 10485760', b'tnvmcap = 4398046511104')
                         .replace(b'bytes = 1048576', b'bytes = 4398046000000'))
        self.restart('--subsystem', file, '--data-limit', '1M')
        drive, last = self.drive(), 4398046000000 // 512 - 8
        self.assertEqual(drive.store(1, last, b'last' * 1024), 0)
        for first in range(0, last - 256, last // 64):
            self.assertEqual(drive.load(1, first, 256, 16 * PAGE), bytes(256 * 512))
        self.assertEqual(drive.load(1, last, 8), b'last' * 1024)
        # (to zero or deallocate all of it takes none)
        drive.at(40 * PAGE, 16)[:] = struct.pack('<IIQ', 0, 2 ** 32 - 1, 8)
        for command in (WRITE_ZEROES, 1, 0, 65536), (DATASET, 1, 4 << 32, 1, 40 * PAGE):
            self.gives((drive.io, *command, 0), (drive.store, 1, 1 << 30, b'y' * 4096, 0),
                       (drive.store, 1, 1 << 31, b'y' * 4096, 0))
        self.gives((drive.store, 1, 1 << 32, b'x' * 4096, 0),
                   (drive.load, 1, (1 << 32) - 8, 24, bytes(4096) + b'x' * 4096 + bytes(4096)))
