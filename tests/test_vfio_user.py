"""Tests ./nvme-model --vfio-user, with a client that plays QEMU (tests/as_client.py). Registers and memory are compared
with those of a second machine of the library, byte by byte. The server reaches the memory that its client lends it, and
none is left when it was taken away."""

import concurrent.futures
import os
import random
import re
import struct

from tests.as_client import (
    BAR, BIND, CONFIG, DEVICE_INFO, DMA_UNMAP, IRQ_INFO, PIN, REACHED, READ, REGION_INFO, RESET, UNBIND, WRITE, Piece,
    register_of, write_register)
from tests.driver import (
    BASE, CC, COMMAND, CSTS, IDENTIFY, INVALID_OFFSET, MASTER, NOWHERE, PAGE, TAIL, TRANSFER_ERROR, counter,
    memory_file)
from tests.served import EACCES, EEXIST, EINVAL, ENOENT, ENOSPC, EVERY, GET_LOG, GIBIBYTE, Served
from tests.support import until
from tests.test_qemu import COUNTS


class Commands(Served):
    def test_answers(self):
        # what QEMU 11.1 sends, in its order
        client, ram = self.client(), memory_file(64 * PAGE)
        self.gives((client.greet, b'\0\0\0\0{"capabilities":{"max_msg_fds":8,"max_data_xfer_size":16384,'
                                  b'"max_dma_maps":256}}\0'),
                   (client.map, 0, 64 * PAGE, ram, 0), (client.map, 0xfffc_0000, 0x4_0000, 0),
                   (client.map, 0xfd00_0000, 0x100_0000, 0),
                   (client.ask, DEVICE_INFO, struct.pack('<4I', 16, 0, 0, 0), struct.pack('<4I', 16, 3, 9, 5)))
        for index in range(9):
            size = {0: 0x4000, 7: 0x100}.get(index, 0)
            self.assertEqual(client.ask(REGION_INFO, struct.pack('<IIIIQQ', 32, 0, index, 0, 0, 0)),
                             struct.pack('<IIIIQQ', 32, 3 if size else 0, index, 0, size, 0))
        for index, flags, count in (0, 7, 1), (1, 9, 1), (2, 1, 0):
            self.assertEqual(client.ask(IRQ_INFO, struct.pack('<4I', 16, 0, index, 0)),
                             struct.pack('<4I', 16, flags, index, count))
        binds = client.set_irqs, BIND, PIN, 1, counter(), 0
        self.gives((client.refusal, IRQ_INFO, struct.pack('<4I', 16, 0, 3, 0), EINVAL),
                   (client.refusal, REGION_INFO, struct.pack('<IIIIQQ', 32, 0, 9, 0, 0, 0), EINVAL), binds)
        for _ in range(2):
            self.gives((client.set_irqs, UNBIND, PIN, 0, 0), (client.set_config, COMMAND, 0, 2, None),
                       (client.ask, RESET, b''), binds, (client.set_config, BASE, 0, None))
        # firmware locks pages below 1 MiB
        payload = struct.pack('<IIQQ', 24, 0, 0, 64 * PAGE)
        self.assertEqual(client.ask(DMA_UNMAP, payload), payload)
        for start, size, flags in (0, 16, READ | WRITE), (16, 16, READ), (32, 32, READ | WRITE):
            self.assertEqual(client.map(start * PAGE, size * PAGE, ram, start * PAGE, flags), 0)

    def test_configuration(self):
        client = self.greeted()
        whole = client.read(CONFIG, 0, 256)
        wanted = bytearray(256)
        for at, value in ((0, '361b1000'), (6, '10'), (8, '02020801'), (0x2c, 'f41a0011'), (0x34, '40'), (0x3d, '01'),
                          (0x40, '05608000'), (0x60, '1000920000800010')):
            wanted[at:at + len(value) // 2] = bytes.fromhex(value)
        self.assertEqual(whole.hex(), wanted.hex())
        writable = {COMMAND: 0x406, BASE: 0xffff_c000, 0x3c: 0xff, 0x40: 0x0001_0000, 0x44: 0xffff_fffc,
                    0x48: 0xffff_ffff, 0x4c: 0xffff, 0x68: 0xf}
        for offset in range(0, 256, 4):
            before = client.config(offset)
            client.set_config(offset, 0xffff_ffff if offset != 0x68 else 0xffff_7fff)  # (a reset)
            mask = writable.get(offset, 0)
            self.assertEqual(client.config(offset), before & ~mask | mask, hex(offset))
            client.set_config(offset, 0)
            self.assertEqual(client.config(offset), before & ~mask, hex(offset))
        client.write(CONFIG, 0, bytes([0xff]) * 256)
        client.ask(RESET)
        self.assertEqual(client.read(CONFIG, 0, 256), whole)

    def test_registers(self):
        # each register is read and written in each size, also beside the registers
        client, machine, lot = self.greeted(), self.machine(), random.Random(1)

        def registers(length):
            return b''.join(register_of(machine, 0, at).to_bytes(4, 'little') for at in range(0, length, 4))
        self.answers(lambda offset, size: client.read(BAR, offset, size), *(
            (offset, size, registers(0x60)[offset:offset + size]) for offset in range(0x44) for size in range(1, 17)))
        for _ in range(2000):
            offset = lot.choice((lot.randrange(0x40), 0x1000, 0x1004, 0x14, 0x24, 0x28))
            size = lot.choice((1, 2, 4, 8, 12))
            data = lot.randbytes(size)
            client.write(BAR, offset, data, posted=lot.random() < 0.5)
            for at in range(0, size, 4):
                if offset % 4 == size % 4 == 0:
                    write_register(machine, 0, offset + at, int.from_bytes(data[at:at + 4], 'little'))
            self.assertEqual(client.read(BAR, 0, 0x40), registers(0x40), (hex(offset), data))
        self.assertEqual(client.read(BAR, 0, 0x4000), registers(0x1000).ljust(0x4000, b'\0'))

    def test_both_controllers(self):
        machine = self.machine()
        first, second = guests = [self.guest(ctrl, machine) for ctrl in range(2)]
        for _ in range(20):
            self.assertEqual([guest.serial() for guest in guests], ['S0', 'S1'])
        self.gives((first.status_of, 0x18, 1), (first.status_of, 0xff, 1), (first.ask, RESET, b''))
        machine.write32(0, CC, 0)
        self.gives((first.config, COMMAND, 2, 0), (first.set_config, COMMAND, MASTER, 2, None), (first.enable, None),
                   (first.serial, 'S0'), (second.serial, 'S1'))
        # what the server tells at its end
        told = self.stop(self.server)
        self.server = self.start()
        counts = [machine.counts(ctrl) for ctrl in range(2)]
        self.assertEqual(re.findall(COUNTS, told), [(str(ctrl), str(commands), str(refusals))
                                                    for ctrl, (refusals, commands) in enumerate(counts)])

    def test_page_sizes(self):
        guest = self.guest(0, self.machine(), layout=[(0, 65 * PAGE)])
        for power in range(5):
            page = PAGE << power
            guest.enable(rings=(0, page), power=power)
            self.gives((guest.serial, 2 * page, 'S0'), (guest.identify, 2 * page + 0x804, 3 * page, 0))
        # (only the first part of the last page is memory)
        self.gives((guest.identify, 64 * PAGE, 0), (guest.identify, 64 * PAGE + 0xf800, 2 * page, 0))

    def test_lists(self):
        # the addresses of a log's pages are in a list, and some of them are above 4 GiB
        high = 4 * GIBIBYTE
        guest = self.guest(0, self.machine(), layout=[(0, 32 * PAGE), (high, 16 * PAGE)])
        for first, place, pages in ((4 * PAGE, 5 * PAGE, [high, 7 * PAGE, high + 5 * PAGE]),
                                    (4 * PAGE + 0x800, 6 * PAGE - 16, [high, 7 * PAGE]),
                                    (high + PAGE, high + 2 * PAGE, [6 * PAGE, high + 3 * PAGE, 7 * PAGE])):
            guest.at(place, 8 * len(pages))[:] = struct.pack(f'<{len(pages)}Q', *pages)
            dwords = (PAGE - first % PAGE + PAGE * len(pages)) // 4
            self.gives((guest.status_of, GET_LOG, first, place, EVERY, 1 | (dwords - 1) << 16, 0),
                       (guest.identify, first + 0x10, high + 8 * PAGE, 0))
        self.assertEqual(guest.serial(), 'S0')

    def test_lists_and_holes(self):
        # what is no memory reads as FFh and loses what is written, and no controller reaches what is above 128 GiB
        holes = 32 * PAGE, 20 * GIBIBYTE, 128 * GIBIBYTE - PAGE
        guest = self.guest(0, self.machine(), layout=[(0, 32 * PAGE)], holes=holes)
        length = 1 | (3 * 1024 - 1) << 16
        for page, wanted in *((hole, 0) for hole in holes), (128 * GIBIBYTE, TRANSFER_ERROR), (NOWHERE, TRANSFER_ERROR):
            guest.at(5 * PAGE, 16)[:] = struct.pack('<2Q', 7 * PAGE, page)
            for first, second, status in ((4 * PAGE, 5 * PAGE, wanted), (page, 5 * PAGE, wanted),
                                          (4 * PAGE, page, wanted or INVALID_OFFSET)):
                self.assertEqual(guest.status_of(GET_LOG, first, second, EVERY, dword10=length), status, hex(page))
            self.answers(guest.identify, (page, 0, wanted), (8 * PAGE + 0x800, page, wanted),
                         (page + 0x800, 8 * PAGE, wanted))
        self.assertEqual(guest.serial(), 'S0')

    def test_list_beside_the_entries(self):
        # a list in the page of the submission ring, and one in that of the completions, with addresses in holes
        guest = self.guest(0, self.machine(), holes=[GIBIBYTE])
        for list_at in 0x800, PAGE + 0x800:
            for pages in (7, 8, 9), (7, GIBIBYTE // PAGE, 9):
                guest.at(list_at, 24)[:] = struct.pack('<3Q', *(page * PAGE for page in pages))
                guest.put(GET_LOG, 4 * PAGE, list_at, EVERY, 1 | (4 * 1024 - 1) << 16)
                self.assertEqual(guest.completion()[4:], (guest.completions[0].next + 100, 0))
                self.assertEqual(guest.take(), 0)

    def test_high_memory(self):
        # the queues and the data lie in different pieces, up to the end of the greatest machine
        far = 66 * GIBIBYTE - 32 * PAGE
        for layout in [(0, 16 * PAGE), (4 * GIBIBYTE, 16 * PAGE)], [(0, 16 * PAGE), (far, 32 * PAGE)]:
            guest = self.guest(0, layout=layout)
            high = layout[1][0]
            for rings in (0, PAGE), (high, PAGE), (0, high), (high, high + PAGE):
                guest.enable(rings)
                for data in 8 * PAGE, high + 8 * PAGE:
                    self.assertEqual(guest.serial(data), 'S0', (rings, data))
            guest.close()

    def test_full_ring(self):
        # a ring of completions without room holds entries back, until a head is written
        guest = self.guest(0, self.machine(), slots=(16, 4))
        for place in range(2, 12):
            guest.put(IDENTIFY, place * PAGE, dword10=1, rings=False)
        guest.set(TAIL, guest.submissions[0].next)
        for place in range(2, 12):
            self.assertEqual((guest.take(), bytes(guest.at(place * PAGE + 4, 2))), (0, b'S0'))
        self.assertIsNone(guest.completion())

    def test_many_entries(self):
        # more entries at once than one turn takes
        guest = self.guest(0, self.machine(), layout=[(0, 100 * PAGE)], rings=(0, 64 * PAGE), slots=(4096, 4096))
        for _ in range(4000):
            guest.put(0x18, rings=False)
        guest.set_register(TAIL, guest.submissions[0].next)
        self.assertTrue(until(lambda: guest.at(64 * PAGE + 16 * 3999, 16)[14] & 1))
        self.assertEqual(guest.register(CSTS), 1)

    def test_bus_master(self):
        guest = self.guest(0, command=2)
        guest.put(IDENTIFY, 2 * PAGE, dword10=1)
        self.assertIsNone(guest.completion())
        guest.set_config(COMMAND, MASTER, 2)
        self.assertEqual(guest.completion()[4:], (100, 0))

    def test_processors_go_on(self):
        # what the guest writes beside the data while turns go on, stays
        guest = self.guest(0)
        places, lost, rounds = (64 * 16, 2 * PAGE - 8, 3 * PAGE + 0x18, 4 * PAGE - 16), [], 0
        words = [guest.at(place, 8).cast('Q') for place in places]
        with concurrent.futures.ThreadPoolExecutor() as threads:
            # (the data ends before the third place, and begins after it)
            sent = threads.submit(lambda: {guest.identify(2 * PAGE + 0x18, 3 * PAGE) for _ in range(1000)})
            while not sent.done():
                lost += [place for place, word in zip(places, words) if word[0] != rounds]
                rounds += 1
                for word in words:
                    word[0] = rounds
        self.assertGreater(rounds, 1000)
        self.assertEqual((sent.result(), lost), ({0}, []))


class Memory(Served):
    def test_holes(self):
        # nothing is there: data in a hole is lost, and queues there are fatal
        guest = self.guest(layout=[(0, 16 * PAGE)])
        high = Piece(0x40_0000, 16 * PAGE, offset=0x40_0000)
        guest.add(high)
        self.assertEqual(guest.serial(0x40_0000), 'S0')
        for first in 16 * PAGE, 0x3f_f000, 0x41_0000, 1 << 32, REACHED - PAGE, REACHED, 1 << 63, NOWHERE:
            wanted = 0 if first < REACHED else TRANSFER_ERROR
            self.answers(guest.identify, (first, wanted), (8 * PAGE + 0x800, first, wanted),
                         (first + 0x801, 8 * PAGE, INVALID_OFFSET))
        self.assertEqual(guest.serial(), 'S0')
        self.assertEqual(os.pread(high.file, high.offset, 0), bytes(high.offset))
        for rings in (16 * PAGE, PAGE), (0, 16 * PAGE), (NOWHERE, PAGE), (0, NOWHERE), (REACHED, PAGE), (0, 1 << 40):
            guest.enable(rings=rings)
            guest.set_register(TAIL, 1)
            self.assertEqual(guest.register(CSTS), 3, rings)

    def test_maps(self):
        client, file, kept = self.greeted(), memory_file(64 * PAGE), self.kept()
        other = os.open(self.file('plain', bytes(1 << 20)), os.O_RDWR)
        zero, pipe = os.open('/dev/zero', os.O_RDWR), os.pipe()
        self.answers(client.map, (4 * PAGE, 4 * PAGE, file, 0),
                     (4 * PAGE, 4 * PAGE, file, EEXIST), (0, 5 * PAGE, file, EEXIST), (7 * PAGE, PAGE, None, EEXIST),
                     (5 * PAGE, PAGE, file, EEXIST), (0, 16 * PAGE, file, EEXIST), (0, 0, file, EINVAL),
                     (1, PAGE, file, EINVAL), (0, PAGE + 1, file, EINVAL), (0, PAGE, file, 1, EINVAL),
                     (0, PAGE, file, 0, 2, EINVAL), (0, PAGE, file, 0, 0, EINVAL), (0, PAGE, file, 0, 7, EINVAL),
                     (0, PAGE, file, 0, 0xffff_ffff, EINVAL), (2 ** 64 - PAGE, 2 * PAGE, file, EINVAL),
                     (PAGE, 2 ** 64 - PAGE, None, EEXIST), (0, PAGE, file, 64 * PAGE, EINVAL),
                     (0, PAGE, file, 2 ** 64 - PAGE, EINVAL), (1 << 20, 65 * PAGE, file, EINVAL),
                     (1 << 20, 1 << 62, file, EINVAL), (0, PAGE, zero, EINVAL), (0, PAGE, pipe[0], EINVAL),
                     (0, PAGE, client.socket.fileno(), EINVAL), (0, PAGE, counter(), EINVAL),
                     (0, PAGE, os.open(f'/proc/self/fd/{file}', os.O_RDONLY), EACCES))
        on_tmpfs = os.statvfs(self.folder).f_fsid == os.statvfs('/dev/shm').f_fsid
        self.assertEqual(client.map(1 << 20, PAGE, other), 0 if on_tmpfs else EINVAL)
        self.keeps(kept + 1 + on_tmpfs)
        # what was mapped is unmapped as it was mapped, or all of it
        self.answers(client.unmap,
                     (0, PAGE, ENOENT), (4 * PAGE, PAGE, ENOENT), (5 * PAGE, 3 * PAGE, ENOENT), (0, 6 * PAGE, ENOENT),
                     (4 * PAGE, 0, EINVAL), (4 * PAGE, 2 ** 64 - PAGE, ENOENT), (4 * PAGE, 4 * PAGE, 1, EINVAL),
                     (4 * PAGE, 4 * PAGE, 2, EINVAL), (4 * PAGE, 4 * PAGE, 0), (4 * PAGE, 4 * PAGE, ENOENT))
        self.answers(client.map, *((at * PAGE, PAGE, file if at % 2 else None, 0) for at in range(8, 16)))
        self.answers(client.unmap, (8 * PAGE, PAGE, 0), (0, 0, 2, 0))
        self.keeps(kept)

    def test_many_maps(self):
        client, file, kept = self.greeted(), memory_file(PAGE), self.kept()
        self.answers(client.map, *((at * PAGE, PAGE, file, 0 if at < 256 else ENOSPC) for at in range(5000)))
        self.keeps(kept + 256)
        # (an unmapped one leaves room for another)
        self.gives((client.unmap, PAGE, PAGE, 0), (client.map, GIBIBYTE, PAGE, file, 0),
                   (self.greeted(1).config, 0, 0x0010_1b36))
        client.close()
        self.keeps(kept)

    def test_read_only(self):
        # memory that only firmware writes is read, and what a turn would write there is lost
        guest = self.guest()
        rom = Piece(1 << 20, 16 * PAGE)
        guest.pieces.append(rom)
        self.gives((guest.map, rom.address, rom.length, rom.file, 0, READ, 0), (guest.identify, rom.address, 0))
        self.assertEqual(rom.bytes[:], bytes(16 * PAGE))
        guest.enable(rings=(rom.address, PAGE))
        self.assertEqual(guest.serial(2 * PAGE), 'S0')

    def test_unmapped_again(self):
        # no turn reaches memory that was taken away
        guest = self.guest()
        self.gives((guest.serial, 'S0'), (guest.unmap, 0, 64 * PAGE, 0))
        before = guest.pieces[0].bytes[:]
        guest.put(IDENTIFY, 8 * PAGE, dword10=1)
        self.assertEqual(guest.register(CSTS), 3)
        self.assertEqual(guest.pieces[0].bytes[64 * 16:], before[64 * 16:])
        self.gives((guest.map, 0, 64 * PAGE, guest.pieces[0].file, 0), (guest.enable, None), (guest.serial, 'S0'))

    def test_shrunk_file(self):
        # a file that loses its pages ends nothing, and what it gets back is used again
        guest = self.guest(layout=[(0, 16 * PAGE), (16 * PAGE, 16 * PAGE)])
        os.ftruncate(guest.pieces[1].file, PAGE // 2)
        self.answers(guest.identify, (16 * PAGE, 0), (17 * PAGE, 0), (20 * PAGE, 0))
        os.ftruncate(guest.pieces[1].file, 16 * PAGE)
        self.assertEqual(guest.serial(17 * PAGE), 'S0')
        os.ftruncate(guest.pieces[0].file, 0)
        guest.set_register(TAIL, (guest.submissions[0].next + 1) % 16)
        self.assertEqual(guest.register(CSTS), 1)
        self.assertEqual(self.greeted(1).config(0), 0x0010_1b36)

    def test_same_file_twice(self):
        # one file in two places, with the data over the queues
        guest = self.guest()
        self.assertEqual(guest.map(1 << 20, 64 * PAGE, guest.pieces[0].file), 0)
        for data in (1 << 20) + 8 * PAGE, 8 * PAGE, 0, PAGE, (1 << 20), (1 << 20) + PAGE:
            guest.enable()
            guest.put(IDENTIFY, data, dword10=1)
            self.assertEqual(guest.register(CSTS), 1)
