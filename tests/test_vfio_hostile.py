"""Tests ./nvme-model --vfio-user with clients that send anything, in any order and pieces, or that come and go. None
makes the server wait, and with it the others: by descriptors whose closing waits, by pages that never come, or because
no descriptors are left."""

import contextlib
import ctypes
import fcntl
import mmap
import os
import pathlib
import random
import select
import signal
import socket
import stat
import struct
import sys
import threading
import time

from tests.as_client import (
    BAR, BIND, BIND_UNMASK, CONFIG, DEVICE_INFO, DMA_MAP, DMA_UNMAP, IRQ_INFO, MASK, MESSAGES, PIN, REGION_INFO,
    REGION_READ, REGION_WRITE, RESET, SET_IRQS, UNBIND, UNMASK, VERSION, WANTS_NONE, access, mapping, message)
from tests.driver import CC, COMMAND, CSTS, HEAD, IDENTIFY, PAGE, TAIL, chosen, counter, entry_of, memory_file
from tests.modelled import works
from tests.served import ATTACH, CREATE, EINVAL, EMFILE, ENOENT, ENOTSUP, EVERY, GET_LOG, Served
from tests.support import DEMO, LIMIT, Running

FIRST_DWORD = access(CONFIG, 0, 4)
COMMANDS = (DMA_MAP, DMA_UNMAP, DEVICE_INFO, REGION_INFO, IRQ_INFO, SET_IRQS, REGION_READ, *[REGION_WRITE] * 4, RESET,
            VERSION, 99)
USERFAULTFD, UFFDIO_API, UFFDIO_REGISTER = 323, 0xc018_aa3f, 0xc020_aa00
PTRACE_SEIZE, PTRACE_INTERRUPT = 0x4206, 0x4207
LIBC = ctypes.CDLL(None, use_errno=True)


class Hostile(Served):
    def test_broken_messages(self):
        # the connection is closed, and the next client is served
        whole = [message(command, size=size, flags=flags) for command, size, flags in (
            (VERSION, 15, 0), (VERSION, 0, 0), (VERSION, 16, 1), (VERSION, 16, 0xf),
            (REGION_WRITE, 16 + 16 + 0x4001, 0), (REGION_WRITE, 2 ** 32 - 1, 0))]
        for data in *whole, *(message(VERSION)[:length] for length in range(1, 16)):
            client = self.client()
            client.socket.sendall(data)
            if len(data) < 16:
                client.socket.shutdown(socket.SHUT_WR)
            self.assertTrue(client.is_closed(), data)
        client = self.client()
        client.socket.sendall(message(REGION_WRITE, bytes(40), size=100))
        client.close()
        self.assertEqual(self.greeted().config(0), 0x0010_1b36)

    def test_refused_messages(self):
        client = self.client()
        self.answers(client.refusal, *((VERSION, payload, EINVAL)
                                       for payload in (b'', bytes(3), b'\1\0\0\0{}\0', bytes(4) + b'{}')))
        for payload in bytes(4), b'\0\0\7\0{}\0':
            self.assertEqual(client.ask(VERSION, payload), client.greet())
        self.answers(client.refusal, *((command, bytes(32), ENOTSUP)
                                       for command in (0, 6, 11, 12, 14, 15, 99, 0xffff)))
        wrong = [(command, bytes(max(size + more, 1))) for command, size in (
            (DMA_MAP, 32), (DMA_UNMAP, 24), (DEVICE_INFO, 16), (REGION_INFO, 32), (IRQ_INFO, 16), (SET_IRQS, 20),
            (REGION_READ, 16), (RESET, 0)) for more in (-1, 1, 4, 10000)]
        for place in ((CONFIG, 256, 1), (CONFIG, 0, 257), (CONFIG, 255, 2), (CONFIG, 2 ** 64 - 1, 2), (BAR, 0x4000, 1),
                      (BAR, 0, 0x4001), (BAR, 2 ** 64 - 4, 8), (BAR, 0, 2 ** 32 - 1), (1, 0, 1), (8, 0, 1), (9, 0, 1),
                      (2 ** 32 - 1, 0, 1), (BAR, 0, 0), (CONFIG, 0, 0)):
            wrong += (REGION_READ, access(*place)), (REGION_WRITE, access(*place) + bytes(min(place[2], 0x4000)))
        wrong += [(REGION_WRITE, access(BAR, 0, count) + bytes(length))
                  for count, length in ((4, 3), (4, 5), (4, 0), (0x4000, 4))]
        self.answers(client.refusal, *((*request, EINVAL) for request in wrong))
        self.assertEqual(client.config(0), 0x0010_1b36)

    def test_descriptors(self):
        # descriptors that no message needs are closed
        client = self.greeted()
        file, kept = memory_file(PAGE), self.kept()
        for count in 1, 2, 8, 9, 100:
            self.gives((client.ask, REGION_READ, FIRST_DWORD, [file] * count, FIRST_DWORD + b'\x36\x1b\x10\0'),
                       (client.refusal, DMA_MAP, mapping(), [file] * count, 0 if count == 1 else EINVAL),
                       (client.unmap, 0, PAGE, 0 if count == 1 else ENOENT))
        # (they may come with any byte)
        reads = message(REGION_READ, FIRST_DWORD)
        for byte in reads:
            socket.send_fds(client.socket, [bytes([byte])], [file])
        client.heard()
        self.keeps(kept)
        # the descriptor of a message among others is its own, also after a byte out of band
        for flag in 0, socket.MSG_OOB:
            client.socket.send((3 * reads)[:-1])
            client.socket.send(reads[-1:], flag)
            socket.send_fds(client.socket, [message(DMA_MAP, mapping())], [file])
            client.socket.sendall(3 * reads)
            self.assertEqual([client.heard()[1:4] for _ in range(7)],
                             [(REGION_READ, 1, 0)] * 3 + [(DMA_MAP, 1, 0)] + [(REGION_READ, 1, 0)] * 3)
            self.keeps(kept + 1)
            self.assertEqual(client.unmap(0, PAGE), 0)

    def test_half_message(self):
        # a client that says half a message, or doesn't read, holds up no other one
        half, deaf = self.greeted(0), self.greeted(1)
        half.socket.sendall(message(REGION_READ, FIRST_DWORD)[:23])
        deaf.socket.settimeout(1)
        with contextlib.suppress(socket.timeout):
            while True:
                deaf.say(REGION_READ, access(BAR, 0, 0x4000))
        half.socket.sendall(FIRST_DWORD[7:])
        half.socket.recv(64)
        self.assertEqual(half.config(0), 0x0010_1b36)
        # (all its answers come, in their order)
        deaf.socket.settimeout(LIMIT)
        for number in range(2, deaf.number - 1):
            self.assertEqual(deaf.heard()[0], number)

    def test_long_turns(self):
        # a guest with many long commands at once holds up no client of another controller
        file = DEMO.read_bytes().replace(b'cntlid = 0\n', b'cntlid = 0\nmdts = 8\n')
        self.restart('--subsystem', self.file('long.toml', file))
        guest, other = self.guest(layout=[(0, 512 * PAGE)], rings=(0, 64 * PAGE), slots=(4096, 4096)), self.greeted(1)
        guest.at(100 * PAGE, 8 * 255)[:] = struct.pack('<255Q', *((200 + at) * PAGE for at in range(255)))
        for _ in range(300):
            guest.put(GET_LOG, 199 * PAGE, 100 * PAGE, EVERY, 1 | 0xffff_0000, 3, rings=False)
        guest.set_register(TAIL, guest.submissions[0].next)
        waits = []
        while not guest.at(64 * PAGE + 16 * 299, 16)[14] & 1:
            begun_at = self.spent()
            self.assertEqual(other.config(0), 0x0010_1b36)
            waits.append(self.spent() - begun_at)
        self.assertLess(max(waits), 0.5)
        self.assertGreater(len(waits), 10)
        self.assertEqual({guest.take() for _ in range(10)}, {0})

    def test_slow_pieces(self):
        client = self.greeted()
        for piece in message(REGION_READ, FIRST_DWORD, number=7):
            client.socket.sendall(bytes([piece]))
            time.sleep(0.001)
        self.assertEqual(client.heard(), (7, REGION_READ, 1, 0, FIRST_DWORD + b'\x36\x1b\x10\0'))
        # many messages at once are answered one after the other
        client.socket.sendall(b''.join(message(REGION_READ, access(CONFIG, at, 1), at) for at in range(200)))
        self.assertEqual([client.heard()[0] for _ in range(200)], list(range(200)))

    def test_clients_come_and_go(self):
        # the function is reset, and the subsystem stays
        first, second = self.guest(0, self.machine()), self.client()
        first.at(4 * PAGE, 27)[:] = struct.pack('<QQ10xB', 2048, 2048, 0)
        self.gives((first.status_of, CREATE, 4 * PAGE, 0), (first.status_of, IDENTIFY, 3 * PAGE, 0, 0, 0x10, 0))
        listed = bytes(first.at(3 * PAGE, PAGE))
        second.say(VERSION, bytes(4))
        self.assertTrue(self.is_silent(second))
        kept = self.kept()
        first.close()
        self.assertEqual(second.heard()[1], VERSION)
        self.assertLess(self.kept(), kept)
        self.gives((second.register, CC, 0), (second.register, CSTS, 0), (second.config, COMMAND, 2, 0))
        second.close()
        third = self.guest(1)
        self.assertEqual(third.status_of(IDENTIFY, 3 * PAGE, dword10=0x10), 0)
        self.assertEqual(bytes(third.at(3 * PAGE, PAGE)), listed)

    def test_taken_paths(self):
        # a server that still runs keeps its sockets, and those of one that was killed are replaced
        said = 'nvme-model: {}: Address already in use\n'
        self.ends(self.ended(self.path), 72, b'', said.format(f'{self.path}0').encode())
        self.kill()
        self.server = self.start()
        self.assertEqual(self.greeted().config(0), 0x0010_1b36)
        # a file that isn't a socket is never removed, although a connection to it is refused as to a dead one
        kept, path = self.file('kept', b'precious'), self.folder / 'file0'
        for make in (lambda path: path.write_text('precious'), lambda path: path.symlink_to('kept'), os.mkfifo):
            make(path)
            self.ends(self.ended(self.folder / 'file'), 72, b'', said.format(path).encode())
            self.assertTrue(os.path.lexists(path))
            path.unlink()
            self.assertEqual(kept.read_text(), 'precious')

    def test_several_subsystems(self):
        self.restart('--subsystem', DEMO, '--subsystem', DEMO, last=3, number=signal.SIGINT,
                     by=('env', '--default-signal=HUP', 'sh', '-c', 'umask 0; exec "$0" "$@"'))
        for number in range(4):
            self.assertEqual(self.guest(number).serial(), f'S{number % 2}')
            self.assertEqual(stat.S_IMODE(os.stat(f'{self.path}{number}').st_mode), 0o777)
        # (one that is started with nohup goes on)
        self.restart(number=signal.SIGHUP, by=('env', '--ignore-signal=HUP'))
        self.server.process.send_signal(signal.SIGHUP)
        self.assertEqual(self.guest(0).config(0), 0x0010_1b36)

    def test_random_messages(self):
        files = [memory_file(64 * PAGE), memory_file(PAGE), counter(), os.open('/dev/null', os.O_RDWR)]
        for seed in range(104):
            with self.subTest(seed):
                self.random_messages(random.Random(seed), self.guest(seed % 2), files)
        self.assertEqual(self.greeted().config(0), 0x0010_1b36)

    def random_messages(self, lot, guest, files):
        for turn in range(1000):
            if turn % 20 == 0:
                guest.at(0, 2 * PAGE)[:] = random_ring(lot)
            command, flags = lot.choice(COMMANDS), lot.choice((0, 0, 0, 0, WANTS_NONE, WANTS_NONE | 0xffe0))
            payload = random_payload(lot, command)
            guest.say(command, payload, lot.choices(files, k=lot.choice((0, 0, 0, 1, 1, 2, 9))), flags)
            if flags & WANTS_NONE:
                continue
            number, answered, kind, error, reply = guest.heard()
            self.assertEqual((number, answered, kind), (guest.number, command, 0x21 if error else 1))
            self.assertFalse(error and reply)
            self.assertTrue(command in (REGION_READ, VERSION) or len(reply) <= len(payload))
        guest.close()


def random_ring(lot):
    """Returns two pages: entries of a submission ring, most of them with data that may lie anywhere, and zeros."""
    entries = (entry_of(lot.choice((IDENTIFY, GET_LOG, CREATE, ATTACH, lot.randrange(256))), at,
                        lot.choice((0, 1, EVERY)), chosen(lot), chosen(lot), lot.choice((1, 0x10, 0)))
               for at in range(64))
    return b''.join(entries) + bytes(PAGE)


def random_payload(lot, command):
    if lot.random() < 0.05:
        return lot.randbytes(lot.randrange(60))
    if command == DMA_MAP:
        return mapping(chosen(lot), chosen(lot), chosen(lot), lot.choice((3, 3, 1, chosen(lot, 32))))
    if command == DMA_UNMAP:
        return struct.pack('<IIQQ', 24, lot.choice((0, 0, 0, 2)), chosen(lot), chosen(lot))
    if command == SET_IRQS:
        return struct.pack('<5I', 20, lot.choice((BIND, UNBIND, MASK, UNMASK, BIND_UNMASK, lot.getrandbits(7))),
                           lot.choice((0, 1, chosen(lot, 32))), lot.choice((0, 0, chosen(lot, 32))),
                           lot.choice((0, 1, 2)))
    if command in (REGION_READ, REGION_WRITE):
        region, count = lot.choice((BAR, BAR, CONFIG, chosen(lot, 32))), lot.choice((4, 4, 8, 1, 256, chosen(lot, 14)))
        offset = lot.choice((TAIL, HEAD, CC, COMMAND, chosen(lot), lot.randrange(256)))
        data = lot.choice((lot.randrange(16).to_bytes(4, 'little'), b'\1\0\x46\0', lot.randbytes(4))) * 5000
        return access(region, offset, count) + (data[:count] if command == REGION_WRITE else b'')
    return struct.pack('<8I', *(chosen(lot, 32) for _ in range(8)))[:lot.choice((16, 32, 0))]


class Waiting(Served):
    def goes_on(self, ctrl=1):
        """Checks that another client is served, whatever waits meanwhile."""
        other = self.guest(ctrl)
        self.assertEqual(other.serial(), f'S{ctrl}')
        other.close()

    def locked(self, file):
        """Writes a page that doesn't come to a file, which stays locked until the call that this returns."""
        handler = LIBC.syscall(USERFAULTFD, os.O_CLOEXEC | os.O_NONBLOCK)
        if handler < 0:
            self.skipTest(f'userfaultfd: {os.strerror(ctypes.get_errno())}')
        memory = mmap.mmap(-1, PAGE)
        at = ctypes.addressof(ctypes.c_char.from_buffer(memory))
        fcntl.ioctl(handler, UFFDIO_API, struct.pack('=3Q', 0xaa, 0, 0))
        fcntl.ioctl(handler, UFFDIO_REGISTER, struct.pack('=4Q', at, PAGE, 1, 0))
        writer = threading.Thread(target=LIBC.write, args=(file, ctypes.c_void_p(at), PAGE))
        writer.start()
        ends = contextlib.ExitStack()
        ends.callback(lambda: (os.close(handler), writer.join(), memory.close()))
        self.addCleanup(ends.close)
        assert select.select([handler], [], [], LIMIT)[0], 'nobody waits for the page'
        return ends.close

    @contextlib.contextmanager
    def stopped(self):
        """Stops the server meanwhile, so that its copy of a descriptor that is sent and closed here is the last one."""
        os.kill(self.server.process.pid, signal.SIGSTOP)
        os.waitpid(self.server.process.pid, os.WUNTRACED)
        try:
            yield
        finally:
            os.kill(self.server.process.pid, signal.SIGCONT)

    def receivers(self):
        """Returns the processes of the server that take descriptors."""
        number = self.server.process.pid
        return [int(word) for word in pathlib.Path(f'/proc/{number}/task/{number}/children').read_text().split()]

    def signal_receivers(self, number):
        for receiver in self.receivers():
            os.kill(receiver, number)

    def test_file_system(self):
        # a file of a file system that doesn't answer is refused, and only its own client waits until it is closed
        if not os.access('/dev/fuse', os.R_OK | os.W_OK):
            self.skipTest('there is no /dev/fuse that can be used')
        private = next((words for words in (('unshare', '-m'), ('unshare', '-Urm')) if works(*words)), None)
        if private is None:
            self.skipTest('no mount namespace can be made here')
        running = Running(*private, sys.executable, '-m', 'tests.as_filesystem', f'{self.path}0')
        with contextlib.suppress(AssertionError):
            running.comes(b'\n')
        if b'mount: ' in running.heard:
            self.skipTest('no file system can be mounted here')
        running.comes(f'answered {EINVAL}\n'.encode())
        self.goes_on()
        # the server ends although its receiver can't
        self.restart()
        running.process.kill()
        running.end()

    def test_locked_memory(self):
        # memory whose lock is held is read and written
        guest = self.guest()
        self.locked(guest.pieces[0].file)
        self.assertEqual(guest.serial(), 'S0')
        self.goes_on()

    def test_locked_pipe(self):
        # the end of a pipe can't be closed while a write to it waits, whatever message it came with
        for flags in 0, socket.MSG_OOB:
            client, ends = self.greeted(), os.pipe()
            unlock = self.locked(ends[1])
            rights = [(socket.SOL_SOCKET, socket.SCM_RIGHTS, struct.pack('=i', ends[0]))]
            client.number += 1
            maps = message(DMA_MAP, mapping(), client.number)
            with self.stopped():
                client.socket.sendmsg([maps[:1]], rights, flags)
                os.close(ends[0])
            client.socket.sendall(maps[1:])
            self.assertEqual(client.heard()[3], EINVAL)
            self.goes_on()
            # (the next client of this controller waits until it is closed)
            client.close()
            self.goes_on()
            client = self.client()
            client.say(VERSION, bytes(4))
            self.assertTrue(self.is_silent(client))
            unlock()
            self.assertEqual(client.heard()[1], VERSION)
            client.close()

    def test_lingering_socket(self):
        # the last copy of a socket that waits until its data is read
        listener = socket.create_server(('127.0.0.1', 0))
        lingering = socket.create_connection(listener.getsockname())
        accepted, _ = listener.accept()
        lingering.setsockopt(socket.SOL_SOCKET, socket.SO_LINGER, struct.pack('=ii', 1, 3 * LIMIT))
        lingering.setblocking(False)
        with contextlib.suppress(BlockingIOError):
            while True:
                lingering.send(bytes(1 << 20))
        client = self.greeted()
        file = os.dup(lingering.fileno())
        lingering.close()
        with self.stopped():
            client.say(DMA_MAP, mapping(), [file])
            os.close(file)
        self.assertEqual(client.heard()[3], EINVAL)
        self.goes_on()
        accepted.close()
        listener.close()

    def test_killed_receiver(self):
        # without its receiver, a client is served until it sends a descriptor, and the next one has another receiver
        client = self.greeted()
        self.signal_receivers(signal.SIGKILL)
        self.assertEqual(client.config(0), 0x0010_1b36)
        client.say(DMA_MAP, mapping(), [memory_file(PAGE)])
        self.assertTrue(client.is_closed())
        # (nor is anything left of a client whose receiver ends before it answers)
        client = self.greeted()
        self.signal_receivers(signal.SIGSTOP)
        client.say(DMA_MAP, mapping(), [memory_file(PAGE)])
        self.assertTrue(self.is_silent(client))
        self.signal_receivers(signal.SIGKILL)
        self.assertTrue(client.is_closed())
        self.goes_on(0)
        # a server that is killed leaves none
        self.greeted()
        self.assertEqual(len(self.receivers()), 1)
        self.kill()
        self.server = self.start()

    def test_end_with_messages_left(self):
        # what clients sent is read although the server ends, so they find the end of a stream, and no reset
        for number in signal.SIGTERM, signal.SIGKILL:
            client = self.greeted()
            client.socket.setblocking(False)
            with contextlib.suppress(BlockingIOError):
                while True:
                    client.say(REGION_READ, access(BAR, 0, 0x4000))
            self.server.process.send_signal(number)
            self.assertEqual(self.server.end().status, -number)
            client.socket.settimeout(LIMIT)
            while client.socket.recv(65536):
                pass
            self.server = self.start()

    def test_end_with_a_descriptor_left(self):
        # nor does the server wait at its end until a descriptor is closed that a client sent
        client, ends = self.greeted(), os.pipe()
        unlock = self.locked(ends[1])
        with self.stopped():
            client.say(DMA_MAP, mapping(), [ends[0]])
            os.close(ends[0])
            self.server.process.terminate()
        self.assertEqual(self.server.end().status, -signal.SIGTERM)
        unlock()
        self.server = self.start()

    def test_turn_without_an_end(self):
        # a signal ends the server although its turn doesn't end, and no socket is left
        number = self.server.process.pid
        for request in PTRACE_SEIZE, PTRACE_INTERRUPT:
            self.assertEqual(LIBC.ptrace(request, number, None, None), 0)
        os.waitpid(number, 0)
        self.restart()

    def test_what_receivers_have(self):
        # a receiver keeps neither memory of another guest nor data, which would outlast them
        first, second = self.guest(0), self.guest(1)
        self.assertEqual((first.serial(), second.config(0)), ('S0', 0x0010_1b36))
        self.assertIn('memfd:', pathlib.Path(f'/proc/{self.server.process.pid}/maps').read_text())
        for number in self.receivers():
            self.assertNotIn('memfd:', pathlib.Path(f'/proc/{number}/maps').read_text())
            self.assertFalse([name for name in os.listdir(f'/proc/{number}/fd')
                              if 'memfd:' in os.readlink(f'/proc/{number}/fd/{name}')])

    def test_few_descriptors(self):
        # where none is left, a request is refused by EMFILE, or a client waits, and the server goes on
        outcomes = set()
        for most in range(8, 14):
            self.restart(by=('sh', '-c', 'ulimit -n "$0"; exec "$@"', str(most)))
            outcomes.add(self.mapped())
            before = self.spent()
            time.sleep(0.5)
            self.assertLess(self.spent() - before, 0.2)
        self.assertGreater(len(outcomes), 3, outcomes)
        self.assertIn(0, outcomes)

    def mapped(self):
        """Returns how many pieces of memory a client could map, or 0 if the server says that it takes nobody. All of
        them are there."""
        guest = self.client()
        guest.say(VERSION, bytes(4))
        ready = select.select([guest.socket, self.server.hears], [], [], LIMIT)[0]
        guest.close()
        if self.server.hears in ready:
            self.server.comes(b'nvme-model: a client waits, because the limit of open files or processes is too low\n')
            return 0
        guest = self.guest(layout=())
        answers = [guest.map(at * 64 * PAGE, 64 * PAGE, memory_file(64 * PAGE)) for at in range(8)]
        count = answers.count(0)
        self.assertEqual(answers, [0] * count + [EMFILE] * (8 - count))
        self.gives((guest.set_irqs, BIND, PIN, 1, counter(), EMFILE),
                   (guest.set_irqs, BIND, MESSAGES, 1, counter(), EMFILE),
                   (guest.unmap, 0, 64 * PAGE, 0 if count else ENOENT),
                   (guest.set_irqs, BIND, MESSAGES, 1, counter(), 0 if count else EMFILE))
        guest.close()
        guest = self.guest(layout=[(at * 64 * PAGE, 64 * PAGE) for at in range(count)])
        self.answers(guest.serial, *(((64 * at + 8) * PAGE, 'S0') for at in range(count)))
        guest.close()
        return count
