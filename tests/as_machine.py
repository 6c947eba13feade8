"""Stands for lib/nvme-model/qemu and its machine in the tests of `nvme-model --vm`: does the guest's part over the
descriptors that QEMU would inherit, as its arguments say. The variable MACHINE names one of MACHINES."""

import contextlib
import os
import re
import signal
import struct
import sys
import threading
import time

INPUT, OUTPUT, ERRORS, TERMINAL, MESSAGES = PORTS = [*map(int, re.findall(r',fd=(\d+)', ' '.join(sys.argv)))]
GIVEN, TOLD = open(INPUT, 'rb'), open(MESSAGES, 'rb')
BEGUN, STOPPED, ENDED, UNREAD, ALIVE, SIGNAL, SIGNAL_GROUP, SIZE, CONTINUE, FINISH = range(10)


def receive(file, count):
    data = file.read(count)
    return data if len(data) == count else sys.exit(9)


def tell(kind, value=0):
    os.write(MESSAGES, struct.pack('<II', kind, value))


def awaits(*kinds):
    """Returns the next message of one of these kinds."""
    kind = None
    while kind not in kinds:
        kind, value = struct.unpack('<II', receive(TOLD, 8))
    return kind, value


def frame(port, data=b''):
    data = struct.pack('<I', len(data)) + data
    while data:
        data = data[os.write(port, data):]


def frames():
    """Yields the frames of the input up to its end."""
    while length := struct.unpack('<I', receive(GIVEN, 4))[0]:
        yield receive(GIVEN, length)


def ends(how, *ports):
    """Ends the command's output, its messages and these ports, and tells how the command ended."""
    for port in OUTPUT, ERRORS, *ports:
        frame(port)
    tell(ENDED, how)
    awaits(FINISH)


def copies():
    for data in frames():
        frame(OUTPUT, data)
        frame(ERRORS, data)


def hears():
    """Writes the signals that it is told, until SIGTERM."""
    frame(OUTPUT, b'begun\n')
    number = 0
    while number != signal.SIGTERM:
        kind, number = awaits(SIGNAL, SIGNAL_GROUP)
        frame(OUTPUT, f'{signal.Signals(number).name} {kind == SIGNAL_GROUP}\n'.encode())


def writes():
    """Writes until nobody reads, and drops its input."""
    tell(UNREAD, PORTS.index(INPUT))
    threading.Thread(target=lambda: [*frames()], daemon=True).start()
    os.set_blocking(MESSAGES, False)
    message = b''
    while message != struct.pack('<II', UNREAD, PORTS.index(OUTPUT)):
        frame(OUTPUT, b'y\n' * 1000)
        with contextlib.suppress(BlockingIOError):
            message = os.read(MESSAGES, 8)
    os.set_blocking(MESSAGES, True)


def by_kvm(call, *arguments):
    if 'kvm' in sys.argv:
        call(*arguments)


def emulates():
    """Tells how it was started, and ends."""
    tell(ALIVE)
    tell(BEGUN)
    frame(OUTPUT, f'{sys.argv[sys.argv.index("-accel") + 1]}\n'.encode())
    ends(3 << 8)


def tells_files():
    """Writes the machine's first files, without its programs."""
    with open(sys.argv[sys.argv.index('-initrd') + 1], 'rb') as file:
        while (header := file.read(110)) and header.startswith(b'070701'):
            size, length = int(header[54:62], 16), int(header[94:102], 16)
            name = file.read(length + -(110 + length) % 4).rstrip(b'\0')
            data = file.read(size + -size % 4)[:size]
            if name == b'begin':
                data = ' '.join(map(str, struct.unpack('6I', data[:24]))).encode()
            if name not in (b'init', b'setup', b'TRAILER!!!'):
                frame(OUTPUT, name + b' ' + data.replace(b'\0', b'|') + b'\0')


PANIC = '[    1.0] Kernel panic - not syncing: a reason\r\n[    1.1] ---[ end Kernel panic ]---\r'
BEGINS, FAILS, WAITS = (tell, BEGUN), (sys.exit, 72), (time.sleep, 10000)
# What each machine does: calls, in order.
MACHINES = {
    'copy': [BEGINS, (copies,), (ends, 5 << 8)],
    'killed': [BEGINS, (ends, signal.SIGUSR1)],
    'panics': [(print, PANIC)],
    'refuses': [(print, 'nvme-model: a reason'), FAILS],
    'breaks_off': [BEGINS, (frame, OUTPUT, b'some\n'), (sys.exit, 1)],
    # (it fails after the command's end)
    'loses': [BEGINS, (ends, 0), (print, 'nvme-model: what was written is lost'), FAILS],
    'is_silent': [WAITS],
    'needs_emulation': [(by_kvm, *WAITS), (emulates,)],
    'refuses_kvm': [(by_kvm, sys.exit, 1), (emulates,)],
    'dies_by_kvm': [(by_kvm, os.kill, os.getpid(), signal.SIGKILL), (emulates,)],
    'tells_files': [BEGINS, (tells_files,), (ends, 0)],
    'falls_silent': [BEGINS, WAITS],
    # (it is silent but for answers, longer than a machine may be)
    'lives': [BEGINS, *[(awaits, ALIVE), (tell, ALIVE)] * 5, (ends, 0)],
    # (it stays after the command's end)
    'stays': [BEGINS, (ends, 3 << 8), WAITS],
    'hears': [BEGINS, (hears,), (ends, 0)],
    # (it tells that signals have stopped the command, one of which doesn't stop anything)
    'stops': [BEGINS, (tell, STOPPED, signal.SIGSTOP), (awaits, CONTINUE), (tell, STOPPED, signal.SIGTTIN),
              (awaits, CONTINUE), (tell, STOPPED, signal.SIGKILL), (awaits, CONTINUE), (ends, 0, TERMINAL)],
    'stops_once': [BEGINS, (tell, STOPPED, signal.SIGSTOP), (awaits, CONTINUE), (ends, 0)],
    'writes': [BEGINS, (writes,), (ends, 0)]}


if __name__ == '__main__':
    for call, *arguments in MACHINES[os.environ['MACHINE']]:
        call(*arguments)
