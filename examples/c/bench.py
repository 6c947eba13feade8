#!/usr/bin/env python3
"""The commands of bench.c from Python: `bench.py [SUBSYSTEM-FILE]`, with nvme_controller.py on PYTHONPATH."""

import struct
import sys

from nvme_controller import ACQ, AQA, CC, HEAD_DOORBELL, TAIL_DOORBELL, ErrorEntry, Machine, status_text

PAGE, DEPTH, DATA = 4096, 8, 0x2000
ERROR_FIELDS = 'error_count', 'sqid', 'cmdid', 'status_field', 'parm_err_loc', 'lba', 'nsid', 'vs', 'cs'


class Host:
    """A host's driver for controller 0, polled, which sends one command at a time."""

    def __init__(self, machine):
        self.machine, self.memory, self.sent = machine, bytearray(16 * PAGE), 0
        for offset, value in (AQA, (DEPTH - 1) << 16 | (DEPTH - 1)), (ACQ, 0x1000), (CC, 0x00460001):
            machine.write32(0, offset, value)

    def send(self, opcode, nsid=0, cdw10=0, data=b''):
        """Sends a command with a page of data, and returns dword 0 and the status of its completion."""
        slot = self.sent % DEPTH
        self.memory[DATA:DATA + PAGE] = data.ljust(PAGE, b'\0')
        entry = struct.pack('<IIQQQQI20x', opcode | self.sent << 16, nsid, 0, 0, DATA, 0, cdw10)
        self.memory[64 * slot:64 * slot + 64] = entry
        self.machine.write32(0, TAIL_DOORBELL, (slot + 1) % DEPTH)
        if self.machine.turn(0, self.memory, most=1) != 1:
            sys.exit('bench: no entry was taken')
        dword0, cid, word = struct.unpack_from('<I8xHH', self.memory, 0x1000 + 16 * slot)
        if (cid, word & 1) != (self.sent, 1 - self.sent // DEPTH % 2):
            sys.exit("bench: not this command's completion")
        self.machine.write32(0, HEAD_DOORBELL, (slot + 1) % DEPTH)
        self.sent += 1
        return dword0, word >> 1

    def create_namespace(self, blocks):
        return self.send(0x0d, data=struct.pack('<QQ', blocks, blocks))

    def attach_namespace(self, nsid, ctrl):
        return self.send(0x15, nsid, data=struct.pack('<HH', 1, ctrl))


def list_namespaces(host):
    host.send(0x06, cdw10=0x02)
    for index, nsid in enumerate(struct.unpack_from('<1024I', host.memory, DATA)):
        if nsid:
            print(f'[{index:4}]:{nsid:#x}')


def show(text, answer):
    """Prints that a command succeeded, with dword 0 in the text, or its status."""
    dword0, status = answer
    if status:
        print(f'NVMe status: {status_text(status)} ({status:#x})', file=sys.stderr)
    else:
        print(text.format(dword0))


def show_error(host):
    host.send(0x06, cdw10=0x01)
    host.send(0x02, 0xffffffff, 0x01 | (64 // 4 - 1) << 16)
    print(f'{"entry":20}: 0')
    for name, value in zip(ERROR_FIELDS, ErrorEntry.of(host.memory[DATA:DATA + 64])):
        print(f'{name:20}: {value}' if name in ('error_count', 'sqid') else f'{name:20}: {value:#x}')


def main(path=None):
    with Machine(path and open(path, 'rb').read()) as machine:
        host = Host(machine)
        list_namespaces(host)
        show('create-ns: Success, created nsid:{}', host.create_namespace(4096))
        show('attach-ns: Success, nsid:2', host.attach_namespace(2, 0))
        list_namespaces(host)
        show('create-ns: Success, created nsid:{}', host.create_namespace(14328))
        show_error(host)


if __name__ == '__main__':
    main(*sys.argv[1:])
