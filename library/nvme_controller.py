"""The controllers of a model of an NVM Express 1.4 subsystem, by the library nvme_controller.

    with Machine() as machine:                           # the built-in subsystem
        memory = bytearray(16 * 4096)
        machine.write32(0, AQA, 0x00070007)              # eight entries each
        machine.write64(0, ACQ, 0x1000)                  # (ASQ is 0)
        machine.write32(0, CC, 0x00460001)               # pages of 4,096 bytes, EN
        memory[:64] = entry
        machine.write32(0, TAIL_DOORBELL, 1)
        machine.turn(0, memory)                          # its completion lies at 1000h
        for error in machine.error_log(0):
            print(status_text(error.status))

The calls are those of nvme_controller.h. A number that its C type can't hold is a ValueError.

The shared library is the file that the environment variable NVME_CONTROLLER names. Without it, it is the one in the
folder of this file, in ../lib or ../../lib from there, where the system finds it, or where pkg-config does."""

from __future__ import annotations

import ctypes
import functools
import operator
import os
import pathlib
import struct
import subprocess
from typing import List, NamedTuple, NoReturn, Optional, Tuple

CAP, VS, CC, CSTS, AQA, ASQ, ACQ = 0x00, 0x08, 0x14, 0x1c, 0x24, 0x28, 0x30
TAIL_DOORBELL, HEAD_DOORBELL = 0x1000, 0x1004

_NAME = 'libnvme_controller.so.1'


class Fault(Exception):
    """A subsystem file was refused, or there was no memory: `number`, from 1 to 9, and the text."""

    def __init__(self, number: int, text: str) -> None:
        super().__init__(number, text)
        self.number = number

    def __str__(self) -> str:
        return str(self.args[1])


class ErrorEntry(NamedTuple):
    """An entry of an error log."""

    error_count: int
    sqid: int
    cid: int
    status: int  # (without the phase tag)
    location: int
    lba: int
    nsid: int
    vendor: int
    specific: int

    @classmethod
    def of(cls, data: bytes) -> ErrorEntry:
        """Returns the entry with these 64 bytes."""
        count, sqid, cid, word, *others = struct.unpack('<QHHHHQIB3xQ24x', data)
        return cls(count, sqid, cid, word >> 1, *others)


class Answer(ctypes.Structure):
    """What a completion says: `dword0`, the `status`, and for Machine.post the `cid`."""

    _fields_ = ('dword0', ctypes.c_uint32), ('cid', ctypes.c_uint16), ('status', ctypes.c_uint16)

    def __init__(self, status: int = 0, dword0: int = 0, cid: int = 0) -> None:
        super().__init__(_number('dword 0', dword0, 32), _number('command identifier', cid, 16),
                         _number('status', status, 15))


class SubmissionQueue(ctypes.Structure):
    """An I/O submission queue, as its controller has it. A copy is another queue."""

    _fields_ = (('base', ctypes.c_uint64), ('depth', ctypes.c_uint16), ('sqid', ctypes.c_uint16),
                ('fetched', ctypes.c_uint16), ('rung', ctypes.c_uint16))

    def __init__(self, sqid: int, base: int, depth: int) -> None:
        super().__init__()
        sqid, base = _number('queue identifier', sqid, 16), _number('address', base, 64)
        if not _calls().nvme_submission_queue_make(self, sqid, base, _number('depth', depth, 32)):
            raise ValueError('a queue has from 2 to 4096 slots')

    def tail(self, value: int) -> bool:
        """Writes the tail doorbell, and returns whether the queue took the value."""
        return bool(_calls().nvme_submission_queue_tail(self, _number('tail', value, 32)))

    def waiting(self) -> int:
        """Returns how many entries wait to be taken."""
        return _calls().nvme_submission_queue_waiting(self)


class CompletionQueue(ctypes.Structure):
    """An I/O completion queue, as its controller has it. A copy is another queue."""

    _fields_ = (('base', ctypes.c_uint64), ('depth', ctypes.c_uint16), ('posted', ctypes.c_uint16),
                ('told', ctypes.c_uint16), ('reserved', ctypes.c_uint16))

    def __init__(self, base: int, depth: int) -> None:
        super().__init__()
        base, depth = _number('address', base, 64), _number('depth', depth, 32)
        if not _calls().nvme_completion_queue_make(self, base, depth):
            raise ValueError('a queue has from 2 to 4096 slots')

    def head(self, value: int) -> bool:
        """Writes the head doorbell, and returns whether the queue took the value."""
        return bool(_calls().nvme_completion_queue_head(self, _number('head', value, 32)))

    def waiting(self) -> int:
        """Returns how many completions wait to be collected."""
        return _calls().nvme_completion_queue_waiting(self)


class _Blocks(ctypes.Structure):
    _fields_ = (('data', ctypes.c_void_p), ('length', ctypes.c_size_t), ('nsid', ctypes.c_uint32),
                ('block_size', ctypes.c_uint32), ('greatest_transfer', ctypes.c_uint64), ('is_full', ctypes.c_int))


class Blocks(NamedTuple):
    """The blocks of a namespace, in a bytearray or another writable buffer that isn't the host's memory."""

    data: bytearray
    nsid: int
    block_size: int
    greatest_transfer: int = 1 << 20
    is_full: bool = False


class _Range(ctypes.Structure):
    _fields_ = ('offset', ctypes.c_uint64), ('length', ctypes.c_uint64)


def _load() -> ctypes.CDLL:
    """Loads the library."""
    folder = pathlib.Path(__file__).resolve().parent
    places = [place / _NAME for place in (folder, folder.parent / 'lib', folder.parent.parent / 'lib')]
    found = os.environ.get('NVME_CONTROLLER') or next((str(place) for place in places if place.exists()), None)
    try:
        return ctypes.CDLL(found or _NAME)
    except OSError as error:
        if found:
            raise
        command = 'pkg-config', '--variable=libdir', 'nvme_controller'
        try:
            ended = subprocess.run(command, stdout=subprocess.PIPE, stderr=subprocess.DEVNULL, check=True)
        except (OSError, subprocess.CalledProcessError):
            raise OSError(f'{error}; the variable NVME_CONTROLLER can name the file') from None
    return ctypes.CDLL(str(pathlib.Path(os.fsdecode(ended.stdout.rstrip(b'\n'))) / _NAME))


@functools.lru_cache(maxsize=None)
def _calls() -> ctypes.CDLL:
    """Returns the library with its calls declared. It is loaded at the first call."""
    library = _load()
    machine, u16, u32, u64, size = (ctypes.c_void_p, ctypes.c_uint16, ctypes.c_uint32, ctypes.c_uint64, ctypes.c_size_t)
    lent, queues = (ctypes.c_void_p, size, u32), (ctypes.POINTER(SubmissionQueue), ctypes.POINTER(CompletionQueue))
    for names, result, *arguments in [
            ('controller_version', ctypes.c_char_p),
            ('status_text', size, u16, ctypes.c_char_p, size),
            ('machine_open', ctypes.c_int, ctypes.c_char_p, size, ctypes.POINTER(machine), ctypes.c_char_p, size),
            ('machine_demo', ctypes.c_int, ctypes.POINTER(machine)),
            ('machine_close', None, machine),
            ('machine_controllers', u16, machine),
            ('machine_read32', u32, machine, u16, u32),
            ('machine_write32', None, machine, u16, u32, u32),
            ('machine_read64', u64, machine, u16, u32),
            ('machine_write64', None, machine, u16, u32, u64),
            ('machine_turn', u16, machine, u16, *lent, u16),
            ('machine_counts', None, machine, u16, *[ctypes.POINTER(u64)] * 2),
            ('machine_log_entry', ctypes.c_int, machine, u16, size, ctypes.c_char_p),
            ('machine_identify', ctypes.c_int, machine, u16, ctypes.c_char_p),
            ('machine_namespace', ctypes.c_int, machine, u16, u32, ctypes.c_int, ctypes.c_char_p),
            ('machine_next machine_fetch', ctypes.c_int, machine, u16, *lent, ctypes.c_char_p),
            ('machine_complete machine_post', ctypes.c_int, machine, u16, *lent, Answer),
            ('entry_write', u16, ctypes.c_char_p, *lent, ctypes.c_char_p, size),
            ('submission_queue_make', ctypes.c_int, *queues[:1], u16, u64, u32),
            ('completion_queue_make', ctypes.c_int, *queues[1:], u64, u32),
            ('submission_queue_tail', ctypes.c_int, *queues[:1], u32),
            ('completion_queue_head', ctypes.c_int, *queues[1:], u32),
            ('submission_queue_waiting', u16, *queues[:1]),
            ('completion_queue_waiting', u16, *queues[1:]),
            ('queue_next', ctypes.c_int, *queues, *lent, ctypes.c_char_p),
            ('queue_complete', ctypes.c_int, *queues, *lent, Answer),
            ('queue_turn', ctypes.c_int, *queues, *lent, ctypes.POINTER(_Blocks)),
            ('blocks_zeroing', ctypes.c_int, ctypes.POINTER(_Blocks), ctypes.c_char_p, *lent, ctypes.POINTER(_Range))]:
        for name in names.split():
            call = getattr(library, f'nvme_{name}')
            call.restype, call.argtypes = result, arguments
    return library


def _number(what: str, value: int, bits: int) -> int:
    """Returns a number that this many bits hold. (ctypes would drop the others.)"""
    number = operator.index(value)
    if number >> bits:
        raise ValueError(f'{what} {number} is not a number from 0 to {(1 << bits) - 1:#x}')
    return number


def version() -> str:
    """Returns the version of the library."""
    return _calls().nvme_controller_version().decode()


def status_text(status: int) -> str:
    """Returns the name of a status, as nvme-script's messages have it, or `Success`, or `Unknown`."""
    text = ctypes.create_string_buffer(64)
    _calls().nvme_status_text(_number('status', status, 16), text, len(text))
    return text.value.decode()


def _buffer(buffer: bytearray) -> ctypes.Array[ctypes.c_uint8]:
    view = memoryview(buffer).cast('B')
    return (ctypes.c_uint8 * len(view)).from_buffer(view)


def _lent(memory: bytearray, page_size: int) -> Tuple[ctypes.Array[ctypes.c_uint8], int, int]:
    """Returns memory that is lent to a call, how many pages it has, and their size."""
    page_size, data = _number('page size', page_size, 32), _buffer(memory)
    pages, rest = divmod(len(data), page_size) if page_size else (0, len(data))
    if rest:
        raise ValueError('the memory has no whole number of pages')
    return data, pages, page_size


def _entry(data: bytes) -> bytes:
    entry = bytes(memoryview(data))
    if len(entry) != 64:
        raise ValueError('an entry has 64 bytes')
    return entry


def entry_write(entry: bytes, memory: bytearray, data: bytes, page_size: int = 4096) -> int:
    """Writes bytes to where the data pointer of an entry says, and returns 0, or the status with which to complete
    the entry."""
    lent, data = _lent(memory, page_size), bytes(memoryview(data))
    return _calls().nvme_entry_write(_entry(entry), *lent, data, len(data))


def queue_next(submissions: SubmissionQueue, completions: CompletionQueue, memory: bytearray,
               page_size: int = 4096) -> Optional[bytes]:
    """Returns the entry that a turn of these queues would take next, or None. Queues that the memory doesn't hold
    are a ValueError."""
    lent, entry = _lent(memory, page_size), ctypes.create_string_buffer(64)
    return entry.raw if _taken(_calls().nvme_queue_next(submissions, completions, *lent, entry)) else None


def queue_complete(submissions: SubmissionQueue, completions: CompletionQueue, memory: bytearray, answer: Answer,
                   page_size: int = 4096) -> bool:
    """Takes that entry and posts its completion. Returns whether there was one."""
    return _taken(_calls().nvme_queue_complete(submissions, completions, *_lent(memory, page_size), answer))


def _taken(result: int) -> bool:
    if result < 0:
        raise ValueError('the memory does not hold the queues')
    return bool(result)


def queue_turn(submissions: SubmissionQueue, completions: CompletionQueue, memory: bytearray,
               blocks: Optional[Blocks] = None, page_size: int = 4096) -> Optional[int]:
    """Takes that entry, performs its command on the blocks, and posts its completion. Returns its status, or None if
    no entry was taken."""
    lent = _lent(memory, page_size)
    status = _calls().nvme_queue_turn(submissions, completions, *lent, blocks and _given(blocks))
    return None if status < 0 else status


def _given(blocks: Blocks) -> _Blocks:
    data = _buffer(blocks.data)
    given = _Blocks(ctypes.addressof(data), len(data), _number('NSID', blocks.nsid, 32),
                    _number('block size', blocks.block_size, 32),
                    _number('greatest transfer', blocks.greatest_transfer, 64), blocks.is_full)
    given.kept = data  # (as long as the address is used)
    return given


def blocks_zeroing(blocks: Blocks, entry: bytes, memory: bytearray,
                   page_size: int = 4096) -> Optional[List[Tuple[int, int]]]:
    """Returns the offsets and lengths of the bytes that a turn with this entry would zero, or None if it would refuse
    the entry."""
    lent, ranges = _lent(memory, page_size), (_Range * 256)()
    count = _calls().nvme_blocks_zeroing(_given(blocks), _entry(entry), *lent, ranges)
    return None if count < 0 else [(each.offset, each.length) for each in ranges[:count]]


class Machine:
    """The controllers of one subsystem, which is that of a file's bytes or the built-in subsystem. Only one thread
    may use it at a time. It can't be copied."""

    def __init__(self, file: Optional[bytes] = None) -> None:
        self._machine = ctypes.c_void_p()
        self._library = _calls()
        text = ctypes.create_string_buffer(b'out of memory', 128)
        if file is None:
            number = self._library.nvme_machine_demo(self._machine)
        else:
            data = bytes(memoryview(file))
            number = self._library.nvme_machine_open(data, len(data), self._machine, text, len(text))
        if number:
            raise Fault(number, text.value.decode())

    def close(self) -> None:
        """Closes the machine. Afterwards, only `close` may be called."""
        machine, self._machine = self._machine, ctypes.c_void_p()
        self._library.nvme_machine_close(machine)

    def __enter__(self) -> Machine:
        return self

    def __exit__(self, *_: object) -> None:
        self.close()

    def __del__(self) -> None:
        if hasattr(self, '_library'):
            self.close()

    def __reduce_ex__(self, protocol: object) -> NoReturn:
        """Refuses a copy, which would close the same machine once more, and a pickle."""
        raise TypeError('a machine cannot be copied')

    def _open(self) -> ctypes.c_void_p:
        if not self._machine:
            raise ValueError('the machine is closed')
        return self._machine

    def controllers(self) -> int:
        """Returns the number of controllers, which are numbered from 0."""
        return self._library.nvme_machine_controllers(self._open())

    def _call(self, name: str, ctrl: int, *arguments: object) -> int:
        call = getattr(self._library, f'nvme_machine_{name}')
        return call(self._open(), _number('controller', ctrl, 16), *arguments)

    def read32(self, ctrl: int, offset: int) -> int:
        """Returns the dword of a controller's registers at an offset."""
        return self._call('read32', ctrl, _number('offset', offset, 32))

    def write32(self, ctrl: int, offset: int, value: int) -> None:
        """Writes the dword of a controller's registers at an offset."""
        self._call('write32', ctrl, _number('offset', offset, 32), _number('value', value, 32))

    def read64(self, ctrl: int, offset: int) -> int:
        """Returns the dword at an offset as bits 31:0, and the one after it as bits 63:32."""
        return self._call('read64', ctrl, _number('offset', offset, 32))

    def write64(self, ctrl: int, offset: int, value: int) -> None:
        """Writes bits 31:0 to the dword at an offset, and then bits 63:32 to the one after it."""
        self._call('write64', ctrl, _number('offset', offset, 32), _number('value', value, 64))

    def turn(self, ctrl: int, memory: bytearray, page_size: int = 4096, most: int = 0xffff) -> int:
        """Lets a controller take entries, over a bytearray or another writable buffer of whole pages, and returns how
        many it took."""
        return self._call('turn', ctrl, *_lent(memory, page_size), _number('most', most, 16))

    def _asked(self, name: str, ctrl: int, size: int, *arguments: object) -> Optional[bytes]:
        data = ctypes.create_string_buffer(size)
        return data.raw if self._call(name, ctrl, *arguments, data) else None

    def next(self, ctrl: int, memory: bytearray, page_size: int = 4096) -> Optional[bytes]:
        """Returns the entry that a turn of the controller would take next, or None."""
        return self._asked('next', ctrl, 64, *_lent(memory, page_size))

    def fetch(self, ctrl: int, memory: bytearray, page_size: int = 4096) -> Optional[bytes]:
        """Takes that entry without a completion, which is owed to it, and returns it."""
        return self._asked('fetch', ctrl, 64, *_lent(memory, page_size))

    def complete(self, ctrl: int, memory: bytearray, answer: Answer, page_size: int = 4096) -> bool:
        """Takes that entry in place of the controller, and posts its completion. Returns whether there was one."""
        return bool(self._call('complete', ctrl, *_lent(memory, page_size), answer))

    def post(self, ctrl: int, memory: bytearray, answer: Answer, page_size: int = 4096) -> bool:
        """Posts the completion of an entry that was taken without one. Returns whether it had a free slot."""
        return bool(self._call('post', ctrl, *_lent(memory, page_size), answer))

    def identify(self, ctrl: int) -> Optional[bytes]:
        """Returns what Identify returns for a controller, or None if there is no such controller."""
        return self._asked('identify', ctrl, 4096)

    def namespace(self, ctrl: int, nsid: int, is_active: bool = False) -> Optional[bytes]:
        """Returns what Identify returns for a namespace, or for one that is attached to the controller."""
        return self._asked('namespace', ctrl, 4096, _number('NSID', nsid, 32), is_active)

    def counts(self, ctrl: int) -> Tuple[int, int]:
        """Returns how many commands a controller refused, and how many it took."""
        refusals, commands = ctypes.c_uint64(), ctypes.c_uint64()
        self._call('counts', ctrl, refusals, commands)
        return refusals.value, commands.value

    def log_entry(self, ctrl: int, index: int) -> Optional[bytes]:
        """Returns the 64 bytes of an entry of a controller's error log, counted from the newest, or None."""
        return self._asked('log_entry', ctrl, 64, _number('index', index, 64))

    def error_log(self, ctrl: int) -> List[ErrorEntry]:
        """Returns the entries of a controller's error log, the newest first."""
        entries: List[ErrorEntry] = []
        while (data := self.log_entry(ctrl, len(entries))) is not None:
            entries.append(ErrorEntry.of(data))
        return entries
