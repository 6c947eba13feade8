"""The records that a host and a controller exchange: the names of their fields, and their bytes.

Each kind has a `struct` layout, in which `x` is a reserved byte, and the keys of its values in order. A value of three
or more than eight bytes is written in hexadecimal digits, its lowest byte first, and any other as a number. Sections
"Submission Queue Entry - Command Format", "Completion Queue Entry", "Error Information (Log Identifier 01h)", "SMART /
Health Information (Log Identifier 02h)", "Identify Namespace data structure (CNS 00h)" and "Identify Controller data
structure (CNS 01h)".
"""

import re
import struct

LAYOUTS = {
    'sqe': ('<BBHI8xQQQ6I', 'opcode flags cid nsid mptr prp1 prp2 cdw10 cdw11 cdw12 cdw13 cdw14 cdw15'),
    'cqe': ('<I4xHHHH', 'command_specific sq_head sq_identifier cid status_and_phase'),
    'error_entry': ('<QHHHHQIB3xQ24x', 'count sqid cid status_and_phase location lba nsid vendor specific'),
    'smart': ('<BHBBB26x16s16s16s16s16s16s16s16s16s16sII16s296x',
              'critical_warning temperature avail_spare spare_thresh percent_used data_units_read data_units_written '
              'host_read_commands host_write_commands controller_busy_time power_cycles power_on_hours '
              'unsafe_shutdowns media_errors num_err_log_entries warning_temp_time critical_comp_time sensors'),
    'lbaf': ('<HBB', 'ms lbads rp'),
    'id_ns': ('<QQQ7B17x16s64x64s3904x', 'nsze ncap nuse nsfeat nlbaf flbas mc dpc dps nmic nvmcap lbafs'),
    'id_ctrl': ('<HH20s40s8sB3sBBHI172xH2xBBBB2xHH10x16s16s200xBB2xIH2xBB242x256s3072x',
                'vid ssvid sn mn fr rab ieee cmic mdts cntlid ver oacs frmw lpa elpe npss wctemp cctemp tnvmcap '
                'unvmcap sqes cqes nn oncs fna vwc subnqn'),
}
# The fields of a value that has several: the lowest bit of each, and its number of bits. A status is a number alone.
# Section "Status Field Definition".
PARTS = {
    'flags': {'fuse': (0, 2), 'psdt': (6, 2)},
    'status_and_phase': {'phase': (0, 1), 'status': (1, 15)},
    'status': {'sc': (0, 8), 'sct': (8, 3), 'crd': (11, 2), 'more': (13, 1), 'dnr': (14, 1)},
}
# The key of a list's numbers, how many there may be, and their layout. In a controller list, their count comes first.
# Sections "Namespace List" and "Controller List".
LISTS = {'ns_list': ('nsids', 1024, '<{}I'), 'ctrl_list': ('cntlids', 2047, '<H{}H')}
KINDS = (*LAYOUTS, *LISTS, 'status')


def joined(parts, values):
    """Takes the fields of a value with these parts out of the values, and returns the value."""
    whole = 0
    for key, (lowest, bits) in PARTS[parts].items():
        number = int(values.pop(key, '0'), 0)
        if number >> bits:
            raise ValueError(f'{key} has {bits} bits')
        whole |= number << lowest
    return whole


def list_of(kind, values):
    """Takes the numbers of a list out of the values, and returns the bytes of the list."""
    key, most, layout = LISTS[kind]
    numbers = [int(number, 0) for number in values.pop(key, '').split(',') if number]
    counts = [len(numbers)] * (kind == 'ctrl_list')
    return struct.pack(layout.format(most), *counts, *numbers, *[0] * (most - len(numbers)))


def value_of(key, size, values):
    """Takes a value of this size out of the values, and returns it as `struct` packs it."""
    if key in PARTS:
        return joined(key, values)
    if not size.endswith('s'):
        return int(values.pop(key, '0'), 0)
    digits = bytes.fromhex(values.pop(key, ''))
    if len(digits) > int(size[:-1]):
        raise ValueError(f'{key} has {size[:-1]} bytes')
    return digits


def fields(kind):
    """Yields the key, the layout and the place of each value of a record."""
    layout, keys = LAYOUTS[kind]
    place, names = 0, iter(keys.split())
    for part in re.findall(r'\d*[a-zA-Z]', layout):
        for piece in [part] if part[-1] in 'sx' else part[-1] * int(part[:-1] or 1):
            if 'x' not in piece:
                yield next(names), piece, place
            place += struct.calcsize(f'<{piece}')


def places(kind):
    """Returns the place and the size of each value of a record, by its key."""
    return {key: (place, struct.calcsize(f'<{piece}')) for key, piece, place in fields(kind)}


def encoded(kind, written):
    """Returns the bytes of a record, in hexadecimal digits, or the number of a status. Its fields are given as in
    `opcode=6 cid=1`, and those that aren't are 0."""
    values = dict(field.split('=') for field in written.split())
    if kind == 'status':
        found = f'{joined(kind, values):#x}'
    elif kind in LISTS:
        found = list_of(kind, values).hex()
    else:
        found = struct.pack(LAYOUTS[kind][0], *(value_of(key, piece, values) for key, piece, _ in fields(kind))).hex()
    if values:
        raise ValueError(f'{kind} has no {list(values)}')
    return found


def fields_in(key, value):
    """Returns the fields of a value that aren't 0."""
    if isinstance(value, bytes):
        return [f'{key}={value.hex()}'] * any(value)
    if key in PARTS:
        parts = [(part, value >> lowest & (1 << bits) - 1) for part, (lowest, bits) in PARTS[key].items()]
        return [f'{part}={number:#x}' for part, number in parts if number]
    return [f'{key}={value:#x}'] * (value != 0)


def decoded(kind, written):
    """Returns the fields of a record that aren't 0, by its bytes in hexadecimal digits, or those of a status by its
    number."""
    if kind == 'status':
        return ' '.join(fields_in(kind, int(written, 0)))
    data = bytes.fromhex(written)
    if kind in LISTS:
        key, most, layout = LISTS[kind]
        numbers = struct.unpack(layout.format(most), data)
        given = numbers[1:numbers[0] + 1] if kind == 'ctrl_list' else [number for number in numbers if number]
        return f'{key}={",".join(map(hex, given))}' if given else ''
    layout, keys = LAYOUTS[kind]
    values = zip(keys.split(), struct.unpack(layout, data))
    return ' '.join(field for key, value in values for field in fields_in(key, value))
