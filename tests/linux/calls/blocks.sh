# What calls on nodes return.
python3 - << 'END'
import errno, fcntl, mmap, os, struct

BLOCK, END = '/dev/nvme0n1', 1 << 26
MODES = {'r': os.O_RDONLY, 'rw': os.O_RDWR, 'w': os.O_WRONLY}


def says(name, call):
    try:
        result = call()
    except OSError as error:
        result = errno.errorcode[error.errno]
    print(name, result)


def asked(file, request, argument):
    data = bytearray(argument)
    fcntl.ioctl(file, request, data)
    return data.hex()


def closed(path, flags):
    os.close(os.open(path, flags))
    return 'opened'


NUMBERS = {'RO': (0x125e, 4), 'SIZE': (0x1260, 8), 'RA': (0x1263, 8), 'FRA': (0x1265, 8), 'SECT': (0x1267, 2),
           'SSZ': (0x1268, 4), 'BSZ': (0x80081270, 8), 'SIZE64': (0x80081272, 8), 'IOMIN': (0x1278, 4),
           'IOOPT': (0x1279, 4), 'ALIGNOFF': (0x127a, 4), 'PBSZ': (0x127b, 4), 'DISCARDZEROES': (0x127c, 4),
           'ROTATIONAL': (0x127e, 2), 'ZONESZ': (0x80041284, 4), 'NRZONES': (0x80041285, 4), 'GEO': (0x301, 16)}
UNKNOWN = {'REPORTZONE': 0xc0101282, 'SG_IO': 0x2285, 'CDROM': 0x5331, 'FIONREAD': 0x541b, 'IDENTITY': 0x30d,
           'OPAL': 0x401870dd}
for mode in 'r', 'rw':
    print('== ioctls of a block device,', mode)
    file = os.open(BLOCK, MODES[mode])
    for name, (request, size) in NUMBERS.items():
        says(name, lambda: asked(file, request, bytes(size)))
    for name, request in UNKNOWN.items():
        says(name, lambda: asked(file, request, bytes(64)))
    for name, request, argument in ('FLSBUF', 0x1261, 0), ('ROSET', 0x125d, 8):
        says(f'{name} {argument}', lambda: fcntl.ioctl(file, request, argument))
        says('RA', lambda: asked(file, 0x1263, bytes(8)))
    for size in 8192, 513, 0, 256, 512, 1024, 4096:
        says(f'BSZSET {size}', lambda: asked(file, 0x40081271, struct.pack('q', size)))
    for name, request in ('DISCARD', 0x1277), ('SECDISCARD', 0x127d), ('ZEROOUT', 0x127f):
        for first, size in ((0, 512), (0, 0), (256, 512), (0, 100), (END, 512), (END - 512, 1024),
                            ((1 << 64) - 512, 1024)):
            says(f'{name} {first} {size}', lambda: asked(file, request, struct.pack('QQ', first, size)))
    os.close(file)
file = os.open(BLOCK, os.O_RDONLY)
says('BSZ anew', lambda: asked(file, 0x80081270, bytes(8)))
os.close(file)

print('== nodes without data')
for path in '/dev/nvme0', '/dev/ng0n1':
    for mode in 'r', 'rw':
        print(path, mode)
        file = os.open(path, MODES[mode])
        for name, call in {'read': lambda: os.read(file, 10), 'pread': lambda: os.pread(file, 10, 0),
                           'readv': lambda: os.readv(file, [bytearray(4)]), 'read 0': lambda: os.read(file, 0),
                           'write': lambda: os.write(file, b'x'), 'write 0': lambda: os.write(file, b''),
                           'pwrite': lambda: os.pwrite(file, b'x', 0),
                           'truncate': lambda: os.ftruncate(file, 0)}.items():
            says(name, call)
        for name, request, size in (('SUBMIT_IO', 0x40304e42, 48), ('IO_CMD', 0xc0484e43, 72),
                                    ('IO64_CMD', 0xc0504e48, 80), ('ID', 0x4e40, 0), ('SUBSYS_RESET', 0x4e45, 0),
                                    ('RESCAN', 0x4e46, 0), ('SIZE64', 0x80081272, 8)):
            says(name, lambda: asked(file, request, bytes(size)) if size else fcntl.ioctl(file, request))
        os.close(file)
    says('exclusive', lambda: (os.open(path, os.O_RDWR | os.O_EXCL), os.open(path, os.O_RDWR | os.O_EXCL)) and 'twice')

print('== direct writes')
file, memory = os.open(BLOCK, os.O_RDWR | os.O_DIRECT), memoryview(mmap.mmap(-1, 8192))
for at, offset, size in ((0, 0, 512), (1, 0, 512), (2, 0, 512), (4, 0, 512), (512, 0, 512), (0, 256, 512), (0, 0, 100),
                         (0, 0, 1024), (0, END, 512), (0, END, 100), (0, 512, 0), (0, 100, 0)):
    says(f'from {at} at {offset} {size}', lambda: os.pwritev(file, [memory[at:at + size]], offset))
says('two', lambda: os.pwritev(file, [memory[:256], memory[256:512]], 0))
says('to the end', lambda: os.pwritev(file, [memory[:1024]], END - 512))
fcntl.fcntl(file, fcntl.F_SETFL, 0)
says('not direct', lambda: os.pwrite(file, b'x', 5))
os.close(file)

print('== claims')
for first in MODES:
    file = os.open(BLOCK, MODES[first] | os.O_EXCL)
    for second in MODES:
        says(f'{first} {second}', lambda: closed(BLOCK, MODES[second] | os.O_EXCL))
        says('plain', lambda: closed(BLOCK, MODES[second]))
    says('another device', lambda: closed('/dev/nvme0n2', MODES[first] | os.O_EXCL))
    other = os.open(BLOCK, os.O_RDWR)
    says('DISCARD', lambda: asked(other, 0x1277, struct.pack('QQ', 0, 512)))
    os.close(other)
    copy = os.dup(file)
    os.close(file)
    says('a copy', lambda: closed(BLOCK, os.O_RDONLY | os.O_EXCL))
    if os.fork() == 0:
        os._exit(0)
    os.wait()
    says('after a child', lambda: closed(BLOCK, os.O_RDONLY | os.O_EXCL))
    os.close(copy)
    says('free', lambda: closed(BLOCK, os.O_RDONLY | os.O_EXCL))
says('to be created', lambda: closed(BLOCK, os.O_RDWR | os.O_EXCL | os.O_CREAT))

print('== read-only')
file = os.open(BLOCK, os.O_RDWR)
says('ROSET', lambda: asked(file, 0x125d, struct.pack('i', 5)))
says('RO', lambda: asked(file, 0x125e, bytes(4)))
print(open('/sys/block/nvme0n1/ro').read().strip(), open('/sys/block/nvme0n2/ro').read().strip())
for name, call in {'write': lambda: os.write(file, b'x'), 'write 0': lambda: os.write(file, b''),
                   'at the end': lambda: os.pwrite(file, b'x', END),
                   'DISCARD': lambda: asked(file, 0x1277, struct.pack('QQ', 0, 512)), 'read': lambda: os.read(file, 4),
                   'ZEROOUT': lambda: asked(file, 0x127f, struct.pack('QQ', 0, 512)),
                   'SECDISCARD': lambda: asked(file, 0x127d, bytes(16)), 'sync': lambda: os.fsync(file),
                   'open': lambda: closed(BLOCK, os.O_WRONLY | os.O_TRUNC),
                   'mode': lambda: oct(os.stat(BLOCK).st_mode & 0o7000)}.items():
    says(name, call)
END
mkfs.ext4 -q -F /dev/nvme0n1; echo "mkfs $?"; wipefs -a /dev/nvme0n1
nvme write /dev/nvme0n1 -s 0 -c 0 -z 512 -d /dev/zero
nvme reset /dev/nvme0; nvme ns-rescan /dev/nvme0; sleep 1; blockdev --getro /dev/nvme0n1
nvme format /dev/nvme0n1 -l 0 -f; blockdev --getro /dev/nvme0n1
nvme detach-ns /dev/nvme0 -n 1 -c 0; sleep 1; nvme attach-ns /dev/nvme0 -n 1 -c 0; sleep 1
blockdev --getro /dev/nvme0n1
blockdev --getra --getbsz /dev/nvme0n2
nvme format /dev/nvme0n2 -l 4 -f; blockdev --getra --getbsz --getss /dev/nvme0n2
