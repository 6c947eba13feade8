# Where calls on block devices read, write, seek and allocate.
D=/dev/nvme0n1
t() { m=$("$@" 2>&1); s=$?; echo "${m##*: } $s"; }
t dd if=$D bs=1M skip=65 of=/dev/null status=none; t dd if=$D bs=1M skip=64 of=/dev/null status=none
t dd if=/dev/zero of=$D bs=1M seek=70 count=1 status=none
t dd if=/dev/zero of=$D bs=1M seek=64 count=1 status=none; echo begin > $D; echo BEG >> $D
head -c 6 $D | od -An -c; blockdev --getsize64 $D
for how in '-p -o 0 -l 4096' '-z -o 4096 -l 4096' '-z -n -o 4096 -l 4096' '-l 4096' '-n -l 4096' \
    '-p -o 100 -l 512' '-z -o 512 -l 100' '-p -o 67108864 -l 512' '-z -o 67108352 -l 1024' \
    '-z -n -o 67108352 -l 1024' '-c -o 0 -l 4096'; do t fallocate $how $D; done
python3 - << 'END'
import errno, os

END = 1 << 26
file, reader = os.open('/dev/nvme0n1', os.O_RDWR), os.open('/dev/nvme0n1', os.O_RDONLY)


def says(name, call):
    try:
        result = call()
    except OSError as error:
        result = errno.errorcode[error.errno]
    print(name, result)


for name, by, start in (('to the end', END, os.SEEK_SET), ('past it', END + 1, os.SEEK_SET),
                        ('from the end', 0, os.SEEK_END), ('past it', 1, os.SEEK_END), ('back', -512, os.SEEK_CUR),
                        ('on', 512, os.SEEK_CUR), ('past it', 1, os.SEEK_CUR), ('before 0', -END - 1, os.SEEK_END),
                        ('data', 0, os.SEEK_DATA), ('hole', 0, os.SEEK_HOLE), ('begin', 0, os.SEEK_SET)):
    says(name, lambda: os.lseek(file, by, start))
    says('is at', lambda: os.lseek(file, 0, os.SEEK_CUR))
for name, at, pieces in (('pieces', 0, [b'ab', b'', b'c']), ('pieces to the end', END - 3, [b'ab', b'c']),
                         ('pieces after it', END, [b'ab', b'c']), ('nothing', END, [b'', b''])):
    says(name, lambda: os.pwritev(file, pieces, at))
says('writev', lambda: os.writev(file, [b'de', b'f']))
says('reads', lambda: os.pread(file, 6, 0))
for name, call in {'allocate': lambda: os.posix_fallocate(file, 0, 4096), 'sync': lambda: os.fsync(file),
                   'data': lambda: os.fdatasync(reader),
                   'controller': lambda: os.fsync(os.open('/dev/nvme0', os.O_RDWR)),
                   'append': lambda: os.write(os.open('/dev/nvme0n1', os.O_WRONLY | os.O_APPEND), b'gh'),
                   'reads': lambda: os.pread(reader, 6, 0)}.items():
    says(name, call)
os.pwrite(file, b'x' * 4096, 0)
END
