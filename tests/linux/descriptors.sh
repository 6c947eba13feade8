# What calls on open nodes do, and which programs see a node as a device.
D=/dev/nvme0n1
t() { m=$("$@" 2>&1); s=$?; echo "$1 $s $(echo "${m##*: }" | head -1)"; }
for n in $D /dev/nvme0 /dev/ng0n1; do stat -c '%n %F %h %s %b %B %o' $n; done
find /dev -maxdepth 1 -type b -name 'nvme*' | sort; find /dev -maxdepth 1 -type c -name 'n[vg]*' | sort
t test -f $D; t test -s $D; t test -b $D; t wc -c $D; t du -b $D
t ln -s nvme0n1 /dev/mine; t blockdev --getss /dev/mine; t rm /dev/mine; t mkdir /dev/folder
t ln -s ../nvme0n1 /dev/folder/x; t blockdev --getss /dev/folder/x; t rm -r /dev/folder
t cp /dev/null /dev/nvme0; t chmod 640 $D; t stat -c %a $D; t chmod 660 $D
python3 - << 'END'
import errno, fcntl, mmap, os, select, stat, termios

D = '/dev/nvme0n1'


def t(name, call):
    try:
        result = call()
    except OSError as error:
        result = errno.errorcode[error.errno]
    print(name, result)


def flag(request):
    fcntl.ioctl(f, request, b'\1\0\0\0')
    return os.get_blocking(f), os.get_inheritable(f)


t('truncate', lambda: os.truncate(D, 100)); t('exclusive', lambda: os.open(D, os.O_CREAT | os.O_EXCL))
t('folder', lambda: os.open(D, os.O_DIRECTORY)); t('path', lambda: os.read(os.open(D, os.O_PATH), 1))
t('create', lambda: os.close(os.open(D, os.O_CREAT | os.O_RDWR, 0o600))); t('run', lambda: os.execv(D, ['x']))
t('enter', lambda: os.chdir(D)); t('list', lambda: os.listdir(D))
t('may', lambda: [os.access(D, m) for m in (os.R_OK, os.W_OK, os.X_OK)])
f = os.open(D, os.O_RDWR); r = os.open(D, os.O_RDONLY); w = os.open(D, os.O_WRONLY)
c = os.open('/dev/nvme0', os.O_RDWR); g = os.open('/dev/ng0n1', os.O_RDONLY)
t('read of w', lambda: os.read(w, 1)); t('write of r', lambda: os.write(r, b'x'))
t('read c', lambda: os.read(c, 1)); t('write c', lambda: os.write(c, b'x'))
t('write g', lambda: os.write(g, b'x')); t('pread c', lambda: os.pread(c, 1, 0))
t('seek c', lambda: os.lseek(c, 5, 0)); t('seek end of c', lambda: os.lseek(c, 0, 2))
t('tell g', lambda: os.lseek(g, 0, 1)); t('read before', lambda: os.pread(f, 1, -1))
t('seek before', lambda: os.lseek(f, -1, 0)); t('seek far', lambda: os.lseek(f, 1 << 40, 1))
t('map', lambda: mmap.mmap(f, 4096)[0]); t('map to the end', lambda: len(mmap.mmap(f, 1 << 26)))
t('lock', lambda: fcntl.lockf(f, fcntl.LOCK_EX | fcntl.LOCK_NB))
t('unlock', lambda: fcntl.lockf(f, fcntl.LOCK_UN))
t('fstat', lambda: (stat.S_ISBLK(os.fstat(f).st_mode),
    os.fstat(f).st_size, os.fstat(f).st_blocks, os.fstat(f).st_rdev == os.stat(D).st_rdev))
t('ftruncate', lambda: os.ftruncate(f, 0)); t('ftruncate c', lambda: os.ftruncate(c, 0))
t('fsync g', lambda: os.fsync(g)); t('advise', lambda: os.posix_fadvise(f, 0, 0, os.POSIX_FADV_DONTNEED))
t('terminal', lambda: os.isatty(c))
t('copy to', lambda: os.copy_file_range(os.open('/etc/passwd', os.O_RDONLY), f, 1))
t('send', lambda: os.sendfile(os.open('/dev/null', 1), f, 0, 4096))
t('splice', lambda: os.splice(f, os.pipe()[1], 4096))
for request in 0x5421, 0x5450, 0x5451, 0x12ff, 0x5331, 0x5382, 0x030d:
    t(hex(request), lambda: flag(request))
t('of a block device', lambda: fcntl.ioctl(c, 0x1260)); t('unknown', lambda: fcntl.ioctl(c, 0x4e99))
p = select.poll(); p.register(f); p.register(c); t('poll', lambda: [e for _, e in p.poll(0)])
e = select.epoll(); t('epoll', lambda: e.register(f)); t('epoll c', lambda: e.register(c))
t('name', lambda: os.readlink('/proc/self/fd/%d' % f))
t('again', lambda: os.read(os.open('/proc/self/fd/%d' % f, os.O_RDONLY), 2))
t('pieces', lambda: os.preadv(f, [bytearray(2)], 0))
t('sync', lambda: os.pwritev(f, [b'a'], 0, os.RWF_DSYNC))
END
sleep 99 < $D & while kill -0 $! && [ "$(readlink /proc/$!/fd/0)" != $D ]; do sleep 0.1; done
fuser $D 2> /dev/null | wc -w; readlink /proc/$!/fd/0; kill $!
