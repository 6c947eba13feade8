# A namespace is detached while it is open, and attached again.
t() { m=$("$@" 2>&1); s=$?; echo "$* $s $(echo "$m" | tail -1 | cut -d '(' -f 1)"; }
see() {
    for i in 1 2 3 4 5 6 7 8 9; do [ -e /dev/ng0n2 ] && n=3 || n=2; [ $n = $1 ] && break; sleep 0.5; done
    find /dev/ -name 'n*0n*' | sort; lsblk -dno NAME | grep nvme | sort; awk '/nvme/{print $4}' /proc/partitions | sort
    ls /sys/class/block | grep '^nvme0n'; nvme list-ns /dev/nvme0; nvme list-ns /dev/nvme0 -a
    nvme list | awk 'NR > 2{print $1}' | sort; ls /dev/disk/by-id | grep -c _2
}
t nvme detach-ns /dev/nvme0 -n 2 -c 5; t nvme detach-ns /dev/nvme0 -n 9 -c 0
t nvme attach-ns /dev/nvme0 -n 1 -c 0; echo data > /dev/nvme0n2; sync /dev/nvme0n2; exec 8<> /dev/nvme0n2
t nvme detach-ns /dev/nvme0 -n 2 -c 0; see 2
python3 - << 'END'
import errno, os
for name, call in {'read': lambda: os.pread(8, 4, 0), 'write': lambda: os.pwrite(8, b'x' * 512, 0),
    'sync': lambda: os.fsync(8), 'seek': lambda: os.lseek(8, 0, 2),
    'name': lambda: os.readlink('/proc/self/fd/8')}.items():
    try:
        print(name, call())
    except OSError as error:
        print(name, errno.errorcode[error.errno])
END
exec 8>&-; t nvme id-ns /dev/nvme0 -n 2; t nvme detach-ns /dev/nvme0 -n 2 -c 0
t nvme format /dev/nvme0 -n 2 -l 0 --force; t nvme attach-ns /dev/nvme0 -n 2 -c 0; see 3
head -c 4 /dev/nvme0n2; echo
for i in 1 2 3; do nvme detach-ns /dev/nvme0 -n 3 -c 0; nvme attach-ns /dev/nvme0 -n 3 -c 0; done; see 3
t blkid -p /dev/nvme0n3
