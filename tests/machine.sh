# Makes a machine's /dev and /tmp in a mount namespace, and waits until its input ends, so that a loop device is always
# released. sh machine.sh NEW KEEP KIND DISK: NEW is the folder where they are made, KEEP is a folder that stays in
# /tmp, and DISK is a file of known bytes. If KIND is `devices`, DISK becomes the block device /dev/nvme0n1, and if it
# is `files`, a file of that name, next to bound character devices. `none` makes no NVMe nodes.
set -eu
new=$1 keep=$2 kind=$3 disk=$4
place=${disk%/*}
mount -t tmpfs machine "$new"
cd "$new"
mkdir dev tmp
mount -t tmpfs -o mode=755 machine dev
mount -t tmpfs -o mode=1777 machine tmp
case $keep in /tmp/*) mkdir -p ".$keep" && mount --bind "$keep" ".$keep" ;; esac
for node in null zero full random urandom tty; do : > "dev/$node" && mount --bind "/dev/$node" "dev/$node"; done
mkdir -p dev/pts dev/shm dev/disk/by-id dev/folder/inner dev/block
mount --rbind /dev/pts dev/pts
mount -t tmpfs machine dev/shm
ln -s /proc/self/fd dev/fd
if [ "$kind" = devices ]; then
    loop=$(losetup --find --show "$disk")
    exec 6<> "$loop"
    losetup -d "$loop"
    number=$(stat -c '%t %T' "$loop" | { read -r major minor && echo "$((0x$major)) $((0x$minor))"; })
    for node in dev/nvme0n1 dev/other dev/folder/inner/node dev/shm/node "$disk.node"; do
        mknod -m 666 "$node" b $number
    done
    for node in dev/nvme0 dev/ng0n1; do mknod -m 666 "$node" c 1 7; done
    chmod 666 dev/nvme* dev/ng* dev/other dev/folder/inner/node dev/shm/node "$disk.node"
    if command -v fuse2fs > /dev/null && command -v mke2fs > /dev/null && [ -c /dev/fuse ]; then
        mkdir inside && mknod -m 666 inside/node b $number
        mke2fs -q -t ext2 -d inside "$place/fuse.image" 1M
        case $keep in /tmp/*) fuse=.$place/fuse ;; *) fuse=$place/fuse ;; esac
        fuse2fs -o allow_other,dev "$place/fuse.image" "$fuse"
    fi
    umount -R -l /dev
elif [ "$kind" = files ]; then
    cat "$disk" > dev/nvme0n1
    for node in dev/nvme0 dev/ng0n1 dev/other dev/folder/inner/node; do
        : > "$node" && mount --bind /dev/full "$node"
    done
    chmod 666 dev/nvme0n1
fi
[ "$kind" = none ] || ln -s ../../nvme0n1 dev/disk/by-id/nvme-machine
[ "$kind" = none ] || ln -s ../nvme0n1 dev/block/7:0
if [ "$kind" = none ] && ls -d /sys/class/nvme/* > /dev/null 2>&1; then
    for folder in /sys/class/nvme* /sys/class/block; do mount -t tmpfs machine "$folder"; done
fi
mount -n --move dev /dev
mount -n --move tmp /tmp
mount --rbind /sys "$place/sysfs"
mount --rbind /proc "$place/proc"
if [ "$kind" = devices ]; then
    mount --bind /dev "$place/alias"
    for file in /dev/shm/bound "$place/bound"; do : > "$file" && mount --bind /dev/nvme0n1 "$file"; done
    mkdir /dev/shm/alias && mount --bind /dev /dev/shm/alias
fi
echo ready
read -r end
