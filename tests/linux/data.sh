# What programs write, discard and find on a namespace.
D=/dev/nvme0n1
t() { m=$("$@" 2>&1); s=$?; echo "$* $s $(echo "$m" | head -2 | tr '\n' '|')"; }
t blkdiscard -v $D; t blkdiscard -z $D; t blkdiscard -o 512 -l 1024 $D; t blkdiscard -o 100 $D
t blkdiscard -l 100 $D; t blkdiscard -o 67108864 $D; t blkdiscard -o 0 -l 99999999999 $D
t blkdiscard /dev/nvme0; t blkdiscard /dev/ng0n1; t blkdiscard -p 1M $D
for how in 'oflag=append bs=1M' 'oflag=direct,dsync bs=1M seek=3' 'oflag=direct bs=1000' 'bs=4k seek=16384' \
    'conv=excl bs=1M' 'conv=nocreat bs=4k' 'oflag=direct,sync oflag=seek_bytes seek=4096 bs=1M'; do
    t dd if=/dev/zero of=$D count=1 status=none $how
done
t dd if=$D of=/dev/null bs=1M skip=63 status=none
for n in nvme0 ng0n1; do
    t dd if=/dev/$n of=/dev/null count=1 status=none; t dd if=/dev/zero of=/dev/$n count=1 status=none
done
t dd if=/dev/zero of=/dev/nvme0n9 count=1 conv=nocreat status=none
t truncate -s 1M $D; t fallocate -l 1M $D; t cp --sparse=always /etc/hostname $D; t cmp -n 5 /etc/hostname $D
t sync -d $D; t sync /dev/nvme0; t shred -n 1 -s 64K $D
t mkfs.ext4 -qF -L one $D; t blkid -s LABEL -s TYPE -o export $D; e2fsck -fn $D > /dev/null 2>&1
echo "e2fsck $?"; t mkfs.ext4 -q /dev/nvme0; t resize2fs -f $D 32M; t wipefs -i -O OFFSET,TYPE $D
t wipefs -qa $D; t blkid $D
mkswap -L sw $D | head -1; t findfs LABEL=sw; t findfs LABEL=none; t blkid -L sw; t swaplabel -L two $D
t fsck -N $D; t fsfreeze -f $D; t e2label /dev/nvme0n2
columns=NAME,SIZE,TYPE,TRAN,SERIAL,MODEL,ROTA,RO,RM,HOTPLUG,RA,PHY-SEC,LOG-SEC,MIN-IO,OPT-IO,DISC-GRAN
t lsblk -dbno $columns,WWN,ZONED,DAX,WSAME,ZONE-APP $D
