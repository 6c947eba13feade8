#!/bin/sh
# A partition with a file system, which /etc/fstab mounts, on a namespace whose data is lost: /dev/nvme0n1 if none is
# named. It needs a kernel: ./nvme-model --vm --subsystem FILE sh examples/mounted.sh
set -e
disk=${1:-/dev/nvme0n1}
folder=/srv/volume

echo 'A partition'
echo 'type=linux' | sfdisk --quiet --label gpt "$disk"
udevadm settle
lsblk --noheadings --output TYPE "$disk"

echo 'A file system, by its label in /etc/fstab'
mkfs.ext4 -q -L volume "${disk}p1"
udevadm settle
echo "LABEL=volume $folder ext4 noatime 0 2" >> /etc/fstab
mkdir -p $folder
mount $folder
findmnt --noheadings --raw --output FSTYPE,LABEL $folder

echo 'A file in it, which is there when it is mounted again'
echo 'a line' > $folder/file
umount $folder
test ! -e $folder/file
mount --all
cat $folder/file

echo 'Nothing is left of it'
umount $folder
sed -i "\|^LABEL=volume |d" /etc/fstab
rmdir $folder
sfdisk --quiet --delete "$disk"
udevadm settle
test ! -e "${disk}p1"
