# Writes a file system to a namespace by NVMe commands, and reads it back as data: ./nvme-model sh examples/io.sh
set -e
disk=/dev/nvme0n1
image=$(mktemp)
trap 'rm -f "$image" "$image.part"' EXIT
truncate -s 1M "$image"
mkfs.ext4 -q -F -O ^has_journal -L rehearsal "$image"
# (the controller takes up to 128 KiB at once: MDTS is 5)
for part in 0 1 2 3 4 5 6 7; do
    dd if="$image" of="$image.part" bs=128k skip=$part count=1 2> /dev/null
    nvme write $disk --start-block $((part * 256)) --block-count 255 --data-size 131072 --data "$image.part" 2>&1
done | uniq
dd if=$disk bs=64k 2> /dev/null | cmp - "$image" && echo 'the same data'
blkid --output value --match-tag LABEL $disk
nvme read $disk --start-block 2048 --block-count 0 --data-size 512 2>&1 || echo "status $?"
nvme dsm $disk --ad --slbs 0 --blocks 2048
cmp -n 1048576 $disk /dev/zero && echo 'zeros again'
