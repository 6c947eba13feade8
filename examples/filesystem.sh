#!/bin/sh
# A file system on a new namespace, from its creation to its end. Over the model: ./nvme-model sh examples/filesystem.sh
set -e
controller=/dev/nvme0

echo 'A namespace of 8 MiB'
created=$(nvme create-ns $controller --nsze 16384 --ncap 16384 --flbas 0)
nsid=${created##*nsid:}
nsid=${nsid# } # (later versions of nvme-cli print a blank before it)
nvme attach-ns $controller --namespace-id "$nsid" --controllers 0
# (its node is numbered in the order of coming; /sys has its identifier)
node=$(cd /sys/block && grep -lx "$nsid" nvme0n*/nsid)
disk=/dev/${node%/nsid}
blockdev --getsize64 "$disk"

echo 'A file system with a label'
mkfs.ext4 -q -L scratch -E nodiscard "$disk"
blkid --output value --match-tag LABEL "$disk"
blkid --output value --match-tag TYPE "$disk"

echo 'A file in it, without mounting it'
printf 'a line\n' > "${TMPDIR:-/tmp}/line.$$"
debugfs -w -R "write ${TMPDIR:-/tmp}/line.$$ line" "$disk" > /dev/null 2>&1
rm "${TMPDIR:-/tmp}/line.$$"
debugfs -R 'cat line' "$disk" 2> /dev/null
e2fsck -f -n "$disk" > /dev/null 2>&1 && echo 'It is clean'

echo 'A format takes it all away'
nvme format "$disk" --lbaf 0 --force
blkid "$disk" || echo 'Nothing is found'
cmp --bytes 8388608 "$disk" /dev/zero && echo 'All bytes are zeros'
nvme detach-ns $controller --namespace-id "$nsid" --controllers 0
nvme delete-ns $controller --namespace-id "$nsid"
