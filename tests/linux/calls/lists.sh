# What drives with namespace management say of controllers, namespaces and firmware.
nvme list-ctrl /dev/nvme0; nvme list-ctrl /dev/nvme0 -c 1; nvme list-ctrl /dev/nvme0 -n 2
nvme list-ctrl /dev/nvme0 -n 9; nvme list-ctrl /dev/nvme0 -n 0xffffffff
nvme ns-descs /dev/nvme0 -n 1; nvme ns-descs /dev/nvme0n2; nvme ns-descs /dev/nvme0 -n 9
nvme ns-descs /dev/nvme0 -n 0xffffffff
nvme fw-log /dev/nvme0 | head -2; nvme get-log /dev/nvme0 -i 3 -l 16 -o 0x1f0 -b | od -An -tx1
nvme get-log /dev/nvme0 -i 3 -l 8 -o 0x206
nvme changed-ns-list-log /dev/nvme0
nvme detach-ns /dev/nvme0 -n 2 -c 0; sleep 1; nvme changed-ns-list-log /dev/nvme0
nvme list-ctrl /dev/nvme0 -n 2; nvme ns-descs /dev/nvme0 -n 2
nvme attach-ns /dev/nvme0 -n 2 -c 0; sleep 1; nvme changed-ns-list-log /dev/nvme0; nvme list-ctrl /dev/nvme0 -n 2
nvme get-log /dev/nvme0 -i 4 -l 4096 -b | od -An -tx1
echo '== its only namespace'
nvme flush /dev/nvme0 -n 1; echo "$?"; nvme detach-ns /dev/nvme0 -n 1 -c 0; nvme detach-ns /dev/nvme0 -n 3 -c 0; sleep 1
printf %512s text > /tmp/data; nvme write /dev/nvme0 -n 2 -s 0 -c 0 -z 512 -d /tmp/data
nvme io-passthru /dev/nvme0 -n 2 -o 1 -l 512 -w -i /tmp/data; tail -c +509 /dev/nvme0n2 | head -c 4; echo
rm -f /tmp/data
nvme flush /dev/nvme0 -n 2; echo "$?"; nvme flush /dev/nvme0 -n 1; echo "$?"; nvme flush /dev/nvme0; echo "$?"
nvme detach-ns /dev/nvme0 -n 2 -c 0; sleep 1; nvme flush /dev/nvme0 -n 2; echo "$?"
