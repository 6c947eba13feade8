# What provisioning scripts ask nvme-cli and udev for, and which messages and statuses they get.
t() { m=$("$@" 2>&1); s=$?; echo "$* $s $(echo "$m" | tail -1)"; }
t nvme id-ctrl /dev/nvme9; t nvme id-ctrl /etc/passwd; t nvme get-ns-id /dev/nvme0n2
t nvme get-ns-id /dev/nvme0; t nvme format /dev/nvme0n1 --block-size=4096 --force
cat /sys/block/nvme0n1/queue/logical_block_size /sys/block/nvme0n1/queue/physical_block_size /sys/block/nvme0n1/size
blockdev --getss --getsz /dev/nvme0n1; t nvme format /dev/nvme0n1 -l 0 --force; t nvme reset /dev/nvme0n1
t nvme subsystem-reset /dev/nvme0; t nvme ns-rescan /dev/nvme0
t nvme write /dev/nvme0n1 -s 131072 -c 0 -z 512 -d /dev/zero
t nvme write /dev/nvme0n1 -s 131071 -c 0 -z 512 -d /dev/zero; t nvme write-zeroes /dev/nvme0n1 -s 0 -c 7
t nvme dsm /dev/nvme0n1 -d -b 8 -s 0; t nvme verify /dev/nvme0n1 -s 0 -c 0; t nvme flush /dev/nvme0n1
t nvme resv-report /dev/nvme0n1; t nvme compare /dev/nvme0n1 -s 0 -c 0 -z 512 -d /dev/zero
nvme list -o json | python3 -c 'import json, sys
keys = "DevicePath", "ModelNumber", "PhysicalSize", "SectorSize"
print(sorted(tuple(device[key] for key in keys) for device in json.load(sys.stdin)["Devices"]))'
for n in nvme0 ng0n1; do udevadm info -q property -n /dev/$n | grep -E '^(DEVNAME|SUBSYSTEM|NVME_TRTYPE)='; done
udevadm info -q name -p /sys/block/nvme0n1; udevadm info -q property -n /dev/nvme9; echo $?
t udevadm wait -t 1 /dev/nvme0n9; t udevadm wait -t 1 --removed /dev/nvme0n9
t udevadm lock -d /dev/nvme0n1 true
queue='rotational|logical_block_size|max_sectors_kb|write_cache|zoned|dax|discard_granularity|max_segments'
udevadm info -a -n /dev/nvme0n1 | grep -E "ATTR.(size|ro|removable|queue/($queue)|wwid|nsid|power/control)"
sg_inq /dev/nvme0 | head -4; sg_readcap /dev/nvme0n1 | head -3; t sg_turs /dev/nvme0n1; smartctl --scan
smartctl -H /dev/nvme0 | grep result; t smartctl -q errorsonly -A /dev/nvme9
cd /sys/module
cat nvme/version nvme_core/version nvme_core/initstate
cat nvme/parameters/{io_queue_depth,sgl_threshold,use_threaded_interrupts}
readlink nvme/drivers/* /sys/bus/pci/drivers/nvme/module /sys/class/nvme/nvme0/device/driver
