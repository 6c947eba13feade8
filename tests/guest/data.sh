# What a guest does with a drive: it fills its disk, restarts, resets the functions, and reads it.
for address in $(grep -l 0x010802 /sys/bus/pci/devices/*/class); do
    basename "${address%/class}" > /sys/bus/pci/drivers/nvme/bind
done
disk() {
    for name in $(cd /dev && echo nvme*n*); do grep -q '^2048$' "/sys/block/$name/size" && echo "/dev/$name"; done
}
for second in $(seq 600); do [ -z "$(disk)" ] || break; sleep 1; done
disk=$(disk)
if [ "$(dd if="$disk" bs=4 count=1)" = full ]; then
    for reset in /sys/class/nvme/nvme*/device/reset; do echo 1 > "$reset" && echo RESET; done
    until [ "$(cat /sys/class/nvme/nvme*/state | grep -c live)" -eq 2 ]; do sleep 1; done
    taskset 2 dd if="$disk" of=/dev/null bs=4k count=16 iflag=direct
    awk '/nvme.q[12]/ { times += $3 } END { if (times) print "INTERRUPTED PROCESSOR 1" }' /proc/interrupts
    echo "READ $(md5sum < "$disk")"
    dmesg | grep -E 'nvme.*(timeout|[Tt]imed|dead|Abort)|I/O error'
    echo o > /proc/sysrq-trigger
    sleep 60
fi
dd if=/dev/urandom of="$disk" bs=64k count=16 conv=fsync
printf full | dd of="$disk" conv=notrunc,fsync
echo "WRITTEN $(md5sum < "$disk")"
echo b > /proc/sysrq-trigger
sleep 60
