#!/bin/busybox sh
# What a guest with Linux runs first (tests/test_qemu.py): it loads the modules, binds the driver, and runs a script.
busybox mount -t proc proc /proc
busybox mount -t sysfs sys /sys
busybox mount -t devtmpfs dev /dev
export PATH=/bin
busybox --install -s /bin
echo 0 > /sys/bus/pci/drivers_autoprobe
for module in $(cat /modules/order); do insmod "/modules/$module" 2>&1; done
stty -F /dev/ttyS1 raw
if grep -q plugged /proc/cmdline; then sh /plugged.sh > /dev/ttyS1; fi
if grep -q kept /proc/cmdline; then sh /data.sh > /dev/ttyS1 2> /dev/null; fi
for address in $(grep -l 0x010802 /sys/bus/pci/devices/*/class); do
    basename "${address%/class}" > /sys/bus/pci/drivers/nvme/bind
done
for second in $(seq 600); do
    [ "$(cat /sys/class/nvme/nvme*/state 2> /dev/null | grep -c live)" -ne 2 ] || break
    sleep 1
done
{
    sh /guest.sh 2>&1
    echo 'END OF SCRIPT'
    for controller in 0 1; do
        nvme error-log "/dev/nvme$controller" -e 64 -o json
        nvme smart-log "/dev/nvme$controller" -o json
    done
    echo 'END OF LOGS'
} > /dev/ttyS1
echo b > /proc/sysrq-trigger
sleep 60
