# What a guest does with a controller that is plugged in at first, then unplugged, and plugged in again.
wait_until() { for second in $(seq 600); do "$@" 2> /dev/null && return; sleep 1; done; echo TOO LATE; }
is_live() { grep -q live /sys/class/nvme/nvme*/state; }
is_gone() { [ ! -e /dev/nvme0 ] && [ ! -e /dev/nvme1 ]; }
echo 1 > /sys/bus/pci/drivers_autoprobe
echo 1 > /sys/bus/pci/rescan
for address in $(grep -l 0x010802 /sys/bus/pci/devices/*/class); do
    basename "${address%/class}" > /sys/bus/pci/drivers/nvme/bind
done
wait_until is_live
nvme create-ns /dev/nvme0 -s 8 -c 8 -f 0
grep -c nvme /proc/interrupts
echo PLUGGED
wait_until is_gone
echo UNPLUGGED
wait_until is_live
nvme list-ns /dev/nvme0 --all
nvme reset /dev/nvme0 && wait_until is_live
dmesg | grep -E 'nvme.*(timeout|[Tt]imed|dead|Abort)'
echo END
echo b > /proc/sysrq-trigger
sleep 60
