#!/bin/sh
# Run by process 1 of the machine of `nvme-model --vm`, in its root folder, before the command: what the options ask
# for, and udev. The last line on the console says why it fails. $settings has a line each for the folder of modules, a
# network, and shared folders.
exec > /dev/null
stop() {
    echo "nvme-model: the machine: $1" >&2
    exit 1
}

network() {
    command -v ip || stop '--net needs the command ip (package iproute2)'
    modprobe virtio_net
    until ip link show dev eth0; do sleep 0.1; done
    ip link set lo up && ip link set eth0 up && ip address add 10.0.2.15/24 dev eth0 &&
        ip route add default via 10.0.2.2 && rm -f /etc/resolv.conf && echo nameserver 10.0.2.3 > /etc/resolv.conf ||
        stop 'no network'
}

mkdir -p /run/rules /run/lock /run/lvm /run/mount
while read -r what path; do
    case $what in
        modules) modules=$path ;;
        network) network ;;
        *) mount -t 9p -o trans=virtio,version=9p2000.L,msize=507904,access=any,cache=mmap "$what" "$path" ||
            stop "--share $path" ;;
    esac
done << END
$settings
END
read -r release < /proc/sys/kernel/osrelease
own=/lib/modules/$release
[ "$modules" -ef "$own" ] || { mkdir -p "$own" && mount --bind "$modules" "$own" || stop "no modules in $modules"; }

# (files that sudo and others need, and the user outside may not read)
{ read -r _ < /etc/shadow; } || {
    sed 's/:.*/:*:19000:0:99999:7:::/' /etc/passwd > /run/shadow
    echo 'ALL ALL=(ALL:ALL) NOPASSWD: ALL' > /run/sudoers
    chmod 440 /run/shadow /run/sudoers
    mv -f /run/shadow /run/sudoers /etc
} 2> /dev/null

# (drives one after another, because otherwise the kernel would number them as it happens to find them)
count=0
for class in /sys/bus/pci/devices/*/class; do
    device=${class%/class} state=
    device=${device##*/}
    grep -q 0x010802 "$class" && echo "$device" > /sys/bus/pci/drivers/nvme/bind || continue
    for tenth in $(seq 300); do
        { read -r state < "/sys/class/nvme/nvme$count/state"; } 2> /dev/null
        [ "$state" != live ] || break
        sleep 0.1
    done
    count=$((count + 1))
done 2> /dev/null
echo 1 > /sys/bus/pci/drivers_autoprobe

# (the rules of other devices, and their thousands of names, would take most of the time of a start)
for daemon in /usr/lib/systemd/systemd-udevd /lib/systemd/systemd-udevd; do
    [ -x "$daemon" ] || continue
    rules=${daemon%/systemd/*}/udev/rules.d
    for name in 50-udev-default 55-dm 56-lvm 60-block 60-persistent-storage 60-persistent-storage-dm 63-md-raid-arrays \
        64-btrfs 64-md-raid-assembly 69-lvm 80-drivers 95-dm-notify 99-systemd; do
        [ ! -e "$rules/$name.rules" ] || kept="${kept-} $rules/$name.rules"
    done
    cp ${kept-} /run/rules
    mount --bind /run/rules "$rules"
    "$daemon" --daemon 2> /dev/null
    udevadm trigger --action=add --subsystem-match=block --subsystem-match=nvme --subsystem-match=nvme-generic
    udevadm settle --timeout=60
    break
done
exit 0
