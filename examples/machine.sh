# Boots the newest kernel of a Debian machine, with nvme-cli, over the model's controllers (docs/QEMU.md). What it packs
# stays in your home folder.
set -e
guest=$HOME/nvme-guest
release=$(ls /lib/modules | tail -n 1)
mkdir -p "$guest/bin" "$guest/proc" "$guest/sys" "$guest/dev" "$guest/modules"
cp /bin/busybox /usr/sbin/nvme "$guest/bin"
for library in $(ldd /usr/sbin/nvme | grep -o '/[^ ]*'); do
    mkdir -p "$guest${library%/*}" && cp "$library" "$guest$library"
done
for module in crct10dif_generic crc64_rocksoft_generic nvme; do
    # (a kernel may have no such module, or have it built in)
    /sbin/modprobe -S "$release" --show-depends $module 2> /dev/null || :
done | awk '$1 == "insmod" && !seen[$2]++ { print $2 }' | while read -r module; do
    name=$(basename "$module" .xz)
    case $module in *.xz) xz -dc "$module" > "$guest/modules/$name" ;; *) cp "$module" "$guest/modules" ;; esac
    echo "insmod /modules/$name"
done > "$guest/modules/order"
cat > "$guest/init" <<'END'
#!/bin/busybox sh
busybox mount -t proc proc /proc
busybox --install -s /bin
mount -t sysfs sys /sys; mount -t devtmpfs dev /dev
sh /modules/order
exec sh
END
chmod +x "$guest/init"
(cd "$guest" && find . | cpio -o -H newc) > "$guest.cpio"

# (in a clone, nvme-model is in the current folder)
PATH=$PATH:. nvme-model --qemu --memory 512M -- -nographic -no-reboot -kernel "/boot/vmlinuz-$release" \
    -initrd "$guest.cpio" -append console=ttyS0
