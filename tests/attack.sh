# Read by a shell inside ./nvme-model, on a machine that has nodes of its own: looks for these nodes under each spelling
# of their paths, and does to the files that it finds what must not reach the nodes. It prints a line for each node that
# it reached, and how often it read the model's data. $place is a folder with the file `number`, the device number of
# /dev/nvme0n1. $caller is a process outside, and descriptors 7 and 8 of it are / and /dev, and $powerless one without
# rights.
PATH=$PATH:/usr/sbin:/sbin

paths() {
    for beginning in '' / /. /proc/.. /proc/self/root "/proc/$$/root" "/proc/$caller/root" "/proc/$powerless/root" \
        /proc/1/root "$place/proc/1/root" "$place/proc/$caller/root" "$place/proc/$powerless/root" /proc/self/fd/7; do
        echo "$beginning/dev/nvme0n1"
    done
    echo /dev/../dev/nvme0n1 ./nvme0n1 ../dev/./nvme0n1 /proc/self/cwd/nvme0n1 "/proc/$caller/cwd/nvme0n1" \
        /proc/self/fd/8/nvme0n1 "/proc/$caller/fd/8/nvme0n1" /dev/nvme0 /dev/ng0n1 /dev/other /dev/block/7:0 \
        /dev/disk/by-id/nvme-machine /dev/folder/inner/node "$place/link" "$place/chain" /dev/shm/node /dev/shm/bound \
        /dev/shm/alias/nvme0n1 "$place/disk.node" "$place/bound" "$place/alias/nvme0n1" \
        "$place/alias/folder/inner/node" "$place/gone/nvme0n1" "$place/fuse/node"
}

# Reads a path with a command. (Data that is neither zeros nor the namespace's is the machine's.)
reads() {
    path=$1
    shift
    text=$("$@" head -c 7 "$path" 2> /dev/null | tr '\0' 0)
    case $path,$text in
        *,MODELLE) read_models=$((read_models + 1)) ;;
        *,|*,CLO|*,CLOBBER|*nvme0n1,0000000|*link,0000000|*chain,0000000) ;;
        *) echo "reached $path: $text" ;;
    esac
}

# each COMMAND..: runs the command for each path
each() {
    for path in $(paths); do
        "$@" "$path"
    done < "$place/seven" > /dev/null 2>&1
}

copies() {
    cp -a "$1" "$place/copy" && mknod "$place/copied" b $(cat "$place/number")
    for copy in copy copied; do
        reads "$place/$copy" >> "$place/reached"
        rm -f "$place/$copy"
    done
}

attack() {
    read_models=0
    : > "$place/reached"
    for path in $(paths); do
        reads "$path"
        reads "$path" busybox
    done
    for path in $(paths); do
        dd "if=$place/seven" "of=$path" conv=notrunc
        busybox dd "if=$place/seven" "of=$path" conv=notrunc
        cat "$place/seven" >> "$path"
    done > /dev/null 2>&1
    each copies
    for command in 'nvme format -n 1 -l 0 --force' 'nvme id-ctrl' 'mkfs.ext4 -qF' 'blkdiscard -f' 'truncate -s 3' \
        'chmod 640' "busybox chmod 604" 'chown 12:12' 'touch -d 2001-01-01' "mount --bind $place/seven" \
        "ln -f $place/seven" "busybox rm -f" "mv -f $place/plain" 'rm -f'; do
        each $command
    done
    cat "$place/reached"
    echo "$read_models times the model's"
}
