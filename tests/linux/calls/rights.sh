# Who may do what, if the modes of all nodes let everybody open them.
chmod 666 /dev/nvme0 /dev/nvme0n* /dev/ng0n*
for command in 'id-ctrl /dev/nvme0' 'id-ns /dev/nvme0n1' 'list-ns /dev/nvme0' 'get-feature /dev/nvme0 -f 6' \
    'smart-log /dev/nvme0' 'set-feature /dev/nvme0 -f 6 -v 0' 'format /dev/nvme0n3 -l 4 -f' \
    'list-ctrl /dev/nvme0' 'detach-ns /dev/nvme0 -n 1 -c 0' 'flush /dev/nvme0n1' \
    'write-zeroes /dev/ng0n1 -s 0 -c 0' 'flush /dev/nvme0 -n 1' 'read /dev/nvme0n1 -s 0 -c 0 -z 512' \
    'write /dev/nvme0n1 -s 0 -c 0 -z 512 -d /dev/zero' 'get-ns-id /dev/nvme0n1' 'reset /dev/nvme0' \
    'ns-rescan /dev/nvme0' 'subsystem-reset /dev/nvme0'; do
    for user in 0 65534; do
        [ "$user" = 65534 ] || case $command in format* | detach* | subsystem-reset* | read*) continue ;; esac
        setpriv --reuid=$user --regid=$user --clear-groups nvme $command > /tmp/said 2>&1
        echo "$user $command: $? $(grep -o -e 'Permission denied' -e 'Invalid argument' /tmp/said)"
    done
done
user='setpriv --reuid=65534 --regid=65534 --clear-groups'
for command in --getss --getbsz --getra '--setra 64' '--setfra 64' --flushbufs --rereadpt --setro --setrw \
    '--setbsz 1024'; do
    $user blockdev $command /dev/nvme0n1 > /tmp/said 2>&1
    echo "$command $? $(cat /tmp/said)"
done
$user blkdiscard /dev/nvme0n1; echo "discard $?"
$user dd if=/dev/zero of=/dev/nvme0n1 count=1 status=none; echo "write $?"
blockdev --getro --getra /dev/nvme0n1; nvme get-feature /dev/nvme0 -f 6; nvme list-ns /dev/nvme0; rm -f /tmp/said
