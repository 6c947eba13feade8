# Runs a command in another root, on a machine of tests/test_machine.py: sh other_root.sh KIND COMMAND.. It is `mounted`,
# or a tmpfs with the machine's mounts and a `plain` folder of nodes. (Other views of its /dev would be devtmpfs on a
# true machine, but are tmpfs here.)
kind=$1 root=${place:?}/root
shift
if [ "$kind" = mounted ]; then
    mount --rbind / "$root"
else
    for m in alias bound; do mount -o remount,bind,ro "$place/$m"; done
    mount -t tmpfs x "$root" && cd /
    for d in *; do
        case $d in dev) continue ;; esac
        if [ -d "$d" ] && [ ! -L "$d" ]; then
            mkdir "$root/$d" && mount --rbind "$d" "$root/$d"
        else
            cp -a "$d" "$root/$d"
        fi
    done
    mkdir "$root/dev"
    cp -a /dev/null /dev/zero /dev/full /dev/random /dev/urandom /dev/tty /dev/nvme0 /dev/nvme0n1 "$root/dev"
fi
chroot "$root" "$@"
