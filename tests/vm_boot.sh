# What tests/test_vm.py has the command of `nvme-model --vm` do in its boot: DATA is a file, SHARED a folder. Each line
# of output is awaited, or told what to do next.
data=$1 shared=$2
step() {
    echo "$1"
    read -r line
}

trap : INT
echo "$# $3 $VARIABLE $PWD $(umask) $(id -u)"
stat -L -c %F /dev/stdin /dev/stdout /dev/stderr
stty size < /dev/tty
test -e "/lib/modules/$(uname -r)/modules.dep" && echo "$(cat /proc/sys/kernel/hostname) $(sudo id -u)"
step begun
head -c 104857600 | cmp - "$data" && echo same
cat "$data"

step keys
read -r line < /dev/tty
echo "typed $line"
sh -c 'trap "echo interrupted; exit 5" INT; echo waits; while :; do sleep 0.1; done'
echo "status $?"
read -r line < /dev/tty
echo "continued $line"
until [ "$(stty size < /dev/tty)" = '50 132' ]; do sleep 0.1; done

for name in HUP INT QUIT USR1 USR2; do trap "echo $name" $name; done
trap 'over=yes; echo TERM' TERM
over=
echo signals
until [ "$over" ]; do sleep 0.1; done

test -e /dev/disk/by-id/nvme-Demo_Controller_S0 && echo udev
cat /sys/class/nvme/nvme0/cntlid /sys/class/nvme/nvme1/cntlid
sh examples/mounted.sh
: < /dev/loop-control && grep -c '^loop ' /proc/modules
for folder in proc sys dev run; do mount | grep -c " on /$folder "; done
ls -d /sys/class/net/*

echo changed > /etc/hostname
echo changed > kept
rm lost
echo made > new
chmod 600 lost kept 2> /dev/null
touch "/at the root"
echo shared > "$shared/new"
mv "$shared/old" "$shared/moved"
cat lost 2> /dev/null || echo files

step unread
exec < /dev/null
sleep 10000 &
yes
echo "$?" > "$shared/yes"
exit 7
