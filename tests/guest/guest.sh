# Run by tests/test_qemu.py in a guest, with Linux's driver, and under ./nvme-model. Both outputs must be the same: each
# command with its output, its status and, if it was refused, the newest entry of the error log.
t() {
    echo "> $*"
    "$@" 2>&1
    status=$?
    [ "$status" -eq 0 ] || nvme error-log /dev/nvme0 -e 1 -o json 2>&1 | grep -e status_field -e parm_error -e nsid
    echo "status $status"
}

refused() {
    for controller in 0 1; do
        nvme smart-log "/dev/nvme$controller" -o json | sed -n 's/.*"num_err_log_entries":"\(.*\)".*/\1/p'
    done
}

set -- $(refused)
before_0=$1 before_1=$2
t nvme id-ctrl /dev/nvme0
t nvme id-ctrl /dev/nvme1 -o json
t nvme list-ns /dev/nvme0
t nvme list-ns /dev/nvme0 --all
t nvme id-ns /dev/nvme0 -n 1
t nvme id-ns /dev/nvme0 -n 3 -o json
t nvme id-ns /dev/nvme0 -n 2

t nvme create-ns /dev/nvme0 -s 2048 -c 2048 -f 0 -m 1
t nvme list-ns /dev/nvme0 --all
t nvme list-ns /dev/nvme0
t nvme attach-ns /dev/nvme0 -n 2 -c 0,1
t nvme attach-ns /dev/nvme0 -n 2 -c 0
t nvme attach-ns /dev/nvme0 -n 1 -c 9
t nvme list-ns /dev/nvme0
t nvme list-ns /dev/nvme1
t nvme id-ns /dev/nvme1 -n 2
t nvme create-ns /dev/nvme0 -s 14328 -c 14328 -f 0
t nvme create-ns /dev/nvme0 -s 8 -c 16 -f 0
t nvme create-ns /dev/nvme0 -s 8 -c 8 -f 9

t nvme format /dev/nvme0 -n 2 -l 1 --force
t nvme id-ns /dev/nvme0 -n 2
t nvme format /dev/nvme0 -n 2 -l 7 --force
t nvme detach-ns /dev/nvme1 -n 2 -c 1
t nvme detach-ns /dev/nvme1 -n 2 -c 1
t nvme list-ns /dev/nvme1
t nvme delete-ns /dev/nvme0 -n 2
t nvme delete-ns /dev/nvme0 -n 2
t nvme delete-ns /dev/nvme0 -n 9
t nvme list-ns /dev/nvme0 --all

t nvme get-feature /dev/nvme0 -f 6
t nvme set-feature /dev/nvme0 -f 6 -v 0 -s
t nvme set-feature /dev/nvme0 -f 6 -v 1
t nvme get-feature /dev/nvme0 -f 6
t nvme get-feature /dev/nvme0 -f 6 -s 1
t nvme get-feature /dev/nvme0 -f 6 -s 2
t nvme get-feature /dev/nvme0 -f 4
t nvme set-feature /dev/nvme0 -f 4 -v 0x150
t nvme get-feature /dev/nvme0 -f 4
t nvme set-feature /dev/nvme0 -f 0x70 -v 1
t nvme get-feature /dev/nvme0 -f 5 -n 3
t nvme set-feature /dev/nvme0 -f 5 -n 3 -v 7
t nvme get-feature /dev/nvme0 -f 5 -n 3

t sh -c 'nvme smart-log /dev/nvme1 | grep -v num_err_log_entries'
t nvme get-log /dev/nvme0 -i 0x70 -l 512
t nvme admin-passthru /dev/nvme0 -o 0xc1 -n 4
set -- $(refused)
echo "refused: $(($1 - before_0)) and $(($2 - before_1))"

t nvme reset /dev/nvme0
sleep 1
t nvme list-ns /dev/nvme0 --all
t nvme get-feature /dev/nvme0 -f 6
t nvme get-feature /dev/nvme0 -f 5 -n 3
