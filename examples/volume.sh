# Makes a volume, and leaves nothing behind if that fails. A refused command tries this:
#     ./nvme-model --refuse attach-ns=0x4006 sh examples/volume.sh
controller=/dev/nvme0
nsid=$(nvme create-ns $controller --nsze 4096 --ncap 4096 --flbas 0 | sed -n 's/.*nsid: *//p')
[ -n "$nsid" ] || exit 1

undo() {
    echo "$1 failed, so namespace $nsid is deleted again"
    nvme detach-ns $controller --namespace-id "$nsid" --controllers 0 > /dev/null 2>&1
    nvme delete-ns $controller --namespace-id "$nsid" > /dev/null || echo "namespace $nsid is left"
    exit 1
}

nvme attach-ns $controller --namespace-id "$nsid" --controllers 0 > /dev/null || undo attach-ns
nvme format $controller --namespace-id "$nsid" --lbaf 1 --force > /dev/null || undo format
nvme list-ns $controller --all
