#!/bin/sh
# A volume's way from its creation to its end, by nvme-cli. It runs unchanged over the model, by
# `./nvme-model sh examples/provision.sh`, and on a machine with an empty place for namespace 2.
set -e
controller=/dev/nvme0
other=/dev/nvme1

echo 'What is there'
nvme id-ctrl $controller | grep -e '^mn ' -e '^tnvmcap ' -e '^nn '
nvme list-ns $controller
nvme list-ns $controller --all
nvme get-feature $controller --feature-id 6

echo 'A volume of 4,096 blocks, for both controllers'
nvme create-ns $controller --nsze 4096 --ncap 4096 --flbas 0 --nmic 1
nvme attach-ns $controller --namespace-id 2 --controllers 0,1
nvme ns-rescan $controller
# (a namespace's nodes are numbered in the order of coming; /sys has its identifier)
node=$(cd /sys/block && grep -lx 2 nvme0n*/nsid)
volume=/dev/${node%/nsid}
test -b "$volume"
test -b "${other}${volume#$controller}"
nvme list-ns $other
nvme id-ns $other --namespace-id 2 | grep -e '^nsze ' -e '^nmic ' -e '^flbas '

echo 'Blocks of 4,096 bytes'
nvme format "$volume" --lbaf 1 --force
nvme id-ns "$volume" | grep -e '^nsze ' -e '^flbas ' -e '^nvmcap '

echo 'More than there is room for'
nvme create-ns $controller --nsze 14328 --ncap 14328 --flbas 0 2>&1 || echo "status $?"
nvme error-log $controller --log-entries 1 | grep -e '^error_count' -e '^status_field'
nvme smart-log $controller | grep -e '^critical_warning' -e '^temperature '

echo 'The write cache, for good'
nvme set-feature $controller --feature-id 6 --value 0 --save
nvme set-feature $controller --feature-id 6 --value 1
nvme reset $controller
nvme get-feature $controller --feature-id 6
nvme get-feature $controller --feature-id 6 --sel 2

echo 'The end of the volume'
nvme detach-ns $controller --namespace-id 2 --controllers 0
test ! -e "$volume"
nvme detach-ns $other --namespace-id 2 --controllers 1
nvme delete-ns $controller --namespace-id 2
nvme list-ns $controller --all
nvme delete-ns $controller --namespace-id 2 2>&1 || echo "status $?"
