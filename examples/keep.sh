# Keeps what a script leaves, as a subsystem file for the next script: ./nvme-model sh examples/keep.sh > after.toml
set -e
{
    nvme create-ns /dev/nvme0 --nsze 1024 --ncap 1024 --flbas 1
    nvme attach-ns /dev/nvme0 --namespace-id 2 --controllers 1
    nvme set-feature /dev/nvme0 --feature-id 6 --value 0
} > /dev/null

# (in a clone, nvme-describe is in the current folder)
PATH=$PATH:. nvme-describe /dev/nvme*
