# Splits a drive into two namespaces of 960 GB with blocks of 4,096 bytes. The drive of split.toml refuses the first
# `attach-ns`, because its controller has the identifier 65.
set -ex
nvme delete-ns /dev/nvme0 --namespace-id 1
nvme create-ns /dev/nvme0 --nsze 234421760 --ncap 234421760 --flbas 1
nvme attach-ns /dev/nvme0 --namespace-id 1 --controllers 0
nvme create-ns /dev/nvme0 --nsze 234421760 --ncap 234421760 --flbas 1
nvme attach-ns /dev/nvme0 --namespace-id 2 --controllers 0
