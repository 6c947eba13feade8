#!/bin/sh
# What NVMe devices there are, as scripts look for them: by patterns, by files of /sys, by smartctl, lsblk and JSON. It
# changes nothing. Over the model: ./nvme-model sh examples/inventory.sh
set -e

echo 'Controllers, and how many namespaces each has'
for controller in /dev/nvme?; do
    name=${controller#/dev/}
    read -r serial < "/sys/class/nvme/$name/serial"
    echo "$name, serial number $serial: $(find /dev -maxdepth 1 -name "${name}n*" -type b | wc -l)"
done

echo 'What smartctl finds, and how it is'
smartctl --scan | sed -n 's/^\(.*\) -d nvme .*/\1/p' | sort | while read -r controller; do
    echo "$controller: $(smartctl --health "$controller" | sed -n 's/.*self-assessment test result: //p')"
done

echo 'Namespaces: bytes, and bytes of a block'
lsblk --bytes --nodeps --raw --noheadings --output NAME,SIZE,LOG-SEC /dev/nvme?n*

echo 'The same, from JSON'
nvme list --output-format json | python3 -c '
import json, sys
for one in sorted(json.load(sys.stdin)["Devices"], key=lambda one: one["DevicePath"]):
    print(one["DevicePath"], one["PhysicalSize"], one["SectorSize"], one["SerialNumber"])'
