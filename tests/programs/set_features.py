"""Sends Set Features by ioctl for each line of its input: controller, feature, NSID, value and whether it is saved."""

import sys

from told import ADMIN, sent

for line in sys.stdin:
    controller, fid, nsid, value, save = map(int, line.split())
    sent(f'/dev/nvme{controller}', ADMIN, 9, nsid, fid | save << 31, value)
