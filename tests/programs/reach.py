"""Stands for QEMU: tells of each socket in its options where the capabilities of the function there begin."""

import re
import sys

from tests.as_client import Client

for path in re.findall('"path":"([^"]+)"', ' '.join(sys.argv)):
    function = Client(path)
    function.greet()
    print(hex(function.config(0x34, 1)))
    function.close()
