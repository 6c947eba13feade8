"""Sends commands by ioctl, and prints their statuses: the letter a, or i for an I/O command, the opcode, the NSID and
dword 10 in each word."""

import ctypes
import sys

from told import ADMIN, IO, sent

room = (ctypes.c_char * 4096)()
for word in sys.argv[1:]:
    opcode, nsid, dword_10 = (int(number, 0) for number in word[1:].split(','))
    node, request = ('/dev/ng0n1', IO) if word[0] == 'i' else ('/dev/nvme0', ADMIN)
    data = (ctypes.addressof(room), 4096) if opcode & 3 else (0, 0)
    print(f'{sent(node, request, opcode, nsid, dword_10, data=data):#x}', flush=True)
