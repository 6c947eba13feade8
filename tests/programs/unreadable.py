"""Becomes a command for which process_vm_readv fails with EPERM, as it does in a container of docker 20.10."""

import ctypes
import os
import struct
import sys

PR_SET_SECCOMP, PR_SET_NO_NEW_PRIVS, FILTER = 22, 38, 2
LOAD, JUMP_IF_EQUAL, RETURN = 0x20, 0x15, 0x06
ALLOW, REFUSE, PROCESS_VM_READV = 0x7fff0000, 0x00050001, 310

steps = [(LOAD, 0, 0, 0), (JUMP_IF_EQUAL, 0, 1, PROCESS_VM_READV), (RETURN, 0, 0, REFUSE), (RETURN, 0, 0, ALLOW)]
code = ctypes.create_string_buffer(b''.join(struct.pack('HBBI', *step) for step in steps))
prctl = ctypes.CDLL(None).prctl
assert prctl(PR_SET_NO_NEW_PRIVS, 1, 0, 0, 0) == 0
assert prctl(PR_SET_SECCOMP, FILTER, struct.pack('HxxxxxxQ', len(steps), ctypes.addressof(code))) == 0
os.execvp(sys.argv[1], sys.argv[1:])
