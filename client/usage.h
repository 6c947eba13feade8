/* The help of `nvme-model --qemu`, a text that the launcher shows even if the program for it wasn't built. */
#ifndef USAGE_H
#define USAGE_H

extern const char qemu_usage[];
__asm__(".section .rodata\nqemu_usage: .incbin \"qemu_usage.txt\"\n.byte 0\n.previous");

#endif
