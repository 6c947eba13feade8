/* Makes a call as a program of 32 bits does, and prints its result: old NUMBER [ARGUMENT..]. An argument that isn't a
   number is a text, which is put where such a program could reach it. */
#define _GNU_SOURCE
#include <ctype.h>
#include <stdio.h>
#include <stdlib.h>
#include <string.h>
#include <sys/mman.h>

int main(int count, char **arguments) {
    long words[6] = {0}, result;
    char *room = mmap(NULL, 65536, PROT_READ | PROT_WRITE, MAP_PRIVATE | MAP_ANONYMOUS | MAP_32BIT, -1, 0);
    if (count < 2 || count > 7 || room == MAP_FAILED)
        return 1;
    for (int at = 1; at < count; at++) {
        int is_text = !isdigit((unsigned char)*arguments[at]) && *arguments[at] != '-';
        words[at - 1] = is_text ? (long)strcpy(room, arguments[at]) : strtol(arguments[at], NULL, 0);
        room += is_text ? strlen(room) + 1 : 0;
    }
    __asm__ volatile("int $0x80"
                     : "=a"(result)
                     : "a"(words[0]), "b"(words[1]), "c"(words[2]), "d"(words[3]), "S"(words[4]), "D"(words[5])
                     : "r8", "r9", "r10", "r11", "memory");
    return printf("%d\n", (int)result) < 0;
}
