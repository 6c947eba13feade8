/* How fast the calls are: a register read, a turn with a command of a page and with one of no data, each over a memory
 * of eight pages, and beside them the copy of a page. Each time is the least of 20 rounds.
 *
 *     cc -O2 -o speed speed.c $(pkg-config --cflags --libs nvme_controller) */
#define _POSIX_C_SOURCE 199309L
#include <nvme_controller.h>

#include <stdio.h>
#include <string.h>
#include <time.h>

enum { PAGE = 4096, PAGES = 8, DEPTH = 8, TIMES = 2000 };

static nvme_machine *machine;
static uint8_t memory[PAGES * PAGE], copy[PAGE];
static unsigned sent;
static volatile uint32_t seen;

/* Sends a command, lets the controller take it, and tells that its completion was read. */
static void command(uint8_t opcode, uint8_t cdw10) {
    uint8_t *entry = memory + 64 * (sent % DEPTH);
    memset(entry, 0, 64);
    entry[0] = opcode;
    entry[25] = 2 * PAGE >> 8;
    entry[40] = cdw10;
    sent++;
    nvme_machine_write32(machine, 0, NVME_TAIL_DOORBELL, sent % DEPTH);
    seen += nvme_machine_turn(machine, 0, memory, PAGES, PAGE, 1);
    nvme_machine_write32(machine, 0, NVME_HEAD_DOORBELL, sent % DEPTH);
}

static void with_a_page(void) {
    command(0x06, 0x01);
}

static void with_none(void) {
    command(0x0a, 0x06);
}

static void read_a_register(void) {
    seen += nvme_machine_read32(machine, 0, NVME_CSTS);
}

static void copy_a_page(void) {
    memcpy(copy, memory + 2 * PAGE, PAGE);
    seen += copy[seen % PAGE];
}

static void measure(const char *what, void (*call)(void)) {
    long least = -1;
    for (int round = 0; round < 20; round++) {
        struct timespec begin, end;
        clock_gettime(CLOCK_MONOTONIC, &begin);
        for (int i = 0; i < TIMES; i++) {
            call();
        }
        clock_gettime(CLOCK_MONOTONIC, &end);
        long taken = (end.tv_sec - begin.tv_sec) * 1000000000 + end.tv_nsec - begin.tv_nsec;
        least = least < 0 || taken < least ? taken : least;
    }
    printf("%-24s%6ld ns\n", what, least / TIMES);
}

int main(void) {
    if (nvme_machine_demo(&machine) != 0) {
        return 3;
    }
    nvme_machine_write32(machine, 0, NVME_AQA, (DEPTH - 1) << 16 | (DEPTH - 1));
    nvme_machine_write32(machine, 0, NVME_ACQ, PAGE);
    nvme_machine_write32(machine, 0, NVME_CC, 0x00460001);
    measure("a command with a page", with_a_page);
    measure("a command with none", with_none);
    measure("a register read", read_a_register);
    measure("a copy of a page", copy_a_page);
    nvme_machine_close(machine);
    return 0;
}
