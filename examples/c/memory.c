/* Lends the memory of a simulation to turns, by DPI-C: an array of 64 bytes each, as `bit [511:0] memory [0:255]`. It
 * is copied for the call, and copied back, because a simulator may store it in another form. So are a namespace's
 * blocks. (A queue, as a `bit [127:0]`, has the form of the header's structure.) */
#include <nvme_controller.h>
#include <svdpi.h>

#include <stdint.h>

enum { PIECE = 64, PAGE = 4096, MOST = 64 * PAGE, BLOCK = 512 };

/* Returns how many bytes an array of pieces has, or 0 if they are none of whole units, or too many. */
static size_t size_of(const svOpenArrayHandle array, size_t unit) {
    size_t size = (size_t)svSize(array, 1) * PIECE;
    return svSize(array, 0) == 8 * PIECE && size % unit == 0 && size <= MOST ? size : 0;
}

static svBitVecVal *piece(uint8_t *bytes, int i) {
    return (svBitVecVal *)(void *)(bytes + i * PIECE);
}

static void copy_in(uint8_t *bytes, const svOpenArrayHandle array) {
    for (int i = 0; i < svSize(array, 1); i++) {
        svGetBitArrElem1VecVal(piece(bytes, i), array, svLow(array, 1) + i);
    }
}

static void copy_out(const svOpenArrayHandle array, uint8_t *bytes) {
    for (int i = 0; i < svSize(array, 1); i++) {
        svPutBitArrElem1VecVal(array, piece(bytes, i), svLow(array, 1) + i);
    }
}

static uint8_t bytes[MOST], data[MOST];

#ifdef __cplusplus
extern "C" {
#endif
/* Lets a controller take at most `most` entries, over pages of 4,096 bytes. Returns how many it took, or -1 if the
 * array has another form. */
int memory_turn(void *machine, short unsigned ctrl, const svOpenArrayHandle memory, short unsigned most) {
    size_t size = size_of(memory, PAGE);
    if (size == 0) {
        return -1;
    }
    copy_in(bytes, memory);
    int taken = nvme_machine_turn((nvme_machine *)machine, ctrl, bytes, size / PAGE, PAGE, most);
    copy_out(memory, bytes);
    return taken;
}

/* Lets I/O queues take an entry, and lends them the blocks of 512 bytes of a namespace. Returns its status, or -1. */
int memory_queue_turn(svBitVecVal *submissions, svBitVecVal *completions, const svOpenArrayHandle memory,
                      const svOpenArrayHandle blocks, unsigned nsid) {
    size_t size = size_of(memory, PAGE);
    nvme_blocks lent = {data, size_of(blocks, BLOCK), nsid, BLOCK, MOST, 0};
    if (size == 0 || lent.length == 0) {
        return -1;
    }
    copy_in(bytes, memory);
    copy_in(data, blocks);
    int status = nvme_queue_turn((nvme_submission_queue *)(void *)submissions,
                                 (nvme_completion_queue *)(void *)completions, bytes, size / PAGE, PAGE, &lent);
    copy_out(memory, bytes);
    copy_out(blocks, data);
    return status;
}
#ifdef __cplusplus
}
#endif
