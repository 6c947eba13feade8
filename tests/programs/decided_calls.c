/* Makes each call that the launcher's filter decides about, on nodes and on files of /sys: by the numbers of programs
   of 32 bits (int 80h) and, if it is a program of 64 bits, once more by their own. Prints the name of each call with
   what it gives: an error's number as a negative one, or 0 for a file or process that was made. It is linked without
   any library, and its input is a node. */
#include <stddef.h>

enum { WRITING = 1, BOTH = 2, CUT = 01000, HERE = -100, TO_GROUP = 4 };
enum { NEW_USERS = 0x10000000, NEW_GROUPS = 0x02000000, ENDS = 17 /* SIGCHLD */ };
enum { OPEN, CLOSE, WRITE, EXIT, PIPE, GETPID, PIDFD_OPEN, FORK, WAIT }; /* places in the next list */
static const short used[][2] = {{2, 5}, {3, 6}, {1, 4}, {60, 1}, {22, 42}, {39, 20}, {434, 434}, {57, 2}, {61, 114}};

static const char node[] = "/dev/nvme0n2", other[] = "/dev/nvme0n1", of_sys[] = "/sys/block/nvme0n1/ro",
                  folder[] = "/sys/class/nvme/nvme0", new[] = "/sys/new", own[] = "/proc/self/fd/0";
static const struct {
    unsigned long long flags, mode, resolve;
} how = {BOTH | CUT, 0, 0};
static char room[64];
static int is_old;

/* (all addresses of this program have 32 bits, except for those on its stack) */
static long call(const short *numbers, long a, long b, long c, long d, long e) {
    long result;
#ifdef __x86_64__
    register long fourth __asm__("r10") = d, fifth __asm__("r8") = e, sixth __asm__("r9") = 0;
    if (!is_old) {
        __asm__ volatile("syscall"
                         : "=a"(result)
                         : "a"((long)numbers[0]), "D"(a), "S"(b), "d"(c), "r"(fourth), "r"(fifth), "r"(sixth)
                         : "rcx", "r11", "memory", "cc");
        return result;
    }
    __asm__ volatile("push %%rbp; xor %%ebp, %%ebp; int $0x80; pop %%rbp"
#else
    __asm__ volatile("push %%ebp; xor %%ebp, %%ebp; int $0x80; pop %%ebp"
#endif
                     : "=a"(result)
                     : "a"((long)numbers[1]), "b"(a), "c"(b), "d"(c), "S"(d), "D"(e)
                     : "memory", "cc");
    return (int)result;
}

static long use(int which, long a, long b, long c) { return call(used[which], a, b, c, 0, 0); }

static void print(const char *text) {
    size_t length = 0;
    while (text[length])
        length++;
    use(WRITE, 1, (long)text, (long)length);
}

static void tell(const char *name, long result) {
    static char digits[] = "      \n";
    size_t at = sizeof digits - 2;
    unsigned long number = result < 0 ? -(unsigned long)result : (unsigned long)result;
    do
        digits[--at] = (char)('0' + number % 10);
    while ((number /= 10) > 0);
    if (result < 0)
        digits[--at] = '-';
    digits[sizeof digits - 2] = '\n';
    print(name);
    print(" ");
    print(digits + at);
}

/* A call, by its two numbers, with arguments of which some are descriptors that are known only then. */
enum { CLONES = 999, OPENS = 1000, FILE = 1001, INPUT, END_OF_PIPE, PROCESS };
static const struct {
    const char *name;
    short numbers[2], kind;
    long words[5];
} rows[] = {
    {"open", {2, 5}, OPENS, {(long)node, BOTH | CUT}},
    {"openat", {257, 295}, OPENS, {HERE, (long)node, WRITING | CUT}},
    {"openat2", {437, 437}, OPENS, {HERE, (long)node, (long)&how, sizeof how}},
    {"creat", {85, 8}, OPENS, {(long)node}},
    {"open of an own file", {2, 5}, OPENS, {(long)own, WRITING | CUT}},
    {"open of /sys", {2, 5}, OPENS, {(long)of_sys, WRITING}},
    {"open of /sys to cut", {2, 5}, OPENS, {(long)of_sys, CUT}},
    {"truncate", {76, 92}, 0, {(long)node, 9}},
    {"truncate64", {76, 193}, 0, {(long)node, 9}},
    {"truncate of /sys", {76, 92}, 0, {(long)of_sys}},
    {"ftruncate", {77, 93}, 0, {FILE, 9}},
    {"ftruncate64", {77, 194}, 0, {FILE, 9}},
    {"fallocate", {285, 324}, 0, {FILE}},
    {"sendfile", {40, 187}, 0, {FILE, INPUT, 0, 1}},
    {"sendfile64", {40, 239}, 0, {FILE, INPUT, 0, 1}},
    {"splice", {275, 313}, 0, {END_OF_PIPE, 0, FILE, 0, 1}},
    {"copy_file_range", {326, 377}, 0, {INPUT, 0, FILE, 0, 1}},
    {"unlink", {87, 10}, 0, {(long)other}},
    {"unlinkat", {263, 301}, 0, {HERE, (long)other}},
    {"rmdir", {84, 40}, 0, {(long)folder}},
    {"rename", {82, 38}, 0, {(long)other, (long)"/dev/new"}},
    {"renameat", {264, 302}, 0, {HERE, (long)other, HERE, (long)"/dev/new"}},
    {"renameat2", {316, 353}, 0, {HERE, (long)other, HERE, (long)"/dev/new"}},
    {"mkdir", {83, 39}, 0, {(long)new, 0777}},
    {"mkdirat", {258, 296}, 0, {HERE, (long)new, 0777}},
    {"mknod", {133, 14}, 0, {(long)new, 0100666}},
    {"mknodat", {259, 297}, 0, {HERE, (long)new, 0100666}},
    {"link", {86, 9}, 0, {(long)other, (long)new}},
    {"linkat", {265, 303}, 0, {HERE, (long)other, HERE, (long)new}},
    {"symlink", {88, 83}, 0, {(long)"text", (long)new}},
    {"symlinkat", {266, 304}, 0, {(long)"text", HERE, (long)new}},
    {"pidfd_send_signal", {424, 424}, 0, {PROCESS, 0, 0, TO_GROUP}},
    {"pidfd_getfd", {438, 438}, OPENS, {PROCESS}},
    {"io_uring_setup", {425, 425}, 0, {1}},
    {"io_uring_enter", {426, 426}, 0, {-1}},
    {"io_uring_register", {427, 427}, 0, {-1}},
    {"clone3", {435, 435}, 0, {0}},
    {"add_key", {248, 286}, 0, {0}},
    {"request_key", {249, 287}, 0, {0}},
    {"keyctl", {250, 288}, 0, {0, -3}},
    {"ioctl of typing", {16, 54}, 0, {1, 0x5412, (long)node}},
    {"ioctl of a console", {16, 54}, 0, {1, 0x541c, (long)node}},
    {"ioctl of a controller", {16, 54}, 0, {FILE, 0x4e40}},
    {"ioctl of a block device", {16, 54}, 0, {FILE, 0x1268, (long)room}},
    {"ioctl of a geometry", {16, 54}, 0, {FILE, 0x301, (long)room}},
    {"unshare of groups", {272, 310}, 0, {NEW_GROUPS}},
    {"clone of groups", {56, 120}, CLONES, {NEW_GROUPS | ENDS}},
    {"clone", {56, 120}, CLONES, {NEW_USERS | NEW_GROUPS | ENDS}},
    {"unshare", {272, 310}, 0, {NEW_USERS | NEW_GROUPS}}};

static void try_all(void) {
    static int ends[2];
    const long process = use(GETPID, 0, 0, 0);
    use(PIPE, (long)ends, 0, 0);
    use(CLOSE, ends[1], 0, 0);
    const long known[] = {use(OPEN, (long)node, BOTH, 0), use(OPEN, (long)other, 0, 0), ends[0],
                          use(PIDFD_OPEN, process, 0, 0)};
    for (size_t at = 0; at < sizeof rows / sizeof *rows; at++) {
        long words[5];
        for (size_t place = 0; place < 5; place++) {
            long word = rows[at].words[place];
            words[place] = word >= FILE && word <= PROCESS ? known[word - FILE] : word;
        }
        long result = call(rows[at].numbers, words[0], words[1], words[2], words[3], words[4]);
        if (rows[at].kind == CLONES && result == 0)
            use(EXIT, 0, 0, 0);
        if (rows[at].kind && result >= 0) {
            use(rows[at].kind == CLONES ? WAIT : CLOSE, result, 0, 0);
            result = 0;
        }
        tell(rows[at].name, result);
    }
}

/* (the last call gives its process another user namespace) */
static void try_in_child(void) {
    if (use(FORK, 0, 0, 0) == 0) {
        try_all();
        use(EXIT, 0, 0, 0);
    }
    use(WAIT, -1, 0, 0);
}

void _start(void) {
#ifdef __x86_64__
    try_in_child();
#endif
    is_old = 1;
    try_in_child();
    use(EXIT, 0, 0, 0);
    __builtin_unreachable();
}
