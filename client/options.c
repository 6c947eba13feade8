/* The options of the launcher: a row for each, from which the help is made as well. None of this is proved. */
#include "launcher.h"
#include <getopt.h>

struct options options = {.device_words = {MODEL_FOLDER "/device"}};
unsigned geometry[NUMBERS] = {[DEPTH] = 32, [PAGE_SIZE] = 4096, [WINDOW] = 1, [PACE] = 1}, nodes_wait;

#define SEE_HELP "\nsee nvme-model --help"

/* An option, with its argument, which begins with [ if it may be missing, and what the help says; the function that
   reads the argument; or else the number that it sets, and the ones that the devices accept. With neither, it can only
   be the first word. */
struct row {
    const char *name, *argument, *help;
    const char *(*set)(const char *text);
    unsigned *number;
    const char *range;
};

/* ---- what an option sets, by its argument; each of these returns why it can't, or NULL */

static const struct row *option; /* the one that is read */

static const char *set_subsystem(const char *text) {
    if (options.subsystem_count == MOST_DEVICES)
        return "there can be 32 subsystems at most";
    options.subsystems[options.subsystem_count++] = text;
    return NULL;
}

static const char *set_trace(const char *text) {
    options.has_trace = 1;
    options.trace_file = text;
    return NULL;
}

static const char *set_limit(const char *text) {
    static const char units[] = "KMG";
    char *end;
    errno = 0;
    uint64_t size = strtoull(text, &end, 10);
    const char *unit = *end ? strchr(units, *end) : NULL;
    int power = unit ? 10 * (int)(unit - units + 1) : 0;
    if (*text < '0' || *text > '9' || errno || (*end && (!unit || end[1])) || size > (uint64_t)INT64_MAX >> power)
        return "this isn't a number of bytes, or one with K, M or G";
    options.limit = size << power ?: 1;
    return NULL;
}

static const char *set_rule(const char *text) {
    return add_rule(strcmp(option->name, "delay") == 0 ? DELAY : REFUSE, text);
}

static const char *set_device(const char *text) {
    if (options.added_count == MOST_ADDED)
        return "there can be 64 of these at most";
    options.added[options.added_count++] = text;
    return NULL;
}

/* (of several numbers for one option, the last one counts; a device takes them as scripts do) */
static const char *set_number(const char *text) {
    char *end;
    uint64_t number = strtoull(text, &end, strncmp(text, "0x", 2) == 0 ? 16 : 10);
    if (*text < '0' || *text > '9' || *end || number > UINT32_MAX)
        return option->range;
    *option->number = (unsigned)number;
    return NULL;
}

static const char *show_version(const char *nothing) {
    (void)nothing;
    puts("nvme-model " MODEL_VERSION);
    exit(fflush(stdout) == 0 ? 0 : FAILED);
}

static const char *show_help(const char *nothing);

static const struct row rows[] = {
    {"subsystem", "FILE", "use the subsystem of FILE; repeat it for several subsystems, at most 32",
     .set = set_subsystem},
    {"trace", "[=FILE]", "write what goes over the bus to standard error or to FILE", .set = set_trace},
    {"data-limit", "SIZE", "limit the memory for data of namespaces, such as 512M (default: a quarter of all memory)",
     .set = set_limit},
    {"refuse", "COMMAND[,SKIP[,TIMES]]=STATUS",
     "refuse a command, such as format=0x2002, after SKIP of them (0), TIMES times (1)", .set = set_rule},
    {"delay", "COMMAND[,SKIP[,TIMES]]=SECONDS", "delay a command, such as format=30, likewise", .set = set_rule},
    {"no-notice", NULL, "let nodes come and go only at `nvme ns-rescan` or a reset", .number = &nodes_wait},
    {"device", "PATH", "add a character device of this machine, such as /dev/fuse, to the /dev of COMMAND",
     .set = set_device},
    {"root", NULL, "let COMMAND be root in the sandbox, with a sudo, though with no more rights to files",
     .number = &options.is_root},
    {"depth", "N", "give each queue N entries; this option and those up to --pace are nvme-script's",
     .number = &geometry[DEPTH], .range = "2 to 4096"},
    {"page-size", "N", "make pages of N bytes", .number = &geometry[PAGE_SIZE],
     .range = "4096, 8192, 16384, 32768 or 65536"},
    {"offset", "N", "let each command's data begin N bytes into a page", .number = &geometry[OFFSET],
     .range = "a multiple of 4 below the page size"},
    {"list-offset", "N", "let each PRP list begin N bytes into a page", .number = &geometry[LIST_OFFSET],
     .range = "a multiple of 8 below the page size"},
    {"window", "N", "keep up to N commands outstanding", .number = &geometry[WINDOW],
     .range = "1 to 16, below the depth"},
    {"pace", "N", "let a controller do N commands in a turn", .number = &geometry[PACE], .range = "1 to 4096"},
    {"qemu", NULL, "as the first option, run QEMU with the controllers; see --qemu --help", .set = NULL},
    {"vfio-user", NULL, "as the first option, serve them to virtual machines; see --qemu --help", .set = NULL},
    {"vm", NULL, "as the first option, run COMMAND on a kernel in a virtual machine; see --vm --help", .set = NULL},
    {"build", NULL, "as the only argument, in a clone of the repository: prove and build the device", .set = NULL},
    {"help", NULL, "show this help and the version", .set = show_help},
    {"version", NULL, "show the version", .set = show_version}};
enum { ROWS = sizeof rows / sizeof *rows, COLUMN = 23 };

static const char *show_help(const char *nothing) {
    (void)nothing;
    fputs("usage: nvme-model [OPTION..] [--] COMMAND [ARGUMENT..]\n"
          "       nvme-model --vm [OPTION..] [--] COMMAND [ARGUMENT..]\n"
          "       nvme-model --qemu [OPTION..] [-- QEMU-OPTION..]\n"
          "       nvme-model --vfio-user --socket PATH [OPTION..]\n"
          "Run COMMAND with the NVMe devices of a model as /dev/nvme0, /dev/nvme0n1 and so on.\n\n",
          stdout);
    for (const struct row *row = rows; row < rows + ROWS; row++) {
        const char *argument = row->argument ?: "";
        int width = printf("  --%s%s%s", row->name, *argument && *argument != '[' ? " " : "", argument);
        int fits = width < COLUMN - 1;
        printf("%s%*s%s\n", fits ? "" : "\n", fits ? COLUMN - width : COLUMN, "", row->help);
    }
    fputs("\nThe exit status is that of COMMAND, or 72 if nvme-model itself can't continue. See nvme-model(1).\n"
          "This is version " MODEL_VERSION ".\n",
          stdout);
    exit(fflush(stdout) == 0 ? 0 : FAILED);
}

/* (a device writes page_size, and three letters tell them apart) */
void fail_by_number(const char *name) {
    for (const struct row *row = rows; row < rows + ROWS; row++)
        if (row->range && strncmp(row->name, name, 3) == 0)
            fail("--%s: %s" SEE_HELP, row->name, row->range);
    fail("%s", name);
}

/* (each option has a number behind the characters, and getopt_long says what is wrong with others) */
int read_options(int count, char **arguments) {
    struct option list[ROWS + 1] = {{0}};
    int number;
    for (int at = 0; at < ROWS; at++) {
        const char *argument = rows[at].argument;
        int kind = !argument ? no_argument : *argument == '[' ? optional_argument : required_argument;
        list[at] = (struct option){rows[at].name, kind, NULL, UCHAR_MAX + 1 + at};
    }
    while ((number = getopt_long(count, arguments, "+", list, NULL)) > UCHAR_MAX) {
        option = rows + (number - UCHAR_MAX - 1);
        const char *reason = option->set      ? option->set(optarg)
                             : option->number ? set_number(optarg ?: "1")
                                              : "this can only be the first word";
        if (reason)
            fail("--%s%s%s: %s" SEE_HELP, option->name, optarg ? " " : "", optarg ?: "", reason);
    }
    if (number >= 0) {
        fprintf(stderr, "%s\n", SEE_HELP + 1);
        exit(FAILED);
    }
    if (optind == count)
        fail("there is no command to run" SEE_HELP);
    char **word = options.device_words + 1;
    for (const struct row *row = rows; row < rows + ROWS; row++)
        if (row->range && asprintf(word++, "--%s=%u", row->name, *row->number) < 0)
            fail("out of memory");
    if (options.subsystem_count > 0)
        *word++ = "--subsystem=/proc/self/fd/3";
    if (options.has_trace)
        *word = "--trace";
    return optind;
}
