/* Refuses and delays commands that processes send by ioctl, as --refuse and --delay say, in place of a controller or of
   the I/O commands. No log entry is made, and no proof speaks about any of this. */
#include "launcher.h"
#include <linux/nvme_ioctl.h>
#include <linux/futex.h>
#include <sys/syscall.h>
#include <time.h>

enum { MOST_RULES = 64, GREATEST_STATUS = 0x7fff, MOST_SECONDS = 86400 };

/* The commands of nvme-cli: by the opcode and, unless any will do, by the lowest bits of dword 10 (CNS, SEL or LID), of
   which some commands have two. */
static const struct command {
    const char *name;
    int is_io;
    unsigned opcode, bits, one, other;
} commands[] = {{"id-ctrl", 0, 0x06, 0xff, 0x01, 0x01},     {"id-ns", 0, 0x06, 0xff, 0x00, 0x11},
                {"list-ns", 0, 0x06, 0xff, 0x02, 0x10},     {"create-ns", 0, 0x0d, 0x0f, 0, 0},
                {"delete-ns", 0, 0x0d, 0x0f, 1, 1},         {"attach-ns", 0, 0x15, 0x0f, 0, 0},
                {"detach-ns", 0, 0x15, 0x0f, 1, 1},         {"format", 0, 0x80, 0, 0, 0},
                {"get-feature", 0, 0x0a, 0, 0, 0},          {"set-feature", 0, 0x09, 0, 0, 0},
                {"get-log", 0, 0x02, 0, 0, 0},              {"error-log", 0, 0x02, 0xff, 0x01, 0x01},
                {"smart-log", 0, 0x02, 0xff, 0x02, 0x02},   {"fw-log", 0, 0x02, 0xff, 0x03, 0x03},
                {"fw-download", 0, 0x11, 0, 0, 0},          {"fw-commit", 0, 0x10, 0, 0, 0},
                {"device-self-test", 0, 0x14, 0, 0, 0},     {"sanitize", 0, 0x84, 0, 0, 0},
                {"security-send", 0, 0x81, 0, 0, 0},        {"security-recv", 0, 0x82, 0, 0, 0},
                {"flush", 1, 0x00, 0, 0, 0},                {"write", 1, 0x01, 0, 0, 0},
                {"read", 1, 0x02, 0, 0, 0},                 {"write-uncor", 1, 0x04, 0, 0, 0},
                {"compare", 1, 0x05, 0, 0, 0},              {"write-zeroes", 1, 0x08, 0, 0, 0},
                {"dsm", 1, 0x09, 0, 0, 0},                  {"verify", 1, 0x0c, 0, 0, 0}};

/* What the options do. */
static const struct action {
    const char *option, *done, *form;
    uint64_t most;
} actions[] = {
    [REFUSE] = {"--refuse", "refused", "the form is COMMAND[,SKIP[,TIMES]]=STATUS, with a STATUS of 1 to 0x7fff",
                GREATEST_STATUS},
    [DELAY] = {"--delay", "delayed", "the form is COMMAND[,SKIP[,TIMES]]=SECONDS, with 1 to 86400 SECONDS",
               MOST_SECONDS}};

/* A rule: after `skip` commands, `times` of them get a status or are delayed by seconds. Helpers share how many came,
   and whether it had an effect on one. */
static struct rule {
    const char *text;
    enum rule_action action;
    struct command command;
    uint64_t skip, times, value, came, has_acted;
} *rules;
static unsigned rule_count;
static _Atomic unsigned *resets; /* how often each controller was reset, if there is a rule */

/* Reads a number, and returns whether it is one of a range. */
static int read_number(const char *text, uint64_t least, uint64_t most, uint64_t *number) {
    char *end;
    errno = 0;
    *number = strtoull(text, &end, 0);
    return *text >= '0' && *text <= '9' && errno == 0 && !*end && *number >= least && *number <= most;
}

/* Finds the command of a rule, and returns whether there is one. */
static int read_command(const char *name, struct command *command) {
    uint64_t opcode;
    for (unsigned at = 0; at < sizeof commands / sizeof *commands; at++)
        if (strcmp(commands[at].name, name) == 0) {
            *command = commands[at];
            return 1;
        }
    int is_io = strncmp(name, "io:", 3) == 0, is_number = read_number(name + 3 * is_io, 0, 0xff, &opcode);
    *command = (struct command){NULL, is_io, (unsigned)opcode, 0, 0, 0};
    return is_number;
}

const char *add_rule(enum rule_action action, const char *text) {
    if (rule_count == MOST_RULES)
        return "64 rules are the most";
    rules = rules ?: share(MOST_RULES * sizeof *rules);
    resets = resets ?: share(MOST_CONTROLLERS * sizeof *resets);
    struct rule *rule = rules + rule_count;
    *rule = (struct rule){.text = text, .action = action, .times = 1};
    char *value = strdupa(text), *words = strsep(&value, "="), *name = strsep(&words, ",");
    char *skip = strsep(&words, ","), *times = strsep(&words, ",");
    if (!read_command(name, &rule->command))
        return "there is no such command";
    if (skip && !read_number(skip, 0, UINT32_MAX, &rule->skip))
        return "SKIP: 0 to 4294967295";
    if (times && !read_number(times, 1, UINT32_MAX, &rule->times))
        return "TIMES: 1 to 4294967295";
    if (words || !value || !read_number(value, 1, actions[action].most, &rule->value))
        return actions[action].form;
    rule_count++;
    return NULL;
}

void note_reset(unsigned controller) {
    if (!resets)
        return;
    resets[controller]++;
    syscall(SYS_futex, &resets[controller], FUTEX_WAKE, INT_MAX, NULL, NULL, 0);
}

/* Waits as long as a command is delayed. It isn't done if its controller is reset meanwhile. Linux gives a command the
   time that its process says, or else a minute. (An admin command has that by default, and an I/O command has half of
   it twice, because it is aborted first.) Then it resets the controller, and the call fails. */
static int wait_for(const struct call *call, int is_io, uint64_t seconds, uint32_t limit) {
    const uint64_t most = limit ? (uint64_t)limit << is_io : 60000;
    const uint64_t least = seconds * 1000 < most ? seconds * 1000 : most;
    const struct timespec time = {.tv_sec = (time_t)(least / 1000), .tv_nsec = (long)(least % 1000 * 1000000)};
    _Atomic unsigned *reset = resets + call->node.controller;
    const unsigned before = *reset;
    syscall(SYS_futex, reset, FUTEX_WAIT, before, &time, NULL, 0);
    if (*reset != before)
        return -OVERDUE;
    if (seconds * 1000 <= most)
        return 0;
    return ask_controller(call->node.controller, KIND_RESET, 0) ?: -OVERDUE;
}

int follow_rules(const struct call *call, int is_io, const struct nvme_passthru_cmd *given) {
    uint64_t values[] = {[REFUSE] = 0, [DELAY] = 0};
    for (struct rule *rule = rules; rule < rules + rule_count; rule++) {
        const struct command *command = &rule->command;
        unsigned selected = given->cdw10 & command->bits;
        if (command->is_io != is_io || command->opcode != given->opcode ||
            (selected != command->one && selected != command->other))
            continue;
        uint64_t before = __atomic_fetch_add(&rule->came, 1, __ATOMIC_SEQ_CST);
        if (values[rule->action] != 0 || before < rule->skip || before - rule->skip >= rule->times)
            continue;
        __atomic_store_n(&rule->has_acted, 1, __ATOMIC_SEQ_CST);
        values[rule->action] = rule->value;
    }
    int result = values[DELAY] ? wait_for(call, is_io, values[DELAY], given->timeout_ms) : 0;
    return result < 0 ? result : (int)values[REFUSE];
}

void report_rules(void) {
    for (const struct rule *rule = rules; rule < rules + rule_count; rule++)
        if (!rule->has_acted && takes_line(STDERR_FILENO))
            fprintf(stderr, "nvme-model: %s %s %s no command; %ju came\n", actions[rule->action].option, rule->text,
                    actions[rule->action].done, (uintmax_t)rule->came);
}
