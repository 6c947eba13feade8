/* The admin commands of a drive that the proved controller lacks: they are seen before it takes them, and answered in
   its place. And what follows from commands that it accepted: the data of namespaces, and events at the controllers
   whose namespaces changed. None of this is proved. */
#include "function.h"
#include "supplied.h"

/* Statuses, with the bit Do Not Retry; and that no completion is due yet. */
enum { SEQUENCE_ERROR = 0x400c, INVALID_OFFSET = 0x4013, NO_COMPLETION_QUEUE = 0x4100, INVALID_QUEUE, INVALID_SIZE };
enum { TOO_MANY_REQUESTS = 0x4105, INVALID_VECTOR = 0x4108, INVALID_DELETION = 0x410c, NOT_SAVEABLE };
enum { NOT_OF_NAMESPACE = 0x410f, IS_HELD = 0xffff };
/* Opcodes and selectors of the commands here, and bits of their dwords. */
enum { DELETE_SUBMISSIONS = 0, CREATE_SUBMISSIONS, DELETE_COMPLETIONS = 4, CREATE_COMPLETIONS, ABORT = 8 };
enum { SET_FEATURES = 9, GET_FEATURES, REQUEST_EVENT = 0x0c, NUMBER_OF_QUEUES = 7, EVENTS = 0x0b, ANY = -1 };
enum { IS_CONTIGUOUS = 1, HAS_INTERRUPTS = 2, KEEPS_EVENT = 1 << 15, WANTS_CHANGES = 1 << 8, CAN_CHANGE = 4 };
#define IS_SAVED (1u << 31)
/* Bytes of what Identify Controller says, and what drives add: events of namespaces, how many requests for them may
   wait, one less, and commands. */
enum { OAES = 93, AERL = 259, ONCS = 520, HAS_COMPARE = 1, HAS_DATASET = 4, HAS_WRITE_ZEROES = 8, HAS_VERIFY = 0x80 };

/* A command that is answered here, and dword 0 of its completion. */
struct command {
    struct function *function;
    unsigned char entry[ENTRY_BYTES];
    struct memory memory;
    uint32_t dword_0;
};

static uint32_t dword(const struct command *command, unsigned number) {
    return (uint32_t)number_at(command->entry + 4 * number, 4);
}

/* ---- queues */

/* Returns where the depth of the queue is that a command names, or NULL if it can't be one. */
static const uint16_t *depth_of(const struct command *command) {
    struct drive *drive = &command->function->drive;
    uint32_t id = dword(command, 10) & 0xffff;
    int is_completions = command->entry[0] >= DELETE_COMPLETIONS;
    uint32_t most = (is_completions ? drive->counts >> 16 : drive->counts & 0xffff) + 1;
    if (id == 0 || id > most)
        return NULL;
    return is_completions ? &drive->completions[id].queue.depth : &drive->submissions[id].queue.depth;
}

static int create_queue(struct command *command) {
    struct drive *drive = &command->function->drive;
    uint64_t base = number_at(command->entry + 24, 8);
    uint32_t id = dword(command, 10) & 0xffff, last_slot = dword(command, 10) >> 16, how = dword(command, 11);
    uint32_t other = how >> 16, has_completions = other <= MOST_QUEUES && drive->completions[other].queue.depth > 0;
    int is_submissions = command->entry[0] == CREATE_SUBMISSIONS;
    const uint16_t *depth = depth_of(command);
    if (!depth || *depth > 0)
        return INVALID_QUEUE;
    if (last_slot == 0 || last_slot > (read_register(command->function, NVME_CAP) & 0xffff))
        return INVALID_SIZE;
    if (base % page_size(command->function))
        return INVALID_OFFSET;
    if (!(how & IS_CONTIGUOUS))
        return INVALID_FIELD;
    if (is_submissions && (other == 0 || other > (drive->counts >> 16) + 1))
        return INVALID_QUEUE;
    if (is_submissions ? !has_completions : other > 0 && other >= command->function->vectors)
        return is_submissions ? NO_COMPLETION_QUEUE : INVALID_VECTOR;
    if (is_submissions) {
        nvme_submission_queue_make(&drive->submissions[id].queue, (uint16_t)id, base, last_slot + 1);
        drive->submissions[id].completions = (uint16_t)other;
    } else {
        nvme_completion_queue_make(&drive->completions[id].queue, base, last_slot + 1);
        drive->completions[id].vector = how & HAS_INTERRUPTS ? (uint64_t)1 << other : 0;
    }
    return DONE;
}

static int delete_queue(struct command *command) {
    struct drive *drive = &command->function->drive;
    uint32_t id = dword(command, 10) & 0xffff;
    const uint16_t *depth = depth_of(command);
    if (!depth || *depth == 0)
        return INVALID_QUEUE;
    if (command->entry[0] == DELETE_SUBMISSIONS) {
        drive->submissions[id] = (struct submissions){0};
        return DONE;
    }
    for (const struct submissions *at = drive->submissions; at <= drive->submissions + MOST_QUEUES; at++)
        if (at->queue.depth > 0 && at->completions == id)
            return INVALID_DELETION;
    drive->completions[id] = (struct completions){0};
    return DONE;
}

static int set_queue_counts(struct command *command) {
    struct drive *drive = &command->function->drive;
    uint32_t submissions = dword(command, 11) & 0xffff, completions = dword(command, 11) >> 16;
    uint32_t last = MOST_QUEUES - 1, nsid = dword(command, 1);
    if (dword(command, 10) & IS_SAVED)
        return NOT_SAVEABLE;
    if (nsid != 0 && nsid != EVERY_NSID)
        return NOT_OF_NAMESPACE;
    if (submissions == 0xffff || completions == 0xffff)
        return INVALID_FIELD;
    for (unsigned id = 1; id <= MOST_QUEUES; id++)
        if (drive->submissions[id].queue.depth > 0 || drive->completions[id].queue.depth > 0)
            return SEQUENCE_ERROR;
    drive->counts = (submissions < last ? submissions : last) | (completions < last ? completions : last) << 16;
    command->dword_0 = drive->counts;
    return DONE;
}

/* (What can be asked for are the current value, the default, the saved one, and what can be done.) */
static int get_queue_counts(struct command *command) {
    const uint32_t values[] = {command->function->drive.counts, DEFAULT_COUNTS, DEFAULT_COUNTS, CAN_CHANGE};
    uint32_t which = dword(command, 10) >> 8 & 7;
    command->dword_0 = which < 4 ? values[which] : 0;
    return which < 4 ? DONE : INVALID_FIELD;
}

/* ---- abort and events */

/* (Bit 0 says that the command wasn't aborted.) */
static int abort_nothing(struct command *command) {
    command->dword_0 = 1;
    return DONE;
}

static int hold_request(struct command *command) {
    struct drive *drive = &command->function->drive;
    if (drive->request_count == MOST_REQUESTS)
        return TOO_MANY_REQUESTS;
    drive->requests[drive->request_count++] = (uint16_t)number_at(command->entry + 2, 2);
    return IS_HELD;
}

/* ---- the table */

/* A command, by its opcode and the lowest byte of dword 10. */
static const struct row {
    unsigned char opcode;
    int selector;
    int (*answer)(struct command *command);
} rows[] = {{DELETE_SUBMISSIONS, ANY, delete_queue},
            {CREATE_SUBMISSIONS, ANY, create_queue},
            {DELETE_COMPLETIONS, ANY, delete_queue},
            {CREATE_COMPLETIONS, ANY, create_queue},
            {ABORT, ANY, abort_nothing},
            {SET_FEATURES, NUMBER_OF_QUEUES, set_queue_counts},
            {GET_FEATURES, NUMBER_OF_QUEUES, get_queue_counts},
            {REQUEST_EVENT, ANY, hold_request}};

/* Writes data to where a command wants it. Returns the status. */
static int write_data(const struct command *command, const unsigned char *data, size_t length) {
    const struct memory *memory = &command->memory;
    return nvme_entry_write(command->entry, memory->bytes, memory->pages, memory->page, data, length);
}

/* ---- what a controller's answers are made of, by the number of its function */

const unsigned char *identity_of(unsigned controller) { return functions[controller].identity; }

int read_namespace(unsigned controller, uint32_t nsid, int is_active, unsigned char page[IDENTIFY_BYTES]) {
    return nvme_machine_namespace(functions[controller].machine, functions[controller].number, nsid, is_active, page);
}

int is_attached(unsigned controller, uint32_t nsid) { return functions[controller].drive.is_active[nsid]; }

/* (since the log was read) */
void find_changes(unsigned controller, unsigned char has_changed[MOST_NSID + 1]) {
    memcpy(has_changed, functions[controller].drive.has_changed, MOST_NSID + 1);
}

/* Answers a command that the sandbox's launcher has too. (Of a log, no more than a page is read at once.) */
static int answer_by_data(struct command *command) {
    struct function *function = command->function;
    struct drive *drive = &function->drive;
    const struct subsystem *subsystem = function->subsystem;
    const struct asked asked = {subsystem->functions - functions, subsystem->count, function - functions};
    unsigned char page[IDENTIFY_BYTES];
    int status = supplied(&asked, command->entry, page), is_log = command->entry[0] == OPCODE_GET_LOG;
    uint64_t dwords = (uint64_t)(dword(command, 11) & 0xffff) << 16 | dword(command, 10) >> 16;
    uint64_t length = is_log ? 4 * dwords + 4 : IDENTIFY_BYTES;
    if (status != NOT_SUPPLIED && (command->entry[1] || length > IDENTIFY_BYTES))
        return INVALID_FIELD;
    if (status == DONE)
        status = write_data(command, page, length);
    if (status == DONE && is_log && command->entry[40] == LOG_OF_CHANGES && !(dword(command, 10) & KEEPS_EVENT)) {
        memset(drive->has_changed, 0, sizeof drive->has_changed);
        drive->is_told = 0;
    }
    return status;
}

/* Answers a command, and returns its status, or that it isn't answered here. */
static int answer(struct command *command) {
    const unsigned char *entry = command->entry;
    for (const struct row *row = rows; row < rows + sizeof rows / sizeof *rows; row++)
        if (row->opcode == entry[0] && (row->selector == ANY || row->selector == entry[40]))
            return entry[1] ? INVALID_FIELD : row->answer(command);
    return answer_by_data(command);
}

/* ---- what follows from commands that the controllers accept */

/* Returns whether a host wants to know of changes at first, which a controller that nothing else uses is asked. */
int wish_at_start(nvme_machine *machine, uint16_t number) {
    static unsigned char memory[2 * SMALL_PAGE] = {GET_FEATURES, [40] = EVENTS};
    nvme_machine_write32(machine, number, NVME_AQA, 0x10001);
    nvme_machine_write32(machine, number, NVME_ACQ, SMALL_PAGE);
    nvme_machine_write32(machine, number, NVME_CC, 0x460001);
    nvme_machine_write32(machine, number, NVME_TAIL_DOORBELL, 1);
    nvme_machine_turn(machine, number, memory, 2, SMALL_PAGE, 1);
    return memory[SMALL_PAGE + 1] & WANTS_CHANGES >> 8;
}

/* Looks at each namespace of a function's subsystem, which may have come or gone, here or at other controllers, or was
   formatted, as all that are active here may be. */
void look_at_namespaces(const struct function *function, enum moment moment, uint32_t formatted) {
    struct subsystem *subsystem = function->subsystem;
    unsigned char about[IDENTIFY_BYTES];
    for (uint32_t nsid = 1; nsid <= MOST_NSID; nsid++) {
        int is_new = nsid == formatted || (formatted == EVERY_NSID && function->drive.is_active[nsid]);
        follow_namespace(subsystem, nsid, is_new ? AFTER_FORMAT : moment);
        for (struct function *at = subsystem->functions; at < subsystem->functions + subsystem->count; at++) {
            int is_known = nvme_machine_namespace(at->machine, at->number, nsid, 1, about);
            int is_active = is_known && number_at(about, 8) > 0;
            if (is_active != at->drive.is_active[nsid] || (is_active && is_new))
                at->drive.has_changed[nsid] = at->has_more = 1;
            at->drive.is_active[nsid] = (unsigned char)is_active;
        }
    }
}

static void see_accepted(const struct command *command) {
    struct function *function = command->function;
    struct drive *drive = &function->drive;
    unsigned char opcode = command->entry[0], selector = command->entry[40], page[IDENTIFY_BYTES];
    if (opcode == OPCODE_IDENTIFY && selector == CNS_CONTROLLER) {
        nvme_machine_identify(function->machine, function->number, page);
        page[OAES] |= WANTS_CHANGES >> 8;
        page[AERL] |= MOST_REQUESTS - 1;
        page[ONCS] |= HAS_COMPARE | HAS_DATASET | HAS_WRITE_ZEROES | HAS_VERIFY;
        write_data(command, page, sizeof page);
    } else if (opcode == SET_FEATURES && selector == EVENTS) {
        drive->wants_changes = (dword(command, 11) & WANTS_CHANGES) != 0;
        drive->saved_wish = dword(command, 10) & IS_SAVED ? drive->wants_changes : drive->saved_wish;
    } else if (opcode == OPCODE_FORMAT || opcode == OPCODE_MANAGEMENT || opcode == OPCODE_ATTACHMENT) {
        look_at_namespaces(function, AFTER_COMMAND, opcode == OPCODE_FORMAT ? dword(command, 1) : 0);
        // (other functions may have something to do, although they were looked at already)
        function->has_more = 1;
    }
}

/* ---- the admin queue */

/* Lets the controller take the next entry. Returns whether it did. */
static int pass_on(const struct command *command) {
    struct function *function = command->function;
    const struct memory *memory = &command->memory;
    uint64_t refused_before, refused, count;
    nvme_machine_counts(function->machine, function->number, &refused_before, &count);
    if (!nvme_machine_turn(function->machine, function->number, memory->bytes, memory->pages, memory->page, 1))
        return 0;
    nvme_machine_counts(function->machine, function->number, &refused, &count);
    if (refused == refused_before)
        see_accepted(command);
    return 1;
}

/* Takes the next entry, and completes it unless it is held. Returns whether there was one. */
static int take_over(struct command *command, int status) {
    struct function *function = command->function;
    struct memory to = command->memory;
    nvme_answer answer = {command->dword_0, 0, (uint16_t)status};
    if (status == IS_HELD)
        return nvme_machine_fetch(function->machine, function->number, to.bytes, to.pages, to.page, command->entry);
    return nvme_machine_complete(function->machine, function->number, to.bytes, to.pages, to.page, answer);
}

/* Sees that a completion was posted. */
static void complete(struct function *function) {
    nvme_completion_queue *queue = &function->drive.completions[0].queue;
    queue->posted = (queue->posted + 1) % (2 * queue->depth);
    give_back();
    function->drive.due |= 1;
}

/* Takes the next entry of the admin queue, or lets the controller take it. Where it or the slot for its completion
   isn't in memory, the controller finds no memory at all, which is fatal for it. Returns whether it took one, and
   another one waits. */
int take_command(struct function *function) {
    nvme_submission_queue *queue = &function->drive.submissions[0].queue;
    if (queue->fetched == queue->rung)
        return 0;
    struct memory memory = lend(function, function->drive.submissions);
    struct command command = {.function = function, .memory = memory};
    int status = NOT_SUPPLIED;
    if (nvme_machine_next(function->machine, function->number, memory.bytes, memory.pages, memory.page, command.entry))
        status = answer(&command);
    if (!(status == NOT_SUPPLIED ? pass_on(&command) : take_over(&command, status)))
        return 0;
    queue->fetched = (queue->fetched + 1) % (2 * queue->depth);
    if (status != IS_HELD)
        complete(function);
    return queue->fetched != queue->rung;
}

/* Completes a request for events if namespaces have changed since the host was told so. (Dword 0 names the event's type
   and information, which are 2 and 0, and the log that lists them.) */
void tell_changes(struct function *function) {
    struct drive *drive = &function->drive;
    nvme_answer answer = {2 | LOG_OF_CHANGES << 16, drive->requests[0], DONE};
    if (drive->request_count == 0 || !drive->wants_changes || drive->is_told ||
        !memchr(drive->has_changed, 1, sizeof drive->has_changed))
        return;
    struct memory memory = lend(function, drive->submissions);
    if (!nvme_machine_post(function->machine, function->number, memory.bytes, memory.pages, memory.page, answer))
        return;
    complete(function);
    drive->is_told = 1;
    drive->request_count--;
    memmove(drive->requests, drive->requests + 1, drive->request_count * sizeof *drive->requests);
}
