/* The launcher's part of /sys: the files and links that Linux has for NVMe subsystems, controllers and namespaces
   without native multipath, and the links and records that udev makes. Each controller has a PCI bus of its own, in a
   domain that the machine doesn't have. None of this is proved. */
#include "launcher.h"
#include <ctype.h>
#include <stdarg.h>

/* The text of sys.txt, its lines, and its folders, each with its lines, of which the last one has no name, and with the
   folder that was made last. */
extern char sys_text[];
__asm__(".data\nsys_text: .incbin \"sys.txt\"\n.byte 0\n.previous");
enum { MOST_LINES = 512, MOST_TEXT = 2048, MOST_BYTES = 8192 };
static struct line {
    const char *name, *text;
    char mark;            /* what is before the text, or none (0) */
    char last[MOST_TEXT]; /* the text in the folder of this kind that was made last */
} lines[MOST_LINES];
static struct folder {
    struct line *lines;
    int last;
} folders[PARTS];

/* Reads the lines, among which the folders have the order of the parts. (Nothing is put into the machine's /run, which
   the sandbox has if there is none of its own for udev.) */
static void read_lines(void) {
    struct stat run, own;
    int has_own = stat("/run", &run) == 0 && stat("/run/udev", &own) == 0 && run.st_dev != own.st_dev;
    struct folder *folder = folders;
    struct line *line = lines;
    for (char *rest = sys_text, *at; (at = strsep(&rest, "\n"));) {
        if (*at == '#' || (strncmp(at, "/run/", 5) == 0 && !has_own))
            continue;
        if (*at == '[')
            (folder++)->lines = line;
        line->name = strsep(&at, " ");
        line->mark = at && *at && strchr(">!?@", *at) ? *at++ : '\0';
        line->text = at ?: "";
        line++;
    }
}

/* ---- the values, each after its name */

static struct value {
    const char *name;
    char text[MOST_TEXT];
} values[64];

/* What Identify Controller says of each controller. */
unsigned char identities[MOST_CONTROLLERS][IDENTIFY_BYTES];

/* Finds a value, or the place of a new one. */
static struct value *find_value(const char *name, size_t length) {
    struct value *value = values;
    while (value->name && (strncmp(value->name, name, length) != 0 || value->name[length]))
        value++;
    return value;
}

__attribute__((format(printf, 2, 3))) static void set(const char *name, const char *format, ...) {
    struct value *value = find_value(name, strlen(name));
    va_list texts;
    value->name = name;
    va_start(texts, format);
    vsnprintf(value->text, sizeof value->text, format, texts);
    va_end(texts);
}

/* Replaces the words in a text with their values, and | with the end of a line, as far as there is room. */
static void expand(char *into, size_t room, const char *text) {
    char *const last = into + room - 1, *end;
    while (*text && into < last) {
        size_t name = *text == '{' ? strcspn(text + 1, "}") : 0;
        if (name > 0) {
            end = memccpy(into, find_value(text + 1, name)->text, '\0', (size_t)(last - into));
            into = end ? end - 1 : last;
            text += name + 1;
        } else
            *into++ = *text == '|' ? '\n' : *text;
        text++;
    }
    *into = '\0';
}

/* Sets a text by four names: as it is, and without its spaces at the end, as digits and as a part of a file's name, as
   udev makes it. */
static void set_text(const char *const names[4], const unsigned char *text, size_t length) {
    char hex[2 * 40 + 1] = "", part[40 + 1], *into = part;
    set(names[0], "%.*s", (int)length, text);
    while (length > 0 && (text[length - 1] == ' ' || text[length - 1] == '\0'))
        length--;
    for (size_t at = 0; at < length; at++) {
        sprintf(hex + 2 * at, "%02x", text[at]);
        int is_kept = isalnum(text[at]) || (text[at] && strchr("#+-.:=@_", text[at]));
        if (text[at] != ' ' || at == 0 || text[at - 1] != ' ')
            *into++ = is_kept ? (char)text[at] : '_';
    }
    *into = '\0';
    set(names[1], "%.*s", (int)length, text);
    set(names[2], "%s", hex);
    set(names[3], "%s", part);
}

/* Sets the registers that depend on the geometry, as they are while a controller is ready. So do the addresses of its
   queues: each controller's rings, and after them the pages of its outstanding commands. */
static void set_registers(unsigned place) {
    const uint64_t page = geometry[PAGE_SIZE], submission = (64 * geometry[DEPTH] + page - 1) / page;
    const uint64_t completion = (16 * geometry[DEPTH] + page - 1) / page;
    const uint64_t pages = submission + completion + geometry[WINDOW] * ((16384 + page - 1) / page + 3);
    const uint64_t asq = place * pages * page, acq = asq + submission * page;
    set("cc", "%x", 0x00460001 | ((uint32_t)__builtin_ctzll(page) - 12) << 7);
    set("aqa", "%x", (uint32_t)(geometry[DEPTH] - 1) * 0x10001);
    set("asq", "%x %x", (uint32_t)asq, (uint32_t)(asq >> 32));
    set("acq", "%x %x", (uint32_t)acq, (uint32_t)(acq >> 32));
}

/* Sets the values of a controller. */
static void set_controller(unsigned number) {
    const unsigned char *identity = identities[number];
    set("k", "%u", (unsigned)(device_of(number) - devices));
    set("x", "%u", number);
    set("slot", "%02x", number);
    const unsigned vendor = (unsigned)number_at(identity, 2), subsystem = (unsigned)number_at(identity + 2, 2);
    set("vendor", "%04x", vendor);
    set("subsystem_vendor", "%04x", subsystem);
    set("VENDOR", "%04X", vendor);
    set("SUBSYSTEM_VENDOR", "%04X", subsystem);
    set("cntlid", "%u", (unsigned)number_at(identity + 78, 2));
    set("nqn", "%.256s", identity + 768);
    set("fua", "%d", identity[525] & 1);
    set("cache", "%s", identity[525] & 1 ? "back" : "through");
    set("most_kb", "%u", most_sectors(number) / 2);
    set_text((const char *[]){"serial", "serial_text", "serial_hex", "serial_name"}, identity + 4, 20);
    set_text((const char *[]){"model", "model_text", "model_hex", "model_name"}, identity + 24, 40);
    set_text((const char *[]){"firmware", "firmware_text", "firmware_hex", "firmware_name"}, identity + 64, 8);
    set_registers(number - device_of(number)->first);
}

/* Sets the values of what a folder shows, a controller, whose own don't change, or one of its namespaces, makes the path
   of the folder, which is one of them, and returns its first line. */
static struct line *set_values(enum part part, unsigned number, uint32_t nsid, char path[PATH_MAX]) {
    const struct volume *volume = volume_of(&(struct node){.controller = number, .nsid = nsid});
    const char kind = part == GENERIC ? 'g' : nsid != 0 ? 'b' : 'c';
    static unsigned known = MOST_CONTROLLERS;
    if (number != known)
        set_controller(number);
    known = number;
    set("n", "%u", volume->number);
    set("nsid", "%u", nsid);
    set("nsid_hex", "%08x", nsid);
    set("major", "%u", major_of(kind));
    set("minor", "%u", minor_of(kind, number, volume->number));
    if (volume->power != 0) {
        set("size", "%ju", volume->blocks << (volume->power - 9));
        set("block", "%u", 1U << volume->power);
        set("ro", "%d", volume->is_read_only);
    }
    expand(path, PATH_MAX, folders[part].lines->text);
    set("path", "%s", path + strlen("/sys/"));
    return folders[part].lines + 1;
}

/* ---- the files */

/* Gives a file a mode and bytes. The text has the mode, the number of bytes, and dwords, after which all are 0. */
static int put_bytes(int file, const char *text) {
    uint32_t dwords[MOST_BYTES / 4] = {0};
    char *at;
    mode_t mode = (mode_t)strtoul(text, &at, 8);
    size_t size = strtoul(at, &at, 10);
    for (unsigned place = 0; *at; place++)
        dwords[place] = (uint32_t)strtoul(at, &at, 16);
    return fchmod(file, mode) == 0 && write(file, dwords, size) == (ssize_t)size ? 0 : -1;
}

/* Makes an entry of a folder, if it isn't there. */
static int make(int folder, const char *name, char mark, const char *text) {
    if (mark == '>')
        return symlinkat(text, folder, name);
    if (mark == '?' && !*text)
        return 0;
    if (name[strlen(name) - 1] == '/')
        return mkdirat(folder, name, 0755);
    /* (nobody can read such a device, which needs no right to be made) */
    if (mark == '!')
        return mknodat(folder, name, S_IFCHR | 0200, 0);
    int file = openat(folder, name, O_WRONLY | O_CREAT | O_EXCL | O_CLOEXEC, 0444);
    if (file < 0)
        return -1;
    int result = mark == '@' ? put_bytes(file, text) : !*text || dprintf(file, "%s\n", text) > 0 ? 0 : -1;
    close(file);
    return result;
}

/* Makes an entry, in place of one of this folder. What is elsewhere stays, such as the first of several links with one
   name in /dev/disk, or what the command has put there. */
static void put(int folder, const char *name, char mark, const char *text) {
    if (make(folder, name, mark, text) == 0)
        return;
    if (*name != '/')
        unlinkat(folder, name, 0);
    if (make(folder, name, mark, text) < 0 && errno != EEXIST)
        cannot(name);
}

/* (an entry that is the same as in the last folder of this kind becomes another name of that one) */
void show(enum part part, unsigned number, uint32_t nsid) {
    char path[PATH_MAX], name[PATH_MAX], text[MOST_TEXT];
    struct folder *folder = folders + part;
    if (part == TOP)
        read_lines();
    struct line *line = set_values(part, number, nsid, path);
    put(AT_FDCWD, strcat(path, "/"), '\0', "");
    int at = open(path, O_PATH | O_DIRECTORY | O_NOFOLLOW | O_CLOEXEC);
    for (; *line->name && at >= 0; line++) {
        expand(name, sizeof name, line->name);
        expand(text, sizeof text, line->text);
        int is_same = *name != '/' && folder->last > 0 && strcmp(text, line->last) == 0;
        if (!is_same || linkat(folder->last, name, at, name, 0) < 0)
            put(at, name, line->mark, text);
        strcpy(line->last, text);
    }
    if (folder->last > 0)
        close(folder->last);
    folder->last = at;
}

static int is_link_to(const char *name, const char *text) {
    char found[PATH_MAX];
    read_link(name, found);
    return strcmp(found, text) == 0;
}

/* (what a folder has elsewhere is removed first, as it comes last, but for links that another folder has made) */
void hide(enum part part, unsigned number, uint32_t nsid) {
    char path[PATH_MAX], name[PATH_MAX], text[MOST_TEXT];
    struct line *const lines_of = set_values(part, number, nsid, path), *line = lines_of;
    int at = open(path, O_PATH | O_DIRECTORY | O_NOFOLLOW | O_CLOEXEC);
    while (*line->name)
        line++;
    while (line-- > lines_of) {
        expand(name, sizeof name, line->name);
        expand(text, sizeof text, line->text);
        if (*name != '/' || line->mark != '>' || is_link_to(name, text))
            unlinkat(at, name, name[strlen(name) - 1] == '/' ? AT_REMOVEDIR : 0);
    }
    close(at);
    rmdir(path);
}

/* Sets a temperature in thousandths of a degree (0 Kelvin is none, unless it is measured). */
static void set_kelvin(const char *name, const unsigned char *at, int is_measured) {
    int kelvin = (int)number_at(at, 2);
    set(name, kelvin > 0 || is_measured ? "%d" : "", 1000 * kelvin - 273150);
}

void show_health(unsigned number, const unsigned char *log) {
    set_kelvin("temperature", log + 1, 1);
    set_kelvin("warning", identities[number] + 266, 0);
    set_kelvin("critical", identities[number] + 268, 0);
    set("alarm", "%d", log[0] >> 1 & 1);
    show(HEALTH, number, 0);
}

unsigned most_sectors(unsigned number) {
    const unsigned usual = 2560, mdts = identities[number][77];
    return mdts != 0 && mdts < 9 ? 8u << mdts : usual;
}
