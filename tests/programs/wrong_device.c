/* A device program with one controller and no namespaces, which is wrong in the way that a letter, its subsystem file,
   stands for. */
#include "wire.h"
#include <unistd.h>

int main(void) {
    static const unsigned char data[2 * IDENTIFY_BYTES], first[] = {1, 0, 0, 0};
    static char line[5000] = "nvme";
    char way = '\0';
    struct request_header asked;
    (void)!read(STDERR_FILENO + 1, &way, 1);
    memset(line + 4, 'x', sizeof line - 4);
    line[sizeof line - 1] = '\n';
    while (read(STDIN_FILENO, &asked, sizeof asked) == sizeof asked) {
        int is_list = asked.kind == KIND_LIST, is_namespace = is_list && asked.length > 0 && way == 'n';
        struct answer_header answer = {.length = is_list ? 0 : asked.length};
        if (is_list)
            answer.dword_0 = way == '0' ? 0 : way == 'm' ? 257 : 1;
        if (is_namespace)
            answer.length = sizeof first;
        if (way == 'l')
            answer.length = asked.length + 1;
        if (way == 'b' && !is_list)
            answer.length = asked.length + 1;
        if (way == 'f' && !is_list)
            answer.status = 6;
        if (way == 'o' && asked.entry[0] == 0x0a)
            answer.outcome = NO_KIND;
        if (way == 'e' && !is_list)
            return 0;
        if (way == 's')
            (void)!write(STDERR_FILENO, line, sizeof line);
        (void)!write(STDOUT_FILENO, &answer, sizeof answer);
        (void)!write(STDOUT_FILENO, is_namespace ? first : data, answer.length);
    }
    return 0;
}
