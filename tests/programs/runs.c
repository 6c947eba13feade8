/* Runs `test -b /dev/nvme0n1` by each call of the C library that runs a program, in a child that shares this memory if
   the call doesn't make one itself. The status is 0, or the number of the first way that failed. */
#define _GNU_SOURCE
#include <fcntl.h>
#include <spawn.h>
#include <stdio.h>
#include <stdlib.h>
#include <sys/wait.h>
#include <unistd.h>

static char *none[] = {0}, *words[] = {"test", "-b", "/dev/nvme0n1", 0}, *file = "/usr/bin/test";

static void run(int way) {
    switch (way) {
    case 0:
        execve(file, words, none);
        break;
    case 1:
        execle(file, "test", "-b", words[2], NULL, none);
        break;
    case 2:
        execvpe("test", words, none);
        break;
    case 3:
        execv(file, words);
        break;
    case 4:
        execvp("test", words);
        break;
    case 5:
        fexecve(open(file, O_RDONLY), words, none);
        break;
    case 6:
        execveat(AT_FDCWD, file, words, none, 0);
        break;
    default:
        execlp("test", "test", "-b", words[2], NULL);
    }
}

/* (in a shell, the environment is that of this process) */
static int spawns(int way) {
    const char *line = "/usr/bin/test -b /dev/nvme0n1";
    int how = -1;
    pid_t child;
    clearenv();
    switch (way) {
    case 8:
        return system(line) == 0;
    case 9: {
        FILE *shell = popen(line, "r");
        return shell && pclose(shell) == 0;
    }
    case 10:
        return posix_spawn(&child, file, NULL, NULL, words, none) == 0 && waitpid(child, &how, 0) == child && how == 0;
    default:
        return posix_spawnp(&child, file, NULL, NULL, words, none) == 0 && waitpid(child, &how, 0) == child && how == 0;
    }
}

int main(void) {
    for (int way = 0, how = 0; way < 8; way++) {
        if (vfork() == 0) {
            run(way);
            _exit(9);
        }
        wait(&how);
        if (how)
            return way + 1;
    }
    for (int way = 8; way < 12; way++)
        if (!spawns(way))
            return way + 1;
    return 0;
}
