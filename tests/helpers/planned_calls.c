/* `read` from standard input and `write` to standard output as a test plans them, for a program that is started with this
   library loaded first. READS and WRITES are numbers parted by spaces, one for each call: how many bytes it moves at most,
   or 0 for a call that fails. Past the last number calls are the system's own. */
#define _GNU_SOURCE
#include <errno.h>
#include <stdlib.h>
#include <sys/syscall.h>
#include <unistd.h>

struct plan {
    const char *variable;
    const char *left;
};

static struct plan reads = {"READS", NULL};
static struct plan writes = {"WRITES", NULL};

/* The most that the next call moves: `count` where nothing is planned. */
static size_t planned(struct plan *plan, size_t count) {
    if (plan->left == NULL) {
        plan->left = getenv(plan->variable);
    }
    if (plan->left == NULL || *plan->left == '\0') {
        return count;
    }
    char *end;
    size_t most = strtoul(plan->left, &end, 10);
    plan->left = end;
    return most < count ? most : count;
}

ssize_t read(int descriptor, void *bytes, size_t count) {
    size_t most = descriptor == STDIN_FILENO ? planned(&reads, count) : count;
    if (most == 0 && count > 0) {
        errno = EINTR;
        return -1;
    }
    return syscall(SYS_read, descriptor, bytes, most);
}

ssize_t write(int descriptor, const void *bytes, size_t count) {
    size_t most = descriptor == STDOUT_FILENO ? planned(&writes, count) : count;
    if (most == 0 && count > 0) {
        errno = ENOSPC;
        return -1;
    }
    return syscall(SYS_write, descriptor, bytes, most);
}
