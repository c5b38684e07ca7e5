/* Answers a program's reads of descriptor 0 and its writes to descriptor 1 as the variables READS
 * and WRITES say, a word for each call: a number lets at most so many bytes pass, `i` is a call that
 * a signal interrupted, `e` one that failed. After the last word every call passes. The comparison
 * (src/faults.rs) runs the program over it. */
#define _GNU_SOURCE
#include <errno.h>
#include <stdlib.h>
#include <sys/syscall.h>
#include <unistd.h>

struct list {
    const char *variable;
    char *rest;
};

/* How many of the bytes asked for the next call may move, or -1 with errno. */
static ssize_t allowed(struct list *list, size_t asked) {
    if (!list->rest)
        list->rest = getenv(list->variable);
    if (!list->rest)
        return (ssize_t)asked;
    while (*list->rest == ' ')
        list->rest++;
    if (*list->rest == 'i' || *list->rest == 'e') {
        errno = *list->rest++ == 'i' ? EINTR : EIO;
        return -1;
    }
    if (!*list->rest)
        return (ssize_t)asked;
    size_t most = strtoul(list->rest, &list->rest, 10);
    return (ssize_t)(most < asked ? most : asked);
}

ssize_t read(int descriptor, void *bytes, size_t asked) {
    static struct list reads = {"READS", NULL};
    ssize_t most = descriptor == STDIN_FILENO ? allowed(&reads, asked) : (ssize_t)asked;
    return most < 0 ? most : syscall(SYS_read, descriptor, bytes, (size_t)most);
}

ssize_t write(int descriptor, const void *bytes, size_t asked) {
    static struct list writes = {"WRITES", NULL};
    ssize_t most = descriptor == STDOUT_FILENO ? allowed(&writes, asked) : (ssize_t)asked;
    if (most == 0) {
        /* a device that takes nothing, and says no error */
        errno = 0;
        return 0;
    }
    return most < 0 ? most : syscall(SYS_write, descriptor, bytes, (size_t)most);
}
