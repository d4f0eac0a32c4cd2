/* A read that fails, for tools/messages and tools/week_messages, which preload it (LD_PRELOAD) into the programs. The
   reads of one file are counted, from 1: FAIL_FILE is the end of its name, FAIL_FROM and FAIL_TO the first and the last
   read that fail, FAIL_ERRNO the reason, as a number, and FAIL_SHORT how many bytes any other read of it moves at
   most. */
#define _GNU_SOURCE
#include <errno.h>
#include <stdio.h>
#include <stdlib.h>
#include <string.h>
#include <sys/syscall.h>
#include <unistd.h>

static long number(const char *name) {
    const char *text = getenv(name);
    return text ? atol(text) : 0;
}

/* Whether the descriptor's file has the name. */
static int is_the_file(int fd) {
    const char *name = getenv("FAIL_FILE");
    char link[64], path[4096];
    ssize_t length;
    snprintf(link, sizeof link, "/proc/self/fd/%d", fd);
    length = readlink(link, path, sizeof path - 1);
    if (!name || length < (ssize_t)strlen(name)) {
        return 0;
    }
    path[length] = 0;
    return strcmp(path + length - strlen(name), name) == 0;
}

ssize_t read(int fd, void *bytes, size_t length) {
    static long count;
    if (is_the_file(fd)) {
        long most = number("FAIL_SHORT");
        count++;
        if (number("FAIL_FROM") <= count && count <= number("FAIL_TO")) {
            errno = (int)number("FAIL_ERRNO");
            return -1;
        }
        if (0 < most && (size_t)most < length) {
            length = (size_t)most;
        }
    }
    return syscall(SYS_read, fd, bytes, length);
}
