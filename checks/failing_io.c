/* Preloaded before a program: reads and writes of at most MOST bytes each, read number FAIL_READ and write number FAIL_WRITE fail, counted from 1,
   and so does each write after it. GROW names a file that is 4,096 bytes longer after each read. When the program ends, the numbers of its reads and
   writes are written to the file COUNT_TO. */
#define _GNU_SOURCE
#include <errno.h>
#include <fcntl.h>
#include <stdio.h>
#include <stdlib.h>
#include <string.h>
#include <sys/syscall.h>
#include <unistd.h>

static unsigned long reads, writes;

static unsigned long number(const char *name, unsigned long other) {
    const char *text = getenv(name);
    return text ? strtoul(text, NULL, 10) : other;
}

static void count(void) {
    const char *path = getenv("COUNT_TO");
    char text[48];
    int file = path ? open(path, O_WRONLY | O_CREAT | O_TRUNC, 0600) : -1;
    if (file < 0) return;
    int length = snprintf(text, sizeof text, "%lu %lu\n", reads, writes);
    syscall(SYS_write, file, text, length);
    close(file);
}

__attribute__((destructor)) static void end(void) { count(); }

void _exit(int status) {
    count();
    syscall(SYS_exit_group, status);
    __builtin_unreachable();
}

ssize_t read(int file, void *room, size_t size) {
    unsigned long most = number("MOST", size), at = __atomic_add_fetch(&reads, 1, __ATOMIC_SEQ_CST);
    const char *grows = getenv("GROW");
    if (at == number("FAIL_READ", 0)) {
        errno = EIO;
        return -1;
    }
    ssize_t got = syscall(SYS_read, file, room, size < most ? size : most);
    int more = grows ? open(grows, O_WRONLY | O_APPEND) : -1;
    if (more >= 0) {
        char spaces[4096];
        memset(spaces, ' ', sizeof spaces);
        syscall(SYS_write, more, spaces, sizeof spaces);
        close(more);
    }
    return got;
}

ssize_t write(int file, const void *bytes, size_t size) {
    unsigned long most = number("MOST", size), at = __atomic_add_fetch(&writes, 1, __ATOMIC_SEQ_CST), fails = number("FAIL_WRITE", 0);
    if (fails && at >= fails) {
        errno = ENOSPC;
        return -1;
    }
    return syscall(SYS_write, file, bytes, size < most ? size : most);
}

ssize_t __write(int file, const void *bytes, size_t size) { return write(file, bytes, size); }
