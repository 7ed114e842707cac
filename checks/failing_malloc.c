/* Preloaded before a program: its allocation number FAIL_AT fails, counted from 1, and with FAIL_ON each
   one behind it too. When the program ends, the number of its allocations is written to the file COUNT_TO. */
#define _GNU_SOURCE
#include <dlfcn.h>
#include <errno.h>
#include <fcntl.h>
#include <stdio.h>
#include <stdlib.h>
#include <string.h>
#include <sys/syscall.h>
#include <unistd.h>

static unsigned long asked, fail_at;
static int fail_on;

__attribute__((constructor)) static void begin(void) {
    const char *number = getenv("FAIL_AT");
    fail_at = number ? strtoul(number, NULL, 10) : 0;
    fail_on = getenv("FAIL_ON") != NULL;
    asked = 0;
}

__attribute__((destructor)) static void end(void) {
    const char *path = getenv("COUNT_TO");
    char text[32];
    int file = path ? open(path, O_WRONLY | O_CREAT | O_TRUNC, 0600) : -1;
    if (file < 0) return;
    int length = snprintf(text, sizeof text, "%lu\n", asked);
    if (write(file, text, length) < 0) syscall(SYS_exit_group, 99);
    close(file);
}

/* A program that threads may still run in ends so, and no destructor then runs. */
void _exit(int status) {
    end();
    syscall(SYS_exit_group, status);
    __builtin_unreachable();
}

static int fails(void) {
    /* Threads allocate at once. */
    unsigned long now = __atomic_add_fetch(&asked, 1, __ATOMIC_SEQ_CST);
    if (now != fail_at && !(fail_on && fail_at && now > fail_at)) return 0;
    errno = ENOMEM;
    return 1;
}

#define REAL(name) ((__typeof__(&name))dlsym(RTLD_NEXT, #name))

void *malloc(size_t size) { return fails() ? NULL : REAL(malloc)(size); }
void *realloc(void *place, size_t size) { return fails() ? NULL : REAL(realloc)(place, size); }
void *aligned_alloc(size_t align, size_t size) { return fails() ? NULL : REAL(aligned_alloc)(align, size); }
int posix_memalign(void **place, size_t align, size_t size) {
    return fails() ? ENOMEM : REAL(posix_memalign)(place, align, size);
}
