/* Makes one allocation, read or write of a program fail: the one of the number in FAIL_ALLOC, FAIL_READ or FAIL_WRITE, from 1.
   It is loaded in front of the C library (LD_PRELOAD). The counts stand in the file named by FAIL_COUNTS, as three numbers of 64 bits, also where the
   program ends without a word to its library. */
#define _GNU_SOURCE
#include <errno.h>
#include <fcntl.h>
#include <stdatomic.h>
#include <stdlib.h>
#include <string.h>
#include <sys/mman.h>
#include <sys/syscall.h>
#include <unistd.h>

extern void *__libc_malloc(size_t);
extern void *__libc_calloc(size_t, size_t);
extern void *__libc_realloc(void *, size_t);
extern void *__libc_memalign(size_t, size_t);

/* Allocations, reads and writes so far. */
static atomic_long here[3];
static atomic_long *counts = here;
static long fail_alloc = -1, fail_read = -1, fail_write = -1;

static long number(const char *name) {
    const char *text = getenv(name);
    return text ? atol(text) : -1;
}

/* Counting starts when the program does, and not with its loader. */
__attribute__((constructor)) static void start(void) {
    fail_alloc = number("FAIL_ALLOC");
    fail_read = number("FAIL_READ");
    fail_write = number("FAIL_WRITE");
    memset(here, 0, sizeof here);
    const char *name = getenv("FAIL_COUNTS");
    if (!name)
        return;
    int file = open(name, O_RDWR | O_CREAT | O_TRUNC, 0600);
    if (file < 0 || ftruncate(file, sizeof here) != 0)
        abort();
    void *shared = mmap(NULL, sizeof here, PROT_READ | PROT_WRITE, MAP_SHARED, file, 0);
    if (shared == MAP_FAILED)
        abort();
    counts = shared;
}

static int fails(atomic_long *count, long at, int error) {
    if (atomic_fetch_add(count, 1) + 1 != at)
        return 0;
    errno = error;
    return 1;
}

void *malloc(size_t size) {
    return fails(&counts[0], fail_alloc, ENOMEM) ? NULL : __libc_malloc(size);
}

void *calloc(size_t many, size_t size) {
    return fails(&counts[0], fail_alloc, ENOMEM) ? NULL : __libc_calloc(many, size);
}

void *realloc(void *old, size_t size) {
    return fails(&counts[0], fail_alloc, ENOMEM) ? NULL : __libc_realloc(old, size);
}

void *aligned_alloc(size_t align, size_t size) {
    return fails(&counts[0], fail_alloc, ENOMEM) ? NULL : __libc_memalign(align, size);
}

int posix_memalign(void **to, size_t align, size_t size) {
    if (fails(&counts[0], fail_alloc, ENOMEM))
        return ENOMEM;
    *to = __libc_memalign(align, size);
    return *to ? 0 : ENOMEM;
}

ssize_t read(int file, void *to, size_t most) {
    return fails(&counts[1], fail_read, EIO) ? -1 : syscall(SYS_read, file, to, most);
}

ssize_t write(int file, const void *from, size_t most) {
    return fails(&counts[2], fail_write, EIO) ? -1 : syscall(SYS_write, file, from, most);
}
