// A library to preload: it refuses an allocation, a read of standard input or a write of standard output, and lets reads
// and writes take few bytes. What is asked for stands in the environment:
//   FAIL_ALLOC=N       the Nth allocation gets no memory
//   FAIL_ALLOC_FROM=N  nor does any after it
//   FAIL_READ=N, FAIL_WRITE=N  the Nth read, or write, fails
//   PIECE=N            a read or a write takes at most N bytes
//   COUNTS=FILE        at the end the file gets the numbers of allocations, reads and writes
#define _GNU_SOURCE
#include <errno.h>
#include <fcntl.h>
#include <stdio.h>
#include <stdlib.h>
#include <string.h>
#include <sys/syscall.h>
#include <unistd.h>

void *__libc_malloc(size_t);
void *__libc_calloc(size_t, size_t);
void *__libc_realloc(void *, size_t);
void *__libc_memalign(size_t, size_t);

static unsigned long allocations, reads, writes;
static unsigned long failing_allocation, failing_from, failing_read, failing_write, piece;
static const char *counts;

static unsigned long number_of(const char *name) {
    const char *text = getenv(name);
    return text ? strtoul(text, NULL, 10) : 0;
}

__attribute__((constructor)) static void begin(void) {
    failing_allocation = number_of("FAIL_ALLOC");
    failing_from = number_of("FAIL_ALLOC_FROM");
    failing_read = number_of("FAIL_READ");
    failing_write = number_of("FAIL_WRITE");
    piece = number_of("PIECE");
    counts = getenv("COUNTS");
    allocations = 0;
}

static int write_counts(void) {
    if (!counts) return 1;
    char line[80];
    const int length = snprintf(line, sizeof line, "%lu %lu %lu\n", allocations, reads, writes);
    const int file = open(counts, O_WRONLY | O_CREAT | O_TRUNC, 0600);
    const int written = file >= 0 && syscall(SYS_write, file, line, length) == length;
    if (file >= 0) close(file);
    return written;
}

// The program ends by this call, so that no thread can hold it up.
void _exit(int status) {
    if (!write_counts()) status = 70;
    syscall(SYS_exit_group, status);
    __builtin_unreachable();
}

static int is_refused(void) {
    allocations++;
    if (allocations != failing_allocation && !(failing_from && allocations >= failing_from)) return 0;
    errno = ENOMEM;
    return 1;
}

void *malloc(size_t size) { return is_refused() ? NULL : __libc_malloc(size); }

void *calloc(size_t count, size_t size) { return is_refused() ? NULL : __libc_calloc(count, size); }

void *realloc(void *block, size_t size) { return is_refused() ? NULL : __libc_realloc(block, size); }

void *aligned_alloc(size_t alignment, size_t size) { return is_refused() ? NULL : __libc_memalign(alignment, size); }

int posix_memalign(void **block, size_t alignment, size_t size) {
    if (is_refused()) return ENOMEM;
    *block = __libc_memalign(alignment, size);
    return *block ? 0 : ENOMEM;
}

static size_t at_most(size_t count) { return piece && count > piece ? piece : count; }

ssize_t read(int file, void *into, size_t count) {
    if (file == STDIN_FILENO && ++reads == failing_read) {
        errno = EIO;
        return -1;
    }
    return syscall(SYS_read, file, into, at_most(count));
}

static ssize_t write_piece(int file, const void *from, size_t count) {
    if (file == STDOUT_FILENO && ++writes == failing_write) {
        errno = EIO;
        return -1;
    }
    return syscall(SYS_write, file, from, at_most(count));
}

ssize_t write(int file, const void *from, size_t count) { return write_piece(file, from, count); }

ssize_t __write(int file, const void *from, size_t count) { return write_piece(file, from, count); }
