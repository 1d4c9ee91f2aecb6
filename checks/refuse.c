// Comes before the C library for checks/hostile.py: refuses one request for memory, lets one read of standard input or one
// write of standard output fail, and bounds how many bytes a read gives and a write takes. The environment says which:
//
//     REFUSE_MEMORY=N   the Nth request for memory, from 1
//     FAIL_READ=N       the Nth read of standard input          MOST_READ=N      the most bytes of a read
//     FAIL_WRITE=N      the Nth write of standard output        MOST_WRITTEN=N   the most bytes of a write
//     REFUSED=FILE      is made when a call was refused, so that it is known whether there was such a call
#define _GNU_SOURCE
#include <errno.h>
#include <fcntl.h>
#include <stddef.h>
#include <stdlib.h>
#include <sys/syscall.h>
#include <sys/uio.h>
#include <unistd.h>

void *__libc_malloc(size_t);
void *__libc_calloc(size_t, size_t);
void *__libc_realloc(void *, size_t);
void *__libc_memalign(size_t, size_t);

static long refuse_memory, fail_read, fail_write, most_read, most_written;
static long requests, reads, writes;
static const char *refused;

static long number(const char *name) {
    const char *value = getenv(name);
    return value ? atol(value) : 0;
}

__attribute__((constructor)) static void begin(void) {
    fail_read = number("FAIL_READ");
    fail_write = number("FAIL_WRITE");
    most_read = number("MOST_READ");
    most_written = number("MOST_WRITTEN");
    refused = getenv("REFUSED");
    refuse_memory = number("REFUSE_MEMORY");
}

// Whether this is the call that is refused.
static int is_refused(long *count, long at) {
    if (!at || ++*count != at)
        return 0;
    if (refused)
        syscall(SYS_close, syscall(SYS_openat, AT_FDCWD, refused, O_WRONLY | O_CREAT, 0600));
    return 1;
}

static void *no_memory(void) {
    errno = ENOMEM;
    return NULL;
}

void *malloc(size_t size) {
    return is_refused(&requests, refuse_memory) ? no_memory() : __libc_malloc(size);
}

void *calloc(size_t count, size_t size) {
    return is_refused(&requests, refuse_memory) ? no_memory() : __libc_calloc(count, size);
}

void *realloc(void *old, size_t size) {
    return is_refused(&requests, refuse_memory) ? no_memory() : __libc_realloc(old, size);
}

void *aligned_alloc(size_t align, size_t size) {
    return is_refused(&requests, refuse_memory) ? no_memory() : __libc_memalign(align, size);
}

void *memalign(size_t align, size_t size) {
    return aligned_alloc(align, size);
}

int posix_memalign(void **into, size_t align, size_t size) {
    void *found = aligned_alloc(align, size);
    if (!found)
        return ENOMEM;
    *into = found;
    return 0;
}

static ssize_t failed(void) {
    errno = EIO;
    return -1;
}

static size_t at_most(size_t count, long most) {
    return most && count > (size_t)most ? (size_t)most : count;
}

ssize_t read(int file, void *into, size_t count) {
    if (file == 0 && is_refused(&reads, fail_read))
        return failed();
    return syscall(SYS_read, file, into, file == 0 ? at_most(count, most_read) : count);
}

ssize_t write(int file, const void *from, size_t count) {
    if (file == 1 && is_refused(&writes, fail_write))
        return failed();
    return syscall(SYS_write, file, from, file == 1 ? at_most(count, most_written) : count);
}

// Of several pieces the first that holds anything is read or written alone.
static const struct iovec *first_piece(const struct iovec *pieces, int count) {
    while (count > 1 && pieces->iov_len == 0) {
        pieces++;
        count--;
    }
    return pieces;
}

ssize_t readv(int file, const struct iovec *pieces, int count) {
    const struct iovec *piece = first_piece(pieces, count);
    return read(file, piece->iov_base, piece->iov_len);
}

ssize_t writev(int file, const struct iovec *pieces, int count) {
    const struct iovec *piece = first_piece(pieces, count);
    return write(file, piece->iov_base, piece->iov_len);
}
