/* Loaded into a program by LD_PRELOAD: fails one of its calls, shortens its reads and writes, and says what was called.

   CALL    the kind of call that fails: allocation, read or write
   NUMBER  which of them, from 1
   ERROR   the errno of the failed read or write
   INTERRUPTED which read is interrupted, besides, from 1
   REFUSED which allocation fails, besides, from 1
   AT_MOST how many bytes a read or a write moves

   At the end "ALLOCATIONS READS WRITES HELD" goes to the descriptor 9: how often each was called, and how many
   allocations were not given back. */
#define _GNU_SOURCE
#include <errno.h>
#include <stdio.h>
#include <stdlib.h>
#include <string.h>
#include <sys/syscall.h>
#include <unistd.h>

extern void *__libc_malloc(size_t);
extern void *__libc_realloc(void *, size_t);
extern void __libc_free(void *);

enum { ALLOCATION, READ, WRITE, KINDS };
static const char *const names[KINDS] = {"allocation", "read", "write"};
static long calls[KINDS], named[KINDS], held;
static size_t at_most = -1;
static long interrupted, refused;
static int error, counts;

static long number_in(const char *name, long otherwise) {
    const char *text = getenv(name);
    return text ? atol(text) : otherwise;
}

__attribute__((constructor)) static void begin(void) {
    const char *kind = getenv("CALL");
    for (int i = 0; i < KINDS; i++)
        if (kind && !strcmp(kind, names[i])) named[i] = number_in("NUMBER", 0);
    error = number_in("ERROR", EIO);
    interrupted = number_in("INTERRUPTED", 0);
    refused = number_in("REFUSED", 0);
    at_most = number_in("AT_MOST", -1);
    counts = 1;
}

__attribute__((destructor)) static void end(void) {
    counts = 0;
    dprintf(9, "%ld %ld %ld %ld\n", calls[ALLOCATION], calls[READ], calls[WRITE], held);
}

static int fails(int kind) {
    if (!counts) return 0;
    calls[kind]++;
    return calls[kind] == named[kind] || (kind == ALLOCATION && calls[kind] == refused);
}

void *malloc(size_t size) {
    if (fails(ALLOCATION)) return NULL;
    void *made = __libc_malloc(size);
    if (counts && made) held++;
    return made;
}

void *realloc(void *old, size_t size) {
    if (fails(ALLOCATION)) return NULL;
    void *made = __libc_realloc(old, size);
    if (counts && made && !old) held++;
    return made;
}

void free(void *old) {
    if (counts && old) held--;
    __libc_free(old);
}

ssize_t read(int file, void *bytes, size_t size) {
    if (fails(READ)) return errno = error, -1;
    if (counts && calls[READ] == interrupted) return errno = EINTR, -1;
    return syscall(SYS_read, file, bytes, size < at_most ? size : at_most);
}

ssize_t write(int file, const void *bytes, size_t size) {
    /* What can't be told on standard error changes nothing. */
    if (file != 2 && fails(WRITE)) return errno = error, -1;
    return syscall(SYS_write, file, bytes, size < at_most ? size : at_most);
}

ssize_t __write(int file, const void *bytes, size_t size) { return write(file, bytes, size); }
