/* The outside of the program, made to fail: in the place of the kit's heap, and of read, write, _exit and the clock of the C library. The
   environment says what fails; each number counts from 1.
   REFUSE=N        the Nth allocation or growth is refused
   REFUSE_FROM=N   each from the Nth on is refused
   FAIL_READ=N     the Nth read fails
   FAIL_WRITE=N    the Nth write to standard output fails
   TAKE_NOTHING=N  the Nth write to standard output takes nothing
   PIECE=N         a read or a write moves at most N bytes
   MOMENTS=N,N..   what the clock tells, the last of them on and on; `x` is a moment that can't be read
   REPORT=FILE     where the numbers of allocations, reads and writes are written at the end */
#define _GNU_SOURCE
#include <errno.h>
#include <fcntl.h>
#include <stdio.h>
#include <stdlib.h>
#include <string.h>
#include <sys/syscall.h>
#include <time.h>
#include <unistd.h>

static unsigned long allocations, reads, writes;
static unsigned long refuse, refuse_from, fail_read, fail_write, take_nothing, piece;
static char nothing[64] __attribute__((aligned(64)));

struct answer {
    unsigned long is_done;
    void *place;
};

static unsigned long number_of(const char *name) {
    const char *text = getenv(name);
    return text ? strtoul(text, 0, 10) : 0;
}

static void report(void) {
    const char *file = getenv("REPORT");
    if (!file) return;
    char line[100];
    int length = snprintf(line, sizeof line, "%lu %lu %lu\n", allocations, reads, writes);
    int to = syscall(SYS_openat, AT_FDCWD, file, O_WRONLY | O_CREAT | O_TRUNC, 0644);
    if (to < 0) return;
    syscall(SYS_write, to, line, length);
    syscall(SYS_close, to);
}

static void begin(void) {
    static int has_begun;
    if (has_begun) return;
    has_begun = 1;
    refuse = number_of("REFUSE");
    refuse_from = number_of("REFUSE_FROM");
    fail_read = number_of("FAIL_READ");
    fail_write = number_of("FAIL_WRITE");
    take_nothing = number_of("TAKE_NOTHING");
    piece = number_of("PIECE");
    atexit(report);
}

static int is_refused(void) {
    begin();
    allocations++;
    return allocations == refuse || (refuse_from && allocations >= refuse_from);
}

static struct answer answer_of(void *place) {
    return place ? (struct answer){1, place} : (struct answer){0, nothing};
}

struct answer rattle_alloc(unsigned long size, unsigned long alignment) {
    return answer_of(is_refused() ? 0 : malloc(size ? size : alignment));
}

struct answer rattle_realloc(void *old, unsigned long old_size, unsigned long size, unsigned long alignment) {
    (void)old_size;
    return answer_of(is_refused() ? 0 : realloc(old, size ? size : alignment));
}

void rattle_dealloc(void *place) { free(place); }

/* The program may end by this, and then the C library does nothing at the end. */
void _exit(int status) {
    report();
    for (;;) syscall(SYS_exit_group, status);
}

ssize_t read(int from, void *into, size_t length) {
    begin();
    reads++;
    if (reads == fail_read) {
        errno = EIO;
        return -1;
    }
    if (piece && length > piece) length = piece;
    return syscall(SYS_read, from, into, length);
}

ssize_t write(int to, const void *from, size_t length) {
    if (to != 1) return syscall(SYS_write, to, from, length);
    begin();
    writes++;
    if (writes == fail_write) {
        errno = EIO;
        return -1;
    }
    if (writes == take_nothing) return 0;
    if (piece && length > piece) length = piece;
    return syscall(SYS_write, to, from, length);
}

int clock_gettime(clockid_t which, struct timespec *into) {
    static const char *next;
    static int has_begun;
    if (!has_begun) next = getenv("MOMENTS");
    has_begun = 1;
    if (!next) return syscall(SYS_clock_gettime, which, into);
    int is_unreadable = *next == 'x';
    into->tv_sec = is_unreadable ? 0 : strtoll(next, 0, 10);
    into->tv_nsec = 0;
    const char *comma = strchr(next, ',');
    if (comma) next = comma + 1;
    if (!is_unreadable) return 0;
    errno = EINVAL;
    return -1;
}
