/* What refusals.py loads before the C library: it lets the call fail that the variable REFUSE names, and tells so.
 *
 * REFUSE is a letter and the number of what passes before. a: one allocation fails, A: that one and all after it.
 * r, w, e: a read, a write, a write to standard error fails by its number, R, W, E: once so many bytes were moved.
 * o: one opening of a file; k: one fsync or rename; s: none, but each call moves one byte. What is told goes to the
 * descriptor TELL, as three numbers: 0 for a failure and 1 for a call where one failed before; the files read to their
 * end; the bytes moved since then. */
#define _GNU_SOURCE
#include <errno.h>
#include <fcntl.h>
#include <stdarg.h>
#include <stdlib.h>
#include <sys/syscall.h>
#include <unistd.h>

void *__libc_malloc(size_t);
void *__libc_calloc(size_t, size_t);
void *__libc_realloc(void *, size_t);
void *__libc_memalign(size_t, size_t);

static char kind;
static long left = -1, ends, moved;
static int teller, is_told, failed = -1;

__attribute__((constructor)) static void start(void) {
    const char *named = getenv("REFUSE"), *tell = getenv("TELL");
    if (named && tell) {
        teller = atoi(tell);
        left = atol(named + 1);
        kind = named[0];
    }
}

static void tell(long what) {
    long told[] = {what, ends, moved};
    syscall(SYS_write, teller, told, sizeof told);
}

/* Whether this allocation fails. */
static int fails(void) {
    if ((kind != 'a' && kind != 'A') || left < 0)
        return 0;
    if (left > 0) {
        left--;
        return 0;
    }
    if (!is_told)
        tell(0);
    is_told = 1;
    if (kind == 'a')
        left = -1;
    errno = ENOMEM;
    return 1;
}

void *malloc(size_t size) { return fails() ? NULL : __libc_malloc(size); }
void *calloc(size_t count, size_t size) { return fails() ? NULL : __libc_calloc(count, size); }
void *realloc(void *old, size_t size) { return fails() ? NULL : __libc_realloc(old, size); }
void *memalign(size_t align, size_t size) { return fails() ? NULL : __libc_memalign(align, size); }
void *aligned_alloc(size_t align, size_t size) { return memalign(align, size); }

int posix_memalign(void **made, size_t align, size_t size) {
    void *block = memalign(align, size);
    if (!block)
        return ENOMEM;
    *made = block;
    return 0;
}

/* Moves bytes by a call that fails by its number where kind is `calls`, or once so many moved where it is `bytes`. */
static ssize_t move(long call, char calls, char bytes, int descriptor, void *buffer, size_t size) {
    if (descriptor == failed)
        tell(1);
    if ((kind == calls || kind == bytes) && left == 0) {
        failed = descriptor;
        left = -1;
        tell(0);
        errno = EIO;
        return -1;
    }
    if (kind == bytes && left > 0 && size > (size_t)left)
        size = left;
    if (kind == 's' && size > 1)
        size = 1;
    ssize_t done = syscall(call, descriptor, buffer, size);
    if (done < 0 || (kind != calls && kind != bytes))
        return done;
    if (left > 0)
        left -= kind == calls ? 1 : done;
    moved = call == SYS_read && done == 0 ? 0 : moved + done;
    ends += call == SYS_read && done == 0;
    return done;
}

ssize_t read(int descriptor, void *buffer, size_t size) {
    return move(SYS_read, 'r', 'R', descriptor, buffer, size);
}

ssize_t write(int descriptor, const void *buffer, size_t size) {
    char calls = descriptor == 2 ? 'e' : 'w', bytes = descriptor == 2 ? 'E' : 'W';
    return move(SYS_write, calls, bytes, descriptor, (void *)buffer, size);
}

int open(const char *path, int flags, ...) {
    va_list more;
    va_start(more, flags);
    int mode = flags & O_CREAT ? va_arg(more, int) : 0;
    va_end(more);
    if (kind == 'o' && left-- == 0) {
        tell(0);
        errno = EIO;
        return -1;
    }
    return syscall(SYS_openat, AT_FDCWD, path, flags, mode);
}

/* Whether this call, which keeps a file, fails. */
static int fails_to_keep(void) {
    if (kind != 'k' || left-- != 0)
        return 0;
    tell(0);
    errno = EIO;
    return 1;
}

int fsync(int descriptor) { return fails_to_keep() ? -1 : syscall(SYS_fsync, descriptor); }
int rename(const char *from, const char *to) { return fails_to_keep() ? -1 : syscall(SYS_rename, from, to); }
