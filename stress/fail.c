/* A library that is put before the C library by LD_PRELOAD, and fails some calls of one kind.

   FAIL_CALL   the kind: open, read, write, close, sync, memory, thread
   FAIL_FROM   the first of these calls that fails, counted from 1
   FAIL_TO     the last of them
   FAIL_BY     error: the call fails (EIO, or ENOMEM); signal: it is interrupted (EINTR); short: it moves one byte
   FAIL_TOLD   a file that is made when the first of them comes

   Reads and writes of the descriptors 0 to 2 are not counted. */
#define _GNU_SOURCE
#include <dlfcn.h>
#include <errno.h>
#include <fcntl.h>
#include <pthread.h>
#include <stdarg.h>
#include <stdatomic.h>
#include <stdlib.h>
#include <string.h>
#include <sys/syscall.h>
#include <sys/types.h>
#include <unistd.h>

extern void *__libc_malloc(size_t size);
extern void *__libc_calloc(size_t count, size_t size);
extern void *__libc_realloc(void *old, size_t size);
extern void *__libc_memalign(size_t alignment, size_t size);

static const char *kind = "";
static const char *told;
static long from, to;
static int is_signal, is_short;
static atomic_long calls;

__attribute__((constructor)) static void read_settings(void)
{
    const char *by = getenv("FAIL_BY");
    const char *first = getenv("FAIL_FROM");
    const char *last = getenv("FAIL_TO");
    told = getenv("FAIL_TOLD");
    from = first ? atol(first) : 0;
    to = last ? atol(last) : 0;
    is_signal = by && strcmp(by, "signal") == 0;
    is_short = by && strcmp(by, "short") == 0;
    if (getenv("FAIL_CALL"))
        kind = getenv("FAIL_CALL");
}

/* Counts a call of this kind, and says whether it is to fail. */
static int is_to_fail(const char *call)
{
    long number;
    if (strcmp(kind, call) != 0)
        return 0;
    number = atomic_fetch_add(&calls, 1) + 1;
    if (number == from && told)
        syscall(SYS_close, syscall(SYS_openat, AT_FDCWD, told, O_WRONLY | O_CREAT, 0666));
    return from <= number && number <= to;
}

/* What a call answers that fails. */
static int failed(void)
{
    errno = is_signal ? EINTR : EIO;
    return -1;
}

static int open_file(const char *name, int flags, mode_t mode)
{
    if (is_to_fail("open"))
        return failed();
    return syscall(SYS_openat, AT_FDCWD, name, flags, mode);
}

int open(const char *name, int flags, ...)
{
    mode_t mode = 0;
    if (flags & O_CREAT) {
        va_list more;
        va_start(more, flags);
        mode = va_arg(more, mode_t);
        va_end(more);
    }
    return open_file(name, flags, mode);
}

int open64(const char *name, int flags, ...)
{
    mode_t mode = 0;
    if (flags & O_CREAT) {
        va_list more;
        va_start(more, flags);
        mode = va_arg(more, mode_t);
        va_end(more);
    }
    return open_file(name, flags, mode);
}

ssize_t read(int file, void *bytes, size_t count)
{
    if (file > 2 && is_to_fail("read")) {
        if (!is_short)
            return failed();
        count = count < 1 ? count : 1;
    }
    return syscall(SYS_read, file, bytes, count);
}

ssize_t write(int file, const void *bytes, size_t count)
{
    if (file > 2 && is_to_fail("write")) {
        if (!is_short)
            return failed();
        count = count < 1 ? count : 1;
    }
    return syscall(SYS_write, file, bytes, count);
}

/* The descriptor is closed whatever is answered, as Linux does. */
int close(int file)
{
    int answer = syscall(SYS_close, file);
    return file > 2 && is_to_fail("close") ? failed() : answer;
}

int fsync(int file)
{
    return is_to_fail("sync") ? failed() : syscall(SYS_fsync, file);
}

int fdatasync(int file)
{
    return is_to_fail("sync") ? failed() : syscall(SYS_fdatasync, file);
}

int ftruncate(int file, off_t size)
{
    return is_to_fail("sync") ? failed() : syscall(SYS_ftruncate, file, size);
}

static int has_no_memory(void)
{
    if (!is_to_fail("memory"))
        return 0;
    errno = ENOMEM;
    return 1;
}

void *malloc(size_t size)
{
    return has_no_memory() ? NULL : __libc_malloc(size);
}

void *calloc(size_t count, size_t size)
{
    return has_no_memory() ? NULL : __libc_calloc(count, size);
}

void *realloc(void *old, size_t size)
{
    return has_no_memory() ? NULL : __libc_realloc(old, size);
}

void *aligned_alloc(size_t alignment, size_t size)
{
    return has_no_memory() ? NULL : __libc_memalign(alignment, size);
}

int posix_memalign(void **place, size_t alignment, size_t size)
{
    void *made = has_no_memory() ? NULL : __libc_memalign(alignment, size);
    if (made == NULL)
        return ENOMEM;
    *place = made;
    return 0;
}

int pthread_create(pthread_t *thread, const pthread_attr_t *attributes, void *(*start)(void *), void *argument)
{
    int (*create)(pthread_t *, const pthread_attr_t *, void *(*)(void *), void *) =
        (int (*)(pthread_t *, const pthread_attr_t *, void *(*)(void *), void *))dlsym(RTLD_NEXT, "pthread_create");
    return is_to_fail("thread") ? EAGAIN : create(thread, attributes, start, argument);
}
