/* A library that stands before the C library (LD_PRELOAD) and refuses one call of a program. tools/dev/refused_memory.py builds it.

   REFUSE_CALL    which calls are counted: allocation, open, read, write, thread; or short_read, short_write, which are not refused but
                  answered with one byte
   REFUSE_NUMBER  the number of the one that is refused, from 1
   REFUSE_MARK    the descriptor of a file into which a byte is written when it is

   The calls of all threads are counted together. */

#define _GNU_SOURCE
#include <dlfcn.h>
#include <errno.h>
#include <fcntl.h>
#include <pthread.h>
#include <stdarg.h>
#include <stdatomic.h>
#include <stdlib.h>
#include <string.h>
#include <sys/syscall.h>
#include <unistd.h>

/* The C library's own names, so that nothing has to be looked up (a look-up allocates). */
extern void *__libc_malloc(size_t size);
extern void *__libc_calloc(size_t count, size_t size);
extern void *__libc_realloc(void *old, size_t size);

typedef void *body(void *);
typedef int creating(pthread_t *thread, const pthread_attr_t *how, body *run, void *with);

/* Of threads it has no such name: it is looked up before anything is counted. */
static creating *create;

static atomic_long made;
static long refused_number;
static int mark = -1;
static const char *refused_call = "";

__attribute__((constructor)) static void begin(void)
{
    const char *call = getenv("REFUSE_CALL");
    const char *number = getenv("REFUSE_NUMBER");
    const char *file = getenv("REFUSE_MARK");
    create = (creating *)dlsym(RTLD_NEXT, "pthread_create");
    if (call && number && file) {
        refused_call = call;
        refused_number = atol(number);
        mark = atoi(file);
    }
}

/* Counts a call, and says whether it is the one. */
static int is_refused(const char *call)
{
    if (mark < 0 || strcmp(call, refused_call) != 0 || atomic_fetch_add(&made, 1) + 1 != refused_number)
        return 0;
    return syscall(SYS_write, mark, "x", 1) == 1;
}

static void *without_memory(void)
{
    errno = ENOMEM;
    return NULL;
}

static ssize_t failed(void)
{
    errno = EIO;
    return -1;
}

void *malloc(size_t size)
{
    return is_refused("allocation") ? without_memory() : __libc_malloc(size);
}

void *calloc(size_t count, size_t size)
{
    return is_refused("allocation") ? without_memory() : __libc_calloc(count, size);
}

void *realloc(void *old, size_t size)
{
    return is_refused("allocation") ? without_memory() : __libc_realloc(old, size);
}

int open(const char *path, int flags, ...)
{
    va_list more;
    va_start(more, flags);
    mode_t mode = flags & (O_CREAT | O_TMPFILE) ? va_arg(more, mode_t) : 0;
    va_end(more);
    return is_refused("open") ? (int)failed() : (int)syscall(SYS_openat, AT_FDCWD, path, flags, mode);
}

ssize_t read(int file, void *to, size_t size)
{
    if (is_refused("read"))
        return failed();
    return syscall(SYS_read, file, to, size > 1 && is_refused("short_read") ? 1 : size);
}

ssize_t write(int file, const void *from, size_t size)
{
    if (is_refused("write"))
        return failed();
    return syscall(SYS_write, file, from, size > 1 && is_refused("short_write") ? 1 : size);
}

int pthread_create(pthread_t *thread, const pthread_attr_t *how, body *run, void *with)
{
    return is_refused("thread") ? EAGAIN : create(thread, how, run, with);
}
