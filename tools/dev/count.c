/* A library that stands before the C library (LD_PRELOAD) and counts the allocations of a program: malloc, calloc, realloc and what maps
   memory. tools/dev/allocations.py builds it.

   COUNT_TO    the descriptor of a file that has the number, as 8 bytes

   The calls of all threads are counted together, but for those that the C library makes to begin a thread: it keeps stacks of threads that
   ended, so their number goes by when threads end. */

#define _GNU_SOURCE
#include <dlfcn.h>
#include <pthread.h>
#include <stdatomic.h>
#include <stdlib.h>
#include <sys/mman.h>
#include <sys/syscall.h>
#include <unistd.h>

/* The C library's own names, so that nothing has to be looked up (a look-up allocates). */
extern void *__libc_malloc(size_t size);
extern void *__libc_calloc(size_t count, size_t size);
extern void *__libc_realloc(void *old, size_t size);
extern void *__libc_memalign(size_t alignment, size_t size);

typedef void *body(void *);
typedef int creating(pthread_t *thread, const pthread_attr_t *how, body *run, void *with);

/* Of threads it has no such name: it is looked up before anything is counted. */
static creating *create;
static __thread int begins_a_thread;

/* In the file, since a program may end without a call of the C library. */
static atomic_long here;
static atomic_long *made = &here;

__attribute__((constructor)) static void begin(void)
{
    const char *file = getenv("COUNT_TO");
    create = (creating *)dlsym(RTLD_NEXT, "pthread_create");
    if (file && syscall(SYS_ftruncate, atoi(file), sizeof here) == 0)
        made = (atomic_long *)syscall(SYS_mmap, NULL, sizeof here, PROT_READ | PROT_WRITE, MAP_SHARED, atoi(file), 0);
}

static void note(void)
{
    if (!begins_a_thread)
        atomic_fetch_add(made, 1);
}

void *malloc(size_t size)
{
    note();
    return __libc_malloc(size);
}

void *calloc(size_t count, size_t size)
{
    note();
    return __libc_calloc(count, size);
}

void *realloc(void *old, size_t size)
{
    note();
    return __libc_realloc(old, size);
}

void *aligned_alloc(size_t alignment, size_t size)
{
    note();
    return __libc_memalign(alignment, size);
}

int posix_memalign(void **to, size_t alignment, size_t size)
{
    note();
    *to = __libc_memalign(alignment, size);
    return *to ? 0 : 12;
}

void *mmap(void *at, size_t size, int how, int flags, int file, off_t offset)
{
    note();
    return (void *)syscall(SYS_mmap, at, size, how, flags, file, offset);
}

int pthread_create(pthread_t *thread, const pthread_attr_t *how, body *run, void *with)
{
    begins_a_thread = 1;
    int answer = create(thread, how, run, with);
    begins_a_thread = 0;
    return answer;
}
