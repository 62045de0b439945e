/* Loaded before the C library: refuses the allocation whose number, from 1, REFUSE names, or the start of the thread whose
   number REFUSE_THREAD names, of each thread where it is 0, and then makes the empty file that REFUSED names. */
#define _GNU_SOURCE
#include <dlfcn.h>
#include <errno.h>
#include <fcntl.h>
#include <pthread.h>
#include <stdlib.h>

static long seen; /* by all threads */
static long started;

static int leaves_mark(void)
{
    open(getenv("REFUSED"), O_CREAT | O_WRONLY, 0644);
    return 1;
}

static int refuses(void)
{
    const char *number = getenv("REFUSE");
    if (!number || !getenv("REFUSED") || __atomic_add_fetch(&seen, 1, __ATOMIC_SEQ_CST) != atol(number))
        return 0;
    leaves_mark();
    errno = ENOMEM;
    return 1;
}

static int refuses_thread(void)
{
    const char *number = getenv("REFUSE_THREAD");
    if (!number || !getenv("REFUSED"))
        return 0;
    long here = __atomic_add_fetch(&started, 1, __ATOMIC_SEQ_CST);
    return (atol(number) == 0 || here == atol(number)) && leaves_mark();
}

void *malloc(size_t size)
{
    static void *(*real)(size_t);
    if (!real)
        real = dlsym(RTLD_NEXT, "malloc");
    return refuses() ? 0 : real(size);
}

void *realloc(void *old, size_t size)
{
    static void *(*real)(void *, size_t);
    if (!real)
        real = dlsym(RTLD_NEXT, "realloc");
    return refuses() ? 0 : real(old, size);
}

void *aligned_alloc(size_t alignment, size_t size)
{
    static void *(*real)(size_t, size_t);
    if (!real)
        real = dlsym(RTLD_NEXT, "aligned_alloc");
    return refuses() ? 0 : real(alignment, size);
}

int posix_memalign(void **made, size_t alignment, size_t size)
{
    static int (*real)(void **, size_t, size_t);
    if (!real)
        real = dlsym(RTLD_NEXT, "posix_memalign");
    return refuses() ? ENOMEM : real(made, alignment, size);
}

int pthread_create(pthread_t *made, const pthread_attr_t *attributes, void *(*body)(void *), void *given)
{
    static int (*real)(pthread_t *, const pthread_attr_t *, void *(*)(void *), void *);
    if (!real)
        real = dlsym(RTLD_NEXT, "pthread_create");
    return refuses_thread() ? EAGAIN : real(made, attributes, body, given);
}
