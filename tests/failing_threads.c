/* Refuses to start threads: with FAIL_AT=N in the environment the Nth call of pthread_create and each call after it
   answers that there is no room for another. */
#define _GNU_SOURCE
#include <dlfcn.h>
#include <errno.h>
#include <pthread.h>
#include <stdatomic.h>
#include <stdlib.h>

typedef int Create(pthread_t *, const pthread_attr_t *, void *(*)(void *), void *);

int pthread_create(pthread_t *thread, const pthread_attr_t *settings, void *(*begin)(void *), void *argument)
{
    static atomic_long calls;
    const char *at = getenv("FAIL_AT");
    if (at && atomic_fetch_add(&calls, 1) + 1 >= atol(at))
        return EAGAIN;
    return ((Create *)dlsym(RTLD_NEXT, "pthread_create"))(thread, settings, begin, argument);
}
