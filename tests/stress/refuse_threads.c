/* Refuses threads of a program that is started with it (LD_PRELOAD): the one whose number is REFUSED_THREAD, counted from 1 on
   (as 3), or that and all behind it (as 3+). */
#define _GNU_SOURCE
#include <dlfcn.h>
#include <errno.h>
#include <pthread.h>
#include <stdlib.h>
#include <string.h>
typedef int create_thread(pthread_t *, const pthread_attr_t *, void *(*)(void *), void *);
static int asked;
int pthread_create(pthread_t *thread, const pthread_attr_t *how, void *(*start)(void *), void *given) {
    const char *refused = getenv("REFUSED_THREAD");
    int number = __atomic_add_fetch(&asked, 1, __ATOMIC_SEQ_CST);
    int first = refused ? atoi(refused) : 0;
    if (first && (number == first || (number > first && strchr(refused, '+')))) return EAGAIN;
    create_thread *create = (create_thread *)dlsym(RTLD_NEXT, "pthread_create");
    return create(thread, how, start, given);
}
