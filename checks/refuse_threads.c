// A pthread_create that is loaded before the C library's own, and refuses as the system does that has no thread left: of those
// that the process's first thread starts, the one whose number, counted from 1, stands in REFUSE_FIRST, and each behind it;
// likewise of those that its other threads start, by REFUSE_OTHERS. A refusal takes REFUSE_AFTER milliseconds.
#define _GNU_SOURCE
#include <dlfcn.h>
#include <errno.h>
#include <pthread.h>
#include <stdlib.h>
#include <unistd.h>
typedef int create(pthread_t *, const pthread_attr_t *, void *(*)(void *), void *);
static _Atomic long first_made = 0, others_made = 0;
static long number(const char *name) {
    const char *text = getenv(name);
    return text ? atol(text) : 0;
}
int pthread_create(pthread_t *thread, const pthread_attr_t *attributes, void *(*run)(void *), void *with) {
    int is_first = gettid() == getpid();
    long wanted = number(is_first ? "REFUSE_FIRST" : "REFUSE_OTHERS");
    long made = is_first ? ++first_made : ++others_made;
    if (wanted > 0 && made >= wanted) {
        usleep(1000 * number("REFUSE_AFTER"));
        return EAGAIN;
    }
    return ((create *)dlsym(RTLD_NEXT, "pthread_create"))(thread, attributes, run, with);
}
