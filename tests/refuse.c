// Counts the allocations of the program that it is preloaded into, and refuses one of them: number $REFUSE_AT, from 1, or none where that is 0.
// At the end it writes three numbers to the file descriptor $REFUSE_TELLS: how many allocations there were, how many threads were made, and
// how many of these were joined. tests/refused-allocations compiles and uses it.
#define _GNU_SOURCE
#include <dlfcn.h>
#include <errno.h>
#include <pthread.h>
#include <stdatomic.h>
#include <stddef.h>
#include <stdio.h>
#include <stdlib.h>
#include <sys/syscall.h>
#include <unistd.h>

extern void *__libc_malloc(size_t size);
extern void *__libc_realloc(void *block, size_t size);

static atomic_long allocations, made, joined;
static long refused_at, tells = -1;
static int (*make_thread)(pthread_t *, const pthread_attr_t *, void *(*)(void *), void *);
static int (*join_thread)(pthread_t, void **);

__attribute__((constructor)) static void begin(void) {
    const char *at = getenv("REFUSE_AT"), *to = getenv("REFUSE_TELLS");
    make_thread = dlsym(RTLD_NEXT, "pthread_create");
    join_thread = dlsym(RTLD_NEXT, "pthread_join");
    tells = to ? atol(to) : -1;
    atomic_store(&allocations, 0);
    refused_at = at ? atol(at) : 0;
}

static void tell(void) {
    char text[100];
    int length = snprintf(text, sizeof text, "%ld %ld %ld\n", atomic_load(&allocations), atomic_load(&made), atomic_load(&joined));
    if (tells >= 0 && write((int)tells, text, (size_t)length) != length) abort();
}

// How the program ends.
void _exit(int status) {
    tell();
    for (;;) syscall(SYS_exit_group, status);
}

static int is_refused(void) {
    if (atomic_fetch_add(&allocations, 1) + 1 != refused_at) return 0;
    errno = ENOMEM;
    return 1;
}

void *malloc(size_t size) { return is_refused() ? NULL : __libc_malloc(size); }

void *realloc(void *block, size_t size) { return is_refused() ? NULL : __libc_realloc(block, size); }

int pthread_create(pthread_t *thread, const pthread_attr_t *attributes, void *(*work)(void *), void *given) {
    int fault = make_thread(thread, attributes, work, given);
    if (fault == 0) atomic_fetch_add(&made, 1);
    return fault;
}

int pthread_join(pthread_t thread, void **answer) {
    int fault = join_thread(thread, answer);
    if (fault == 0) atomic_fetch_add(&joined, 1);
    return fault;
}
