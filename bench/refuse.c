/* Refuses one request for memory of a program that it is preloaded into: the one of the number REFUSE, from 1, as the
 * threads of the program make them. A thread that is to be made counts as a request too. Writes to the file REFUSE_TO how
 * many there were. */
#define _GNU_SOURCE
#include <dlfcn.h>
#include <errno.h>
#include <pthread.h>
#include <stdatomic.h>
#include <stdio.h>
#include <stdlib.h>
#include <sys/syscall.h>
#include <unistd.h>

void *__libc_malloc(size_t size);
void *__libc_calloc(size_t count, size_t size);
void *__libc_realloc(void *old, size_t size);
void *__libc_memalign(size_t align, size_t size);

static atomic_ulong asked;
static unsigned long refused;

static int is_refused(void) {
    if (atomic_fetch_add(&asked, 1) + 1 != refused) return 0;
    errno = ENOMEM;
    return 1;
}

void *malloc(size_t size) {
    return is_refused() ? NULL : __libc_malloc(size);
}

void *calloc(size_t count, size_t size) {
    return is_refused() ? NULL : __libc_calloc(count, size);
}

void *realloc(void *old, size_t size) {
    return is_refused() ? NULL : __libc_realloc(old, size);
}

void *aligned_alloc(size_t align, size_t size) {
    return is_refused() ? NULL : __libc_memalign(align, size);
}

int posix_memalign(void **made, size_t align, size_t size) {
    void *at = is_refused() ? NULL : __libc_memalign(align, size);
    if (!at) return ENOMEM;
    *made = at;
    return 0;
}

int pthread_create(pthread_t *made, const pthread_attr_t *how, void *(*run)(void *), void *with) {
    static int (*next)(pthread_t *, const pthread_attr_t *, void *(*)(void *), void *);
    if (!next) next = dlsym(RTLD_NEXT, "pthread_create");
    return is_refused() ? EAGAIN : next(made, how, run, with);
}

/* What was asked for before the program began is neither counted nor refused. */
__attribute__((constructor)) static void begin(void) {
    const char *number = getenv("REFUSE");
    atomic_store(&asked, 0);
    refused = number ? strtoul(number, NULL, 10) : 0;
}

__attribute__((destructor)) static void tell(void) {
    const char *path = getenv("REFUSE_TO");
    unsigned long count = atomic_load(&asked);
    refused = 0;
    FILE *file = path ? fopen(path, "w") : NULL;
    if (!file) return;
    fprintf(file, "%lu\n", count);
    fclose(file);
}

/* A program that is compiled by Rattle ends by it, and runs no destructor. */
void _exit(int status) {
    tell();
    syscall(SYS_exit_group, status);
    __builtin_unreachable();
}
