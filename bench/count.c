/* Counts the allocations of a program that it is preloaded into, and writes the counts to the file COUNT_TO. */
#define _GNU_SOURCE
#include <dlfcn.h>
#include <stdatomic.h>
#include <stdio.h>
#include <stdlib.h>
#include <sys/syscall.h>
#include <unistd.h>

static atomic_ulong made, grown;

void *malloc(size_t size) {
    static void *(*next)(size_t);
    if (!next) next = dlsym(RTLD_NEXT, "malloc");
    atomic_fetch_add(&made, 1);
    return next(size);
}

void *realloc(void *old, size_t size) {
    static void *(*next)(void *, size_t);
    if (!next) next = dlsym(RTLD_NEXT, "realloc");
    atomic_fetch_add(&grown, 1);
    return next(old, size);
}

__attribute__((destructor)) static void tell(void) {
    const char *path = getenv("COUNT_TO");
    unsigned long m = atomic_load(&made), g = atomic_load(&grown);
    FILE *file = path ? fopen(path, "w") : NULL;
    if (!file) return;
    fprintf(file, "%lu %lu\n", m, g);
    fclose(file);
}

/* A program that is compiled by Rattle ends by it, and runs no destructor. */
void _exit(int status) {
    tell();
    syscall(SYS_exit_group, status);
    __builtin_unreachable();
}
