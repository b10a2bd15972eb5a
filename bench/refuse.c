/* Refuses one allocation: preloaded before a program, it makes the call numbered REFUSE of malloc, calloc, realloc,
   aligned_alloc, posix_memalign and memalign answer that there is no memory, counted from 1 in the order of the calls of
   all threads; 0 refuses none. As the program ends it writes how many such calls there were into the file descriptor
   REFUSE_TOLD. What the C library and the loader ask for themselves by these names is counted, too. */
#define _GNU_SOURCE
#include <dlfcn.h>
#include <errno.h>
#include <stdatomic.h>
#include <stddef.h>
#include <stdio.h>
#include <stdlib.h>
#include <sys/syscall.h>
#include <unistd.h>

extern void *__libc_malloc(size_t);
extern void *__libc_calloc(size_t, size_t);
extern void *__libc_realloc(void *, size_t);
extern void *__libc_memalign(size_t, size_t);

static atomic_ulong calls;
static unsigned long refused;
static int told = -1;

__attribute__((constructor)) static void begin(void) {
    const char *number = getenv("REFUSE"), *place = getenv("REFUSE_TOLD");
    refused = number ? strtoul(number, NULL, 10) : 0;
    told = place ? atoi(place) : -1;
    atomic_store(&calls, 0);
}

__attribute__((destructor)) static void end(void) {
    if (told >= 0)
        dprintf(told, "%lu\n", atomic_load(&calls));
}

/* A program may end without what is done at an end. */
void _exit(int status) {
    end();
    for (;;)
        syscall(SYS_exit_group, status);
}

/* Whether the call at hand is the one to be refused. */
static int is_refused(void) {
    return atomic_fetch_add(&calls, 1) + 1 == refused;
}

void *malloc(size_t size) {
    if (is_refused()) {
        errno = ENOMEM;
        return NULL;
    }
    return __libc_malloc(size);
}

void *calloc(size_t count, size_t size) {
    if (is_refused()) {
        errno = ENOMEM;
        return NULL;
    }
    return __libc_calloc(count, size);
}

void *realloc(void *block, size_t size) {
    if (is_refused()) {
        errno = ENOMEM;
        return NULL;
    }
    return __libc_realloc(block, size);
}

void *memalign(size_t alignment, size_t size) {
    if (is_refused()) {
        errno = ENOMEM;
        return NULL;
    }
    return __libc_memalign(alignment, size);
}

void *aligned_alloc(size_t alignment, size_t size) {
    return memalign(alignment, size);
}

int posix_memalign(void **block, size_t alignment, size_t size) {
    void *made = memalign(alignment, size);
    if (made == NULL)
        return ENOMEM;
    *block = made;
    return 0;
}
