/* Counts the requests for memory of a program that preloads it, for the C library of GNU. Prints their number when the program ends. */
#include <stddef.h>
#include <stdio.h>
#include <sys/syscall.h>
#include <unistd.h>

extern void *__libc_malloc(size_t size);
extern void *__libc_calloc(size_t count, size_t size);
extern void *__libc_realloc(void *place, size_t size);
extern void *__libc_memalign(size_t alignment, size_t size);

static unsigned long requests;

static void count(void) { __atomic_fetch_add(&requests, 1, __ATOMIC_RELAXED); }

void *malloc(size_t size) { return count(), __libc_malloc(size); }

void *calloc(size_t number, size_t size) { return count(), __libc_calloc(number, size); }

void *realloc(void *place, size_t size) { return count(), __libc_realloc(place, size); }

void *aligned_alloc(size_t alignment, size_t size) { return count(), __libc_memalign(alignment, size); }

int posix_memalign(void **place, size_t alignment, size_t size) {
    *place = aligned_alloc(alignment, size);
    return *place ? 0 : 12;
}

__attribute__((destructor)) static void print(void) { dprintf(2, "requests\t%lu\n", requests); }

/* A program with threads ends by this call, which runs no destructors. */
void _exit(int status) {
    print();
    for (;;)
        syscall(SYS_exit_group, status);
}
