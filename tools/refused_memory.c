/* Loaded into a program before libc (LD_PRELOAD) it counts the program's allocations. REFUSED is the number of the one that
 * is refused, from 1, and REFUSED_FROM that of the first one of all that are; at the end the number of all is written to the
 * file that COUNTED names. */
#define _GNU_SOURCE
#include <errno.h>
#include <stdatomic.h>
#include <stddef.h>
#include <stdio.h>
#include <stdlib.h>
#include <sys/syscall.h>
#include <unistd.h>

void *__libc_malloc(size_t size);
void *__libc_calloc(size_t count, size_t size);
void *__libc_realloc(void *old, size_t size);
void *__libc_memalign(size_t place, size_t size);

static atomic_long made;
static long refused, refused_from;

static long number_of(const char *name)
{
    const char *number = getenv(name);
    return number ? atol(number) : 0;
}

__attribute__((constructor)) static void begin(void)
{
    refused = number_of("REFUSED");
    refused_from = number_of("REFUSED_FROM");
    atomic_store(&made, 0);
}

static void tell_count(void)
{
    const char *name = getenv("COUNTED");
    long count = atomic_load(&made);
    FILE *file = name ? fopen(name, "w") : NULL;
    if (file) {
        fprintf(file, "%ld\n", count);
        fclose(file);
    }
}

/* By this the program ends, without a way through exit(3). */
void _exit(int status)
{
    tell_count();
    for (;;)
        syscall(SYS_exit_group, status);
}

static int is_refused(void)
{
    long number = atomic_fetch_add(&made, 1) + 1;
    if (number != refused && (refused_from == 0 || number < refused_from))
        return 0;
    errno = ENOMEM;
    return 1;
}

void *malloc(size_t size) { return is_refused() ? NULL : __libc_malloc(size); }

void *calloc(size_t count, size_t size) { return is_refused() ? NULL : __libc_calloc(count, size); }

void *realloc(void *old, size_t size) { return is_refused() ? NULL : __libc_realloc(old, size); }

void *aligned_alloc(size_t place, size_t size) { return is_refused() ? NULL : __libc_memalign(place, size); }

void *memalign(size_t place, size_t size) { return is_refused() ? NULL : __libc_memalign(place, size); }

int posix_memalign(void **found, size_t place, size_t size)
{
    *found = is_refused() ? NULL : __libc_memalign(place, size);
    return *found ? 0 : ENOMEM;
}
