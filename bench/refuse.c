/* Refuses one allocation of a program. Loaded before the C library (LD_PRELOAD), it lets the allocation of that number, counted
 * from 1 in the environment's REFUSE, fail, and then says so on standard error. glibc alone. */
#include <stddef.h>
#include <stdlib.h>
#include <unistd.h>

extern void *__libc_malloc(size_t size);
extern void *__libc_calloc(size_t count, size_t size);
extern void *__libc_realloc(void *old, size_t size);
extern void *__libc_memalign(size_t alignment, size_t size);

static unsigned long left;

__attribute__((constructor)) static void begin(void)
{
    const char *number = getenv("REFUSE");
    left = number ? strtoul(number, NULL, 10) : 0;
}

static int is_refused(void)
{
    static const char said[] = "refused\n";

    if (left == 0 || --left != 0)
        return 0;
    if (write(2, said, sizeof said - 1) < 0)
        _exit(99);
    return 1;
}

void *malloc(size_t size)
{
    return is_refused() ? NULL : __libc_malloc(size);
}

void *calloc(size_t count, size_t size)
{
    return is_refused() ? NULL : __libc_calloc(count, size);
}

void *realloc(void *old, size_t size)
{
    return is_refused() ? NULL : __libc_realloc(old, size);
}

void *aligned_alloc(size_t alignment, size_t size)
{
    return is_refused() ? NULL : __libc_memalign(alignment, size);
}

int posix_memalign(void **made, size_t alignment, size_t size)
{
    void *block = is_refused() ? NULL : __libc_memalign(alignment, size);

    if (block == NULL)
        return 12; /* ENOMEM */
    *made = block;
    return 0;
}
