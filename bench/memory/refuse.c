/* Refuses one allocation of a program that is started with this library before the others (LD_PRELOAD): the one whose number, counted from 1, stands
   in REFUSED. It then makes the file that TOLD names, so that one sees whether there were so many. */
#define _GNU_SOURCE
#include <dlfcn.h>
#include <fcntl.h>
#include <stdatomic.h>
#include <stddef.h>
#include <stdlib.h>
#include <unistd.h>

static _Atomic unsigned long asked;
static unsigned long refused;
static const char *told;
static void *(*plain_malloc)(size_t);
static void *(*plain_realloc)(void *, size_t);

__attribute__((constructor)) static void begin(void)
{
    const char *number = getenv("REFUSED");
    plain_malloc = (void *(*)(size_t))dlsym(RTLD_NEXT, "malloc");
    plain_realloc = (void *(*)(void *, size_t))dlsym(RTLD_NEXT, "realloc");
    told = getenv("TOLD");
    refused = number ? strtoul(number, NULL, 10) : 0;
    atomic_store(&asked, 0);
}

static int is_refused(void)
{
    if (atomic_fetch_add(&asked, 1) + 1 != refused)
        return 0;
    if (told)
        close(open(told, O_CREAT | O_WRONLY, 0600));
    return 1;
}

void *malloc(size_t size)
{
    if (!plain_malloc)
        plain_malloc = (void *(*)(size_t))dlsym(RTLD_NEXT, "malloc");
    return is_refused() ? NULL : plain_malloc(size);
}

void *realloc(void *block, size_t size)
{
    if (!plain_realloc)
        plain_realloc = (void *(*)(void *, size_t))dlsym(RTLD_NEXT, "realloc");
    return is_refused() ? NULL : plain_realloc(block, size);
}
