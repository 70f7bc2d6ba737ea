/* Refuses the allocation whose number, from 0, is in REFUSE, and says what was not given back.
 * Linked with -Wl,--wrap=malloc,--wrap=calloc,--wrap=realloc,--wrap=free. */
#include <stdatomic.h>
#include <stdio.h>
#include <stdlib.h>
#include <unistd.h>

void *__real_malloc(size_t);
void *__real_calloc(size_t, size_t);
void *__real_realloc(void *, size_t);
void __real_free(void *);

static atomic_long asked, live;

static void tell(void)
{
    if (live) {
        fprintf(stderr, "%ld blocks were not given back\n", live);
        _exit(4);
    }
}

static int refused(void)
{
    const char *which = getenv("REFUSE");
    long n = asked++;
    if (n == 0)
        atexit(tell);
    return which && n == atol(which);
}

void *__wrap_malloc(size_t size)
{
    void *at = refused() ? NULL : __real_malloc(size);
    live += at != NULL;
    return at;
}

void *__wrap_calloc(size_t count, size_t size)
{
    void *at = refused() ? NULL : __real_calloc(count, size);
    live += at != NULL;
    return at;
}

void *__wrap_realloc(void *at, size_t size)
{
    void *to = refused() ? NULL : __real_realloc(at, size);
    live += at == NULL && to != NULL;
    return to;
}

void __wrap_free(void *at)
{
    live -= at != NULL;
    __real_free(at);
}
