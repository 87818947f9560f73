/* A malloc that refuses one growth, or all from one on, and tells large ones; and a pthread_create that refuses so too.

   REFUSE_GROWTH  which growth, counted from 1 and from where the program's own code begins
   REFUSE_THREAD  which thread, counted from 1
   REFUSE_ALL     where it is set, all from that one on
   REFUSE_TOLD    a descriptor: one byte is written to it at the first refusal
   REFUSE_SIZES   a descriptor: the size of each growth of LARGE bytes or more is written to it, as 8 bytes */
#define _GNU_SOURCE
#include <dlfcn.h>
#include <errno.h>
#include <pthread.h>
#include <stdatomic.h>
#include <stddef.h>
#include <stdint.h>
#include <stdlib.h>
#include <unistd.h>

#define LARGE (1 << 20)

/* the C library's own */
void *__libc_malloc(size_t size);
void *__libc_calloc(size_t count, size_t size);
void *__libc_realloc(void *old, size_t size);

typedef int creates(pthread_t *thread, const pthread_attr_t *attributes, void *(*start)(void *), void *argument);

static creates *create;
static atomic_ulong growths, threads;
static atomic_int is_told;
static unsigned long refused_growth, refused_thread;
static int refuses_all, told = -1, sizes = -1;

static unsigned long number(const char *name) {
    const char *text = getenv(name);
    return text ? strtoul(text, NULL, 10) : 0;
}

__attribute__((constructor)) static void begin(void) {
    refuses_all = getenv("REFUSE_ALL") != NULL;
    if (getenv("REFUSE_TOLD")) told = (int)number("REFUSE_TOLD");
    if (getenv("REFUSE_SIZES")) sizes = (int)number("REFUSE_SIZES");
    create = (creates *)dlsym(RTLD_NEXT, "pthread_create");
    refused_thread = number("REFUSE_THREAD");
    refused_growth = number("REFUSE_GROWTH");
}

static void tell_size(uint64_t size) {
    if (sizes >= 0 && size >= LARGE && write(sizes, &size, sizeof size) != sizeof size) abort();
}

/* whether the next one is refused, where these were asked for already */
static int is_next(atomic_ulong *asked, unsigned long refused) {
    if (!refused) return 0;
    unsigned long count = atomic_fetch_add(asked, 1) + 1;
    if (count != refused && !(refuses_all && count > refused)) return 0;
    if (!atomic_exchange(&is_told, 1) && told >= 0 && write(told, "r", 1) != 1) abort();
    return 1;
}

static int is_refused(uint64_t size) {
    tell_size(size);
    if (!is_next(&growths, refused_growth)) return 0;
    errno = ENOMEM;
    return 1;
}

void *malloc(size_t size) { return is_refused(size) ? NULL : __libc_malloc(size); }

void *calloc(size_t count, size_t size) { return is_refused(count * size) ? NULL : __libc_calloc(count, size); }

void *realloc(void *old, size_t size) { return is_refused(size) ? NULL : __libc_realloc(old, size); }

int pthread_create(pthread_t *thread, const pthread_attr_t *attributes, void *(*start)(void *), void *argument) {
    return is_next(&threads, refused_thread) ? EAGAIN : create(thread, attributes, start, argument);
}
