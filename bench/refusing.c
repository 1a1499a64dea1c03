/* Refuses one request for memory, or each from one on, of the program that it is loaded into before the C library.
 *
 *   REFUSE=K       refuses the K-th request, counted from 1; 0 or nothing refuses none
 *   REFUSE_ON=1    refuses each later request too
 *   REQUESTS=FILE  writes to the file how many requests there were
 *
 * A request is a call of malloc, calloc, realloc, aligned_alloc or posix_memalign. Those that are made before main, by the
 * loader and the C library, are not counted where the program calls main by __libc_start_main.
 */
#define _GNU_SOURCE
#include <dlfcn.h>
#include <errno.h>
#include <stdio.h>
#include <stdlib.h>
#include <string.h>

extern void *__libc_malloc(size_t);
extern void *__libc_calloc(size_t, size_t);
extern void *__libc_realloc(void *, size_t);
extern void *__libc_memalign(size_t, size_t);

static unsigned long count, refused;
static int on, is_counting;

static int refuses(void) {
    if (!is_counting)
        return 0;
    count++;
    if (refused == 0 || count < refused || (count > refused && !on))
        return 0;
    errno = ENOMEM;
    return 1;
}

void *malloc(size_t size) { return refuses() ? NULL : __libc_malloc(size); }

void *calloc(size_t many, size_t size) { return refuses() ? NULL : __libc_calloc(many, size); }

void *realloc(void *old, size_t size) { return refuses() ? NULL : __libc_realloc(old, size); }

void *aligned_alloc(size_t align, size_t size) { return refuses() ? NULL : __libc_memalign(align, size); }

int posix_memalign(void **at, size_t align, size_t size) {
    void *got = refuses() ? NULL : __libc_memalign(align, size);
    if (!got)
        return ENOMEM;
    *at = got;
    return 0;
}

static int (*real_main)(int, char **, char **);

static int counted_main(int words, char **all, char **names) {
    const char *text = getenv("REFUSE");
    refused = text ? strtoul(text, NULL, 10) : 0;
    on = getenv("REFUSE_ON") != NULL;
    is_counting = 1;
    return real_main(words, all, names);
}

int __libc_start_main(int (*entry)(int, char **, char **), int words, char **all, void (*init)(void), void (*fini)(void),
                      void (*loader)(void), void *stack) {
    int (*start)(int (*)(int, char **, char **), int, char **, void (*)(void), void (*)(void), void (*)(void), void *) =
        dlsym(RTLD_NEXT, "__libc_start_main");
    real_main = entry;
    return start(counted_main, words, all, init, fini, loader, stack);
}

__attribute__((destructor)) static void tell(void) {
    const char *file = getenv("REQUESTS");
    FILE *out;
    is_counting = 0;
    if (!file)
        return;
    out = fopen(file, "w");
    if (out) {
        fprintf(out, "%lu\n", count);
        fclose(out);
    }
}
