/* A counter in place of malloc, calloc, realloc and free, preloaded by tests/checks/refusals.py. REFUSE=N refuses the Nth request
   of the process, REFUSE=N+ that and each one after it; without it none is refused. At the end it writes to the descriptor
   REFUSE_TO how many requests there were, how many were refused, and how many blocks weren't given back. */
#include <stddef.h>
#include <stdio.h>
#include <stdlib.h>
#include <string.h>
#include <unistd.h>

extern void *__libc_malloc(size_t), *__libc_calloc(size_t, size_t), *__libc_realloc(void *, size_t);
extern void __libc_free(void *);

static unsigned long seen, refused, live, first;
static int onward, is_ready;

static int refuses(void) {
    if (!is_ready) return 0;
    seen++;
    if (first == 0 || seen < first || (seen > first && !onward)) return 0;
    refused++;
    return 1;
}

static void *counted(void *block) {
    if (block && is_ready) live++;
    return block;
}

void *malloc(size_t size) {
    return refuses() ? NULL : counted(__libc_malloc(size));
}

void *calloc(size_t count, size_t size) { return refuses() ? NULL : counted(__libc_calloc(count, size)); }

void *realloc(void *block, size_t size) {
    if (refuses()) return NULL;
    void *moved = __libc_realloc(block, size);
    return block ? moved : counted(moved);
}

void free(void *block) {
    if (block && is_ready) live--;
    __libc_free(block);
}

__attribute__((constructor)) static void begin(void) {
    const char *number = getenv("REFUSE");
    first = number ? strtoul(number, NULL, 10) : 0;
    onward = number && strchr(number, '+');
    is_ready = 1;
}

__attribute__((destructor)) static void end(void) {
    const char *to = getenv("REFUSE_TO");
    char line[96];
    is_ready = 0;
    if (to) {
        int length = snprintf(line, sizeof line, "%lu %lu %ld\n", seen, refused, (long)live);
        if (write(atoi(to), line, (size_t)length) < 0) _exit(99);
    }
}
