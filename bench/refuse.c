/* Refuses one growth of memory of the program that it is loaded into: the one of number REFUSE. At the program's end file 3
   has `refused` where it came so far. */
#define _GNU_SOURCE
#include <dlfcn.h>
#include <errno.h>
#include <stddef.h>
#include <stdlib.h>
#include <unistd.h>

static void *(*next_malloc)(size_t);
static void *(*next_realloc)(void *, size_t);
static long refused_at;
static long asked;

static void look_up(void) {
    if (next_malloc == NULL) {
        next_malloc = (void *(*)(size_t))dlsym(RTLD_NEXT, "malloc");
        next_realloc = (void *(*)(void *, size_t))dlsym(RTLD_NEXT, "realloc");
        const char *number = getenv("REFUSE");
        refused_at = number == NULL ? 0 : atol(number);
    }
}

static int is_refused(void) {
    look_up();
    asked++;
    if (asked == refused_at) {
        errno = ENOMEM;
        return 1;
    }
    return 0;
}

void *malloc(size_t size) {
    return is_refused() ? NULL : next_malloc(size);
}

void *realloc(void *memory, size_t size) {
    return is_refused() ? NULL : next_realloc(memory, size);
}

__attribute__((destructor)) static void tell(void) {
    static const char word[] = "refused\n";
    if (refused_at != 0 && refused_at <= asked && write(3, word, sizeof word - 1) < 0) {
        _exit(1);
    }
}
