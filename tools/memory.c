// Loaded into a program (LD_PRELOAD), it counts how often that asks the C library for memory, and says so at the end. Where MEMORY_FAILS is
// a number, it says nothing, and refuses the request of that number; where MEMORY_FAILS_ON is set, all behind it too.
#define _GNU_SOURCE
#include <dlfcn.h>
#include <stdio.h>
#include <stdlib.h>

static unsigned long asked, fails;
static int fails_on;

__attribute__((constructor)) static void begin(void) {
    const char *number = getenv("MEMORY_FAILS");
    if (number) fails = strtoul(number, NULL, 10);
    fails_on = getenv("MEMORY_FAILS_ON") != NULL;
}

static int is_refused(void) {
    asked++;
    return fails && (asked == fails || (fails_on && asked > fails));
}

void *malloc(size_t size) {
    static void *(*next)(size_t);
    if (!next) next = dlsym(RTLD_NEXT, "malloc");
    return is_refused() ? NULL : next(size);
}

void *realloc(void *block, size_t size) {
    static void *(*next)(void *, size_t);
    if (!next) next = dlsym(RTLD_NEXT, "realloc");
    return is_refused() ? NULL : next(block, size);
}

__attribute__((destructor)) static void say(void) {
    if (!fails) fprintf(stderr, "%lu\n", asked);
}
