/* Loaded before a program (LD_PRELOAD), it refuses one allocation: the one whose number, counted from 1, is REFUSE_NTH
   in the environment. If REFUSE_REST is set, it also refuses all that follow. It reports the first one on standard
   error, so that the caller knows that the program came that far. */
#define _GNU_SOURCE
#include <dlfcn.h>
#include <errno.h>
#include <stddef.h>
#include <stdlib.h>
#include <unistd.h>

static const char said[] = "an allocation was refused\n";

static int is_refused(void) {
    static long nth = -1, count;
    static int is_rest_refused;
    if (nth < 0) {
        const char *word = getenv("REFUSE_NTH");
        is_rest_refused = getenv("REFUSE_REST") != NULL;
        nth = word ? strtol(word, NULL, 10) : 0;
    }
    if (nth == 0) {
        return 0;
    }
    long place = __atomic_add_fetch(&count, 1, __ATOMIC_SEQ_CST);
    if (place < nth || (place > nth && !is_rest_refused)) {
        return 0;
    }
    if (place == nth && write(STDERR_FILENO, said, sizeof said - 1) < 0) {
        abort();
    }
    errno = ENOMEM;
    return 1;
}

void *malloc(size_t size) {
    static void *(*next)(size_t);
    if (!next) {
        *(void **)&next = dlsym(RTLD_NEXT, "malloc");
    }
    return is_refused() ? NULL : next(size);
}

void *realloc(void *old, size_t size) {
    static void *(*next)(void *, size_t);
    if (!next) {
        *(void **)&next = dlsym(RTLD_NEXT, "realloc");
    }
    return is_refused() ? NULL : next(old, size);
}
