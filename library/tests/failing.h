/* An allocation that fails when a test asks for it. A program with this is linked with --wrap=malloc,--wrap=realloc. */
#ifndef FAILING_H
#define FAILING_H

#include <stdbool.h>
#include <stddef.h>

#ifdef __cplusplus
extern "C" {
#endif
void *__real_malloc(size_t size);
void *__real_realloc(void *at, size_t size);
void *__wrap_malloc(size_t size);
void *__wrap_realloc(void *at, size_t size);
#ifdef __cplusplus
}
#endif

/* the number of the allocation that fails, and how many there were */
static unsigned long failing, asked;
static bool counts;

static bool fails(void) { return counts && ++asked == failing; }
void *__wrap_malloc(size_t size) { return fails() ? NULL : __real_malloc(size); }
void *__wrap_realloc(void *at, size_t size) { return fails() ? NULL : __real_realloc(at, size); }

/* from now on the allocation of this number fails, counted from 1, and no other */
static void fail_at(unsigned long number) {
    failing = number;
    asked = 0;
    counts = true;
}

/* whether it was reached; from now on none fails */
static bool has_failed(void) {
    counts = false;
    return asked >= failing;
}

#endif
