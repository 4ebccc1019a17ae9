/* Tries the page's heap as a native program: random calls beside a list of the allocated blocks, in a memory that grows to its
 * limit and fails there. Each block is aligned, overlaps no other and keeps its bytes; after the last is freed, one block
 * takes the whole memory again, and so do small ones. */
#include <stdio.h>
#include <stdlib.h>
#include <string.h>

static size_t grow_pages(size_t pages);
static size_t told_pages(void);
#define __builtin_wasm_memory_grow(memory, pages) grow_pages(pages)
#define __builtin_wasm_memory_size(memory) told_pages()
#define __heap_base arena_base
#define malloc page_malloc
#define realloc page_realloc
#define free page_free
#include "../heap.c"
#undef malloc
#undef realloc
#undef free

enum { PAGES = 96, BLOCKS = 400, STEPS = 100000 };
unsigned char arena[(PAGES + 1) * PAGE] __asm__("arena_base") __attribute__((aligned(PAGE)));
static size_t used_pages = 1;

static size_t told_pages(void) { return (uintptr_t)arena / PAGE + used_pages; }

static size_t grow_pages(size_t pages) {
    size_t old = told_pages();
    if (pages > PAGES - used_pages)
        return SIZE_MAX;
    used_pages += pages;
    return old;
}

static struct {
    unsigned char *at;
    size_t size;
    unsigned char byte;
} blocks[BLOCKS];

static void must(int is_so, const char *what) {
    if (!is_so) {
        fprintf(stderr, "library/web/tests/heap.c: %s\n", what);
        exit(1);
    }
}

static size_t any_size(void) {
    size_t most = (size_t)1 << (rand() % 20);
    return (size_t)rand() % most;
}

static void check_bytes(int i, size_t size) {
    for (size_t at = 0; at < size; at++)
        must(blocks[i].at[at] == blocks[i].byte, "a block's bytes changed");
}

static void fill(int i, unsigned char *at, size_t size) {
    must((uintptr_t)at % 16 == 0, "a block is not aligned");
    must(at >= arena && at + size <= arena + used_pages * PAGE, "a block lies outside the memory");
    blocks[i].at = at;
    blocks[i].size = size;
    blocks[i].byte = (unsigned char)rand();
    memset(at, blocks[i].byte, size);
}

static void no_overlap(void) {
    for (int i = 0; i < BLOCKS; i++)
        for (int j = 0; j < i; j++)
            must(!blocks[i].at || !blocks[j].at || blocks[i].at + blocks[i].size <= blocks[j].at
                     || blocks[j].at + blocks[j].size <= blocks[i].at, "two blocks overlap");
}

/* one random call; whether it found no room */
static int step(void) {
    int i = rand() % BLOCKS;
    size_t size = any_size();
    if (!blocks[i].at || rand() % 3 == 0) {
        size_t kept = blocks[i].at ? (blocks[i].size < size ? blocks[i].size : size) : 0;
        unsigned char *at = page_realloc(blocks[i].at, size);
        if (!at)
            return 1;
        blocks[i].at = at;
        check_bytes(i, kept);
        fill(i, at, size);
    } else {
        check_bytes(i, blocks[i].size);
        page_free(blocks[i].at);
        blocks[i].at = NULL;
    }
    return 0;
}

int main(void) {
    int failures = 0;
    srand(1);
    page_free(NULL);
    must(page_malloc(SIZE_MAX) == NULL && page_malloc(SIZE_MAX / 2) == NULL && page_malloc((size_t)1 << 33) == NULL,
         "a size that no memory has was found");
    for (int at = 0; at < STEPS; at++) {
        failures += step();
        if (at % 2000 == 0)
            no_overlap();
    }
    for (int i = 0; i < BLOCKS; i++) {
        if (blocks[i].at)
            check_bytes(i, blocks[i].size);
        page_free(blocks[i].at);
    }
    while (grow_pages(1) != SIZE_MAX)
        must(0, "the memory did not grow to its limit");
    size_t all = (PAGES - 1) * PAGE;
    void *whole = page_malloc(all);
    must(whole != NULL, "the freed blocks were not joined");
    must(page_malloc(2 * PAGE) == NULL, "more was allocated than there is");
    page_free(whole);
    size_t small = 0;
    while (page_malloc(1000))
        small++;
    must(small > all / 1100, "small blocks take too much room");
    must(failures > 100, "no call found the memory full");
    printf("heap: %d random calls, %d of them with no room\n", STEPS, failures);
    return 0;
}
