/* The heap of the library in a web page, over the module's one memory. Blocks lie one after the other, and each begins with
 * its size and that of the block before it. Free blocks are in lists by size, and free neighbours are joined. The memory
 * grows at its end and never shrinks. malloc and realloc return NULL if it cannot grow. */
#include <stdbool.h>
#include <stddef.h>
#include <stdint.h>

typedef struct block block;
struct block {
    size_t before;         /* size of the block before this one, 0 if there is none */
    size_t size;           /* of this block with its head, a multiple of 16; the lowest bit is 1 if it is in use */
    block *next, *previous; /* in the list of free blocks; a block in use has its first bytes here */
};

enum { ALIGNMENT = 16, HEAD = 2 * sizeof(size_t), LEAST = sizeof(block), LISTS = 256, PAGE = 65536, GROWTH = 16 };
#define MOST ((size_t)4095 << 20) /* the most bytes of the memory, as in library/build */
_Static_assert(HEAD == ALIGNMENT && LEAST % ALIGNMENT == 0, "what malloc returns is aligned");

extern unsigned char __heap_base[]; /* the linker's: the first byte that nothing else uses */
static block *lists[LISTS];
static block *end; /* a head alone, in use, behind the last block */

static size_t size_of(const block *it) { return it->size & ~(size_t)1; }
static bool is_used(const block *it) { return it->size & 1; }
static block *block_at(void *at) { return (block *)at; }
static block *after(block *it) { return block_at((unsigned char *)it + size_of(it)); }
static block *before(block *it) { return block_at((unsigned char *)it - it->before); }
static block *block_of(void *p) { return block_at((unsigned char *)p - HEAD); }
static void *bytes_of(block *it) { return (unsigned char *)it + HEAD; }

/* the list of a size: four for each power of 2 */
static unsigned list_of(size_t size) {
    unsigned top = 63 - (unsigned)__builtin_clzll(size);
    return top * 4 + (unsigned)(size >> (top - 2) & 3);
}

static void put_in_list(block *it) {
    block **list = &lists[list_of(it->size)];
    it->previous = NULL;
    it->next = *list;
    if (it->next)
        it->next->previous = it;
    *list = it;
}

static void take_from_list(block *it) {
    if (it->next)
        it->next->previous = it->previous;
    if (it->previous)
        it->previous->next = it->next;
    else
        lists[list_of(it->size)] = it->next;
}

static void set_size(block *it, size_t size, bool used) {
    it->size = size | used;
    after(it)->before = size;
}

/* makes a block in use a free one, joined with free neighbours */
static void set_free(block *it) {
    size_t size = size_of(it);
    if (!is_used(after(it))) {
        size += after(it)->size;
        take_from_list(after(it));
    }
    if (it->before && !is_used(before(it))) {
        it = before(it);
        size += it->size;
        take_from_list(it);
    }
    set_size(it, size, false);
    put_in_list(it);
}

/* keeps the first bytes of a block in use, and frees the rest if it is large enough for a block */
static void cut(block *it, size_t size) {
    size_t whole = size_of(it);
    if (whole - size < LEAST)
        return;
    set_size(it, size, true);
    set_size(after(it), whole - size, true);
    set_free(after(it));
}

/* makes this number of bytes from `end` on a free block, with a new end behind it */
static void append(size_t bytes) {
    block *it = end;
    it->size = bytes | 1;
    end = after(it);
    end->size = 1;
    end->before = bytes;
    set_free(it);
}

/* whether the memory could grow by this number of pages; with 32-bit addresses a failure has 32 bits */
static bool has_grown(size_t pages) { return (uint32_t)__builtin_wasm_memory_grow(0, pages) != UINT32_MAX; }

/* begins the heap, if it has not begun, with the memory behind the module's own data; false if there is no room */
static bool has_begun(void) {
    uintptr_t first = ((uintptr_t)__heap_base + ALIGNMENT - 1) & ~(uintptr_t)(ALIGNMENT - 1);
    uintptr_t last = __builtin_wasm_memory_size(0) * PAGE;
    if (end)
        return true;
    if (last - first < LEAST + HEAD) {
        if (!has_grown(1))
            return false;
        last += PAGE;
    }
    end = block_at((void *)first);
    end->before = 0;
    append(last - first - HEAD);
    return true;
}

/* makes room for a block of this size at the end */
static bool grow(size_t size) {
    size_t wanted = (size + PAGE - 1) / PAGE, pages = wanted > GROWTH ? wanted : GROWTH;
    if (size > MOST)
        return false;
    if (!has_grown(pages)) {
        pages = wanted;
        if (!has_grown(pages))
            return false;
    }
    append(pages * PAGE);
    return true;
}

static block *found_in(block *list, size_t size) {
    while (list && list->size < size)
        list = list->next;
    return list;
}

/* a free block of at least this size, or NULL; all blocks of the lists behind that of the size are large enough */
static block *found(size_t size) {
    block *it = found_in(lists[list_of(size)], size);
    for (unsigned list = list_of(size) + 1; !it && list < LISTS; list++)
        it = lists[list];
    return it;
}

/* the size of a block for this number of bytes, or 0 if no block is that large */
static size_t whole_size(size_t bytes) {
    if (bytes > MOST)
        return 0;
    size_t size = (bytes + HEAD + ALIGNMENT - 1) & ~(size_t)(ALIGNMENT - 1);
    return size < LEAST ? LEAST : size;
}

void *malloc(size_t bytes) {
    size_t size = whole_size(bytes);
    if (!size || !has_begun())
        return NULL;
    block *it = found(size);
    if (!it && grow(size))
        it = found(size);
    if (!it)
        return NULL;
    take_from_list(it);
    it->size |= 1;
    cut(it, size);
    return bytes_of(it);
}

void free(void *p) {
    if (p)
        set_free(block_of(p));
}

/* makes a block in use this large, if it can: over a free neighbour behind it, or at the end of the memory */
static bool has_spread(block *it, size_t size) {
    size_t have = size_of(it);
    if (after(it) == end && !found(size) && !grow(size - have))
        return false;
    block *neighbour = after(it);
    if (is_used(neighbour) || have + neighbour->size < size)
        return false;
    take_from_list(neighbour);
    set_size(it, have + neighbour->size, true);
    return true;
}

void *realloc(void *p, size_t bytes) {
    size_t size = whole_size(bytes);
    if (!p)
        return malloc(bytes);
    if (!size)
        return NULL;
    block *it = block_of(p);
    size_t have = size_of(it);
    if (have >= size || has_spread(it, size)) {
        cut(it, size);
        return p;
    }
    void *to = malloc(bytes);
    if (to) {
        __builtin_memcpy(to, p, have - HEAD);
        free(p);
    }
    return to;
}
