/* 64 threads ask one mesh at the same time, each for layers of its own choice, and each answer is that of one thread. It is
 * linked with the library as ThreadSanitizer watches it: what is read and written by two threads at once ends the program with
 * status 66. Otherwise the status is 0, or 100 if an answer is another one.
 *
 *     threads FILE PITCH LAYER */
#include "stlslice.h"

#include "checks.h"

#include <pthread.h>
#include <string.h>

#define THREADS 64
#define TURNS 40
#define KINDS 7

/* The library's compiler calls these; the watched ones of C do the same. */
void *__tsan_memcpy(void *to, const void *from, size_t size);
void *__tsan_memmove(void *to, const void *from, size_t size);
void *__tsan_memset(void *to, int byte, size_t size);
void *__tsan_memcpy(void *to, const void *from, size_t size) { return memcpy(to, from, size); }
void *__tsan_memmove(void *to, const void *from, size_t size) { return memmove(to, from, size); }
void *__tsan_memset(void *to, int byte, size_t size) { return memset(to, byte, size); }

static const stlslice_mesh *mesh;
static stlslice_shape shape;

/* what the mesh answers of each layer, a room for each answer, and the most that a room holds */
static uint8_t *answers;
static size_t *sizes, most;

/* the answer of this kind for layer k: its size in bytes */
static size_t answer(const stlslice_mesh *asked, unsigned kind, uint32_t k, uint8_t *room) {
    size_t size = 0, points = 0, loops = 0;
    stlslice_rays rays;
    uint64_t area[2];
    static const size_t point = sizeof(stlslice_point);
    switch (kind) {
    case 0: CHECK(stlslice_mask(asked, k, room, most, &size) == STLSLICE_DONE); return size;
    case 1: CHECK(stlslice_stripe(asked, k / 8, room, most, &size) == STLSLICE_DONE); return size;
    case 2: CHECK(stlslice_png(asked, k, k % 2 ? 8 : 1, k % 4, room, most, &size) == STLSLICE_DONE); return size;
    case 3: CHECK(stlslice_area(asked, k, area) == STLSLICE_DONE); memcpy(room, area, sizeof *area); return sizeof *area;
    case 4:
        k -= k > 0 && k + 1 == shape.layers;
        CHECK(stlslice_areas(asked, 0, k, area, 2) == STLSLICE_DONE);
        memcpy(room, area, sizeof area);
        return sizeof area;
    case 5:
        CHECK(stlslice_probe(asked, k % shape.columns, k % shape.rows, k, &rays) == STLSLICE_DONE);
        memcpy(room, &rays, sizeof rays);
        return sizeof rays;
    default: {
        const size_t half = most / 2 / point;
        stlslice_point *list = (stlslice_point *)malloc(half * point);
        size_t *ends = (size_t *)malloc(half * point);
        CHECK(list != NULL && ends != NULL);
        CHECK(stlslice_loops(asked, k, list, half, &points, ends, half, &loops) == STLSLICE_DONE);
        memcpy(room, list, points * point);
        memcpy(room + points * point, ends, loops * sizeof *ends);
        free(list);
        free(ends);
        return points * point + loops * sizeof *ends;
    }
    }
}

static void *ask(void *given) {
    uint32_t dice = *(const uint32_t *)given;
    uint8_t *room = (uint8_t *)malloc(most);
    CHECK(room != NULL);
    for (int turn = 0; turn < TURNS; turn++) {
        dice = dice * 1664525u + 1013904223u;
        const uint32_t k = (dice >> 8) % shape.layers;
        const unsigned kind = (dice >> 4) % KINDS;
        const size_t at = (size_t)k * KINDS + kind;
        CHECK(answer(mesh, kind, k, room) == sizes[at] && memcmp(room, answers + at * most, sizes[at]) == 0);
    }
    free(room);
    return NULL;
}

int main(int count, char **words) {
    if (count != 4)
        return 99;
    FILE *file = fopen(words[1], "rb");
    if (file == NULL || fseek(file, 0, SEEK_END) != 0)
        return 99;
    const size_t size = (size_t)ftell(file);
    rewind(file);
    uint8_t *bytes = (uint8_t *)malloc(size);
    if (bytes == NULL || fread(bytes, 1, size, file) != size)
        return 99;
    fclose(file);
    stlslice_options options;
    memset(&options, 0, sizeof options);
    options.pitch = (uint32_t)strtoul(words[2], NULL, 10);
    options.layer = (uint32_t)strtoul(words[3], NULL, 10);
    stlslice_mesh opened = STLSLICE_CLOSED;
    CHECK(stlslice_open(bytes, size, &options, &opened, &shape, NULL, 0) == STLSLICE_DONE && shape.layers > 1);
    free(bytes);
    mesh = &opened;
    /* the answers of one thread, of a mesh that no other has asked */
    CHECK(stlslice_stripe(mesh, 0, NULL, 0, &most) == STLSLICE_NO_ROOM);
    most += 65536;
    answers = (uint8_t *)malloc((size_t)shape.layers * KINDS * most);
    sizes = (size_t *)malloc((size_t)shape.layers * KINDS * sizeof *sizes);
    CHECK(answers != NULL && sizes != NULL);
    for (uint32_t k = 0; k < shape.layers; k++)
        for (unsigned kind = 0; kind < KINDS; kind++)
            sizes[k * KINDS + kind] = answer(mesh, kind, k, answers + ((size_t)k * KINDS + kind) * most);
    pthread_t threads[THREADS];
    uint32_t dice[THREADS];
    for (uint32_t at = 0; at < THREADS; at++) {
        dice[at] = 2654435761u * (at + 1);
        CHECK(pthread_create(&threads[at], NULL, ask, &dice[at]) == 0);
    }
    for (int at = 0; at < THREADS; at++)
        CHECK(pthread_join(threads[at], NULL) == 0);
    stlslice_close(&opened);
    free(answers);
    free(sizes);
    printf("%d threads, %d answers each\n", THREADS, TURNS);
    return 0;
}
