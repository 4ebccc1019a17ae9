/* Opens a text, and writes all its layers to standard output as the program does: once layer by layer and once stripe by
 * stripe, which it compares. Each of four threads does so with a mesh of its own, and one mesh goes from thread to thread.
 * The mesh of ARRAYS, which are the same facets, has to be the same: shape, layers, or the fault.
 *
 *     layers FILE ARRAYS PITCH LAYER RULE UNIT [COLUMNS ROWS LAYERS X0 Y0 Z0]
 *
 * ARRAYS has the numbers of points and of triangles, then the points and the triangles, in 4 bytes each. It is - if the text
 * is no facets. The status is that of stlslice_open, and 100 if an answer is another than the header says. */
#include "stlslice.h"

#include "checks.h"

#include <pthread.h>
#include <string.h>

#define THREADS 4

static uint8_t *text;
static size_t text_size;
static stlslice_options options;

typedef struct {
    uint8_t *all;
    size_t size;
    stlslice_mesh mesh;
    stlslice_shape shape;
} Work;

static uint32_t counts[2], *array_triangles;
static int32_t *array_points;

static bool read_arrays(const char *path) {
    FILE *file = fopen(path, "rb");
    if (file == NULL || fread(counts, sizeof *counts, 2, file) != 2)
        return false;
    array_points = (int32_t *)malloc(12 * (size_t)counts[0] + 1);
    array_triangles = (uint32_t *)malloc(12 * (size_t)counts[1] + 1);
    bool is_read = array_points != NULL && array_triangles != NULL && fread(array_points, 12, counts[0], file) == counts[0]
        && fread(array_triangles, 12, counts[1], file) == counts[1];
    fclose(file);
    return is_read;
}

/* opens the arrays, and lets them go */
static stlslice_status open_arrays(stlslice_mesh *mesh, stlslice_shape *shape, char *line) {
    stlslice_status status = stlslice_open_mesh(array_points, counts[0], array_triangles, counts[1], &options, mesh, shape, line, STLSLICE_LINE);
    free(array_points);
    free(array_triangles);
    return status;
}

/* the mesh of the arrays has these layers and this shape */
static void same_layers(const Work *work) {
    stlslice_mesh mesh = STLSLICE_CLOSED;
    stlslice_shape shape;
    char line[STLSLICE_LINE];
    CHECK(open_arrays(&mesh, &shape, line) == STLSLICE_DONE);
    CHECK(memcmp(&shape, &work->shape, sizeof shape) == 0);
    size_t one = work->size / shape.layers, size = 0;
    uint8_t *image = (uint8_t *)malloc(one);
    CHECK(image != NULL);
    for (uint32_t k = 0; k < shape.layers; k++)
        CHECK(stlslice_mask(&mesh, k, image, one, &size) == STLSLICE_DONE && memcmp(image, work->all + k * one, one) == 0);
    free(image);
    stlslice_close(&mesh);
}

static size_t bits_of(const uint8_t *image, size_t size, const stlslice_shape *shape) {
    size_t count = 0, rows = (size_t)shape->rows * ((shape->columns + 7u) / 8u);
    for (size_t at = size - rows; at < size; at++)
        for (unsigned bits = image[at]; bits != 0; bits &= bits - 1)
            count++;
    return count;
}

/* the loops of a layer: given, refused if a buffer is one short, and each of 2 points or more */
static void loops_of(const stlslice_mesh *mesh, uint32_t k) {
    size_t points = 0, loops = 0, again = 0, more = 0;
    stlslice_status status = stlslice_loops(mesh, k, NULL, 0, &points, NULL, 0, &loops);
    if (points == 0) {
        CHECK(status == STLSLICE_DONE && loops == 0);
        return;
    }
    CHECK(status == STLSLICE_NO_ROOM && loops > 0);
    stlslice_point *list = (stlslice_point *)malloc((points + 1) * sizeof *list);
    size_t *ends = (size_t *)malloc((loops + 1) * sizeof *ends);
    CHECK(list != NULL && ends != NULL);
    list[0].x2 = INT64_MIN;
    ends[0] = SIZE_MAX;
    CHECK(stlslice_loops(mesh, k, list, points - 1, &again, ends, loops, &more) == STLSLICE_NO_ROOM);
    CHECK(again == points && more == loops && list[0].x2 == INT64_MIN && ends[0] == SIZE_MAX);
    CHECK(stlslice_loops(mesh, k, list, points, &again, ends, loops - 1, &more) == STLSLICE_NO_ROOM);
    CHECK(again == points && more == loops && list[0].x2 == INT64_MIN && ends[0] == SIZE_MAX);
    list[points].y2 = 77;
    ends[loops] = 77;
    CHECK(stlslice_loops(mesh, k, list, points + 1, &again, ends, loops + 1, &more) == STLSLICE_DONE);
    CHECK(again == points && more == loops && list[points].y2 == 77 && ends[loops] == 77);
    CHECK(ends[0] > 1 && ends[loops - 1] == points);
    for (size_t at = 1; at < loops; at++)
        CHECK(ends[at - 1] + 1 < ends[at]);
    for (size_t at = 0; at < points; at++)
        CHECK(list[at].x2 >= -256000000 && list[at].x2 <= 256000000 && list[at].y2 >= -256000000 && list[at].y2 <= 256000000);
    free(list);
    free(ends);
}

static void *slice(void *given) {
    Work *work = (Work *)given;
    char line[STLSLICE_LINE];
    CHECK(stlslice_open(text, text_size, &options, &work->mesh, &work->shape, line, sizeof line) == STLSLICE_DONE);
    uint32_t layers = work->shape.layers;
    size_t one = 0, room;
    CHECK(stlslice_mask(&work->mesh, 0, NULL, 0, &one) == STLSLICE_NO_ROOM && one > 0);
    room = one * layers;
    work->all = (uint8_t *)malloc(room);
    CHECK(work->all != NULL);
    for (uint32_t k = 0; k < layers; k++) {
        size_t size = 0;
        uint64_t area = 0;
        uint8_t *image = work->all + work->size;
        /* a buffer a byte short stays as it is */
        if (k % 64 == 0) {
            uint8_t *small = (uint8_t *)malloc(one - 1);
            CHECK(small != NULL);
            memset(small, 0xa5, one - 1);
            CHECK(stlslice_mask(&work->mesh, k, small, one - 1, &size) == STLSLICE_NO_ROOM && size == one);
            for (size_t at = 0; at < one - 1; at++)
                CHECK(small[at] == 0xa5);
            free(small);
        }
        /* a buffer of just the size is filled, and one more byte is not touched */
        if (k + 1 < layers)
            image[one] = 0x5a;
        CHECK(stlslice_mask(&work->mesh, k, image, room - work->size, &size) == STLSLICE_DONE && size == one);
        CHECK(k + 1 == layers || image[one] == 0x5a);
        CHECK(stlslice_area(&work->mesh, k, &area) == STLSLICE_DONE && area == bits_of(image, size, &work->shape));
        work->size += size;
        if (k % 7 == 0)
            loops_of(&work->mesh, k);
    }
    size_t none = 0, nothing = 0;
    CHECK(stlslice_loops(&work->mesh, layers, NULL, 0, &none, NULL, 0, &nothing) == STLSLICE_OUT_OF_RANGE);
    uint8_t *eight = (uint8_t *)malloc(8 * one);
    CHECK(eight != NULL);
    size_t at = 0;
    for (uint64_t s = 0; s < (layers + 7u) / 8u; s++) {
        size_t size = 0;
        CHECK(stlslice_stripe(&work->mesh, s, eight, 8 * one, &size) == STLSLICE_DONE);
        CHECK(size <= work->size - at && memcmp(eight, work->all + at, size) == 0);
        at += size;
    }
    CHECK(at == work->size);
    size_t size = 77;
    CHECK(stlslice_mask(&work->mesh, layers, eight, 8 * one, &size) == STLSLICE_OUT_OF_RANGE);
    CHECK(stlslice_stripe(&work->mesh, (layers + 7u) / 8u, eight, 8 * one, &size) == STLSLICE_OUT_OF_RANGE);
    CHECK(stlslice_stripe(&work->mesh, UINT64_MAX, eight, 8 * one, &size) == STLSLICE_OUT_OF_RANGE);
    CHECK(size == 77);
    free(eight);
    return NULL;
}

/* a mesh that another thread opened */
static void *probe(void *given) {
    Work *work = (Work *)given;
    stlslice_rays rays = {0, 0};
    uint32_t columns = work->shape.columns, rows = work->shape.rows, k = work->shape.layers / 2;
    size_t one = work->size / work->shape.layers, row = (columns + 7u) / 8u;
    const uint8_t *image = work->all + one * k + (one - row * rows);
    for (uint32_t j = 0; j < rows; j += rows / 16 + 1)
        for (uint32_t i = 0; i < columns; i += columns / 16 + 1) {
            CHECK(stlslice_probe(&work->mesh, i, j, k, &rays) == STLSLICE_DONE);
            bool inside = options.rule == STLSLICE_EVENODD ? rays.along_x % 2 != 0
                        : options.rule == STLSLICE_NONZERO ? rays.along_x != 0 : rays.along_x > 0;
            CHECK(inside == ((image[row * (rows - 1 - j) + i / 8] >> (7 - i % 8) & 1) != 0));
        }
    CHECK(stlslice_probe(&work->mesh, columns, 0, 0, &rays) == STLSLICE_OUT_OF_RANGE);
    CHECK(stlslice_probe(&work->mesh, 0, rows, 0, &rays) == STLSLICE_OUT_OF_RANGE);
    CHECK(stlslice_probe(&work->mesh, 0, 0, work->shape.layers, &rays) == STLSLICE_OUT_OF_RANGE);
    stlslice_close(&work->mesh);
    CHECK(!work->mesh.is_open);
    stlslice_close(&work->mesh);
    CHECK(stlslice_probe(&work->mesh, 0, 0, 0, &rays) == STLSLICE_NOT_OPEN);
    return NULL;
}

int main(int count, char **words) {
    if (count != 7 && count != 13)
        return 99;
    FILE *file = fopen(words[1], "rb");
    if (file == NULL || fseek(file, 0, SEEK_END) != 0)
        return 99;
    text_size = (size_t)ftell(file);
    rewind(file);
    text = (uint8_t *)malloc(text_size + 1);
    if (text == NULL || fread(text, 1, text_size, file) != text_size)
        return 99;
    fclose(file);
    bool has_arrays = strcmp(words[2], "-") != 0;
    if (has_arrays && !read_arrays(words[2]))
        return 99;
    options.pitch = (uint32_t)strtoul(words[3], NULL, 10);
    options.layer = (uint32_t)strtoul(words[4], NULL, 10);
    options.rule = (uint32_t)strtoul(words[5], NULL, 10);
    options.unit = (uint32_t)strtoul(words[6], NULL, 10);
    if (count == 13) {
        options.placing = STLSLICE_GIVEN;
        options.columns = (uint32_t)strtoul(words[7], NULL, 10);
        options.rows = (uint32_t)strtoul(words[8], NULL, 10);
        options.layers = (uint32_t)strtoul(words[9], NULL, 10);
        for (int axis = 0; axis < 3; axis++)
            options.origin[axis] = (int32_t)strtol(words[10 + axis], NULL, 10);
    }
    Work first = {NULL, 0, STLSLICE_CLOSED, {{0, {0, 0, 0}, {0, 0, 0}}, 0, 0, 0, {0, 0, 0}, 0, 0, 0, 0}};
    char line[STLSLICE_LINE];
    stlslice_status status = stlslice_open(text, text_size, &options, &first.mesh, &first.shape, line, sizeof line);
    if (status != STLSLICE_DONE) {
        CHECK(!first.mesh.is_open && first.shape.layers == 0);
        /* a text without facets has no box either, for the same reason */
        stlslice_corners corners = {9, {9, 9, 9}, {9, 9, 9}};
        char again[STLSLICE_LINE];
        if (status == STLSLICE_TEXT) {
            CHECK(stlslice_box(text, text_size, options.unit, &corners, again, sizeof again) == STLSLICE_TEXT);
            CHECK(strcmp(again, line) == 0 && corners.facets == 9 && corners.low[0] == 9 && corners.high[2] == 9);
        }
        if (has_arrays) {
            CHECK(open_arrays(&first.mesh, &first.shape, again) == status && strcmp(again, line) == 0);
            CHECK(!first.mesh.is_open && first.shape.layers == 0);
        }
        fprintf(stderr, "stlslice: %s\n", line);
        free(text);
        return (int)status;
    }
    stlslice_close(&first.mesh);

    pthread_t threads[THREADS];
    Work works[THREADS];
    for (int at = 0; at < THREADS; at++) {
        works[at] = first;
        CHECK(pthread_create(&threads[at], NULL, slice, &works[at]) == 0);
    }
    for (int at = 0; at < THREADS; at++) {
        CHECK(pthread_join(threads[at], NULL) == 0);
        CHECK(works[at].size == works[0].size && memcmp(works[at].all, works[0].all, works[0].size) == 0);
    }
    if (has_arrays)
        same_layers(&works[0]);
    for (int at = 0; at < THREADS; at++)
        CHECK(pthread_create(&threads[at], NULL, probe, &works[at]) == 0);
    for (int at = 0; at < THREADS; at++)
        CHECK(pthread_join(threads[at], NULL) == 0);
    CHECK(fwrite(works[0].all, 1, works[0].size, stdout) == works[0].size);
    for (int at = 0; at < THREADS; at++)
        free(works[at].all);
    free(text);
    return 0;
}
