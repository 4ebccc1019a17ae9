/* Writes what the library answers of each layer of a part to standard output: all images, all PNGs of 8 bits a pixel, a line
 * of loops and area as in the program's report, and all loops.
 *
 *     answers FILE PITCH LAYER RULE UNIT
 *
 * The status is that of stlslice_open, and 100 if an answer is another than the header says. */
#include "stlslice.h"

#include "checks.h"

static stlslice_mesh mesh = STLSLICE_CLOSED;
static stlslice_shape shape;

static void put(const void *bytes, size_t size, size_t count) { CHECK(fwrite(bytes, size, count, stdout) == count); }

static void *room_for(size_t size) {
    void *room = malloc(size + 1);
    CHECK(room != NULL);
    return room;
}

static size_t read_file(const char *path, uint8_t **text) {
    FILE *file = fopen(path, "rb");
    CHECK(file != NULL && fseek(file, 0, SEEK_END) == 0);
    size_t size = (size_t)ftell(file);
    rewind(file);
    *text = (uint8_t *)room_for(size);
    CHECK(fread(*text, 1, size, file) == size);
    fclose(file);
    return size;
}

static void image(uint32_t k) {
    size_t size = 0;
    CHECK(stlslice_mask(&mesh, k, NULL, 0, &size) == STLSLICE_NO_ROOM);
    uint8_t *bytes = (uint8_t *)room_for(size);
    CHECK(stlslice_mask(&mesh, k, bytes, size, &size) == STLSLICE_DONE);
    put(bytes, 1, size);
    free(bytes);
}

static void png(uint32_t k) {
    size_t size = 0;
    CHECK(stlslice_png(&mesh, k, 8, 0, NULL, 0, &size) == STLSLICE_NO_ROOM);
    uint8_t *bytes = (uint8_t *)room_for(size);
    CHECK(stlslice_png(&mesh, k, 8, 0, bytes, size, &size) == STLSLICE_DONE);
    put(bytes, 1, size);
    free(bytes);
}

static void line(uint32_t k) {
    size_t points = 0, loops = 0;
    uint64_t area = 0;
    const stlslice_status status = stlslice_loops(&mesh, k, NULL, 0, &points, NULL, 0, &loops);
    CHECK(status == (points == 0 ? STLSLICE_DONE : STLSLICE_NO_ROOM) && stlslice_area(&mesh, k, &area) == STLSLICE_DONE);
    printf("layer %u loops %u area %llu\n", (unsigned)k, (unsigned)loops, (unsigned long long)area);
}

static void loops(uint32_t k) {
    size_t points = 0, count = 0;
    (void)stlslice_loops(&mesh, k, NULL, 0, &points, NULL, 0, &count);
    stlslice_point *list = (stlslice_point *)room_for(points * sizeof *list);
    size_t *ends = (size_t *)room_for(count * sizeof *ends);
    CHECK(stlslice_loops(&mesh, k, list, points, &points, ends, count, &count) == STLSLICE_DONE);
    put(list, sizeof *list, points);
    put(ends, sizeof *ends, count);
    free(list);
    free(ends);
}

int main(int count, char **words) {
    CHECK(count == 6);
    static void (*const answers[])(uint32_t) = {image, png, line, loops};
    stlslice_options options = {0, 0, 0, 0, STLSLICE_FITTED, 0, 0, 0, {0, 0, 0}, 0, {0, 0}, {0, 0}};
    uint32_t *const numbers[] = {&options.pitch, &options.layer, &options.rule, &options.unit};
    for (int at = 0; at < 4; at++)
        *numbers[at] = (uint32_t)strtoul(words[2 + at], NULL, 10);
    uint8_t *text = NULL;
    const size_t size = read_file(words[1], &text);
    char told[STLSLICE_LINE];
    const stlslice_status status = stlslice_open(text, size, &options, &mesh, &shape, told, sizeof told);
    free(text);
    if (status != STLSLICE_DONE) {
        fprintf(stderr, "stlslice: %s\n", told);
        return (int)status;
    }
    for (size_t at = 0; at < sizeof answers / sizeof *answers; at++)
        for (uint32_t k = 0; k < shape.layers; k++)
            answers[at](k);
    stlslice_close(&mesh);
    return 0;
}
