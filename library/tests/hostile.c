/* What no caller should do, and running out of memory: null pointers, sizes of 0 and sizes that no object has, short
 * lines, numbers out of range, meshes that are closed, closed twice or opened twice, and each allocation failing in turn.
 * The status is 0, or 100 if an answer is not what the header says.
 *
 *     hostile FILE LINE
 *
 * LINE is what the program writes after "stlslice: " if it is out of memory. */
#include "stlslice.h"

#include "checks.h"
#include "failing.h"

#include <string.h>

/* the text of each status; the last is that of every number which is none */
static const char *const texts[] = {
    "done",
    "a number is out of its range, or outside the grid",
    "no status",
    "the file is no STL that can be read",
    "the mesh has an open edge",
    "there is no such grid",
    "out of memory",
    "the buffer is too small",
    "no mesh was opened, or it was closed",
    "the part does not fit the screen",
    "no status",
};
static const char *const step = "pitch and layer height take 1 to 100000 micrometres";

/* the most facets of an opened mesh */
enum { MOST = 1048576 };

static uint8_t *text;
static size_t text_size;
static stlslice_options options;

/* a tetrahedron of 4 mm, sliced as the text is */
static const int32_t corners_of_four[12] = {0, 0, 0, 4000, 0, 0, 0, 4000, 0, 0, 0, 4000};
static const uint32_t four[12] = {0, 2, 1, 0, 1, 3, 0, 3, 2, 1, 2, 3};

static size_t read_file(const char *path) {
    FILE *file = fopen(path, "rb");
    if (file == NULL || fseek(file, 0, SEEK_END) != 0)
        exit(99);
    size_t size = (size_t)ftell(file);
    rewind(file);
    text = (uint8_t *)malloc(size);
    if (text == NULL || fread(text, 1, size, file) != size)
        exit(99);
    fclose(file);
    return size;
}

static void nulls(void) {
    stlslice_mesh mesh = STLSLICE_CLOSED;
    stlslice_shape shape;
    stlslice_corners corners;
    stlslice_rays rays = {5, 5};
    char line[STLSLICE_LINE];
    uint8_t byte = 5;
    size_t size = 5, count = 5, end = 5;
    stlslice_point point = {5, 5};
    uint64_t area = 5;
    stlslice_facet facet;
    memset(&facet, 5, sizeof facet);
    const stlslice_facet facet_was = facet;
    memset(&shape, 5, sizeof shape);
    memset(&corners, 5, sizeof corners);
    const stlslice_shape shape_was = shape;
    const stlslice_corners corners_were = corners;
    CHECK(stlslice_box(NULL, 0, 0, &corners, line, sizeof line) == STLSLICE_TEXT);
    CHECK(strcmp(line, "input ended before solid") == 0);
    CHECK(stlslice_box(NULL, 0, 0, &corners, NULL, 0) == STLSLICE_TEXT);
    CHECK(stlslice_box(NULL, 1, 0, &corners, line, sizeof line) == STLSLICE_OUT_OF_RANGE);
    CHECK(strcmp(line, texts[STLSLICE_OUT_OF_RANGE]) == 0);
    CHECK(stlslice_box(text, text_size, 0, NULL, line, sizeof line) == STLSLICE_OUT_OF_RANGE);
    CHECK(stlslice_box(text, text_size, 0, &corners, NULL, 1) == STLSLICE_OUT_OF_RANGE);
    CHECK(stlslice_facets(NULL, 0, 0, &facet, 1, &size, line, sizeof line) == STLSLICE_TEXT);
    CHECK(strcmp(line, "input ended before solid") == 0);
    CHECK(stlslice_facets(NULL, 1, 0, &facet, 1, &size, line, sizeof line) == STLSLICE_OUT_OF_RANGE);
    CHECK(strcmp(line, texts[STLSLICE_OUT_OF_RANGE]) == 0);
    CHECK(stlslice_facets(text, text_size, 0, NULL, 1, &size, line, sizeof line) == STLSLICE_OUT_OF_RANGE);
    CHECK(stlslice_facets(text, text_size, 0, &facet, 1, NULL, line, sizeof line) == STLSLICE_OUT_OF_RANGE);
    CHECK(stlslice_facets(text, text_size, 0, &facet, 1, &size, NULL, 1) == STLSLICE_OUT_OF_RANGE);
    CHECK(stlslice_open(NULL, 0, &options, &mesh, &shape, line, sizeof line) == STLSLICE_TEXT);
    CHECK(strcmp(line, "input ended before solid") == 0);
    CHECK(stlslice_open(NULL, 1, &options, &mesh, &shape, line, sizeof line) == STLSLICE_OUT_OF_RANGE);
    CHECK(strcmp(line, texts[STLSLICE_OUT_OF_RANGE]) == 0);
    CHECK(stlslice_open(text, text_size, NULL, &mesh, &shape, line, sizeof line) == STLSLICE_OUT_OF_RANGE);
    CHECK(stlslice_open(text, text_size, &options, NULL, &shape, line, sizeof line) == STLSLICE_OUT_OF_RANGE);
    CHECK(stlslice_open(text, text_size, &options, &mesh, NULL, line, sizeof line) == STLSLICE_OUT_OF_RANGE);
    CHECK(stlslice_open(text, text_size, &options, &mesh, &shape, NULL, 9) == STLSLICE_OUT_OF_RANGE);
    CHECK(!mesh.is_open && memcmp(&shape, &shape_was, sizeof shape) == 0);
    CHECK(memcmp(&corners, &corners_were, sizeof corners) == 0);
    CHECK(stlslice_mask(NULL, 0, &byte, 1, &size) == STLSLICE_OUT_OF_RANGE);
    CHECK(stlslice_stripe(NULL, 0, &byte, 1, &size) == STLSLICE_OUT_OF_RANGE);
    CHECK(stlslice_png(NULL, 0, 8, 0, &byte, 1, &size) == STLSLICE_OUT_OF_RANGE);
    CHECK(stlslice_area(NULL, 0, &area) == STLSLICE_OUT_OF_RANGE);
    CHECK(stlslice_areas(NULL, 0, 0, &area, 1) == STLSLICE_OUT_OF_RANGE);
    CHECK(stlslice_probe(NULL, 0, 0, 0, &rays) == STLSLICE_OUT_OF_RANGE);
    CHECK(stlslice_loops(NULL, 0, NULL, 0, &size, NULL, 0, &count) == STLSLICE_OUT_OF_RANGE);
    CHECK(stlslice_open(text, text_size, &options, &mesh, &shape, NULL, 0) == STLSLICE_DONE);
    CHECK(stlslice_mask(&mesh, 0, NULL, 1, &size) == STLSLICE_OUT_OF_RANGE);
    CHECK(stlslice_mask(&mesh, 0, &byte, 1, NULL) == STLSLICE_OUT_OF_RANGE);
    CHECK(stlslice_stripe(&mesh, 0, NULL, 1, &size) == STLSLICE_OUT_OF_RANGE);
    CHECK(stlslice_stripe(&mesh, 0, &byte, 1, NULL) == STLSLICE_OUT_OF_RANGE);
    CHECK(stlslice_png(&mesh, 0, 8, 0, NULL, 1, &size) == STLSLICE_OUT_OF_RANGE);
    CHECK(stlslice_png(&mesh, 0, 8, 0, &byte, 1, NULL) == STLSLICE_OUT_OF_RANGE);
    CHECK(stlslice_area(&mesh, 0, NULL) == STLSLICE_OUT_OF_RANGE);
    CHECK(stlslice_areas(&mesh, 0, 0, NULL, 1) == STLSLICE_OUT_OF_RANGE);
    CHECK(stlslice_areas(&mesh, 0, shape.layers, &area, 1) == STLSLICE_OUT_OF_RANGE);
    CHECK(stlslice_areas(&mesh, 0, UINT32_MAX, &area, 1) == STLSLICE_OUT_OF_RANGE);
    CHECK(stlslice_areas(&mesh, 0, shape.layers, NULL, 0) == STLSLICE_DONE);
    CHECK(stlslice_areas(&mesh, 0, shape.layers + 1, NULL, 0) == STLSLICE_OUT_OF_RANGE);
    CHECK(stlslice_probe(&mesh, 0, 0, 0, NULL) == STLSLICE_OUT_OF_RANGE);
    CHECK(stlslice_loops(&mesh, 0, NULL, 1, &size, NULL, 0, &count) == STLSLICE_OUT_OF_RANGE);
    CHECK(stlslice_loops(&mesh, 0, NULL, 0, &size, NULL, 1, &count) == STLSLICE_OUT_OF_RANGE);
    CHECK(stlslice_loops(&mesh, 0, NULL, 0, NULL, NULL, 0, &count) == STLSLICE_OUT_OF_RANGE);
    CHECK(stlslice_loops(&mesh, 0, NULL, 0, &size, NULL, 0, NULL) == STLSLICE_OUT_OF_RANGE);
    /* sizes that no object has: of a text, of a line, and of each buffer */
    const size_t vast[] = {(size_t)PTRDIFF_MAX + 1, SIZE_MAX};
    for (size_t turn = 0; turn < sizeof vast / sizeof *vast; turn++) {
        const size_t room = vast[turn];
        CHECK(stlslice_box(text, room, 0, &corners, line, sizeof line) == STLSLICE_OUT_OF_RANGE);
        CHECK(stlslice_facets(text, room, 0, &facet, 1, &size, line, sizeof line) == STLSLICE_OUT_OF_RANGE);
        CHECK(stlslice_facets(text, text_size, 0, &facet, room / sizeof facet + 1, &size, line, sizeof line) == STLSLICE_OUT_OF_RANGE);
        CHECK(stlslice_open(text, room, &options, &mesh, &shape, line, sizeof line) == STLSLICE_OUT_OF_RANGE);
        memset(line, 'x', sizeof line);
        stlslice_fault_text(STLSLICE_DONE, line, room);
        CHECK(stlslice_box(text, text_size, 0, &corners, line, room) == STLSLICE_OUT_OF_RANGE);
        CHECK(stlslice_facets(text, text_size, 0, &facet, 1, &size, line, room) == STLSLICE_OUT_OF_RANGE);
        CHECK(stlslice_open(text, text_size, &options, &mesh, &shape, line, room) == STLSLICE_OUT_OF_RANGE);
        CHECK(stlslice_open_mesh(corners_of_four, 4, four, 4, &options, &mesh, &shape, line, room) == STLSLICE_OUT_OF_RANGE);
        for (size_t at = 0; at < sizeof line; at++)
            CHECK(line[at] == 'x');
        CHECK(stlslice_mask(&mesh, 0, &byte, room, &size) == STLSLICE_OUT_OF_RANGE);
        CHECK(stlslice_stripe(&mesh, 0, &byte, room, &size) == STLSLICE_OUT_OF_RANGE);
        CHECK(stlslice_png(&mesh, 0, 8, 0, &byte, room, &size) == STLSLICE_OUT_OF_RANGE);
        CHECK(stlslice_areas(&mesh, 0, 0, &area, room / sizeof area) == STLSLICE_OUT_OF_RANGE);
        CHECK(stlslice_loops(&mesh, 0, &point, room / sizeof point, &size, NULL, 0, &count) == STLSLICE_OUT_OF_RANGE);
        CHECK(stlslice_loops(&mesh, 0, NULL, 0, &size, &end, room / sizeof end, &count) == STLSLICE_OUT_OF_RANGE);
        CHECK(mesh.is_open && memcmp(&corners, &corners_were, sizeof corners) == 0);
    }
    CHECK(size == 5 && count == 5 && end == 5 && area == 5 && byte == 5);
    CHECK(rays.along_x == 5 && rays.along_y == 5 && point.x2 == 5 && point.y2 == 5);
    CHECK(memcmp(&facet, &facet_was, sizeof facet) == 0);
    /* no room is enough to ask for the size */
    size_t layers = shape.layers < 8 ? shape.layers : 8;
    CHECK(stlslice_mask(&mesh, 0, NULL, 0, &count) == STLSLICE_NO_ROOM && count > shape.rows);
    CHECK(stlslice_stripe(&mesh, 0, NULL, 0, &size) == STLSLICE_NO_ROOM && size == layers * count);
    CHECK(stlslice_png(&mesh, 0, 8, 0, NULL, 0, &size) == STLSLICE_NO_ROOM && size > 57);
    stlslice_close(&mesh);
    stlslice_close(NULL);
    stlslice_fault_text(0, NULL, 0);
    stlslice_fault_text(0, NULL, 9);
}

/* whether arrays are refused with this status and line, and leave mesh and shape as they are */
static bool refuses(const int32_t *points, size_t point_count, const uint32_t *triangles, size_t triangle_count,
                    stlslice_status status, const char *told) {
    stlslice_mesh mesh = STLSLICE_CLOSED;
    stlslice_shape shape;
    char line[STLSLICE_LINE] = "as before";
    memset(&shape, 0x77, sizeof shape);
    const stlslice_shape was = shape;
    return stlslice_open_mesh(points, point_count, triangles, triangle_count, &options, &mesh, &shape, line, sizeof line) == status
        && strcmp(line, told) == 0 && !mesh.is_open && memcmp(&shape, &was, sizeof was) == 0;
}

/* arrays that are null, of sizes that no object has, and with each fault; the first is named */
static void arrays(void) {
    const char *wrong = texts[STLSLICE_OUT_OF_RANGE];
    stlslice_mesh mesh = STLSLICE_CLOSED;
    stlslice_shape shape;
    char line[STLSLICE_LINE] = "as before";
    CHECK(refuses(NULL, 4, four, 4, STLSLICE_OUT_OF_RANGE, wrong));
    CHECK(refuses(corners_of_four, 4, NULL, 4, STLSLICE_OUT_OF_RANGE, wrong));
    CHECK(refuses(corners_of_four, SIZE_MAX, four, 4, STLSLICE_OUT_OF_RANGE, wrong));
    CHECK(refuses(corners_of_four, (size_t)PTRDIFF_MAX / 12 + 1, four, 4, STLSLICE_OUT_OF_RANGE, wrong));
    CHECK(refuses(corners_of_four, SIZE_MAX / 12 + 2, four, 4, STLSLICE_OUT_OF_RANGE, wrong));
    CHECK(refuses(corners_of_four, 4, four, (size_t)PTRDIFF_MAX / 12 + 1, STLSLICE_OUT_OF_RANGE, wrong));
    CHECK(refuses(corners_of_four, 4, four, SIZE_MAX / 16, STLSLICE_OUT_OF_RANGE, wrong));
    CHECK(refuses(NULL, 0, NULL, 0, STLSLICE_GRID, "no facet is left"));
    CHECK(refuses(corners_of_four, 4, NULL, 0, STLSLICE_GRID, "no facet is left"));
    CHECK(refuses(NULL, 0, four, 4, STLSLICE_OUT_OF_RANGE, "point 0 of triangle 0 is missing"));
    CHECK(refuses(corners_of_four, 3, four, 4, STLSLICE_OUT_OF_RANGE, "point 3 of triangle 1 is missing"));
    CHECK(refuses(corners_of_four, 4, four, 3, STLSLICE_OPEN_MESH, "open edge 0 0 4000 to 0 4000 0 there 1 back 0"));
    for (unsigned place = 0; place < 12; place++) {
        int32_t points[12];
        uint32_t triangles[12];
        char named[STLSLICE_LINE];
        memcpy(points, corners_of_four, sizeof points);
        memcpy(triangles, four, sizeof triangles);
        triangles[place] = place % 2 ? 4 : UINT32_MAX;
        snprintf(named, sizeof named, "point %u of triangle %u is missing", triangles[place], place / 3);
        CHECK(refuses(points, 4, triangles, 4, STLSLICE_OUT_OF_RANGE, named));
        triangles[place] = four[place];
        static const int32_t far[] = {128000001, -128000001, INT32_MAX, INT32_MIN};
        points[place] = far[place % 4];
        unsigned first = 0;
        while (four[first] != place / 3)
            first++;
        snprintf(named, sizeof named, "point %u of triangle %u is out of range", place / 3, first / 3);
        CHECK(refuses(points, 4, triangles, 4, STLSLICE_OUT_OF_RANGE, named));
        triangles[11] = 9; /* comes later than each of them */
        CHECK(refuses(points, 4, triangles, 4, STLSLICE_OUT_OF_RANGE, named));
    }
    uint32_t *flat = (uint32_t *)calloc(3 * (MOST + 1), sizeof *flat);
    CHECK(flat != NULL);
    CHECK(refuses(corners_of_four, 4, flat, MOST, STLSLICE_GRID, "no facet is left"));
    CHECK(refuses(corners_of_four, 4, flat, MOST + 1, STLSLICE_OUT_OF_RANGE, "too many facets at triangle 1048576"));
    flat[3 * MOST - 1] = 4;
    CHECK(refuses(corners_of_four, 4, flat, MOST + 1, STLSLICE_OUT_OF_RANGE, "point 4 of triangle 1048575 is missing"));
    free(flat);
    CHECK(stlslice_open_mesh(corners_of_four, 4, four, 4, NULL, &mesh, &shape, line, sizeof line) == STLSLICE_OUT_OF_RANGE);
    CHECK(stlslice_open_mesh(corners_of_four, 4, four, 4, &options, NULL, &shape, line, sizeof line) == STLSLICE_OUT_OF_RANGE);
    CHECK(stlslice_open_mesh(corners_of_four, 4, four, 4, &options, &mesh, NULL, line, sizeof line) == STLSLICE_OUT_OF_RANGE);
    CHECK(stlslice_open_mesh(corners_of_four, 4, four, 4, &options, &mesh, &shape, NULL, 9) == STLSLICE_OUT_OF_RANGE);
    CHECK(!mesh.is_open && strcmp(line, wrong) == 0);
    /* the caller's arrays may go, and the unit has no effect */
    for (uint32_t unit = STLSLICE_MILLIMETRE; unit <= STLSLICE_INCH; unit++) {
        int32_t *points = (int32_t *)malloc(sizeof corners_of_four);
        uint32_t *triangles = (uint32_t *)malloc(sizeof four);
        uint64_t area = 0, again = 0;
        CHECK(points != NULL && triangles != NULL);
        memcpy(points, corners_of_four, sizeof corners_of_four);
        memcpy(triangles, four, sizeof four);
        stlslice_options other = options;
        other.unit = unit;
        CHECK(stlslice_open_mesh(points, 4, triangles, 4, &other, &mesh, &shape, NULL, 0) == STLSLICE_DONE);
        CHECK(stlslice_area(&mesh, 0, &area) == STLSLICE_DONE && area > 0);
        memset(points, 0xff, sizeof corners_of_four);
        memset(triangles, 0xff, sizeof four);
        free(points);
        free(triangles);
        CHECK(stlslice_area(&mesh, 0, &again) == STLSLICE_DONE && again == area);
        CHECK(shape.corners.facets == 4 && shape.corners.high[2] == 4000 && shape.layers == 8);
        /* a mesh that is refused leaves the open one */
        CHECK(stlslice_open_mesh(corners_of_four, 4, four, 3, &other, &mesh, &shape, NULL, 0) == STLSLICE_OPEN_MESH);
        CHECK(mesh.is_open && stlslice_area(&mesh, 0, &again) == STLSLICE_DONE && again == area);
    }
    stlslice_close(&mesh);
}

static void ranges(void) {
    stlslice_mesh mesh = STLSLICE_CLOSED;
    stlslice_shape shape;
    stlslice_corners corners = {9, {9, 9, 9}, {9, 9, 9}};
    const stlslice_corners nines = corners;
    char line[STLSLICE_LINE];
    memset(&shape, 0x77, sizeof shape);
    const stlslice_shape was = shape;
    for (int turn = 0; turn < 12; turn++) {
        stlslice_options wrong = options;
        switch (turn) {
        case 0: wrong.pitch = 0; break;
        case 1: wrong.pitch = 100001; break;
        case 2: wrong.layer = 0; break;
        case 3: wrong.layer = UINT32_MAX; break;
        case 4: wrong.rule = 3; break;
        case 5: wrong.rule = UINT32_MAX; break;
        case 6: wrong.unit = STLSLICE_METRE + 1; break;
        case 7: wrong.placing = 3; break;
        case 8: wrong.placing = UINT32_MAX; break;
        case 9: wrong.placing = STLSLICE_GIVEN; wrong.origin[0] = 128000001; break;
        case 10: wrong.placing = STLSLICE_GIVEN; wrong.origin[1] = INT32_MIN; break;
        default: wrong.placing = STLSLICE_GIVEN; wrong.origin[2] = INT32_MAX; break;
        }
        CHECK(stlslice_open(text, text_size, &wrong, &mesh, &shape, line, sizeof line) == STLSLICE_OUT_OF_RANGE);
        CHECK(strcmp(line, turn < 4 ? step : texts[STLSLICE_OUT_OF_RANGE]) == 0);
        /* the options of arrays are the same, and come first */
        CHECK(stlslice_open_mesh(NULL, 0, four, 4, &wrong, &mesh, &shape, line, sizeof line) == STLSLICE_OUT_OF_RANGE);
        CHECK(strcmp(line, turn < 4 ? step : texts[STLSLICE_OUT_OF_RANGE]) == 0);
        CHECK(!mesh.is_open && memcmp(&shape, &was, sizeof was) == 0);
    }
    /* screens, each with its fault, but for the first, which has no such turn */
    static const struct {
        uint32_t columns, rows, turn, width[2], depth[2];
        stlslice_status status;
        const char *line;
    } screens[] = {
        {100, 100, 4, {50, 1}, {50, 1}, STLSLICE_OUT_OF_RANGE, "a number is out of its range, or outside the grid"},
        {0, 100, 0, {50, 1}, {50, 1}, STLSLICE_OUT_OF_RANGE, "screen has no pixels"},
        {100, 16385, 0, {50, 1}, {50, 1}, STLSLICE_OUT_OF_RANGE, "screen too large: 100 columns, 16385 rows"},
        {100, 100, 0, {50, 0}, {50, 1}, STLSLICE_OUT_OF_RANGE, "pixel has no size"},
        {100, 100, 3, {UINT32_MAX, 1}, {50, 1}, STLSLICE_OUT_OF_RANGE,
         "no whole number of micrometres up to 100000 is a multiple of both sides of a pixel"},
        {2, 1, 1, {2000, 1}, {1999, 1}, STLSLICE_OUT_OF_RANGE,
         "no whole number of micrometres up to 100000 is a multiple of both sides of a pixel"},
        {1, 2, 0, {2000, 1}, {2000, 1}, STLSLICE_NO_FIT,
         "part does not fit: 4000 x 4000 micrometres on a screen of 2000 x 4000; turned by a quarter it does not fit either"},
    };
    for (size_t at = 0; at < sizeof screens / sizeof *screens; at++) {
        stlslice_options on = options;
        on.placing = STLSLICE_SCREEN;
        on.pitch = 0;
        on.origin[0] = INT32_MIN;
        on.columns = screens[at].columns;
        on.rows = screens[at].rows;
        on.turn = screens[at].turn;
        on.width.numerator = screens[at].width[0];
        on.width.denominator = screens[at].width[1];
        on.depth.numerator = screens[at].depth[0];
        on.depth.denominator = screens[at].depth[1];
        CHECK(stlslice_open_mesh(corners_of_four, 4, four, 4, &on, &mesh, &shape, line, sizeof line) == screens[at].status);
        CHECK(strcmp(line, screens[at].line) == 0 && !mesh.is_open && memcmp(&shape, &was, sizeof was) == 0);
    }
    stlslice_options far = options;
    far.placing = STLSLICE_GIVEN;
    CHECK(stlslice_open(text, text_size, &far, &mesh, &shape, line, sizeof line) == STLSLICE_GRID);
    CHECK(strcmp(line, "grid has no cells") == 0);
    CHECK(stlslice_box(text, text_size, STLSLICE_METRE + 1, &corners, line, sizeof line) == STLSLICE_OUT_OF_RANGE);
    CHECK(strcmp(line, texts[STLSLICE_OUT_OF_RANGE]) == 0 && memcmp(&corners, &nines, sizeof nines) == 0);
}

/* a PNG of each depth and each mirrors, in a buffer that just has room for it, and in one that lacks a byte; and numbers that
 * are no depth, no mirrors or no layer */
static void pngs(void) {
    stlslice_mesh mesh = STLSLICE_CLOSED;
    stlslice_shape shape;
    CHECK(stlslice_open(text, text_size, &options, &mesh, &shape, NULL, 0) == STLSLICE_DONE);
    const uint8_t front[] = {137, 'P', 'N', 'G', 13, 10, 26, 10, 0, 0, 0, 13, 'I', 'H', 'D', 'R', 0, 0,
                             (uint8_t)(shape.columns >> 8), (uint8_t)shape.columns, 0, 0,
                             (uint8_t)(shape.rows >> 8), (uint8_t)shape.rows};
    for (uint32_t turn = 0; turn < 8; turn++) {
        const uint32_t depth = turn < 4 ? 1 : 8, mirrors = turn % 4, k = turn % shape.layers;
        size_t size = 0, again = 0;
        CHECK(stlslice_png(&mesh, k, depth, mirrors, NULL, 0, &size) == STLSLICE_NO_ROOM && size > 57);
        uint8_t *png = (uint8_t *)malloc(size + 1);
        CHECK(png != NULL);
        memset(png, 0xa5, size + 1);
        CHECK(stlslice_png(&mesh, k, depth, mirrors, png, size - 1, &again) == STLSLICE_NO_ROOM && again == size);
        for (size_t at = 0; at <= size; at++)
            CHECK(png[at] == 0xa5);
        again = 0;
        CHECK(stlslice_png(&mesh, k, depth, mirrors, png, size, &again) == STLSLICE_DONE && again == size);
        CHECK(memcmp(png, front, sizeof front) == 0 && png[24] == depth && png[size] == 0xa5);
        CHECK(memcmp(png + size - 12, "\0\0\0\0IEND", 8) == 0);
        free(png);
    }
    const uint32_t wrong[] = {0, 2, 3, 4, 5, 7, 9, 16, 256, 257, 264, 0x80000001, UINT32_MAX};
    uint8_t byte = 5;
    size_t size = 5;
    for (size_t at = 0; at < sizeof wrong / sizeof *wrong; at++) {
        CHECK(stlslice_png(&mesh, 0, wrong[at], 0, &byte, 1, &size) == STLSLICE_OUT_OF_RANGE);
        if (wrong[at] > 3)
            CHECK(stlslice_png(&mesh, 0, 8, wrong[at], &byte, 1, &size) == STLSLICE_OUT_OF_RANGE);
    }
    CHECK(stlslice_png(&mesh, shape.layers, 8, 0, &byte, 1, &size) == STLSLICE_OUT_OF_RANGE);
    CHECK(stlslice_png(&mesh, UINT32_MAX, 1, 3, NULL, 0, &size) == STLSLICE_OUT_OF_RANGE);
    CHECK(byte == 5 && size == 5);
    stlslice_close(&mesh);
}

/* a text without its last word has no box; with it, that of the mesh that it opens, whose facets are counted here */
static void boxes(void) {
    stlslice_mesh mesh = STLSLICE_CLOSED;
    stlslice_shape shape;
    stlslice_corners corners = {9, {9, 9, 9}, {9, 9, 9}};
    const stlslice_corners nines = corners;
    char line[STLSLICE_LINE] = "as before";
    size_t last = text_size - 8;
    while (memcmp(text + last, "endsolid", 8) != 0)
        last--;
    uint64_t facets = 0;
    for (size_t at = 0; at < last; at++)
        if (memcmp(text + at, "endfacet", 8) == 0)
            facets++;
    CHECK(stlslice_open(text, text_size, &options, &mesh, &shape, NULL, 0) == STLSLICE_DONE);
    CHECK(stlslice_box(text, last + 8, 0, &corners, line, sizeof line) == STLSLICE_DONE);
    CHECK(facets > 0 && corners.facets == facets && memcmp(&corners, &shape.corners, sizeof corners) == 0);
    CHECK(strcmp(line, "as before") == 0);
    corners = nines;
    CHECK(stlslice_box(text, last, 0, &corners, line, sizeof line) == STLSLICE_TEXT);
    CHECK(strcmp(line, "input ended before facet or endsolid") == 0 && memcmp(&corners, &nines, sizeof nines) == 0);
    stlslice_close(&mesh);
}

/* The facets of the text: their number alone; none in a buffer that lacks a place; all in one that just has room for them, with
 * the corners of the box. One that is refused leaves buffer and number. */
static void facets(void) {
    stlslice_corners corners, seen = {0, {INT32_MAX, INT32_MAX, INT32_MAX}, {INT32_MIN, INT32_MIN, INT32_MIN}};
    size_t count = 5, again = 0;
    char line[STLSLICE_LINE] = "as before";
    CHECK(stlslice_box(text, text_size, 0, &corners, NULL, 0) == STLSLICE_DONE);
    CHECK(stlslice_facets(text, text_size, 0, NULL, 0, &count, line, sizeof line) == STLSLICE_NO_ROOM && count == corners.facets);
    const size_t size = (count + 1) * sizeof(stlslice_facet);
    stlslice_facet *list = (stlslice_facet *)malloc(size);
    CHECK(list != NULL);
    memset(list, 0x3c, size);
    CHECK(stlslice_facets(text, text_size, 0, list, count - 1, &again, line, sizeof line) == STLSLICE_NO_ROOM && again == count);
    CHECK(stlslice_facets(text, 5, 0, list, count, &again, NULL, 0) == STLSLICE_TEXT && again == count);
    CHECK(stlslice_facets(text, text_size, 4, list, count, &again, NULL, 0) == STLSLICE_OUT_OF_RANGE && again == count);
    for (size_t at = 0; at < size; at++)
        CHECK(((const uint8_t *)list)[at] == 0x3c);
    again = 0;
    CHECK(stlslice_facets(text, text_size, 0, list, count, &again, line, sizeof line) == STLSLICE_DONE && again == count);
    CHECK(strcmp(line, "as before") == 0);
    for (size_t at = 0; at < sizeof *list; at++)
        CHECK(((const uint8_t *)(list + count))[at] == 0x3c);
    for (seen.facets = 0; seen.facets < count; seen.facets++)
        for (int corner = 0; corner < 3; corner++)
            for (int axis = 0; axis < 3; axis++) {
                const int32_t number = list[seen.facets].corners[corner][axis];
                seen.low[axis] = number < seen.low[axis] ? number : seen.low[axis];
                seen.high[axis] = number > seen.high[axis] ? number : seen.high[axis];
            }
    CHECK(memcmp(&seen, &corners, sizeof seen) == 0);
    free(list);
}

/* A binary STL of more facets than an opened mesh may have: `stlslice_facets` alone takes it. Facet n has a corner whose
 * x is n sixteenths of a millimetre. */
static void many_facets(void) {
    enum { COUNT = MOST + 1 };
    const size_t size = 84 + (size_t)50 * COUNT;
    uint8_t *const file = (uint8_t *)calloc(size, 1);
    stlslice_facet *const list = (stlslice_facet *)malloc(COUNT * sizeof *list);
    stlslice_mesh mesh = STLSLICE_CLOSED;
    stlslice_shape shape;
    stlslice_corners corners;
    size_t count = 0;
    char line[STLSLICE_LINE];
    CHECK(file != NULL && list != NULL);
    for (int at = 0; at < 4; at++)
        file[80 + at] = (uint8_t)(COUNT >> 8 * at);
    for (size_t n = 0; n < COUNT; n++) {
        const float x = (float)n / 16;
        memcpy(file + 84 + 50 * n + 12, &x, sizeof x);
    }
    CHECK(stlslice_box(file, size, 0, &corners, line, sizeof line) == STLSLICE_TEXT);
    CHECK(strcmp(line, "too many facets: 1048577") == 0);
    CHECK(stlslice_open(file, size, &options, &mesh, &shape, line, sizeof line) == STLSLICE_TEXT);
    CHECK(strcmp(line, "too many facets: 1048577") == 0);
    CHECK(stlslice_facets(file, size, 0, list, COUNT, &count, NULL, 0) == STLSLICE_DONE && count == COUNT);
    for (size_t n = 0; n < COUNT; n++)
        CHECK(list[n].corners[0][0] == (int32_t)((125 * n + 1) / 2) && list[n].corners[2][2] == 0);
    free(file);
    free(list);
}

/* a line that is cut, or has just enough room, ends with 0, and what lies after it is as it was */
static void lines(void) {
    stlslice_corners corners;
    const char *whole = "input ended before solid";
    for (size_t room = 1; room < 40; room++) {
        char *line = (char *)malloc(room);
        CHECK(line != NULL);
        memset(line, 'x', room);
        CHECK(stlslice_box(text, 0, 0, &corners, line, room) == STLSLICE_TEXT);
        size_t length = strlen(whole) < room ? strlen(whole) : room - 1;
        CHECK(memcmp(line, whole, length) == 0 && line[length] == 0);
        for (size_t at = length + 1; at < room; at++)
            CHECK(line[at] == 'x');
        free(line);
    }
    const stlslice_status none = sizeof texts / sizeof *texts - 1;
    for (stlslice_status status = 0; status < 300; status++) {
        char line[STLSLICE_LINE];
        stlslice_fault_text(status < 299 ? status : UINT32_MAX, line, sizeof line);
        CHECK(strcmp(line, texts[status < none ? status : none]) == 0);
    }
}

static void closed(void) {
    stlslice_mesh mesh = STLSLICE_CLOSED, zeros;
    stlslice_rays rays = {7, 7};
    uint8_t bytes[16] = {0};
    size_t size = 5;
    uint64_t area = 5;
    memset(&zeros, 0, sizeof zeros);
    for (int turn = 0; turn < 2; turn++) {
        CHECK(stlslice_mask(&mesh, 0, bytes, sizeof bytes, &size) == STLSLICE_NOT_OPEN);
        CHECK(stlslice_stripe(&mesh, 0, bytes, sizeof bytes, &size) == STLSLICE_NOT_OPEN);
        CHECK(stlslice_png(&mesh, 0, 8, 0, bytes, sizeof bytes, &size) == STLSLICE_NOT_OPEN);
        CHECK(stlslice_png(&mesh, 0, 9, 9, NULL, 0, &size) == STLSLICE_NOT_OPEN);
        CHECK(stlslice_area(&mesh, 0, &area) == STLSLICE_NOT_OPEN);
        CHECK(stlslice_areas(&mesh, 0, 0, &area, 1) == STLSLICE_NOT_OPEN);
        CHECK(stlslice_probe(&mesh, 0, 0, 0, &rays) == STLSLICE_NOT_OPEN);
        CHECK(stlslice_loops(&mesh, 0, NULL, 0, &size, NULL, 0, &size) == STLSLICE_NOT_OPEN);
        CHECK(size == 5 && area == 5 && rays.along_x == 7 && bytes[0] == 0);
        stlslice_close(&mesh);
        mesh = zeros;
        stlslice_close(&mesh);
    }
}

/* what calls write to, but for images and lines */
typedef struct {
    stlslice_corners corners;
    stlslice_shape shape;
    stlslice_point points[1000];
    stlslice_facet facets[1000];
    size_t ends[100], size, count;
    uint64_t area, areas[3];
} Told;
static Told told, before;

static stlslice_status attempt(int turn, stlslice_mesh *mesh, uint8_t *images, size_t room, char *line) {
    switch (turn) {
    case 0: return stlslice_box(text, text_size, 0, &told.corners, line, STLSLICE_LINE);
    case 1: return stlslice_open(text, text_size, &options, mesh, &told.shape, line, STLSLICE_LINE);
    case 2: return stlslice_mask(mesh, 3, images, room, &told.size);
    case 3: return stlslice_stripe(mesh, 0, images, room, &told.size);
    case 4: return stlslice_png(mesh, 3, 8, 0, images, room, &told.size);
    case 5: return stlslice_loops(mesh, 3, told.points, 1000, &told.size, told.ends, 100, &told.count);
    case 6: return stlslice_area(mesh, 3, &told.area);
    case 7: return stlslice_areas(mesh, 0, 1, told.areas, 3);
    case 8: return stlslice_facets(text, text_size, 0, told.facets, 1000, &told.size, line, STLSLICE_LINE);
    default: return stlslice_open_mesh(corners_of_four, 4, four, 4, &options, mesh, &told.shape, line, STLSLICE_LINE);
    }
}

/* each allocation of each call fails in turn: the mesh stays, what the call writes to stays but for the line, which is
 * the program's, and nothing leaks */
static unsigned long short_memory(const char *said) {
    stlslice_mesh mesh = STLSLICE_CLOSED;
    stlslice_shape shape;
    size_t one = 0, eight = 0, size;
    unsigned long all = 0;
    uint64_t area = 0, again = 0;
    CHECK(stlslice_open(text, text_size, &options, &mesh, &shape, NULL, 0) == STLSLICE_DONE);
    CHECK(stlslice_mask(&mesh, 3, NULL, 0, &one) == STLSLICE_NO_ROOM);
    CHECK(stlslice_stripe(&mesh, 0, NULL, 0, &eight) == STLSLICE_NO_ROOM);
    CHECK(stlslice_area(&mesh, 3, &area) == STLSLICE_DONE && area > 0);
    uint8_t *image = (uint8_t *)malloc(one), *images = (uint8_t *)malloc(eight);
    CHECK(image != NULL && images != NULL);
    for (int turn = 0; turn < 10; turn++) {
        CHECK(stlslice_mask(&mesh, 3, image, one, &size) == STLSLICE_DONE);
        for (unsigned long number = 1;; number++) {
            char line[STLSLICE_LINE] = "as before";
            memset(images, 0x3c, eight);
            memset(&told, 0x3c, sizeof told);
            before = told;
            fail_at(number);
            stlslice_status status = attempt(turn, &mesh, images, eight, line);
            if (!has_failed()) {
                CHECK(status == STLSLICE_DONE);
                break;
            }
            all++;
            CHECK(status == STLSLICE_MEMORY);
            CHECK(strcmp(line, turn < 2 || turn > 7 ? said : "as before") == 0);
            CHECK(memcmp(&told, &before, sizeof told) == 0);
            for (size_t at = 0; at < eight; at++)
                CHECK(images[at] == 0x3c);
            CHECK(mesh.is_open && stlslice_area(&mesh, 3, &again) == STLSLICE_DONE && again == area);
            CHECK(stlslice_mask(&mesh, 3, images, eight, &size) == STLSLICE_DONE && memcmp(images, image, one) == 0);
        }
    }
    /* an open mesh that is opened again gives up the one it had */
    CHECK(stlslice_open(text, text_size, &options, &mesh, &shape, NULL, 0) == STLSLICE_DONE);
    CHECK(stlslice_open(text, 5, &options, &mesh, &shape, NULL, 0) == STLSLICE_TEXT);
    CHECK(mesh.is_open && stlslice_area(&mesh, 3, &again) == STLSLICE_DONE && again == area);
    stlslice_close(&mesh);
    free(image);
    free(images);
    return all;
}

int main(int count, char **words) {
    if (count != 3)
        return 99;
    text_size = read_file(words[1]);
    options.pitch = 200;
    options.layer = 500;
    CHECK(stlslice_version() >= 1000000);
    nulls();
    arrays();
    ranges();
    pngs();
    boxes();
    facets();
    many_facets();
    lines();
    closed();
    printf("%lu failing allocations\n", short_memory(words[2]));
    free(text);
    return 0;
}
