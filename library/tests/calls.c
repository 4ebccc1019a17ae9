/* Each call once, with values from outside: a tetrahedron of 4 mm, sliced at 1 mm, and on a screen. Then each allocation of the
 * calls that allocate fails in turn: the status is that of memory, nothing else changes, and the next try succeeds. The status of the
 * program is 0, or 100 if an answer is another one. Standard error names the tests as they begin.
 *
 *     calls VERSION STEP
 *
 * VERSION is the version, as 1.0.0, and STEP the text of `SessionFault::Step` in crates/layer_session. */
#include "stlslice.h"

#include "checks.h"
#include "failing.h"

#include <string.h>

#define FIRST_FACET "facet normal 0 0 0 outer loop vertex 0 0 0 vertex 0 4 0 vertex 4 0 0 endloop endfacet\n"
static const char tetrahedron[] =
    "solid t\n" FIRST_FACET
    "facet normal 0 0 0 outer loop vertex 0 0 0 vertex 4 0 0 vertex 0 0 4 endloop endfacet\n"
    "facet normal 0 0 0 outer loop vertex 0 0 0 vertex 0 0 4 vertex 0 4 0 endloop endfacet\n"
    "facet normal 0 0 0 outer loop vertex 4 0 0 vertex 0 4 0 vertex 0 0 4 endloop endfacet\n"
    "endsolid t\n";

/* the first facet alone: none of its edges has another that runs back */
static const char triangle[] = "solid t\n" FIRST_FACET "endsolid t\n";

/* the tetrahedron as arrays */
static const int32_t points[12] = {0, 0, 0, 4000, 0, 0, 0, 4000, 0, 0, 0, 4000};
static const uint32_t triangles[12] = {0, 2, 1, 0, 1, 3, 0, 3, 2, 1, 2, 3};

/* the size of the tetrahedron as a binary STL, and 4 and infinity as its numbers are written */
#define BINARY_SIZE (84 + 4 * 50)
static const uint8_t four[4] = {0, 0, 0x80, 0x40}, infinite[4] = {0, 0, 0x80, 0x7f};

static const stlslice_options millimetre = {1000, 1000, 0, 0, 0, 0, 0, 0, {0, 0, 0}, 0, {0, 0}, {0, 0}};

/* layers of 190 micrometres on a screen of 300 by 200 pixels of 19 by 24 micrometres, for parts turned by a quarter */
static const stlslice_options screen = {0, 190, 0, 0, STLSLICE_SCREEN, 300, 200, 0, {0, 0, 0}, 1, {19, 1}, {24, 1}};

/* more allocations than any call here has */
#define TURNS 1000

/* what a call has to put: these bytes, in an answer of this size */
typedef struct {
    const char *bytes;
    size_t count, size;
} Wanted;

/* the lowest layer: x + y is below 3.5 mm */
#define LOWEST "P4\n4 4\n\x00\x80\xc0\xe0"
static const Wanted lowest_mask = {LOWEST, 11, 11}, lowest_stripe = {LOWEST, 11, 44};

/* the same as PNG of depth 1. Python's zlib finds four lines in its second part: a byte 0, and a byte of the image */
#define LOWEST_PNG                                                                                                     \
    "\x89PNG\r\n\x1a\n\0\0\0\rIHDR\0\0\0\x04\0\0\0\x04\x01\0\0\0\0\x81\x8a\xa3\xd3"                                    \
    "\0\0\0-IDATx\x01\xed\xc1\x03\xa0\x04\n\x02\x04\xa0"                                                               \
    "9\xdb\xb6m\xdb\xb6m\xdb\xb6m\xdb\xb6m\xdb\xb6m\xfb\xe6?\xdb\\TI\x1e\x98\x0f\xe6\x87\x07\0\x05\xa8\x02!\xca\xa4`\xc6" \
    "\0\0\0\0IEND\xae" "B`\x82"
static const Wanted lowest_png = {LOWEST_PNG, 102, 102};

/* the two words of the program */
static uint32_t version;
static const char *step_text;

/* what a caller has is all nines before a call */
#define NINE 9

static bool is_nines(const void *at, size_t size) {
    for (size_t place = 0; place < size; place++)
        if (((const uint8_t *)at)[place] != NINE)
            return false;
    return true;
}

/* what a caller has who opens a mesh, or asks for a box: no mesh and nines before it */
typedef struct {
    stlslice_status status;
    stlslice_mesh mesh;
    stlslice_shape shape;
    char line[STLSLICE_LINE];
} Opening;

static Opening begun(void) {
    const stlslice_mesh none = STLSLICE_CLOSED;
    Opening it;
    memset(&it, NINE, sizeof it);
    it.mesh = none;
    return it;
}

static Opening open_text(const char *text, const stlslice_options *options) {
    Opening it = begun();
    it.status = stlslice_open((const uint8_t *)text, strlen(text), options, &it.mesh, &it.shape, it.line, sizeof it.line);
    return it;
}

static Opening open_arrays(const uint32_t *corners, size_t count, const stlslice_options *options) {
    Opening it = begun();
    it.status = stlslice_open_mesh(points, 4, corners, count, options, &it.mesh, &it.shape, it.line, sizeof it.line);
    return it;
}

/* the place of a coordinate in a binary STL: of this facet, corner and axis */
static size_t binary_place(size_t facet, size_t corner, size_t axis) { return 84 + 50 * facet + 12 + 12 * corner + 4 * axis; }

/* the tetrahedron as a binary STL with this count, whose last number is this one */
static Opening open_binary(uint8_t count, const uint8_t last[4], const stlslice_options *options) {
    uint8_t bytes[BINARY_SIZE] = "made by a test";
    bytes[80] = count;
    for (size_t at = 0; at < 12; at++)
        for (size_t axis = 0; axis < 3; axis++)
            if (points[3 * triangles[at] + axis] != 0)
                memcpy(bytes + binary_place(at / 3, at % 3, axis), four, sizeof four);
    memcpy(bytes + binary_place(3, 2, 2), last, sizeof four);
    Opening it = begun();
    it.status = stlslice_open(bytes, sizeof bytes, options, &it.mesh, &it.shape, it.line, sizeof it.line);
    return it;
}

static Opening of_binary(void) { return open_binary(4, four, &millimetre); }

static Opening of_text(void) { return open_text(tetrahedron, &millimetre); }

static Opening of_arrays(void) { return open_arrays(triangles, 4, &millimetre); }

static Opening binary_on_screen(void) { return open_binary(4, four, &screen); }

static Opening arrays_on_screen(void) { return open_arrays(triangles, 4, &screen); }

static Opening box_of_text(void) {
    Opening it = begun();
    it.status = stlslice_box((const uint8_t *)tetrahedron, strlen(tetrahedron), STLSLICE_MILLIMETRE, &it.shape.corners,
                             it.line, sizeof it.line);
    return it;
}

/* the tetrahedron's facets in an array that just has room for them: as of an opening */
static Opening facets_of_text(void) {
    Opening it = begun();
    stlslice_facet facets[5];
    size_t count = NINE;
    memset(facets, NINE, sizeof facets);
    it.status = stlslice_facets((const uint8_t *)tetrahedron, strlen(tetrahedron), STLSLICE_MILLIMETRE, facets, 4, &count, it.line,
                                sizeof it.line);
    const bool is_done = it.status == STLSLICE_DONE;
    CHECK(count == (is_done ? 4 : NINE) && is_nines(facets + (is_done ? 4 : 0), (is_done ? 1 : 5) * sizeof *facets));
    for (size_t at = 0; is_done && at < 36; at++)
        CHECK(facets[at / 9].corners[at / 3 % 3][at % 3] == points[3 * triangles[at / 3] + at % 3]);
    if (is_done)
        it = box_of_text();
    return it;
}

static bool has_line(const Opening *it, const char *line) { return memcmp(it->line, line, strlen(line) + 1) == 0; }

/* whether there is this status and line, and nothing else */
static bool is_refused(const Opening *it, stlslice_status status, const char *line) {
    return it->status == status && has_line(it, line) && !it->mesh.is_open && it->mesh.at == NULL
        && is_nines(&it->shape, sizeof it->shape);
}

/* whether there is the tetrahedron's box, and no line */
static bool has_box(const Opening *it) {
    const stlslice_corners *corners = &it->shape.corners;
    bool is_right = it->status == STLSLICE_DONE && corners->facets == 4 && is_nines(it->line, sizeof it->line);
    for (int axis = 0; axis < 3; axis++)
        is_right = is_right && corners->low[axis] == 0 && corners->high[axis] == 4000;
    return is_right;
}

/* whether the tetrahedron is open */
static bool is_open(const Opening *it) { return has_box(it) && it->mesh.is_open && it->shape.layers == 4; }

/* what a call on an open mesh returned, and whether what a caller has is right for that status: what is put, or what was
 * there before */
typedef struct {
    stlslice_status status;
    bool is_right;
} Answer;

/* whether it has this status, and all is right for it */
static bool is_answer(Answer it, stlslice_status status) { return it.status == status && it.is_right; }

static bool is_done(Answer it) { return is_answer(it, STLSLICE_DONE); }

/* a buffer and a size */
typedef struct {
    uint8_t bytes[128];
    size_t size;
} Buffer;

static Buffer nines(void) {
    Buffer it;
    memset(it.bytes, NINE, sizeof it.bytes);
    it.size = NINE;
    return it;
}

/* If there is no room, only the size is put, and at any other status but STLSLICE_DONE nothing is. */
static Answer judged(stlslice_status status, const Buffer *it, const Wanted *wanted) {
    const size_t size = status == STLSLICE_DONE || status == STLSLICE_NO_ROOM ? wanted->size : NINE;
    const size_t put = status == STLSLICE_DONE ? wanted->size : 0;
    const bool begins = put == 0 || memcmp(it->bytes, wanted->bytes, wanted->count) == 0;
    const Answer answer = {status, it->size == size && begins && is_nines(it->bytes + put, sizeof it->bytes - put)};
    return answer;
}

static Answer mask_in(const stlslice_mesh *mesh, size_t room) {
    Buffer it = nines();
    const stlslice_status status = stlslice_mask(mesh, 0, it.bytes, room, &it.size);
    return judged(status, &it, &lowest_mask);
}

static Answer stripe_in(const stlslice_mesh *mesh, size_t room) {
    Buffer it = nines();
    const stlslice_status status = stlslice_stripe(mesh, 0, it.bytes, room, &it.size);
    return judged(status, &it, &lowest_stripe);
}

static Answer png_in(const stlslice_mesh *mesh, uint32_t k, uint32_t depth, uint32_t mirrors, size_t room) {
    Buffer it = nines();
    const stlslice_status status = stlslice_png(mesh, k, depth, mirrors, it.bytes, room, &it.size);
    return judged(status, &it, &lowest_png);
}

/* what a caller has who asks for loops: one place more than the one loop of three points needs */
typedef struct {
    stlslice_point points[4];
    size_t ends[2], count, loops;
} Loops;

static bool is_put(const Loops *it) {
    bool is_right = it->count == 3 && it->loops == 1 && it->ends[0] == 3;
    for (int at = 0; at < 3; at++)
        is_right = is_right && !is_nines(&it->points[at].x2, sizeof(int64_t)) && !is_nines(&it->points[at].y2, sizeof(int64_t));
    return is_right && is_nines(&it->points[3], sizeof it->points[3]) && is_nines(&it->ends[1], sizeof it->ends[1]);
}

static Answer loops_in(const stlslice_mesh *mesh, size_t points_room, size_t ends_room) {
    Loops it;
    memset(&it, NINE, sizeof it);
    const stlslice_status status = stlslice_loops(mesh, 0, it.points, points_room, &it.count, it.ends, ends_room, &it.loops);
    const Answer answer = {status, status == STLSLICE_DONE ? is_put(&it) : is_nines(&it, sizeof it)};
    return answer;
}

static Answer mask(const stlslice_mesh *mesh) { return mask_in(mesh, 11); }
static Answer png(const stlslice_mesh *mesh) { return png_in(mesh, 0, 1, 0, 102); }
static Answer stripe(const stlslice_mesh *mesh) { return stripe_in(mesh, 44); }
static Answer loops(const stlslice_mesh *mesh) { return loops_in(mesh, 3, 1); }

static Answer area(const stlslice_mesh *mesh) {
    uint64_t pixels = NINE;
    const stlslice_status status = stlslice_area(mesh, 0, &pixels);
    const Answer answer = {status, pixels == (status == STLSLICE_DONE ? 6 : NINE)};
    return answer;
}

static Answer areas(const stlslice_mesh *mesh) {
    uint64_t pixels[2] = {NINE, NINE};
    const stlslice_status status = stlslice_areas(mesh, 0, 0, pixels, 1);
    const Answer answer = {status, pixels[0] == (status == STLSLICE_DONE ? 6 : NINE) && pixels[1] == NINE};
    return answer;
}

static Answer probe(const stlslice_mesh *mesh) {
    stlslice_rays rays = {NINE, NINE};
    const stlslice_status status = stlslice_probe(mesh, 0, 0, 0, &rays);
    const int32_t wanted = status == STLSLICE_DONE ? 1 : NINE;
    const Answer answer = {status, rays.along_x == wanted && rays.along_y == wanted};
    return answer;
}

static void a_mesh_is_opened_asked_and_closed(void) {
    CHECK(stlslice_version() == version);
    Opening it = of_text();
    CHECK(is_open(&it));
    const Opening box = box_of_text();
    CHECK(has_box(&box));
    Opening closed = begun();
    stlslice_fault_text(STLSLICE_NOT_OPEN, closed.line, sizeof closed.line);
    CHECK(has_line(&closed, "no mesh was opened, or it was closed"));
    CHECK(is_done(mask_in(&it.mesh, 64)));
    CHECK(is_done(stripe_in(&it.mesh, 64)));
    CHECK(is_done(png_in(&it.mesh, 0, 1, 0, 128)));
    CHECK(is_done(area(&it.mesh)));
    CHECK(is_done(areas(&it.mesh)));
    CHECK(is_done(probe(&it.mesh)));
    CHECK(is_done(loops_in(&it.mesh, 4, 2)));
    stlslice_close(&it.mesh);
    CHECK(is_answer(area(&it.mesh), STLSLICE_NOT_OPEN));
    CHECK(is_answer(areas(&it.mesh), STLSLICE_NOT_OPEN));
}

static void a_mesh_of_arrays_is_opened(void) {
    static const uint32_t wrong[] = {0, 2, 1, 0, 1, 7};
    const Opening refused = open_arrays(wrong, 2, &millimetre);
    CHECK(is_refused(&refused, STLSLICE_OUT_OF_RANGE, "point 7 of triangle 1 is missing"));
    Opening it = of_arrays();
    CHECK(is_open(&it));
    CHECK(is_done(mask_in(&it.mesh, 64)));
    stlslice_close(&it.mesh);
}

static void a_binary_file_is_opened(void) {
    Opening it = of_binary();
    CHECK(is_open(&it));
    CHECK(is_done(mask_in(&it.mesh, 64)));
    stlslice_close(&it.mesh);
    const Opening endless = open_binary(4, infinite, &millimetre), lying = open_binary(3, four, &millimetre);
    CHECK(is_refused(&endless, STLSLICE_TEXT, "z of corner 2 of facet 3: infinite"));
    CHECK(is_refused(&lying, STLSLICE_TEXT, "expected solid at byte 0"));
}

/* the tetrahedron on the screen. It is turned to -4 .. 0 mm along x, and so the screen begins at -4.85 and -0.4 mm */
static void stands_on_the_screen(Opening it) {
    const stlslice_shape *shape = &it.shape;
    CHECK(has_box(&it) && it.mesh.is_open && shape->columns == 300 && shape->rows == 200);
    CHECK(shape->pitch == 456 && shape->layer == 190 && shape->times_x == 24 && shape->times_y == 19);
    CHECK(shape->origin[0] == -4850 * 24 && shape->origin[1] == -400 * 19 && shape->origin[2] == 0);
    /* the plane of layer 20 is 105 micrometres below the top, and the next would be above it */
    CHECK(shape->layers == 21);
    /* There y - x is below 105. The centres are at x of -14.5, -33.5, .. and y of 20, 44, ..: four in the first row, then three
     * and two. The next row's y is 92. */
    uint64_t pixels = NINE;
    CHECK(stlslice_area(&it.mesh, 20, &pixels) == STLSLICE_DONE && pixels == 4 + 3 + 2);
    /* in that row: the centre at -90.5 is left of the part, that at -71.5 in it, and that at 4.5 right of it */
    static const uint32_t columns[3] = {250, 251, 255};
    static const int32_t crossings[3] = {0, 1, 0};
    for (int at = 0; at < 3; at++) {
        stlslice_rays rays = {NINE, NINE};
        CHECK(stlslice_probe(&it.mesh, columns[at], 17, 20, &rays) == STLSLICE_DONE);
        CHECK(rays.along_x == crossings[at] && rays.along_y == crossings[at]);
    }
    /* twice the area of its triangle, whose points are multiplied, and in half-micrometres */
    Loops loop;
    CHECK(stlslice_loops(&it.mesh, 20, loop.points, 3, &loop.count, loop.ends, 1, &loop.loops) == STLSLICE_DONE);
    int64_t doubled = 0;
    for (int at = 0; at < 3; at++)
        doubled += loop.points[at].x2 * loop.points[(at + 1) % 3].y2 - loop.points[(at + 1) % 3].x2 * loop.points[at].y2;
    CHECK(loop.count == 3 && loop.loops == 1 && doubled == 2 * 105 * 24 * 2 * 105 * 19);
    stlslice_close(&it.mesh);
}

static void a_part_stands_on_a_screen(void) {
    stands_on_the_screen(binary_on_screen());
    stands_on_the_screen(arrays_on_screen());
}

/* fails each allocation in turn of opening the tetrahedron, or of its box, until none is left to fail: how many failed */
static unsigned long failed_openings(Opening (*begin)(void)) {
    for (unsigned long number = 1;; number++) {
        CHECK(number < TURNS);
        fail_at(number);
        Opening it = begin();
        if (!has_failed()) {
            CHECK(has_box(&it));
            stlslice_close(&it.mesh);
            return number - 1;
        }
        CHECK(is_refused(&it, STLSLICE_MEMORY, "out of memory"));
    }
}

static void each_failed_allocation_of_arrays_is_told(void) { CHECK(failed_openings(of_arrays) > 5); }

static void each_failed_allocation_of_a_binary_file_is_told(void) { CHECK(failed_openings(of_binary) > 5); }

static void each_failed_allocation_on_a_screen_is_told(void) {
    CHECK(failed_openings(binary_on_screen) > 5);
    CHECK(failed_openings(arrays_on_screen) > 5);
}

static void each_failed_allocation_of_a_box_is_told(void) { CHECK(failed_openings(box_of_text) > 0); }

static void the_facets_of_a_file_are_told(void) { CHECK(failed_openings(facets_of_text) > 0); }

/* fails each allocation in turn, of opening the mesh and of a call on it, until none is left to fail: how many of the call's
 * failed */
static unsigned long failures(Answer (*call)(const stlslice_mesh *)) {
    unsigned long failed = 0;
    for (unsigned long number = 1;; number++) {
        CHECK(number < TURNS);
        fail_at(number);
        Opening it = of_text();
        if (it.status != STLSLICE_DONE) {
            CHECK(has_failed() && is_refused(&it, STLSLICE_MEMORY, "out of memory"));
            continue;
        }
        const Answer answer = call(&it.mesh);
        const bool is_short = has_failed();
        CHECK(is_answer(answer, is_short ? STLSLICE_MEMORY : STLSLICE_DONE));
        CHECK(is_done(call(&it.mesh)));
        stlslice_close(&it.mesh);
        if (!is_short)
            return failed;
        failed++;
    }
}

static void each_failed_allocation_is_told(void) {
    CHECK(failed_openings(of_text) > 0);
    CHECK(failures(mask) > 0);
    CHECK(failures(png) > 0);
    CHECK(failures(stripe) > 0);
    CHECK(failures(area) > 0);
    CHECK(failures(areas) > 0);
    CHECK(failures(loops) > 0);
}

/* numbers that stand for no layer, depth or mirrors; and a buffer that is a byte too short */
static void pngs_that_are_refused(void) {
    static const uint32_t wrong[][3] = {{4, 8, 0}, {4, 0, 4}, {0, 0, 0}, {0, 2, 0}, {0, 9, 1}, {0, 8, 4}};
    Opening it = of_text();
    for (size_t at = 0; at < sizeof wrong / sizeof *wrong; at++)
        CHECK(is_answer(png_in(&it.mesh, wrong[at][0], wrong[at][1], wrong[at][2], 101), STLSLICE_OUT_OF_RANGE));
    CHECK(is_answer(png_in(&it.mesh, 0, 1, 0, 101), STLSLICE_NO_ROOM));
    stlslice_close(&it.mesh);
}

/* a text that opens no mesh, with its options, its status and its line */
typedef struct {
    const char *text;
    stlslice_options options;
    stlslice_status status;
    const char *line;
} Refusal;

static stlslice_options with_pitch(uint32_t pitch) {
    stlslice_options options = millimetre;
    options.pitch = pitch;
    return options;
}

static stlslice_options without_cells(void) {
    stlslice_options options = millimetre;
    options.placing = STLSLICE_GIVEN;
    return options;
}

static Refusal without_solid(void) {
    const Refusal it = {"facet", millimetre, STLSLICE_TEXT, "expected solid at byte 0"};
    return it;
}

static Refusal with_open_edge(void) {
    const Refusal it = {triangle, millimetre, STLSLICE_OPEN_MESH, "open edge 0 0 0 to 0 4000 0 there 1 back 0"};
    return it;
}

static Refusal with_no_cells(void) {
    const Refusal it = {tetrahedron, without_cells(), STLSLICE_GRID, "grid has no cells"};
    return it;
}

/* 210 columns are 3.99 mm */
static Refusal with_no_fit(void) {
    Refusal it = {tetrahedron, screen, STLSLICE_NO_FIT,
                  "part does not fit: 4000 x 4000 micrometres on a screen of 3990 x 4800; turned by a quarter it does not fit either"};
    it.options.columns = 210;
    return it;
}

static bool holds(Refusal it) {
    const Opening opening = open_text(it.text, &it.options);
    return is_refused(&opening, it.status, it.line);
}

/* fails each allocation in turn of a refusal, until none is left to fail: how many were its line's, in place of which there is
 * the text of its status */
static unsigned long failed_lines(Refusal refusal, const char *text) {
    unsigned long failed = 0;
    for (unsigned long number = 1;; number++) {
        CHECK(number < TURNS);
        fail_at(number);
        const Opening it = open_text(refusal.text, &refusal.options);
        if (!has_failed())
            break;
        if (it.status == STLSLICE_MEMORY && failed == 0) {
            CHECK(is_refused(&it, STLSLICE_MEMORY, "out of memory"));
        } else {
            CHECK(is_refused(&it, refusal.status, text));
            failed++;
        }
    }
    CHECK(holds(refusal));
    return failed;
}

static void what_is_told_without_memory(void) {
    CHECK(failed_lines(without_solid(), "the file is no STL that can be read") > 0);
    CHECK(failed_lines(with_open_edge(), "the mesh has an open edge") > 0);
    CHECK(failed_lines(with_no_cells(), "there is no such grid") > 0);
    CHECK(failed_lines(with_no_fit(), "the part does not fit the screen") > 0);
    /* the line of a failed allocation needs none */
    fail_at(1);
    const Opening refused = of_text();
    CHECK(has_failed() && asked == 1 && is_refused(&refused, STLSLICE_MEMORY, "out of memory"));
    /* the size of an image is put without slicing: no allocation is left to fail */
    Opening it = of_text();
    fail_at(1);
    CHECK(is_answer(mask_in(&it.mesh, 10), STLSLICE_NO_ROOM));
    CHECK(is_answer(stripe_in(&it.mesh, 43), STLSLICE_NO_ROOM));
    CHECK(!has_failed());
    stlslice_close(&it.mesh);
}

static void a_text_that_opens_no_mesh_has_the_program_s_line(void) {
    const Refusal of_step = {tetrahedron, with_pitch(0), STLSLICE_OUT_OF_RANGE, "pitch and layer height take 1 to 100000 micrometres"};
    CHECK(holds(of_step));
    CHECK(holds(without_solid()));
    CHECK(holds(with_open_edge()));
    CHECK(holds(with_no_cells()));
}

static void the_line_of_a_step_is_the_fault_s(void) {
    const stlslice_options no_step = with_pitch(0);
    const Opening of_a_text = open_text(tetrahedron, &no_step), of_some_arrays = open_arrays(triangles, 4, &no_step);
    CHECK(is_refused(&of_a_text, STLSLICE_OUT_OF_RANGE, step_text));
    CHECK(is_refused(&of_some_arrays, STLSLICE_OUT_OF_RANGE, step_text));
}

typedef struct {
    const char *name;
    void (*run)(void);
} Test;

#define TEST(name) {#name, name}
static const Test tests[] = {
    TEST(a_mesh_is_opened_asked_and_closed),
    TEST(a_mesh_of_arrays_is_opened),
    TEST(a_binary_file_is_opened),
    TEST(a_part_stands_on_a_screen),
    TEST(each_failed_allocation_of_arrays_is_told),
    TEST(each_failed_allocation_of_a_binary_file_is_told),
    TEST(each_failed_allocation_on_a_screen_is_told),
    TEST(each_failed_allocation_is_told),
    TEST(each_failed_allocation_of_a_box_is_told),
    TEST(the_facets_of_a_file_are_told),
    TEST(pngs_that_are_refused),
    TEST(what_is_told_without_memory),
    TEST(a_text_that_opens_no_mesh_has_the_program_s_line),
    TEST(the_line_of_a_step_is_the_fault_s),
};

int main(int count, char **words) {
    unsigned major, minor, patch;
    if (count != 3 || sscanf(words[1], "%u.%u.%u", &major, &minor, &patch) != 3)
        return 99;
    version = 1000000 * major + 1000 * minor + patch;
    step_text = words[2];
    const size_t number = sizeof tests / sizeof *tests;
    for (size_t at = 0; at < number; at++) {
        fprintf(stderr, "%s\n", tests[at].name);
        tests[at].run();
    }
    printf("%zu tests of the calls\n", number);
    return 0;
}
