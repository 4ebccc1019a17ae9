/* stlslice: exact slices of a closed mesh, layer by layer.
 *
 *     stlslice_options options = {.pitch = 50, .layer = 50};
 *     stlslice_mesh mesh = STLSLICE_CLOSED;
 *     stlslice_shape shape;
 *     char line[STLSLICE_LINE];
 *     if (stlslice_open_mesh(points, point_count, triangles, triangle_count, &options, &mesh, &shape, line, sizeof line)
 *         != STLSLICE_DONE)           // or stlslice_open of a file, binary STL or ASCII STL
 *         puts(line);
 *     stlslice_mask(&mesh, k, image, image_room, &image_size);
 *     stlslice_close(&mesh);
 *
 * Calls. Most calls return a status. Lengths are whole micrometres. Layers, columns and rows count from 0, along z, x
 * and y. No call prints, starts a thread, reads a file or ends the program. Memory comes from malloc and goes back to
 * free. A call that returns any other status than STLSLICE_DONE leaves the mesh as it was.
 *
 * Buffers. A call with a buffer writes into its front, leaves the rest as it was, and reports how much it wrote. If the
 * buffer is too small, nothing is written, the size that is needed is reported, and the status is STLSLICE_NO_ROOM. So
 * a call with a null buffer of size 0 asks for the size, which is quick by stlslice_mask and stlslice_stripe. At any
 * other status buffer and size are as they were.
 *
 * Pointers. A file, an array or a buffer may be null if its size is 0. If any other pointer is null, or a size is more
 * than PTRDIFF_MAX bytes, the status is STLSLICE_OUT_OF_RANGE; a call without a status then does nothing. A pointer that
 * is not null has to be valid for its type. The places that one call writes to overlap neither each other nor what it
 * reads.
 *
 * Threads. Calls that take a mesh by const only read it, and any number of them may run at the same time on one mesh, each
 * with places of its own to write to. A call that opens or closes a mesh needs it alone: no other call runs on it at the
 * same time. A mesh may go from thread to thread. Different meshes are independent of each other.
 */
#ifndef STLSLICE_H
#define STLSLICE_H

#include <stdbool.h>
#include <stddef.h>
#include <stdint.h>

#ifdef __cplusplus
extern "C" {
#endif

/* Statuses. 3 to 6 are the program's. */
typedef uint32_t stlslice_status;
#define STLSLICE_DONE 0u
#define STLSLICE_OUT_OF_RANGE 1u /* what is asked is out of range, a pointer is null, or a size is one of no object */
#define STLSLICE_TEXT 3u         /* the file is no STL that can be read */
#define STLSLICE_OPEN_MESH 4u    /* the mesh has an open edge */
#define STLSLICE_GRID 5u         /* there is no such grid */
#define STLSLICE_MEMORY 6u       /* out of memory: an allocation failed */
#define STLSLICE_NO_ROOM 7u      /* the buffer is too small */
#define STLSLICE_NOT_OPEN 8u     /* no mesh was opened, or it was closed */
#define STLSLICE_NO_FIT 9u       /* the part does not fit the screen; the line has both sizes, and whether a turn helps */

/* A size that is enough for each line. */
#define STLSLICE_LINE 256

/* Rules, units and where the grid lies. Zeros are what the program takes by default. Pitch and layer have no default. */
enum { STLSLICE_EVENODD = 0, STLSLICE_NONZERO = 1, STLSLICE_POSITIVE = 2 };
enum { STLSLICE_MILLIMETRE = 0, STLSLICE_INCH = 1, STLSLICE_CENTIMETRE = 2, STLSLICE_METRE = 3 };
enum { STLSLICE_FITTED = 0, STLSLICE_GIVEN = 1, STLSLICE_SCREEN = 2 };

/* Mirrors of a PNG: 0, one of these, or their sum. */
enum { STLSLICE_MIRROR_X = 1, STLSLICE_MIRROR_Y = 2 };

/* A side of a pixel: numerator / denominator micrometres, neither of them 0. 81 mm of 1620 pixels are 81000 / 1620. */
typedef struct stlslice_side {
    uint32_t numerator, denominator;
} stlslice_side;

/* How a file is read, and how a mesh is cut into voxels. For STLSLICE_SCREEN the part stands in the middle of a printer's
 * screen, and its lowest point on the first layer. There are as many layers as have their middle within the part's height, and
 * at least one. The part is turned, and then x and y are multiplied by whole numbers, so that pixels become squares: a pixel of
 * 19 by 24 micrometres has a pitch of 456, and x is multiplied by 24, y by 19. Pixels that are no screen's (none of them, more
 * than 16384 in a row or column, a side with a 0, no common pitch up to 100000) have the status STLSLICE_OUT_OF_RANGE, with a
 * line that says so. */
typedef struct stlslice_options {
    uint32_t pitch;                 /* a voxel's length along x and y, 1 to 100000; not read for STLSLICE_SCREEN */
    uint32_t layer;                 /* a voxel's length along z, 1 to 100000 */
    uint32_t rule;                  /* STLSLICE_EVENODD, .. */
    uint32_t unit;                  /* of a file's numbers: STLSLICE_MILLIMETRE, ..; of no effect on arrays */
    uint32_t placing;               /* STLSLICE_FITTED: the rest is not read; STLSLICE_GIVEN: the grid follows; STLSLICE_SCREEN */
    uint32_t columns, rows, layers; /* at most 16384, 16384 and 65535; for STLSLICE_SCREEN its pixels, and layers is not read */
    int32_t origin[3];              /* the corner of least x, y and z, each at most 128000000 from 0; not read for STLSLICE_SCREEN */
    uint32_t turn;                  /* STLSLICE_SCREEN: quarters, counterclockwise as seen from above, 0 to 3 */
    stlslice_side width, depth;     /* STLSLICE_SCREEN: the sides of a pixel along x and y of the image */
} stlslice_options;

/* The facets of a file or of arrays: how many, and their least and greatest x, y and z. All are 0 if there is none. */
typedef struct stlslice_corners {
    uint64_t facets;
    int32_t low[3], high[3];
} stlslice_corners;

/* A mesh that was opened: its facets as they were read, and the counts, the least corner and the voxels of its grid. On a
 * screen corner and pitch are multiplied, as points of loops are. */
typedef struct stlslice_shape {
    stlslice_corners corners;
    uint32_t columns, rows, layers;
    int32_t origin[3];
    uint32_t pitch, layer;     /* of a voxel, along x and y, and along z */
    uint64_t times_x, times_y; /* by what x and y are multiplied on a screen; else 1 */
} stlslice_shape;

/* The signed crossings of the mesh by the rays along x and y from a voxel's centre. */
typedef struct stlslice_rays {
    int32_t along_x, along_y;
} stlslice_rays;

/* A facet: x, y and z of its three corners in micrometres, counterclockwise as seen from outside. */
typedef struct stlslice_facet {
    int32_t corners[3][3];
} stlslice_facet;

/* A point of a layer's plane, in half-micrometres: each coordinate the nearest to the exact one, halves upward. */
typedef struct stlslice_point {
    int64_t x2, y2;
} stlslice_point;

/* An opened mesh, or none. It begins as STLSLICE_CLOSED, or as zeros. Its fields are the library's. A copy may not be
 * used beside it. */
typedef struct stlslice_mesh {
    bool is_open;
    void *at;
} stlslice_mesh;
#define STLSLICE_CLOSED {false, NULL}

/* 1000000 for 1.0.0. */
uint32_t stlslice_version(void);

/* Reads the bytes of a file, and reports the box of its facets. They are a binary STL exactly if there are 84 of them and
 * 50 for each facet of the count at byte 80, and else an ASCII STL text. A coordinate has the exact value of its number,
 * rounded once to the nearest micrometre, halves away from zero.
 * After a fault of text, mesh or grid, `line` has what the program writes for it after "stlslice: ". After one of a binary
 * STL it is "x of corner 2 of facet 3: not a number", "..: infinite" or "..: out of range", where facets and corners count
 * from 0, or "too many facets: 1048577". Lines of a part on a screen are the screen's, and its open edge is the least as the
 * part stands there, by its own points. If a number is out of its range, or an allocation failed, `line` has a text of
 * that. It ends with 0, and is cut if there is no room for it. At STLSLICE_DONE it is as it was. */
stlslice_status stlslice_box(const uint8_t *bytes, size_t size, uint32_t unit, stlslice_corners *corners, char *line,
                             size_t line_room);

/* Reads the bytes of a file, as stlslice_box does, and puts its facets into `facets`, in the file's order. They need not be a
 * closed mesh, and there may be as many as a binary STL can count. `line` is as in stlslice_box, and at STLSLICE_NO_ROOM as it
 * was. */
stlslice_status stlslice_facets(const uint8_t *bytes, size_t size, uint32_t unit, stlslice_facet *facets, size_t facets_room,
                                size_t *facets_count, char *line, size_t line_room);

/* Opens the bytes of a file, as stlslice_box reads them: `mesh` has its mesh from now on, in place of one that it had. The
 * bytes are no longer needed. After a fault, `mesh` and `shape` are as they were, and `line` is as in stlslice_box. */
stlslice_status stlslice_open(const uint8_t *bytes, size_t size, const stlslice_options *options, stlslice_mesh *mesh,
                              stlslice_shape *shape, char *line, size_t line_room);

/* Opens a mesh from arrays, as stlslice_open does a file. A point is three coordinates, x, y and z in micrometres, each
 * at most 128000000 from 0. A triangle is the indices of its three corners among the points, from 0, counterclockwise
 * as seen from outside. The counts are of points and of triangles, so the arrays have three numbers for each. There are
 * at most 1048576 triangles. The unit of the options has to be a unit, and has no effect. A point that no triangle has
 * is not looked at. Nothing of the arrays is kept: they are no longer needed.
 * If a triangle is wrong, the status is STLSLICE_OUT_OF_RANGE. Then `line` is "point 7 of triangle 3 is missing", "point
 * 7 of triangle 3 is out of range", or "too many facets at triangle 1048576". It names the first wrong triangle, from 0,
 * and the first wrong point in it. Otherwise all is as in stlslice_open: a file of the same facets has the same mesh, or
 * the same fault. */
stlslice_status stlslice_open_mesh(const int32_t *points, size_t point_count, const uint32_t *triangles,
                                   size_t triangle_count, const stlslice_options *options, stlslice_mesh *mesh,
                                   stlslice_shape *shape, char *line, size_t line_room);

/* The image of layer k in raw PBM, exactly as the program writes it: "P4", columns and rows, then the rows from the
 * greatest y down. A row has (columns + 7) / 8 bytes, its leftmost pixel in the highest bit; a bit is 1 if the voxel is
 * filled. */
stlslice_status stlslice_mask(const stlslice_mesh *mesh, uint32_t k, uint8_t *image, size_t image_room, size_t *image_size);

/* The images of the layers 8 s to 8 s + 7, as far as there are, one after the other. This is faster than one by one if stripes
 * are asked for in any other order than from the lowest up. */
stlslice_status stlslice_stripe(const stlslice_mesh *mesh, uint64_t s, uint8_t *images, size_t images_room,
                                size_t *images_size);

/* The image of layer k as PNG (ISO 15948) in greyscale, of `depth` bits a pixel, 1 or 8. A pixel is white if the voxel
 * is filled, else black. Without mirrors column 0 stands at the left, and the greatest y at the top, as in
 * stlslice_mask. STLSLICE_MIRROR_X puts column 0 at the right, and STLSLICE_MIRROR_Y the greatest y at the bottom. For
 * another depth or other mirrors the status is STLSLICE_OUT_OF_RANGE. Sizes differ from layer to layer, and the size
 * alone takes as long as the image. So try a buffer first that is likely to be enough, as one of the size that
 * stlslice_mask reports and 100 bytes more. */
stlslice_status stlslice_png(const stlslice_mesh *mesh, uint32_t k, uint32_t depth, uint32_t mirrors, uint8_t *png,
                             size_t png_room, size_t *png_size);

/* The number of filled pixels of layer k. */
stlslice_status stlslice_area(const stlslice_mesh *mesh, uint32_t k, uint64_t *area);

/* The numbers of pixels that a rule fills, which may be another than the mesh's, of `count` layers, from layer `first` on. This
 * is faster than one by one. If the mesh has not all of these layers, or there is no such rule, none is told, and the status is
 * STLSLICE_OUT_OF_RANGE. */
stlslice_status stlslice_areas(const stlslice_mesh *mesh, uint32_t rule, uint32_t first, uint64_t *areas, size_t count);

/* The rays from the centre of the voxel of column i, row j (from the least y up) and layer k. */
stlslice_status stlslice_probe(const stlslice_mesh *mesh, uint32_t i, uint32_t j, uint32_t k, stlslice_rays *rays);

/* The loops in which the plane through the middle of layer k cuts the mesh. They are closed polygons. If the facets of
 * a mesh face outward, its inside is on the left of each step. `points` gets the points of all loops, one loop after
 * the other. `ends` gets for each loop the position after its last point; the last point runs back to the first. If one
 * of the two buffers is too small, neither is written, and both numbers are reported. */
stlslice_status stlslice_loops(const stlslice_mesh *mesh, uint32_t k, stlslice_point *points, size_t points_room,
                               size_t *points_count, size_t *ends, size_t ends_room, size_t *loops_count);

/* The text of a status: what stands beside the status above, in short. It ends with 0, and is cut if there is no room
 * for it. A number that is no status has the text "no status". */
void stlslice_fault_text(stlslice_status status, char *line, size_t line_room);

/* Closes a mesh and frees its memory. One that is closed stays so. */
void stlslice_close(stlslice_mesh *mesh);

#ifdef __cplusplus
}
#endif
#endif
