/* A check that does not hold ends the program with status 100, and is named on standard error. */
#ifndef CHECKS_H
#define CHECKS_H

#include "stlslice.h"

#include <assert.h>
#include <stdio.h>
#include <stdlib.h>

/* the sizes of the proved library's types, and where fields lie in them */
static_assert(sizeof(stlslice_options) == 64, "as `Options` of crates/stlslice_c/src/options.rt");
static_assert(offsetof(stlslice_options, placing) == 16 && offsetof(stlslice_options, columns) == 20, "as `Options`");
static_assert(offsetof(stlslice_options, origin) == 32 && offsetof(stlslice_options, turn) == 44, "as `Options`");
static_assert(offsetof(stlslice_options, width) == 48 && offsetof(stlslice_options, depth) == 56, "as `Options`");
static_assert(sizeof(stlslice_corners) == 32, "as `Corners` of crates/stlslice_c/src/shape.rt");
static_assert(offsetof(stlslice_corners, low) == 8 && offsetof(stlslice_corners, high) == 20, "as `Corners`");
static_assert(sizeof(stlslice_shape) == 80, "as `Shape` of crates/stlslice_c/src/shape.rt");
static_assert(offsetof(stlslice_shape, columns) == 32 && offsetof(stlslice_shape, origin) == 44, "as `Shape`");
static_assert(offsetof(stlslice_shape, pitch) == 56 && offsetof(stlslice_shape, times_x) == 64, "as `Shape`");
static_assert(sizeof(stlslice_rays) == 8, "as `Rays` of crates/stlslice_c/src/shape.rt");
static_assert(sizeof(stlslice_facet) == 36, "as facets in crates/stlslice_c/src/facets.rt");
static_assert(sizeof(stlslice_point) == 16, "as `LoopPoint` of crates/stlslice_c/src/loops.rt");
static_assert(sizeof(stlslice_mesh) == 16 && offsetof(stlslice_mesh, at) == 8, "as `Handle` of crates/stlslice_c/src/handle.rt");

#define CHECK(holds)                                                                                                   \
    do {                                                                                                               \
        if (!(holds)) {                                                                                                \
            fprintf(stderr, "%s:%d: not so: %s\n", __FILE__, __LINE__, #holds);                                        \
            exit(100);                                                                                                 \
        }                                                                                                              \
    } while (0)

#endif
