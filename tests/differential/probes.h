/* The inner layers of the port, one by one, for tests/differential and bench
 * alone; probes/src/c.rs declares them for Rust.
 *
 * A piece is its ring sizes, the outer ring first, and its vertices, ring after
 * ring: there are as many points as the sizes sum up to. A ring on its own is its
 * vertices. Obstacles have positive width and height.
 * Work slices are of 8,000 floats each unless a comment says otherwise.
 *
 * All floats are compared by their bits, NaNs as equal.
 */
#ifndef PROBES_H
#define PROBES_H

#include <stddef.h>
#include <stdint.h>

typedef struct { double x, y; } probe_point;
typedef struct { double center_x, center_y, width, height; } probe_rectangle;

/* What a packer is told. */
typedef struct {
    double radius, gap, boundary_gap, precision;
    size_t quota;
    uint32_t attempts;
    _Bool spread, strict;
} probe_packing;

/* The same with bytes: 1 is yes, any other byte no. */
typedef struct {
    double radius, gap, boundary_gap, precision;
    size_t quota;
    uint32_t attempts;
    uint8_t spread, strict;
} probe_packing_bytes;

#define PIECE                                                                  \
    const uint64_t *ring_sizes, size_t rings,                                  \
    const probe_point *points, size_t point_count
#define OBSTACLES const probe_rectangle *obstacles, size_t obstacle_count
#define WORK                                                                   \
    double *first, size_t first_length, double *second, size_t second_length

/* regions.rs signed_clearance. */
double probe_signed_clearance(PIECE, double x, double y);

/* The same of four places at once. */
void probe_four_clearances(PIECE, const probe_point places[4], double found[4]);

/* Whether that is at least c; measured by bench/, and compared there. */
_Bool probe_clearance_at_least(PIECE, double x, double y, double c);

/* How many of the places have a clearance of at least c; measured by bench/, and compared there. */
uint64_t probe_count_clear(PIECE, const probe_point *places, size_t place_count, double c);

/* regions.rs point_in_polygon: whether inside. */
_Bool probe_point_in_polygon(const probe_point *ring, size_t point_count,
                             double x, double y);

/* regions.rs RegionPiece::area, 0 where it comes out below 0. */
double probe_area(PIECE);

/* glyphs.rs ring_bounds: true with min x, max x, min y, max y; false without
 * bounds, and then `bounds` is as it was. */
_Bool probe_ring_bounds(const probe_point *ring, size_t point_count,
                        double bounds[4]);

/* glyphs.rs obstacles_near: near[k] becomes 1 where obstacle k is near, else
 * 0; the answer is how many are. near_length is the number of obstacles. */
uint64_t probe_obstacles_near(PIECE, OBSTACLES, double clearance,
                              uint8_t *near, size_t near_length);

/* regions.rs poi_with_holes on one piece: 1 with x, y and clearance, 0 where
 * there is none, 15 where more than 1,600 cells wait; for 0 and 15 `found` is
 * as it was. `waiting` becomes the most cells that waited at once, looked at
 * after each that enters: 1,601 for answer 15, 0 where no search is made. */
uint8_t probe_deepest_point(PIECE, double precision, WORK, double found[3],
                            uint32_t *waiting);

/* The clearance of the same search with the cells lent, for bench/: 0 where
 * there is no deepest point, -1 where too many wait. */
double probe_depth(PIECE, double precision, double *cells, size_t cell_floats);

/* discs.rs, each packer on one piece with its quota (at least 1). `state` is
 * the stream's, before and after; only Random changes it, and only it asks for
 * flags, one for each mark of the quota. It writes them where that is over 8,000
 * or over the floats of the second slice, which for it may be any number. The
 * answer is the number of spots; `spots` begins with them, x and y in turn, and
 * has room for the quota. A lattice that is not spread is strict and only
 * counted. The piece's search has at most 1,600 cells waiting. */
#define PACKER(name)                                                           \
    size_t name(PIECE, OBSTACLES, const probe_packing *packing,                \
                uint64_t *state, WORK, _Bool *flags, size_t flag_count,        \
                double *spots, size_t spot_floats)
PACKER(probe_pack_uniform);
PACKER(probe_pack_rectangular);
PACKER(probe_pack_low_discrepancy);
PACKER(probe_pack_random);

/* The same, told by bytes and lent no flags. Random packs 8,000 marks at the
 * most here, one for each float of a work slice. */
#define PACKER_NO_FLAGS(name)                                                  \
    size_t name(PIECE, OBSTACLES, const probe_packing_bytes *packing,          \
                uint64_t *state, WORK, double *spots, size_t spot_floats)
PACKER_NO_FLAGS(probe_pack_uniform_no_flags);
PACKER_NO_FLAGS(probe_pack_rectangular_no_flags);
PACKER_NO_FLAGS(probe_pack_low_discrepancy_no_flags);
PACKER_NO_FLAGS(probe_pack_random_no_flags);

/* relax.rs relax_scatter on the spots; obstacles are those near the piece. */
void probe_relax_scatter(PIECE, OBSTACLES, double spacing, double inset,
                         double *spots, size_t spot_floats);

#endif
