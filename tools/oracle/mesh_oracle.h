/* The Rust, for C: what tools/oracle/build leaves as build/oracle/libmesh_oracle.a. It is the unmodified one, but for
 * ORACLE_NORMAL.
 *
 * Each function but oracle_rows answers 0, or 1 where the Rust panics; then nothing is written, and oracle_panic_words
 * gives the words. Points are three floats in a row. Nothing is checked: the Rust's own answers are wanted, outside
 * document 01's bounds too. Calls are meant for one thread.
 * Link with -lpthread -ldl -lm. */
#ifndef MESH_ORACLE_H
#define MESH_ORACLE_H

#include <stddef.h>
#include <stdint.h>

typedef struct {
    float first[3];
    float size[3];
    uint32_t count[3];
} oracle_grid;

typedef struct {
    const float *coordinates; /* three for each vertex */
    size_t vertices;
    const uint32_t *indices; /* null: none */
    size_t index_count;
    uint32_t strip; /* 0 list, else strip */
} oracle_mesh;

/* Signs by Raycast; by Normal, of the Rust with the queue's order of document 02, §8, put in; or by Normal, of the unmodified one. */
enum { ORACLE_RAYCAST = 0, ORACLE_NORMAL = 1, ORACLE_NORMAL_IN_SOURCE_ORDER = 2 };

/* Starts the one thread, so that the first timed call is like the others. Not needed otherwise. */
void oracle_begin(void);
/* Copies at most room bytes of the last panic's words; answers how many. */
size_t oracle_panic_words(char *buffer, size_t room);

/* The whole job. field: one float a cell. steps: propagation steps (document 01's pops).
 * times: milliseconds of seeding (with queueing and the making of the arrays), spreading, crossings (with
 * signs; 0 by Normal, which has none), as the source's log lines give them; of the processor's time, see stand-ins/web-time. */
int32_t oracle_job(const oracle_grid *grid, const oracle_mesh *mesh, uint32_t sign, float *field, uint32_t *steps,
                   double times[3]);
/* What seeding leaves: a distance (FLT_MAX: none) and the triangle's three vertex numbers for each cell. */
int32_t oracle_seeding(const oracle_grid *grid, const oracle_mesh *mesh, uint32_t sign, float *distances,
                       uint32_t *triples);
/* The crossing counts by Raycast: x, y, z of each cell in turn. */
int32_t oracle_crossings(const oracle_grid *grid, const oracle_mesh *mesh, uint32_t *counts);
/* The rows of a field, which the Rust has not (document 02, §9): what the cells with number n on the upright axis (0 x, 1 y, 2 z) count together,
 * off the field and by the Rust's own numbers of a cell. In edition 1 a cell counts 1 if its sign bit is set; in edition 2 (§11) 2 if it is and the
 * magnitude is above zero, and 1 for magnitude zero with either sign. Answers the documents' number: 0; 1 where `upright` is no axis; 14 where
 * `edition` is neither 1 nor 2; 5 where `length` is not that axis's count. Nothing is written then. */
uint32_t oracle_rows(const oracle_grid *grid, uint32_t upright, uint32_t edition, const float *field, uint32_t *rows, size_t length);
/* The triangles in order, three vertex numbers each; at most room triples are written. */
int32_t oracle_get_triangles(const oracle_mesh *mesh, uint32_t *triples, size_t room, size_t *triangles);

int32_t oracle_point_triangle_distance(const float p[3], const float a[3], const float b[3], const float c[3],
                                       float *distance);
int32_t oracle_point_triangle_signed_distance(const float p[3], const float a[3], const float b[3], const float c[3],
                                              float *distance);
int32_t oracle_closest_point_triangle(const float p[3], const float a[3], const float b[3], const float c[3],
                                      float closest[3]);
int32_t oracle_closest_point_segment(const float p[3], const float a[3], const float b[3], float closest[3]);
int32_t oracle_triangle_bounding_box(const float a[3], const float b[3], const float c[3], float low[3],
                                     float high[3]);
/* axis 0, 1, 2. hit: 1 with t, or 0. */
int32_t oracle_ray_triangle_intersection_aligned(const float origin[3], const float a[3], const float b[3],
                                                 const float c[3], uint32_t axis, uint32_t *hit, float *t);
/* order: below 0 less, 0 equal, above 0 greater. */
int32_t oracle_compare_distances(float a, float b, int32_t *order);

int32_t oracle_snap_point_to_grid(const oracle_grid *grid, const float point[3], uint32_t *inside, uint32_t cell[3]);
int32_t oracle_get_cell_center(const oracle_grid *grid, const uint32_t cell[3], float centre[3]);
int32_t oracle_get_bounding_box(const oracle_grid *grid, float low[3], float high[3]);
int32_t oracle_get_last_cell(const oracle_grid *grid, float last[3]);
int32_t oracle_get_cell_idx(const oracle_grid *grid, const uint32_t cell[3], uint64_t *index);
int32_t oracle_get_cell_integer_coordinates(const oracle_grid *grid, uint64_t index, uint32_t cell[3]);
int32_t oracle_from_bounding_box(const float low[3], const float high[3], const uint32_t count[3], oracle_grid *grid);

#endif
