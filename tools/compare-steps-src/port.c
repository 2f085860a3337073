/* The port's questions on words: each takes its parameters as 32-bit words in a row and leaves its answer so.
 * Every record of sdf.h is a row of 32-bit fields, so a copy is all there is to do. Pointers and no records
 * cross to the driver, which therefore needs to know nothing of how a machine passes a record. */
#include "sdf.h"

static float real(uint32_t bits) {
    union {
        uint32_t bits;
        float real;
    } u = {bits};
    return u.real;
}

static uint32_t bits(float x) {
    union {
        float real;
        uint32_t bits;
    } u = {x};
    return u.bits;
}

#define POINT(k) (*(const sdf_point *)(in + (k)))
#define CELL(k) (*(const sdf_cell *)(in + (k)))
/* First, size, counts and the upright axis. */
#define GRID (*(const sdf_grid *)in)
_Static_assert(sizeof(sdf_grid) == 10 * sizeof(uint32_t), "a grid is ten words");
#define PORT(name) void port_##name(const uint32_t *in, uint32_t *out)
#define ANSWER(type) *(sdf_##type##_answer *)out

PORT(sqrt) { *out = bits(sdf_sqrt(real(*in))); }
PORT(sqrt_bits) { *out = sdf_sqrt_bits(*in); }
PORT(compare) { ANSWER(order) = sdf_compare_distances(real(in[0]), real(in[1])); }

PORT(triangle_box) { ANSWER(box) = sdf_triangle_bounding_box(POINT(0), POINT(3), POINT(6)); }
PORT(segment) { ANSWER(point) = sdf_closest_point_segment(POINT(0), POINT(3), POINT(6)); }
PORT(triangle) { ANSWER(point) = sdf_closest_point_triangle(POINT(0), POINT(3), POINT(6), POINT(9)); }
PORT(distance) { ANSWER(distance) = sdf_point_triangle_distance(POINT(0), POINT(3), POINT(6), POINT(9)); }
PORT(signed_distance) {
    ANSWER(distance) = sdf_point_triangle_signed_distance(POINT(0), POINT(3), POINT(6), POINT(9));
}
PORT(ray) { ANSWER(ray) = sdf_ray_triangle_intersection_aligned(POINT(0), POINT(3), POINT(6), POINT(9), in[12]); }

PORT(grid_first) { ANSWER(point) = sdf_grid_first(GRID); }
PORT(grid_last) { ANSWER(point) = sdf_grid_last(GRID); }
PORT(grid_size) { ANSWER(point) = sdf_grid_size(GRID); }
PORT(grid_counts) { ANSWER(cell) = sdf_grid_counts(GRID); }
PORT(grid_total) { ANSWER(number) = sdf_grid_total(GRID); }
PORT(grid_box) { ANSWER(box) = sdf_grid_box(GRID); }
PORT(grid_index) { ANSWER(number) = sdf_grid_index(GRID, CELL(10)); }
PORT(grid_coordinates) { ANSWER(cell) = sdf_grid_coordinates(GRID, in[10]); }
PORT(grid_centre) { ANSWER(point) = sdf_grid_centre(GRID, CELL(10)); }
PORT(grid_snap) { ANSWER(snap) = sdf_grid_snap(GRID, POINT(10)); }
PORT(grid_from_box) { ANSWER(grid) = sdf_grid_from_bounding_box(POINT(0), POINT(3), CELL(6)); }
