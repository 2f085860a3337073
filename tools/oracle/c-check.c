/* Asks the oracle's library for document 01's points, from C: the header and the archive belong together.
 * Built and run by tools/oracle/c-check. */
#include "mesh_oracle.h"
#include <float.h>
#include <math.h>
#include <stdio.h>
#include <string.h>

static int wrong;

static void expect(const char *what, int holds) {
    printf("%s  %s\n", holds ? "holds" : "WRONG", what);
    wrong += !holds;
}

int main(void) {
    const float t[9] = {0, 0, 0, 4, 0, 0, 0, 4, 0}, *a = t, *b = t + 3, *c = t + 6;
    const float at[3] = {1, 1, 1}, under[3] = {1, 1, -1}, edge[3] = {0, 1, -1}, on[3] = {1, 1, 0};
    const uint32_t numbers[3] = {0, 1, 2}, round[3] = {0, 2, 1};
    const oracle_grid grid = {.first = {1, 1, 1}, .size = {1, 1, 2}, .count = {2, 1, 1}};
    const oracle_mesh mesh = {.coordinates = t, .vertices = 3, .indices = numbers, .index_count = 3, .strip = 0};
    const oracle_mesh turned = {.coordinates = t, .vertices = 3, .indices = round, .index_count = 3, .strip = 0};
    float field[2], d, near[3], low[3], high[3];
    uint32_t steps, hit, counts[6], triples[6], inside, cell[3];
    uint64_t index;
    size_t triangles;
    int32_t order;
    double times[3];
    oracle_grid made;

    oracle_begin();
    expect("counts 2 1 1: both cells 1.0, pops 2",
           oracle_job(&grid, &mesh, ORACLE_RAYCAST, field, &steps, times) == 0 && field[0] == 1 && field[1] == 1 && steps == 2);
    expect("with Normal signs too: T's normal points up, to the centres",
           oracle_job(&grid, &mesh, ORACLE_NORMAL, field, &steps, times) == 0 && field[0] == 1 && field[1] == 1 && steps == 2);
    expect("seeding reaches both cells", oracle_seeding(&grid, &mesh, ORACLE_RAYCAST, field, triples) == 0 && field[1] == 1 &&
                                             triples[4] == 1 && triples[5] == 2);
    expect("and with T turned round below T", oracle_seeding(&grid, &turned, ORACLE_NORMAL, field, triples) == 0 && field[1] == -1);
    expect("no crossing", oracle_crossings(&grid, &mesh, counts) == 0 && counts[0] + counts[2] + counts[5] == 0);
    expect("one triangle, 0 1 2", oracle_get_triangles(&mesh, triples, 2, &triangles) == 0 && triangles == 1 &&
                                      memcmp(triples, numbers, sizeof numbers) == 0);
    expect("(1,1,1) to T: 1.0", oracle_point_triangle_distance(at, a, b, c, &d) == 0 && d == 1);
    expect("(1,1,1) above T: +1.0", oracle_point_triangle_signed_distance(at, a, b, c, &d) == 0 && d == 1);
    expect("(1,1,-1) below T: -1.0", oracle_point_triangle_signed_distance(under, a, b, c, &d) == 0 && d == -1);
    expect("(1,1,0) on T: -0", oracle_point_triangle_signed_distance(on, a, b, c, &d) == 0 && d == 0 && signbit(d));
    expect("closest point (1,1,0)", oracle_closest_point_triangle(at, a, b, c, near) == 0 && near[0] == 1 && near[2] == 0);
    expect("closest on a,b: (1,0,0)", oracle_closest_point_segment(at, a, b, near) == 0 && near[0] == 1 && near[1] == 0);
    expect("box to 4.0001", oracle_triangle_bounding_box(a, b, c, low, high) == 0 && high[0] == 4.0001f && low[2] == -0.0001f);
    expect("ray from (1,1,-1): hit at 1.0",
           oracle_ray_triangle_intersection_aligned(under, a, b, c, 2, &hit, &d) == 0 && hit == 1 && d == 1);
    expect("ray from (0,1,-1): no hit (the Rust has no word for grazed)",
           oracle_ray_triangle_intersection_aligned(edge, a, b, c, 2, &hit, &d) == 0 && hit == 0);
    expect("ray from (1,1,0): miss", oracle_ray_triangle_intersection_aligned(on, a, b, c, 2, &hit, &d) == 0 && hit == 0);
    expect("compare(+1, -1) is less", oracle_compare_distances(1, -1, &order) == 0 && order < 0);
    expect("compare(-1, +1) is greater", oracle_compare_distances(-1, 1, &order) == 0 && order > 0);

    const oracle_grid four = {.first = {0.5, 0.5, 0.5}, .size = {1, 1, 1}, .count = {4, 4, 4}};
    const float zero[3] = {0, 0, 0}, end[3] = {4, 0, 0}, below[3] = {-0.25, 0, 0};
    const uint32_t some[3] = {1, 2, 3};
    expect("0.0 is Inside 0", oracle_snap_point_to_grid(&four, zero, &inside, cell) == 0 && inside == 1 && cell[0] == 0);
    expect("4.0 is Outside 3", oracle_snap_point_to_grid(&four, end, &inside, cell) == 0 && inside == 0 && cell[0] == 3);
    expect("-0.25 is Outside 0", oracle_snap_point_to_grid(&four, below, &inside, cell) == 0 && inside == 0 && cell[0] == 0);
    expect("index of (1,2,3) is 27", oracle_get_cell_idx(&four, some, &index) == 0 && index == 27);
    expect("and back", oracle_get_cell_integer_coordinates(&four, 27, cell) == 0 && memcmp(cell, some, sizeof some) == 0);
    expect("its centre", oracle_get_cell_center(&four, some, near) == 0 && near[0] == 1.5f && near[2] == 3.5f);
    expect("the grid's box", oracle_get_bounding_box(&four, low, high) == 0 && low[1] == 0 && high[1] == 4);
    expect("the last cell, one too far", oracle_get_last_cell(&four, near) == 0 && near[0] == 4.5f);
    expect("the grid from its box", oracle_from_bounding_box(low, high, four.count, &made) == 0 &&
                                        memcmp(&made, &four, sizeof four) == 0);

    /* Cell (x, y, z) of 2 x 3 x 4 has index 12 x + 4 y + z: the signs stand at (0, 0, 1), (0, 2, 3), (1, 2, 3), there the least magnitude above zero,
     * at (1, 1, 0), of FLT_MAX, and, as -0, at (1, 0, 3); +0 stands at (0, 1, 2), and all others are at 1. */
    const oracle_grid uneven = {.first = {0, 0, 0}, .size = {1, 1, 1}, .count = {2, 3, 4}};
    float signs[24];
    for (int i = 0; i < 24; i++)
        signs[i] = 1;
    signs[1] = -1, signs[11] = -2, signs[23] = -FLT_TRUE_MIN, signs[16] = -FLT_MAX, signs[15] = -0.0f, signs[6] = 0;
    /* In whole cells; and in half cells, in which -0 and +0 are one half each. */
    const uint32_t along[2][3][4] = {{{2, 3}, {2, 1, 2}, {1, 1, 0, 3}}, {{5, 5}, {3, 3, 4}, {2, 2, 1, 5}}};
    for (uint32_t edition = 1; edition < 3; edition++) {
        for (uint32_t axis = 0; axis < 3; axis++) {
            uint32_t rows[4] = {0, 0, 0, 0}, untouched[4] = {7, 7, 7, 7};
            expect("rows along the upright axis, as many as its count, in each edition",
                   oracle_rows(&uneven, axis, edition, signs, rows, uneven.count[axis]) == 0 &&
                       memcmp(rows, along[edition - 1][axis], sizeof rows) == 0);
            expect("as many as another's: 5",
                   oracle_rows(&uneven, axis, edition, signs, untouched, uneven.count[(axis + 1) % 3]) == 5 && untouched[0] == 7);
        }
    }
    uint32_t untouched[4] = {7, 7, 7, 7};
    expect("no axis 3: 1", oracle_rows(&uneven, 3, 1, signs, untouched, 4) == 1 && oracle_rows(&uneven, UINT32_MAX, 2, signs, untouched, 4) == 1);
    expect("no edition 0, 3 or more: 14", oracle_rows(&uneven, 2, 0, signs, untouched, 4) == 14 &&
                                              oracle_rows(&uneven, 2, 3, signs, untouched, 4) == 14 &&
                                              oracle_rows(&uneven, 2, UINT32_MAX, signs, untouched, 4) == 14);
    expect("1 before 14, and 14 before 5", oracle_rows(&uneven, 3, 3, signs, untouched, 4) == 1 &&
                                               oracle_rows(&uneven, 2, 3, signs, untouched, 3) == 14 && untouched[0] == 7);

    char words[100];
    expect("a NaN panics", oracle_compare_distances(NAN, 1, &order) == 1);
    printf("       in words: %.*s\n", (int)oracle_panic_words(words, sizeof words), words);
    printf("%d wrong\n", wrong);
    return wrong != 0;
}
