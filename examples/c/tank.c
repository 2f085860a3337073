/* A closed tank by formula, through the library: its field on 64 x 64 x 64 cells, and how many cells of each layer are
 * inside. README.md has the commands. */
#include "sdf.h"

#include <math.h>
#include <stdio.h>
#include <stdlib.h>

enum {
    EDGE = 64,                  /* cells along each axis */
    CELLS = EDGE * EDGE * EDGE, /* in all */
    AROUND = 96,                /* panels around the wall, and sectors of floor and roof */
    BANDS = 41,                 /* of panels, from floor to roof: no edge of one lies on a layer of centres */
    VERTICES = 2 + AROUND * (BANDS + 1),
    TRIANGLES = 2 * AROUND * (BANDS + 1),
    ROOM = 2 * CELLS            /* entries; docs/SPEED.md has what such jobs need */
};

/* A ray that meets an edge counts no hit there (docs/SPECIFICATION.md, 6.6), so a mesh whose edges run through cell
 * centres loses cells. In metres: 6.4 on each axis, cells of 0.1. The tank stands between layers 2 and 3. */
static const float cell = 0.1f;
static const double pi = 3.14159265358979323846;
static const double radius = 2.75, bottom = 0.3, height = 5.5, middle = 3.2;

static float vertices[3 * VERTICES];
static uint32_t indices[3 * TRIANGLES];
static float field[CELLS];
static uint32_t names[CELLS], crossings[3 * CELLS], rows[EDGE];
static uint32_t distances[ROOM], cells[ROOM], triangles[ROOM];

static uint32_t *triangle(uint32_t *at, uint32_t a, uint32_t b, uint32_t c) {
    at[0] = a;
    at[1] = b;
    at[2] = c;
    return at + 3;
}

static void place(uint32_t vertex, double x, double y, double z) {
    vertices[3 * vertex] = (float)x;
    vertices[3 * vertex + 1] = (float)y;
    vertices[3 * vertex + 2] = (float)z;
}

/* Vertex 0 is the floor's middle, 1 the roof's; then a ring of AROUND for each height. */
static void mesh(void) {
    uint32_t *at = indices;
    place(0, middle, middle, bottom);
    place(1, middle, middle, bottom + height);
    for (uint32_t band = 0; band <= BANDS; band++) {
        for (uint32_t k = 0; k < AROUND; k++) {
            double turn = 2 * pi * k / AROUND;
            place(2 + AROUND * band + k, middle + radius * cos(turn), middle + radius * sin(turn),
                  bottom + height * band / BANDS);
        }
    }
    for (uint32_t k = 0; k < AROUND; k++) {
        uint32_t next = (k + 1) % AROUND, top = 2 + AROUND * BANDS;
        at = triangle(at, 0, 2 + next, 2 + k);
        at = triangle(at, 1, top + k, top + next);
        for (uint32_t band = 0; band < BANDS; band++) {
            uint32_t low = 2 + AROUND * band, high = low + AROUND;
            at = triangle(at, low + k, low + next, high + next);
            at = triangle(at, low + k, high + next, high + k);
        }
    }
}

int main(void) {
    /* The tank stands on z. All three counts are the same here: without `.upright` the rows would be those along x, and nothing
     * would say so. */
    sdf_grid grid = {.first = {cell / 2, cell / 2, cell / 2},
                     .size = {cell, cell, cell},
                     .count = {EDGE, EDGE, EDGE},
                     .upright = SDF_Z};
    mesh();
    sdf_job_answer answer = sdf_generate_grid_sdf(
        grid, vertices, 3 * VERTICES, SDF_LIST, SDF_INDICES, indices, 3 * TRIANGLES, field, CELLS, names, CELLS,
        crossings, 3 * CELLS, rows, EDGE, distances, ROOM, cells, ROOM, triangles, ROOM,
        (sdf_terms){.limit = UINT32_MAX, .pass = SDF_QUICK, .edition = SDF_EDITION_1});
    printf("answer=%u\n", (unsigned)answer.number);
    if (answer.number != SDF_DONE)
        return EXIT_FAILURE;
    printf("pops=%u\npeak=%zu\ngrazed=%llu\n", (unsigned)answer.pops, answer.peak, (unsigned long long)answer.grazed);
    double inside = 0;
    for (uint32_t z = 0; z < EDGE; z++) {
        printf("row=%u %u\n", (unsigned)z, (unsigned)rows[z]);
        inside += rows[z];
    }
    printf("volume=%.3f (a round tank of this size: %.3f)\n", inside * cell * cell * cell, pi * radius * radius * height);
    return EXIT_SUCCESS;
}
