/* A dent in a tank's roof is repaired, through the library: which cells name a facet of the roof before, and which after.
 *
 * The tank is a box whose roof is four facets round a middle corner. That corner is pushed in; then it is put back, the field is computed
 * anew, and the index of its names brought up to date. Prints for each facet of the roof the cells that name it, before and
 * after, and how many cells have got another name. Each list is held to the names themselves: ends with 1 where one is not true, or
 * where the library refuses something. README.md has the command. */
#include "sdf.h"

#include <stdio.h>
#include <stdlib.h>
#include <string.h>

enum {
    EDGE = 6,                   /* cells along each axis */
    CELLS = EDGE * EDGE * EDGE, /* in all */
    VERTICES = 9,
    TRIANGLES = 14,             /* two for the floor, eight for the walls, four for the roof */
    ROOF = 10,                  /* the first facet of the roof */
    MIDDLE = 8,                 /* the roof's middle corner */
    ROOM = 8 * CELLS            /* entries */
};

/* In metres; the cells are cubes of one, and no edge of the tank runs through a centre. The middle corner is at 3.25 while it is dented. */
static float vertices[3 * VERTICES] = {
    0.8f, 0.9f, 0.7f,  5.2f, 0.9f, 0.7f,  5.2f, 5.3f, 0.7f,  0.8f, 5.3f, 0.7f,  /* the floor */
    0.8f, 0.9f, 4.75f, 5.2f, 0.9f, 4.75f, 5.2f, 5.3f, 4.75f, 0.8f, 5.3f, 4.75f, /* the roof */
    3.1f, 2.8f, 3.25f,                                                          /* its middle */
};
static const uint32_t indices[3 * TRIANGLES] = {
    0, 2, 1, 0, 3, 2,                   /* the floor */
    0, 1, 5, 0, 5, 4, 1, 2, 6, 1, 6, 5, /* the walls */
    2, 3, 7, 2, 7, 6, 3, 0, 4, 3, 4, 7,
    4, 5, 8, 5, 6, 8, 6, 7, 8, 7, 4, 8, /* the roof */
};

static float field[CELLS];
static uint32_t crossings[3 * CELLS], rows[EDGE];
static uint32_t distances[ROOM], cells[ROOM], triangles[ROOM];
static uint32_t old_names[CELLS], names[CELLS];
/* The index: a start for each facet and one end, and one list of cells. */
static uint32_t starts[TRIANGLES + 1], list[CELLS];

static void require(int holds, const char *what) {
    if (holds)
        return;
    fprintf(stderr, "repair: %s\n", what);
    exit(EXIT_FAILURE);
}

/* The names of the tank as it is: for each cell the number of its nearest facet, or 4294967295 for none. */
static void name_cells(uint32_t *to) {
    sdf_grid grid = {.first = {0.5f, 0.5f, 0.5f}, .size = {1, 1, 1}, .count = {EDGE, EDGE, EDGE}, .upright = SDF_Z};
    sdf_job_answer answer = sdf_generate_grid_sdf(
        grid, vertices, 3 * VERTICES, SDF_LIST, SDF_INDICES, indices, 3 * TRIANGLES, field, CELLS, to, CELLS, crossings, 3 * CELLS,
        rows, EDGE, distances, ROOM, cells, ROOM, triangles, ROOM,
        (sdf_terms){.limit = UINT32_MAX, .pass = SDF_QUICK, .edition = SDF_EDITION_1});
    require(answer.number == SDF_DONE, "the job is refused");
}

/* The cells of a facet stand from its start to before the next: they are those that name it, ascending, and no others. */
static void show(const char *when, uint32_t facet, const uint32_t *of) {
    uint32_t at = starts[facet];
    printf("%s=%u cells=", when, (unsigned)facet);
    for (uint32_t cell = 0; cell < CELLS; cell++) {
        if (of[cell] != facet)
            continue;
        require(at < starts[facet + 1] && list[at] == cell, "a cell that names the facet is not listed, or not in order");
        printf(at == starts[facet] ? "%u" : " %u", (unsigned)cell);
        at++;
    }
    require(at == starts[facet + 1], "more cells are listed than name the facet");
    printf("\n");
}

int main(void) {
    name_cells(old_names);
    uint32_t built = sdf_index_build(TRIANGLES, old_names, CELLS, starts, TRIANGLES + 1, list, CELLS);
    require(built == SDF_DONE, "the index is refused");
    for (uint32_t facet = ROOF; facet < TRIANGLES; facet++)
        show("before", facet, old_names);

    vertices[3 * MIDDLE + 2] = 4.75f;
    name_cells(names);
    uint32_t updated = sdf_index_update(TRIANGLES, old_names, CELLS, names, CELLS, starts, TRIANGLES + 1, list, CELLS);
    require(updated == SDF_DONE, "the update is refused");
    for (uint32_t facet = ROOF; facet < TRIANGLES; facet++)
        show("after", facet, names);

    unsigned renamed = 0;
    for (uint32_t cell = 0; cell < CELLS; cell++)
        renamed += old_names[cell] != names[cell];
    printf("renamed=%u\n", renamed);

    /* The index is that of the new names now, so that with the old ones it is not brought up to date again. */
    uint32_t again = sdf_index_update(TRIANGLES, old_names, CELLS, names, CELLS, starts, TRIANGLES + 1, list, CELLS);
    printf("again=%u\n", (unsigned)again);
    require(again == SDF_INDEX_STALE, "an index of other names is taken");
    return EXIT_SUCCESS;
}
