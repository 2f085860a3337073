/* The whole job of one checkout's library, under the name JOB, on pointers and numbers alone. It is compiled against that
 * checkout's own sdf.h, and names what every edition of the header has: a record that got a member since is passed and
 * returned as its own library does it, and what stands outside need not know. A header before version 6 knows the plain pass
 * alone: its library runs that, whichever is asked for. One before version 9 knows Raycast signs alone, one before version 10 z alone
 * as the upright axis, and one before version 12 no edition of the table but the first: where Normal signs, x or y, or edition 2 are
 * asked for, the number is UINT32_MAX, and nothing is called. Where `row` is given, three words for each entry, it is the queue, and
 * else the three lists are. */
#include "sdf.h"

/* The fields of `Lent` in bench_two.rs, in their order. */
typedef struct {
    const float *first, *size;
    const uint32_t *count;
    const float *vertices;
    size_t coordinate_count;
    const uint32_t *indices;
    size_t index_count;
    float *field;
    uint32_t *names, *crossings, *rows;
    size_t cells, layers;
    uint32_t *distances, *queued, *triangles, *row;
    size_t room;
} lent;

void JOB(const lent *l, uint32_t limit, uint32_t pass, uint32_t sign, uint32_t upright, uint32_t edition, uint32_t *number,
         uint32_t *pops, size_t *peak) {
    sdf_grid grid = {.first = {l->first[0], l->first[1], l->first[2]},
                     .size = {l->size[0], l->size[1], l->size[2]},
                     .count = {l->count[0], l->count[1], l->count[2]}};
#if SDF_VERSION >= 10
    grid.upright = upright;
#else
    if (upright != 2) {
        *number = UINT32_MAX;
        return;
    }
#endif
    sdf_terms terms = {.limit = limit};
#if SDF_VERSION >= 6
    terms.pass = pass;
#else
    (void)pass;
#endif
#if SDF_VERSION >= 9
    terms.sign = sign;
#else
    if (sign != 0) {
        *number = UINT32_MAX;
        return;
    }
#endif
#if SDF_VERSION >= 12
    terms.edition = edition;
#else
    if (edition != 1) {
        *number = UINT32_MAX;
        return;
    }
#endif
    sdf_job_answer answer =
        l->row ? sdf_generate_grid_sdf_records(grid, l->vertices, l->coordinate_count, SDF_LIST, SDF_INDICES, l->indices,
                                               l->index_count, l->field, l->cells, l->names, l->cells, l->crossings,
                                               3 * l->cells, l->rows, l->layers, (sdf_entry *)l->row, l->room, terms)
               : sdf_generate_grid_sdf(grid, l->vertices, l->coordinate_count, SDF_LIST, SDF_INDICES, l->indices,
                                       l->index_count, l->field, l->cells, l->names, l->cells, l->crossings,
                                       3 * l->cells, l->rows, l->layers, l->distances, l->room, l->queued, l->room,
                                       l->triangles, l->room, terms);
    *number = answer.number;
    *pops = answer.pops;
    *peak = answer.peak;
}
