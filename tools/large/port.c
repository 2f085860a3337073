/* The whole job on pointers and numbers alone: what stands outside needs to know nothing of how a machine passes
 * a record. `first`, `size`, `count` and `upright` are the members of sdf_grid, three numbers each but the last. Where `row` is
 * given, three words for each entry, it is the queue, and else the three lists are. `limit`, `pass`, `sign` and `edition` are the members
 * of sdf_terms. */
#include "sdf.h"

void port_job(const float *first, const float *size, const uint32_t *count, uint32_t upright, const float *vertices,
              size_t coordinate_count, uint32_t topology, uint32_t given, const uint32_t *indices, size_t index_count,
              float *field, size_t field_length, uint32_t *names, size_t names_length, uint32_t *crossings,
              size_t crossings_length, uint32_t *rows, size_t rows_length, uint32_t *distances, size_t distances_length,
              uint32_t *cells, size_t cells_length, uint32_t *triangles, size_t triangles_length, uint32_t *row,
              size_t row_length, uint32_t limit, uint32_t pass, uint32_t sign, uint32_t edition, uint32_t *number,
              uint32_t *pops, size_t *peak, uint64_t *grazed) {
    sdf_grid on = {.first = {.x = first[0], .y = first[1], .z = first[2]},
                   .size = {.x = size[0], .y = size[1], .z = size[2]},
                   .count = {.x = count[0], .y = count[1], .z = count[2]},
                   .upright = upright};
    sdf_terms terms = {.limit = limit, .pass = pass, .sign = sign, .edition = edition};
    sdf_job_answer answer =
        row ? sdf_generate_grid_sdf_records(on, vertices, coordinate_count, topology, given, indices, index_count,
                                            field, field_length, names, names_length, crossings, crossings_length,
                                            rows, rows_length, (sdf_entry *)row, row_length, terms)
            : sdf_generate_grid_sdf(on, vertices, coordinate_count, topology, given, indices, index_count, field,
                                    field_length, names, names_length, crossings, crossings_length, rows,
                                    rows_length, distances, distances_length, cells, cells_length, triangles,
                                    triangles_length, terms);
    *number = answer.number;
    *pops = answer.pops;
    *peak = answer.peak;
    *grazed = answer.grazed;
}
