/* The library's tidying, and its reading of STL files, on pointers and numbers alone: what stands outside needs to know nothing of
 * how a machine passes a record. Each leaves the words of its answer. */
#ifndef CALLS_H
#define CALLS_H

#include <stddef.h>
#include <stdint.h>

void port_tidy_mesh(const float *vertices, size_t coordinate_count, uint32_t topology, uint32_t given,
                    const uint32_t *indices, size_t index_count, float *out_coordinates, size_t out_coordinate_count,
                    uint32_t *out_indices, size_t out_index_count, uint32_t *firsts, size_t firsts_length,
                    uint32_t *causes, size_t causes_length, uint32_t *number, uint32_t *kept_vertices,
                    uint32_t *kept_triangles);
void port_read_stl(const uint8_t *file, size_t file_length, float *vertices, size_t coordinate_count, uint32_t *number,
                   uint32_t *facets);

#endif
