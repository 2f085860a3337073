/* The library's three functions of STL files on pointers and numbers alone: what stands outside needs to know nothing of
 * how a machine passes a record. Each leaves the two words of its answer. */
#ifndef CALLS_H
#define CALLS_H

#include <stddef.h>
#include <stdint.h>

void port_stl_facets(const uint8_t *file, size_t file_length, uint32_t *number, uint32_t *facets);
void port_read_stl(const uint8_t *file, size_t file_length, float *vertices, size_t coordinate_count, uint32_t *number,
                   uint32_t *facets);
void port_write_stl(const float *vertices, size_t coordinate_count, uint8_t *file, size_t file_length,
                    uint32_t *number, uint32_t *facets);

#endif
