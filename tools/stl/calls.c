/* calls.h over the library's own header. tools/native-archive puts this beside the library, since it goes the way that
 * the library goes. */
#include "calls.h"
#include "sdf.h"

static void answered(sdf_stl_answer answer, uint32_t *number, uint32_t *facets) {
    *number = answer.number;
    *facets = answer.facets;
}

void port_stl_facets(const uint8_t *file, size_t file_length, uint32_t *number, uint32_t *facets) {
    answered(sdf_stl_facets(file, file_length), number, facets);
}

void port_read_stl(const uint8_t *file, size_t file_length, float *vertices, size_t coordinate_count, uint32_t *number,
                   uint32_t *facets) {
    answered(sdf_read_stl(file, file_length, vertices, coordinate_count), number, facets);
}

void port_write_stl(const float *vertices, size_t coordinate_count, uint8_t *file, size_t file_length,
                    uint32_t *number, uint32_t *facets) {
    answered(sdf_write_stl(vertices, coordinate_count, file, file_length), number, facets);
}
