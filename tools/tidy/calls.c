/* calls.h over the library's own header. tools/native-archive puts this beside the library, since it goes the way that
 * the library goes. */
#include "calls.h"
#include "sdf.h"

void port_tidy_mesh(const float *vertices, size_t coordinate_count, uint32_t topology, uint32_t given,
                    const uint32_t *indices, size_t index_count, float *out_coordinates, size_t out_coordinate_count,
                    uint32_t *out_indices, size_t out_index_count, uint32_t *firsts, size_t firsts_length,
                    uint32_t *causes, size_t causes_length, uint32_t *number, uint32_t *kept_vertices,
                    uint32_t *kept_triangles) {
    sdf_tidy_answer answer = sdf_tidy_mesh(vertices, coordinate_count, topology, given, indices, index_count,
                                           out_coordinates, out_coordinate_count, out_indices, out_index_count, firsts,
                                           firsts_length, causes, causes_length);
    *number = answer.number;
    *kept_vertices = answer.vertices;
    *kept_triangles = answer.triangles;
}

void port_read_stl(const uint8_t *file, size_t file_length, float *vertices, size_t coordinate_count, uint32_t *number,
                   uint32_t *facets) {
    sdf_stl_answer answer = sdf_read_stl(file, file_length, vertices, coordinate_count);
    *number = answer.number;
    *facets = answer.facets;
}
