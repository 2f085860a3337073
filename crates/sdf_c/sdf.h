/* SPDX-License-Identifier: MIT OR Apache-2.0 (NOTICE, LICENSE-MIT, LICENSE-APACHE)
 *
 * The signed distance field of a triangle mesh on a grid, for C and C++: the whole job, the questions of it asked by
 * themselves, a scanner's file read and written, a mesh tidied, and which cells a facet serves. What they owe is
 * docs/SPECIFICATION.md, whose sections stand here as [4.1]; every function is proved to meet it.
 *
 * In eight lines, with buffers of n floats, n, 3 n and 64 numbers and n entries:
 *
 *   sdf_grid grid = {.first = {0.05f, 0.05f, 0.05f}, .size = {0.1f, 0.1f, 0.1f}, .count = {64, 64, 64},
 *       .upright = SDF_Z};
 *   size_t n = sdf_grid_total(grid).value;
 *   sdf_job_answer a = sdf_generate_grid_sdf_records(grid, vertices, 3 * vertex_count, SDF_LIST, SDF_INDICES, indices,
 *       index_count, field, n, names, n, crossings, 3 * n, rows, 64, queue, n,
 *       (sdf_terms){.limit = UINT32_MAX, .pass = SDF_QUICK, .edition = SDF_EDITION_1});
 *   if (a.number == SDF_QUEUE_FULL) lend twice the queue and call again;
 *   if (a.number == SDF_DONE) signbit(field[i]) says inside, and rows[z] counts the inside cells of layer z, as z is upright;
 *
 * examples/c/tank.c is a whole program.
 *
 * Build: `tools/archive` leaves target/staticlib/libsdf_c.a, for x86-64 Linux. Of the C library it needs memcpy and
 * memset alone. No function keeps anything between calls, allocates, prints, calls back, or needs another call before it.
 * Two calls may run at the same time on two threads if no buffer that one of them writes is lent to the other. Stack: the
 * whole job takes about 16 KB (15,648 bytes below its caller's were measured; 13 KB are four local arrays), a question less than 1 KB. No
 * function calls itself, so no input takes more.
 *
 * What C owes to every function is the floating-point environment in which IEEE 754 holds: rounding to nearest, no
 * flush-to-zero and no denormals-are-zero, which is how a program starts. A program that gcc links with -ffast-math or
 * -Ofast starts otherwise: its start-up code sets both, however the files were compiled. Then answers are wrong: the root
 * of 00000001 came out as 00000001, where 1a3504f3 is owed. The same holds where fesetround was called, or MXCSR set,
 * before. What more the whole job is owed stands with it below.
 *
 * The questions take everything by value, and any values: NaNs too. Each answer begins with a number: SDF_DONE, and the
 * value follows; or a refusal, and all that follows is zero. Floats are IEEE 754 binary32. */
#ifndef SDF_H
#define SDF_H

#include <stddef.h>
#include <stdint.h>

#ifdef __cplusplus
extern "C" {
#endif

/* Raised whenever a function, a record or a number below is no longer what it was, or there is one more. Since 10 sdf_grid has its
 * upright axis, as its last member: what is said in capitals there concerns every program that was written for 9. 11 has
 * sdf_tidy_mesh; a program that was written for 10 need not be changed for that. Since 12 sdf_terms has the edition of the
 * layer table, as its last member: a program that was written for 11 says .edition = SDF_EDITION_1 to have the table that it
 * had, and is refused by SDF_EDITION until it says one. Since 13 there are sdf_index_build and sdf_index_update, with two
 * numbers of their own; a program that was written for 12 need not be changed. */
#define SDF_VERSION 13

/* The numbers of the whole job [4.1], in the order in which they are checked; the first that applies is given. A
 * question asked by itself [4.4] gives 1 for the grid, 2 for a coordinate that is not finite or above 2,097,152 in
 * magnitude, 4 for a cell or an index outside the counts, and 6 for a NaN compared or in its result. */
enum {
    SDF_DONE = 0,         /* not refused */
    SDF_GRID = 1,         /* the grid is out of bounds: a count outside 1 .. 1,024, more than 1,048,576 cells, a first
                             coordinate not finite or above 1,048,576 in magnitude, a size outside 1/1,024 .. 1,024, an
                             upright axis that is none of SDF_X, SDF_Y, SDF_Z */
    SDF_EDITION = 14,     /* the edition of the layer table is neither 1 nor 2 */
    SDF_COORDINATES = 2,  /* the coordinates are not a multiple of three, more than 393,216 vertices, or a coordinate (of
                             an unused vertex too) not finite or above 1,048,576 in magnitude */
    SDF_TOPOLOGY = 13,    /* a strip, though it make no triangle: strips are withdrawn. List its triangles: the three
                             indices of each window, in order */
    SDF_TRIANGLES = 3,    /* more than 131,072 triangles */
    SDF_INDEX = 4,        /* an index that a triangle uses is not below the count of vertices */
    SDF_OFF_GRID = 10,    /* a triangle lies off the grid: on some axis all three of its corners are below the minimum of
                             sdf_grid_box, or all three above its maximum. Touching is allowed. A vertex that no triangle
                             uses may lie anywhere. Move or drop the triangle, or ask for more cells on that side */
    SDF_LENGTHS = 5,      /* a buffer's length is not the one that the grid asks for (of the rows, the count of its upright
                             axis), or the queue's three lengths differ (a queue that is a row of records has one length) */
    SDF_NOT_A_NUMBER = 6, /* a distance met in seeding or spreading is a NaN: two corners a hair apart */
    SDF_QUEUE_FULL = 7,   /* an entry had to be queued and the queue was full */
    SDF_LIMIT_MET = 8,    /* entries waited and the pops taken were the limit */
    /* of a scanner's file alone [16]: of the numbers above it gives 2 and 5 too */
    SDF_FILE = 11,        /* the file is shorter than 84 bytes, or not 84 + 50 times its count long */
    SDF_FACETS = 12,      /* more than 131,072 facets */
    /* of the index of cells by facet alone [18]: of the numbers above it gives 3 and, for a name, 4 too */
    SDF_INDEX_LENGTHS = 15, /* the starts are not one more than the triangles, there are more than 1,048,576 names, or the
                               list, or the old names, are not as many as the names */
    SDF_INDEX_STALE = 18    /* what is lent to an update is not the index of the old names */
};

/* The axes, of a ray and the upright one of a grid: for C plain numbers, the same for both. A ray is along z by any number but
 * 0 and 1. A grid whose upright axis is none of the three is refused by SDF_GRID. */
enum { SDF_X = 0, SDF_Y = 1, SDF_Z = 2 };

/* What a comparison finds. */
enum { SDF_LESS = -1, SDF_EQUAL = 0, SDF_GREATER = 1 };

typedef struct {
    float x, y, z;
} sdf_point;

/* A cell by its number along each axis, or how many cells there are along each. */
typedef struct {
    uint32_t x, y, z;
} sdf_cell;

/* The centre of the first cell, the size of every cell, the counts, and which axis is upright.
 *   upright      the axis along which the rows run: SDF_Z for a tank that was scanned standing on z; horizontal tanks are
 *                scanned with another axis upright. It decides how many rows there are, and which cells each of them
 *                counts. Nothing else depends on it: not the field, the names, the crossings, nor what a question gives
 *
 * NAME THE MEMBERS, AND ALWAYS SAY `.upright`. LEFT OUT, IT IS 0, AND 0 IS SDF_X: A GRID THAT IS INITIALISED BY POSITION AND
 * LEFT SHORT, AS {{..}, {..}, {..}} OF VERSION 9, STANDS ON X. THAT IS WITHIN THE BOUNDS, SO IT IS NOT REFUSED, AND -Wall DOES
 * NOT WARN OF IT: THE TABLE WOULD BE THAT OF THE LAYERS ALONG X. (gcc and clang warn of an initialiser that is left short with
 * -Wextra, but in C not of one with names. Where the counts along x and z differ, rows lent for z are refused by SDF_LENGTHS;
 * where they do not, nothing tells.) */
typedef struct {
    sdf_point first, size;
    sdf_cell count;
    uint32_t upright;
} sdf_grid;

/* What the whole job is asked for by value, beside the grid and the mesh. Say its members by their names, as {.limit = n,
 * .pass = SDF_QUICK, .edition = SDF_EDITION_1}: others may follow, and one that is left out is 0.
 *   limit        how many entries may be taken
 *   pass         how the crossings are counted. SDF_PLAIN adds one to every cell that a hit reaches. SDF_QUICK marks the last
 *                of them alone, and sums back along each line when all triangles are through. The answer and all buffers are
 *                the same by both, so take the quick one; the plain one is its reference. No number is refused
 *   sign         how a distance gets its sign. SDF_RAYCAST casts rays, which a closed hull tells inside from outside. SDF_NORMAL
 *                asks on which side of the named triangle the cell lies, for what has no closed hull: a floating deck is
 *                scanned from above alone, and its crossings mean little. The corners of every triangle must then run
 *                counter-clockwise as seen from above, or from outside. No number is refused
 *   edition      of the layer table, 1 or 2: what a cell adds to its row. Any other number is refused by SDF_EDITION, also 0,
 *                which a record has that was written for an earlier version. Nothing but the rows depends on it */
typedef struct {
    uint32_t limit, pass, sign, edition;
} sdf_terms;

typedef struct {
    uint32_t number, value;
} sdf_number_answer;

typedef struct {
    uint32_t number;
    sdf_cell cell;
} sdf_cell_answer;

typedef struct {
    uint32_t number;
    sdf_point point;
} sdf_point_answer;

typedef struct {
    uint32_t number;
    sdf_point min, max;
} sdf_box_answer;

/* inside: 1, or 0 for a point outside the grid, whose nearest cell is given. */
typedef struct {
    uint32_t number, inside;
    sdf_cell cell;
} sdf_snap_answer;

typedef struct {
    uint32_t number;
    sdf_grid grid;
} sdf_grid_answer;

typedef struct {
    uint32_t number;
    float distance;
} sdf_distance_answer;

/* hit: 1 with its t, or 0 and t is 0. grazed: 1 for a ray that only touches the triangle, which is no hit; else 0. */
typedef struct {
    uint32_t number, hit, grazed;
    float t;
} sdf_ray_answer;

/* order: SDF_LESS, SDF_EQUAL or SDF_GREATER. */
typedef struct {
    uint32_t number;
    int32_t order;
} sdf_order_answer;

/* pops: the entries taken. peak: the most entries that waited at once. grazed: how often a ray of the job grazed a triangle, over
 * all rays and triangles; it may pass 32 bits (137,707,388,928 at most). All three are 0 on a refusal. */
typedef struct {
    uint32_t number, pops;
    size_t peak;
    uint64_t grazed;
} sdf_job_answer;

/* facets: how many a scanner's file has, or how many were read or written. 0 on a refusal. */
typedef struct {
    uint32_t number, facets;
} sdf_stl_answer;

/* vertices, triangles: how many are kept. Both are 0 on a refusal. */
typedef struct {
    uint32_t number, vertices, triangles;
} sdf_tidy_answer;

/* An entry of the queue: the key of its distance, which is twice the bit pattern of the magnitude, plus the sign bit; its cell;
 * and its triangle. Only the room is the caller's; what an entry holds is the job's. */
typedef struct {
    uint32_t distance, cell, triangle;
} sdf_entry;

/* How the corners make triangles, whether indices are given, by which pass crossings are counted, and how a distance gets
 * its sign. For C these are plain numbers: 0 is a list, and any other number a strip, which is refused; 0 is no indices, and
 * any other number that they are given; 0 is the plain pass, and any other number the quick one; 0 is signs by rays, and any
 * other number signs by normals. */
enum { SDF_LIST = 0, SDF_STRIP = 1 };
enum { SDF_NO_INDICES = 0, SDF_INDICES = 1 };
enum { SDF_PLAIN = 0, SDF_QUICK = 1 };
enum { SDF_RAYCAST = 0, SDF_NORMAL = 1 };
/* The editions of the layer table. */
enum { SDF_EDITION_1 = 1, SDF_EDITION_2 = 2 };
/* The name of a cell that took no triangle. */
#define SDF_NONE UINT32_C(4294967295)

/* The whole job [9]: field, names, crossings and rows of a mesh on a grid, signs by rays or by normals.
 *
 * Lent to be read, for the call alone:
 *   vertices     coordinate_count floats, x, y, z of each vertex in turn
 *   indices      index_count vertex numbers; looked at only if `given` is not 0, and never null. Without them the
 *                vertices are taken in their order
 * topology       SDF_LIST: consecutive threes, one or two left over are ignored [8]. SDF_STRIP, every window of three, is
 *                refused by SDF_TOPOLOGY
 * Lent to be written, with n cells in the grid (sdf_grid_total, the product of the counts):
 *   field        n floats: the signed distance of each cell's centre, by the cell's index, z fastest (sdf_grid_index).
 *                Negative is inside: where at least two of the cell's three counts of crossings are odd. A centre on
 *                the surface has 0 or, where two are odd, -0. With SDF_NORMAL it is sdf_point_triangle_signed_distance to
 *                the named triangle: negative behind it, and -0 on it
 *   names        n numbers: the triangle, counted from 0, that the distance is to; SDF_NONE with none
 *   crossings    3 n numbers: the rays' hits along x, y, z of each cell in turn. A ray that grazes adds none: the answer's
 *                `grazed` says how often one did. Where it is large, shift the grid by a hair and ask again. With
 *                SDF_NORMAL there are no rays: all zero, and `grazed` too
 *   rows         as many as the upright axis's count, layer by layer: layer k is the cells whose number along the upright axis
 *                is k. SDF_EDITION_1: how many of its cells are inside, that is, have their sign bit set (signbit of
 *                <math.h>). -0 counts, and +0 does not: `field[i] < 0` would leave out a centre on the surface.
 *                SDF_EDITION_2, in half cells: 2 for a set sign bit and a magnitude above zero, 1 for 0 and for -0, 0
 *                otherwise. So a row times a cell's volume, or half of it, is what the layer holds; and all rows together are
 *                what all cells add
 *   distances, cells, triangles
 *                the queue: three arrays of one length, its room. Any length, 0 too
 * terms          limit: how many entries may be taken. pass: SDF_QUICK or SDF_PLAIN, which give the same. sign: SDF_RAYCAST or
 *                SDF_NORMAL. edition: SDF_EDITION_1 or SDF_EDITION_2
 *
 * How much to lend: room for n entries was enough in every job of docs/SPEED.md (a tank took 0.1 to 0.8 n, triangles
 * everywhere n); on SDF_QUEUE_FULL call again with twice the room. All of the room is cleared before and after the run, so
 * much more than is needed costs time. For the limit UINT32_MAX will do; those jobs took 1.0 to 2.1 n pops.
 *
 * What is left in the buffers that are written, whatever they held before [4.3]:
 *   0            field, names, crossings and rows as above; the queue all zero
 *   1 to 5, 10, 13, 14
 *                nothing was changed
 *   6 to 8       the field all FLT_MAX (of <float.h>), the names all SDF_NONE, crossings, rows and queue all zero
 * With no triangle the answer is 0, the field all FLT_MAX and the names all SDF_NONE. A cell is left so too, though there
 * are triangles, if every distance offered to it was infinite; inside by the rays it holds -FLT_MAX, and its row counts it whole.
 *
 * What C owes, and no function can check, besides the floating-point environment above: a pointer is not null, not even
 * with a length of 0, nor `indices` where none are given; it is aligned for its type and points to at least as many
 * elements as the length beside it; no byte of a buffer that is written is in another of the nine; and no other thread
 * writes any of the nine during the call. Every value in them is allowed. */
sdf_job_answer sdf_generate_grid_sdf(sdf_grid grid, const float *vertices, size_t coordinate_count, uint32_t topology,
                                     uint32_t given, const uint32_t *indices, size_t index_count, float *field,
                                     size_t field_length, uint32_t *names, size_t names_length, uint32_t *crossings,
                                     size_t crossings_length, uint32_t *rows, size_t rows_length, uint32_t *distances,
                                     size_t distances_length, uint32_t *cells, size_t cells_length,
                                     uint32_t *triangles, size_t triangles_length, sdf_terms terms);

/* The same job with the queue as one array of records, of any length. For the same input it gives the same answer and
 * leaves the same field, names, crossings and rows; the queue is left all zero where the other's is. What C owes is the
 * same, of seven arrays. */
sdf_job_answer sdf_generate_grid_sdf_records(sdf_grid grid, const float *vertices, size_t coordinate_count,
                                             uint32_t topology, uint32_t given, const uint32_t *indices,
                                             size_t index_count, float *field, size_t field_length, uint32_t *names,
                                             size_t names_length, uint32_t *crossings, size_t crossings_length,
                                             uint32_t *rows, size_t rows_length, sdf_entry *queue,
                                             size_t queue_length, sdf_terms terms);

/* A scanner's file, binary STL [16]: 80 bytes that are ignored, a count of four bytes, the least first, then 50 bytes for
 * each facet: its normal, its three corners of three floats each, two bytes of attributes. The header, the normals and the
 * attributes have no influence; a header that begins with "solid" means nothing.
 *
 * From a file to its field: ask sdf_stl_facets, lend 9 floats for each facet, call sdf_read_stl, and then the whole job with
 * these 9 * facets coordinates, SDF_LIST and SDF_NO_INDICES: corner j of facet k is vertex 3 k + j, and facet k is triangle
 * k. Reading refuses no corner for what it is; that is the job's SDF_COORDINATES, and where a facet lies its SDF_OFF_GRID.
 * examples/c/stl.c is a whole program.
 *
 * A refusal changes no buffer. What C owes is what the whole job is owed: valid pointers, never null, to at least as many
 * elements as the length beside them, and no byte lent twice. They call nothing, and take no stack beside the call's own. */

/* How many facets a file has. Refuses by 11, then 12. */
sdf_stl_answer sdf_stl_facets(const uint8_t *file, size_t file_length);
/* The corners of a file: x, y, z of each in turn. Refuses by 11, 12, then 5 where coordinate_count is not 9 times the
 * facets. A NaN of the file comes out as some NaN; every other number keeps its bits. */
sdf_stl_answer sdf_read_stl(const uint8_t *file, size_t file_length, float *vertices, size_t coordinate_count);
/* Corners, 9 coordinates for each facet, to a file: header, normals and attributes zero. What is written reads back as the
 * same bits; a NaN is written as 7fc00000. Refuses by 2 where coordinate_count is no multiple of nine; then by 12; then by 5
 * where file_length is not 84 + 50 times the facets. */
sdf_stl_answer sdf_write_stl(const float *vertices, size_t coordinate_count, uint8_t *file, size_t file_length);

/* A mesh tidied, and what went [17]. Scanners repeat corners, and sometimes facets. Vertices of identical bits are merged into
 * the first of them (-0 and +0 stay apart); triangles with two equal vertex numbers, after merging, are dropped, and so are
 * later ones with the same three numbers in any order; vertices that no kept triangle has are squeezed out. What is kept
 * keeps its order, and each kept triangle the bits of its corners, in their order.
 *
 * Lent to be read: vertices, topology, given and indices, as for the whole job. Lent to be written:
 *   out_coordinates  coordinate_count floats: x, y, z of each kept vertex in turn, then +0 to the end
 *   out_indices      three numbers for each triangle that is given: those of each kept one in turn, by the new numbering, then
 *                    0 to the end
 *   firsts           a number for each vertex that is given: the first vertex with its bits, in the given numbering; its own
 *                    number where it is the first
 *   causes           a number for each triangle that is given: 0 where it is kept, 1 where two of its numbers are equal, else 2
 * The answer's `vertices` and `triangles` say how much of the first two is in use: 3 * vertices floats and 3 * triangles
 * numbers, a mesh for SDF_LIST with SDF_INDICES. Tidying it once more changes nothing.
 *
 * THE FIELD OF THE TIDIED MESH MAY DIFFER: a facet that is there twice flips the parity of every ray that hits it twice, so
 * that the rays count as if it were not there; once, it counts. What the whole job promises, it promises of the mesh that it
 * is given.
 *
 * Refuses by 2, 13, 3, 4, which are the whole job's, then by 5 where one of the four lengths is not the one above; then nothing
 * was changed, and both counts are 0. No grid is looked at. It allocates nothing: on the way the outputs hold links and
 * marks. What C owes is what the whole job is owed: valid pointers, never null, to at least as many elements as the length
 * beside them, and no byte of the four that are written in another of the six. */
sdf_tidy_answer sdf_tidy_mesh(const float *vertices, size_t coordinate_count, uint32_t topology, uint32_t given,
                              const uint32_t *indices, size_t index_count, float *out_coordinates,
                              size_t out_coordinate_count, uint32_t *out_indices, size_t out_index_count,
                              uint32_t *firsts, size_t firsts_length, uint32_t *causes, size_t causes_length);

/* Which cells a facet serves [18]: an index beside the field, of the names that the whole job leaves. When a dent is repaired,
 * it says which cells name a facet without a look at all of them. It is two arrays of the caller's:
 *   starts       triangles + 1 numbers: for each triangle where its cells begin in the list, and at the end where the last
 *                ones end. The first is 0, and none is less than the one before it
 *   list         as many numbers as names: cells, by their index in field and names. Those that name triangle k stand at the
 *                places from starts[k] to before starts[k + 1], ascending. Each cell with a named triangle stands exactly
 *                once, and a cell that has SDF_NONE nowhere. From place starts[triangles] on the list is SDF_NONE
 *
 * To ask for the cells of facet k, where k is less than triangles, no call is needed:
 *
 *   for (uint32_t p = starts[k]; p < starts[k + 1]; p++) list[p] is a cell that names facet k;
 *
 * Before a repair: the whole job, and sdf_index_build of the names that it left, with n names for n cells and the mesh's count
 * of triangles. After it: the whole job again, of the repaired mesh on the same grid and with another array for its names, and
 * sdf_index_update from the old names to these, in the same starts and list. Then the old names are not needed any more. A
 * facet is known by its number alone, so repair it in its place; where the count of triangles has changed, lend starts of the
 * new length and build. examples/c/repair.c is a whole program.
 *
 * Both answer a number alone: SDF_DONE, and starts and list are the one index of `names`, whatever they held before a build;
 * or the first refusal that applies, in this order, and then nothing was changed:
 *   3            more than 131,072 triangles
 *   15           a length is not the one above, there are more than 1,048,576 names, or old_names_length is not names_length
 *   4            a name, old or new, that is neither less than triangles nor SDF_NONE
 *   18           of an update alone: starts and list, as lent, are not the index of the old names, to the last number
 * With no triangle starts is the one number 0, and every name must be SDF_NONE. Nothing looks whether the names are those of
 * this field: any that are not refused have an index.
 *
 * They allocate nothing and need no other room. What C owes is what the whole job is owed: valid pointers, never null, to at
 * least as many elements as the length beside them, and no byte of starts and list in another array that is lent. Old and new
 * names are only read, and may be one array. */

/* The index of the names. Refuses by 3, 15, then 4. */
uint32_t sdf_index_build(uint32_t triangles, const uint32_t *names, size_t names_length, uint32_t *starts,
                         size_t starts_length, uint32_t *list, size_t list_length);
/* The index of the old names becomes that of the new ones: starts and list are then what sdf_index_build of `names` leaves.
 * Refuses by 3, 15, 4, then 18. It is that build, behind a look at the old index: nothing is saved where few names differ. */
uint32_t sdf_index_update(uint32_t triangles, const uint32_t *old_names, size_t old_names_length, const uint32_t *names,
                          size_t names_length, uint32_t *starts, size_t starts_length, uint32_t *list,
                          size_t list_length);

/* The square root, rounded to nearest [6.5]. No refusal: what is below zero, and a NaN, gives a NaN. */
float sdf_sqrt(float x);
/* The same on bit patterns; a NaN comes out as 7fc00000. */
uint32_t sdf_sqrt_bits(uint32_t bits);

/* The order of two distances [7]: by magnitude, but for two of opposite sign bits whose magnitudes are alike, of which the
 * positive one is less. Alike: equal, or with a difference, rounded, of at most 1e-6, or with bit patterns at most 2
 * apart. Refuses by 6. */
sdf_order_answer sdf_compare_distances(float a, float b);

/* Geometry, by value [6]. All refuse by 2 a coordinate out of bounds, and those with a point or a distance for an answer
 * then by 6 a NaN in it. */

/* The least and the greatest corner of a triangle's box, which is 0.0001 larger on every side [6.1]. Refuses by 2. */
sdf_box_answer sdf_triangle_bounding_box(sdf_point a, sdf_point b, sdf_point c);
/* The point of the segment from a to b that is closest to p. Refuses by 2, then 6. */
sdf_point_answer sdf_closest_point_segment(sdf_point p, sdf_point a, sdf_point b);
/* The point of the triangle that is closest to p. Refuses by 2, then 6. */
sdf_point_answer sdf_closest_point_triangle(sdf_point p, sdf_point a, sdf_point b, sdf_point c);
/* The distance of p from the triangle: what the field's magnitudes are made of. Refuses by 2, then 6. */
sdf_distance_answer sdf_point_triangle_distance(sdf_point p, sdf_point a, sdf_point b, sdf_point c);
/* The same with a sign, as SDF_NORMAL has it: positive where the dot of p less its closest point and of the normal
 * (b - a) x (c - a), as rounded, is above 0; else negative, so in the triangle's plane too. A p that is its own closest
 * point has -0. Refuses by 2, then 6. */
sdf_distance_answer sdf_point_triangle_signed_distance(sdf_point p, sdf_point a, sdf_point b, sdf_point c);
/* Whether a ray from o along +x, +y or +z meets the triangle, and how far away: what the crossings count [6.6]. It is a hit
 * only with t > 0, and only through the triangle's inside. A ray whose line meets an edge or a corner, ahead of o or behind
 * it, or lies in the triangle's plane, grazes: at least one of its three weights, as rounded, is 0, and none is above 0 with
 * another below. Refuses by 2. */
sdf_ray_answer sdf_ray_triangle_intersection_aligned(sdf_point o, sdf_point v0, sdf_point v1, sdf_point v2,
                                                     uint32_t axis);

/* The grid's questions, by value [5]. All refuse by 1 a grid out of bounds. */

/* The centre of the first cell. */
sdf_point_answer sdf_grid_first(sdf_grid grid);
/* One cell past the last, as the source computes it. */
sdf_point_answer sdf_grid_last(sdf_grid grid);
/* The size of every cell. */
sdf_point_answer sdf_grid_size(sdf_grid grid);
/* How many cells there are along each axis. */
sdf_cell_answer sdf_grid_counts(sdf_grid grid);
/* How many cells there are: the length of field and names. */
sdf_number_answer sdf_grid_total(sdf_grid grid);
/* The box that the cells fill. A job with a triangle that lies off it is refused by 10 (SDF_OFF_GRID). */
sdf_box_answer sdf_grid_box(sdf_grid grid);
/* The index of a cell, z fastest: where it stands in field and names. Refuses by 4 after 1. */
sdf_number_answer sdf_grid_index(sdf_grid grid, sdf_cell cell);
/* The cell of an index. Refuses by 4 after 1. */
sdf_cell_answer sdf_grid_coordinates(sdf_grid grid, uint32_t index);
/* The centre of a cell. Refuses by 4 after 1. */
sdf_point_answer sdf_grid_centre(sdf_grid grid, sdf_cell cell);
/* The cell that a point lies in, or the nearest one. Any point may be asked for. */
sdf_snap_answer sdf_grid_snap(sdf_grid grid, sdf_point point);
/* The grid of so many cells that fills a box, with z upright (SDF_Z): set `upright` in what comes back for another axis.
 * Refuses by 1 what it would make. */
sdf_grid_answer sdf_grid_from_bounding_box(sdf_point min, sdf_point max, sdf_cell count);

#ifdef __cplusplus
}
#endif

#endif
