/* A scanner's file tidied, through the library: what goes, and what is kept.
 *
 *   tidy FILE
 *
 * FILE is a binary STL. Prints how many facets it has; how many of their corners are merged into an earlier one with the same
 * bits; how many facets are dropped, by cause: 1 for two corners that are the same, 2 for a later facet with the same three;
 * and how many vertices and triangles are kept. Ends with 1 if the library refuses the file or its mesh, and says why and what
 * to do; with 2 on a wrong use. README.md has the command. */
#include "sdf.h"

#include <stdio.h>
#include <stdlib.h>

enum { REFUSED = 1, MISUSED = 2 };

/* Nothing is allocated: the largest file that the library reads fits, and a byte more, so that a longer one is seen. */
enum { FACETS = 131072, CORNERS = 3 * FACETS, BYTES = 84 + 50 * FACETS + 1 };
static uint8_t file[BYTES];
static float vertices[3 * CORNERS], coordinates[3 * CORNERS];
static uint32_t indices[CORNERS], firsts[CORNERS], causes[FACETS];

static void end(int status, const char *what, const char *why) {
    fprintf(stderr, "tidy: %s: %s\n", what, why);
    exit(status);
}

/* What a refusal means. The numbers are sdf.h's; 12, 13, 3, 4 and 5 cannot come up here: a longer file is not read at all, what
 * is read is a list without indices, and what is lent is what was asked for. */
static const char *in_words(uint32_t number) {
    switch (number) {
    case SDF_COORDINATES:
        return "a corner is not finite, or beyond 1,048,576: repair the scan, or write it in a larger unit";
    case SDF_FILE:
        return "this is no binary STL: it is shorter than 84 bytes, or not 84 + 50 for each facet that it says it has. An ASCII "
               "STL must be converted first: admesh -b NEW.stl OLD.stl";
    default:
        return "the library refused in a way that this program does not know";
    }
}

static void refuse(uint32_t number, const char *name) {
    printf("answer=%u\n", (unsigned)number);
    end(REFUSED, name, in_words(number));
}

/* The file into its buffer, and how long it is. */
static size_t contents(const char *name) {
    FILE *in = fopen(name, "rb");
    size_t length = in ? fread(file, 1, sizeof file, in) : 0;
    if (!in || ferror(in)) {
        perror(name);
        exit(MISUSED);
    }
    fclose(in);
    if (length == sizeof file)
        end(REFUSED, name, "it is longer than a binary STL of 131,072 facets, the most that a mesh may have: thin the scan out");
    return length;
}

int main(int words, char **word) {
    if (words != 2)
        end(MISUSED, "usage", "tidy FILE");
    const char *name = word[1];
    size_t length = contents(name);
    sdf_stl_answer scan = sdf_stl_facets(file, length);
    if (scan.number != SDF_DONE)
        refuse(scan.number, name);
    size_t facets = scan.facets, corners = 3 * facets;
    scan = sdf_read_stl(file, length, vertices, 3 * corners);
    if (scan.number != SDF_DONE)
        refuse(scan.number, name);

    /* Corner j of facet k is vertex 3 k + j, so the mesh is a list without indices; they are owed a pointer. */
    const uint32_t none = 0;
    sdf_tidy_answer kept = sdf_tidy_mesh(vertices, 3 * corners, SDF_LIST, SDF_NO_INDICES, &none, 0, coordinates, 3 * corners,
                                         indices, corners, firsts, corners, causes, facets);
    if (kept.number != SDF_DONE)
        refuse(kept.number, name);

    /* What is kept stands in front of `coordinates` and `indices`, ready for the whole job with SDF_LIST and SDF_INDICES. Its
     * field may be another than that of the file as it is. */
    size_t merges = 0, drops[3] = {0};
    for (size_t v = 0; v < corners; v++)
        merges += firsts[v] != v;
    for (size_t k = 0; k < facets; k++)
        drops[causes[k]]++;
    printf("answer=%u\nfacets=%zu\nmerges=%zu\n", (unsigned)kept.number, facets, merges);
    printf("drops=1 %zu\ndrops=2 %zu\n", drops[1], drops[2]);
    printf("vertices=%u\ntriangles=%u\n", (unsigned)kept.vertices, (unsigned)kept.triangles);
    return EXIT_SUCCESS;
}
