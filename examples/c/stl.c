/* A scanner's file to the rows of its tank, through the library:
 *
 *   stl FILE firstX firstY firstZ sizeX sizeY sizeZ countX countY countZ [x|y|z]
 *
 * FILE is a binary STL. The numbers are decimal: the centre of the grid's first cell, the size of a cell and how many cells
 * there are along each axis, all in the file's unit. The last word is the upright axis of a lying tank; without it that is z.
 * Prints how many cells of each layer along that axis are inside. Ends with 1 if the library refuses the file or the job, and
 * says why and what to do; with 2 on a wrong use. README.md has the commands. */
#include "sdf.h"

#include <stdio.h>
#include <stdlib.h>

enum { REFUSED = 1, MISUSED = 2 };

static void end(int status, const char *what, const char *why) {
    fprintf(stderr, "stl: %s: %s\n", what, why);
    exit(status);
}

/* What a refusal means, and what the person who has the scan can do. The numbers are sdf.h's; 3, 4 and 5 cannot come up
 * here, since a file has no more facets than a job, there are no indices, and what is lent is what was asked for. */
static const char *in_words(uint32_t number) {
    switch (number) {
    case SDF_GRID:
        return "the grid is out of bounds. Counts are from 1 to 1,024 and make at most 1,048,576 cells, the first centre is "
               "within 1,048,576 of zero, a cell's size from 1/1,024 to 1,024: correct the numbers on the command line";
    case SDF_COORDINATES:
        return "a corner is not finite, or beyond 1,048,576: repair the scan, or write it in a larger unit";
    case SDF_OFF_GRID:
        return "a facet lies off the grid: on some axis all three of its corners are beyond the cells. Give a first centre and "
               "counts whose cells reach round all of the scan, or cut off what does not belong to the tank";
    case SDF_NOT_A_NUMBER:
        return "a distance came out as NaN, since two corners of a facet are a hair apart: drop or merge that facet, as "
               "mesh programs do ('remove degenerate facets')";
    case SDF_LIMIT_MET:
        return "the pop limit was met: take a coarser grid";
    case SDF_FILE:
        return "this is no binary STL: it is shorter than 84 bytes, or not 84 + 50 for each facet that it says it has. Was it "
               "cut off in copying? An ASCII STL must be converted first: admesh -b NEW.stl OLD.stl";
    case SDF_FACETS:
        return "it has more than 131,072 facets: thin the scan out";
    default:
        return "the library refused in a way that this program does not know";
    }
}

static void refuse(uint32_t number, const char *what) {
    printf("answer=%u\n", (unsigned)number);
    end(REFUSED, what, in_words(number));
}

/* Room for so many elements, never null: the library is owed a pointer even to none. */
static void *lend(size_t count, size_t size) {
    void *room = calloc(count ? count : 1, size);
    if (!room)
        end(REFUSED, "memory", "there is not enough for this grid and file");
    return room;
}

static float number_of(const char *word) {
    char *rest;
    float value = strtof(word, &rest);
    if (rest == word || *rest)
        end(MISUSED, word, "this is no number");
    return value;
}

static uint32_t count_of(const char *word) {
    char *rest;
    unsigned long value = strtoul(word, &rest, 10);
    /* strtoul takes a sign too. The library has the bounds of a count; here it must only fit. */
    if (*word < '0' || *word > '9' || *rest || value > UINT32_MAX)
        end(MISUSED, word, "this is no count");
    return (uint32_t)value;
}

static uint32_t axis_of(const char *word) {
    if (!*word || word[1] || *word < 'x' || *word > 'z')
        end(MISUSED, word, "this is no axis: x, y or z");
    return SDF_X + (uint32_t)(*word - 'x');
}

/* The whole file in memory. It is read until it ends, so that a pipe will do. */
static uint8_t *contents(const char *name, size_t *length) {
    FILE *file = fopen(name, "rb");
    size_t room = 1 << 16;
    uint8_t *bytes = lend(room, 1);
    if (!file) {
        perror(name);
        exit(MISUSED);
    }
    *length = 0;
    for (size_t more; (more = fread(bytes + *length, 1, room - *length, file)) > 0;) {
        *length += more;
        if (*length == room) {
            uint8_t *larger = room > SIZE_MAX / 2 ? NULL : realloc(bytes, room *= 2);
            if (!larger)
                end(REFUSED, name, "there is not enough memory for it");
            bytes = larger;
        }
    }
    if (ferror(file)) {
        perror(name);
        exit(MISUSED);
    }
    fclose(file);
    return bytes;
}

int main(int words, char **word) {
    if (words != 11 && words != 12)
        end(MISUSED, "usage", "stl FILE firstX firstY firstZ sizeX sizeY sizeZ countX countY countZ [x|y|z]");
    const char *name = word[1];
    sdf_grid grid = {.first = {number_of(word[2]), number_of(word[3]), number_of(word[4])},
                     .size = {number_of(word[5]), number_of(word[6]), number_of(word[7])},
                     .count = {count_of(word[8]), count_of(word[9]), count_of(word[10])},
                     .upright = words == 12 ? axis_of(word[11]) : SDF_Z};

    /* The file says how many facets it has, and so how much is to be lent: nine numbers each. */
    size_t length;
    uint8_t *file = contents(name, &length);
    sdf_stl_answer scan = sdf_stl_facets(file, length);
    if (scan.number != SDF_DONE)
        refuse(scan.number, name);
    size_t numbers = 9 * (size_t)scan.facets;
    float *vertices = lend(numbers, sizeof *vertices);
    scan = sdf_read_stl(file, length, vertices, numbers);
    if (scan.number != SDF_DONE)
        refuse(scan.number, name);
    free(file);

    /* The grid says what else is to be lent. */
    sdf_number_answer total = sdf_grid_total(grid);
    if (total.number != SDF_DONE)
        refuse(total.number, "grid");
    const uint32_t counts[] = {[SDF_X] = grid.count.x, [SDF_Y] = grid.count.y, [SDF_Z] = grid.count.z};
    size_t n = total.value, layers = counts[grid.upright];
    float *field = lend(n, sizeof *field);
    uint32_t *names = lend(n, sizeof *names), *crossings = lend(3 * n, sizeof *crossings);
    uint32_t *rows = lend(layers, sizeof *rows);
    const uint32_t none = 0; /* indices are not given, but owed a pointer */

    /* Room for as many entries as cells is enough for most; where it is not, twice as many. */
    sdf_job_answer answer;
    for (size_t room = n;; room *= 2) {
        sdf_entry *queue = lend(room, sizeof *queue);
        answer = sdf_generate_grid_sdf_records(grid, vertices, numbers, SDF_LIST, SDF_NO_INDICES, &none, 0, field, n,
                                               names, n, crossings, 3 * n, rows, layers, queue, room,
                                               (sdf_terms){.limit = UINT32_MAX, .pass = SDF_QUICK, .edition = SDF_EDITION_1});
        free(queue);
        if (answer.number != SDF_QUEUE_FULL)
            break;
    }
    if (answer.number != SDF_DONE)
        refuse(answer.number, name);

    printf("answer=%u\nfacets=%u\n", (unsigned)answer.number, (unsigned)scan.facets);
    printf("pops=%u\npeak=%zu\ngrazed=%llu\n", (unsigned)answer.pops, answer.peak, (unsigned long long)answer.grazed);
    double inside = 0;
    for (size_t layer = 0; layer < layers; layer++) {
        printf("row=%zu %u\n", layer, (unsigned)rows[layer]);
        inside += rows[layer];
    }
    printf("volume=%.3f\n", inside * grid.size.x * grid.size.y * grid.size.z);
    free(vertices);
    free(field);
    free(names);
    free(crossings);
    free(rows);
    return EXIT_SUCCESS;
}
