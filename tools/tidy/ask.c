/* ask: reads the STL files of standard input by the library, one after the other, tidies each as a list without indices, and judges nothing.
 * tools/tidy-stl is at the other end.
 *
 * A question: two 64-bit numbers, of this machine's byte order: how many bytes the file has, and for how many facets is lent; then
 * the file. The answer: five 32-bit numbers: the two of the reading's answer, and the three of the tidying's; then the five buffers as
 * they are left, of 32-bit words: the corners that were read, nine a facet, and the outputs in the header's order. */
#include "calls.h"

#include <stdio.h>
#include <stdlib.h>

enum { CORNERS, COORDINATES, INDICES, FIRSTS, CAUSES, BUFFERS };

static void *room(size_t size) {
    void *bytes = malloc(size + 1);
    if (!bytes) {
        fprintf(stderr, "ask: no memory\n");
        exit(2);
    }
    return bytes;
}

int main(void) {
    static const size_t words[BUFFERS] = {9, 9, 3, 3, 1};
    uint64_t question[2];
    while (fread(question, sizeof question, 1, stdin) == 1) {
        size_t length = question[0], facets = question[1];
        uint8_t *file = room(length);
        uint32_t *lent[BUFFERS], answer[5] = {0};
        if (fread(file, 1, length, stdin) != length) {
            fprintf(stderr, "ask: a question ends early\n");
            return 2;
        }
        for (int i = 0; i < BUFFERS; i++) {
            lent[i] = room(words[i] * facets * sizeof(uint32_t));
            for (size_t k = 0; k < words[i] * facets; k++)
                lent[i][k] = 0x5a5a5a5a;
        }
        float *corners = (float *)(void *)lent[CORNERS];
        port_read_stl(file, length, corners, 9 * facets, &answer[0], &answer[1]);
        /* Without indices those that are lent are not looked at. */
        port_tidy_mesh(corners, 9 * facets, 0, 0, &answer[1], 1, (float *)(void *)lent[COORDINATES], 9 * facets,
                       lent[INDICES], 3 * facets, lent[FIRSTS], 3 * facets, lent[CAUSES], facets, &answer[2],
                       &answer[3], &answer[4]);
        fwrite(answer, sizeof answer, 1, stdout);
        for (int i = 0; i < BUFFERS; i++) {
            fwrite(lent[i], sizeof(uint32_t), words[i] * facets, stdout);
            free(lent[i]);
        }
        fflush(stdout);
        free(file);
    }
    return 0;
}
