/* ask: puts the questions of standard input to the library, one after the other, and judges nothing. tools/stl-check is
 * at the other end.
 *
 * A question: three 64-bit numbers, of this machine's byte order: what is asked (0 facets, 1 read, 2 write), how many
 * elements are given and how many are lent; then the given elements. A file's elements are bytes, a mesh's are floats.
 * The answer: three 32-bit numbers: the two of the library's answer, and 1 if what was given is still what it was; then
 * FRONT bytes that stand before the lent buffer, and the buffer.
 *
 * Both buffers end where a page begins that nobody may touch, so one byte read or written behind either ends the
 * program. What stands before the lent buffer, and the buffer, hold a pattern without zeros before the call. */
#define _DEFAULT_SOURCE
#include "calls.h"

#include <stdio.h>
#include <stdlib.h>
#include <string.h>
#include <sys/mman.h>
#include <unistd.h>

enum { FACETS = 0, READ = 1, WRITE = 2, FRONT = 64 };

static size_t page;

typedef struct {
    uint8_t *whole, *bytes;
    size_t pages, length;
} buffer;

static void fail(const char *what) {
    fprintf(stderr, "ask: %s\n", what);
    exit(2);
}

static buffer room(size_t length) {
    buffer b = {.pages = (FRONT + length + page - 1) / page * page, .length = length};
    b.whole = mmap(NULL, b.pages + page, PROT_READ | PROT_WRITE, MAP_PRIVATE | MAP_ANONYMOUS, -1, 0);
    if (b.whole == MAP_FAILED || mprotect(b.whole + b.pages, page, PROT_NONE) != 0)
        fail("no memory");
    b.bytes = b.whole + b.pages - length;
    for (size_t i = 0; i < FRONT + length; i++)
        b.bytes[(ptrdiff_t)i - FRONT] = (uint8_t)(1 + i % 251);
    return b;
}

static void give_back(buffer b) { munmap(b.whole, b.pages + page); }

static void take(void *to, size_t length) {
    if (fread(to, 1, length, stdin) != length)
        fail("a question ends early");
}

int main(void) {
    uint64_t question[3];
    page = (size_t)sysconf(_SC_PAGESIZE);
    while (fread(question, sizeof question, 1, stdin) == 1) {
        uint64_t what = question[0];
        buffer given = room(question[1] * (what == WRITE ? sizeof(float) : 1));
        buffer lent = room(question[2] * (what == READ ? sizeof(float) : 1));
        uint32_t answer[3] = {0};
        take(given.bytes, given.length);
        uint8_t *before = malloc(given.length + 1);
        if (!before)
            fail("no memory");
        memcpy(before, given.bytes, given.length);
        if (what == FACETS)
            port_stl_facets(given.bytes, question[1], &answer[0], &answer[1]);
        else if (what == READ)
            port_read_stl(given.bytes, question[1], (float *)(void *)lent.bytes, question[2], &answer[0], &answer[1]);
        else
            port_write_stl((const float *)(const void *)given.bytes, question[1], lent.bytes, question[2], &answer[0],
                           &answer[1]);
        answer[2] = memcmp(before, given.bytes, given.length) == 0;
        fwrite(answer, sizeof answer, 1, stdout);
        fwrite(lent.bytes - FRONT, 1, FRONT + lent.length, stdout);
        fflush(stdout);
        free(before);
        give_back(given);
        give_back(lent);
    }
    return 0;
}
