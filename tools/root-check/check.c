// The port's roots beside the machine's: equal on every bit pattern, and how long each takes.
#include <stdint.h>
#include <stdio.h>
#include <string.h>
#include <time.h>

extern uint32_t root_check_bits(uint32_t b);
extern float root_check_sqrt(float x);

// The machine's instruction, as the compiler makes it of the builtin under -fno-math-errno. It is called as the port's
// functions are, so that the call costs the same on both sides.
__attribute__((noinline)) static float machine(float x) { return __builtin_sqrtf(x); }

static uint32_t bits(float x) { uint32_t b; memcpy(&b, &x, 4); return b; }
static float value(uint32_t b) { float x; memcpy(&x, &b, 4); return x; }

static double now(void) {
    struct timespec t;
    clock_gettime(CLOCK_MONOTONIC, &t);
    return t.tv_sec * 1e9 + t.tv_nsec;
}

// A NaN has one spelling on patterns, 7fc00000, and as a float any.
static int compare_all(void) {
    uint64_t patterns = 0, on_bits = 0, on_floats = 0;
    uint32_t b = 0;
    do {
        float m = machine(value(b));
        uint32_t want = m != m ? 0x7fc00000u : bits(m);
        if (root_check_bits(b) != want && on_bits++ < 8)
            printf("bits %08x: %08x, the machine has %08x\n", b, root_check_bits(b), want);
        float r = root_check_sqrt(value(b));
        if ((r != r ? 0x7fc00000u : bits(r)) != want && on_floats++ < 8)
            printf("float %08x: %08x, the machine has %08x\n", b, bits(r), want);
        patterns++;
    } while (++b != 0);
    printf("patterns=%llu differences=%llu on bits, %llu on floats\n", (unsigned long long)patterns,
           (unsigned long long)on_bits, (unsigned long long)on_floats);
    return on_bits || on_floats;
}

enum { COUNT = 65536, ROUNDS = 50 };
static float in[COUNT];

// Nanoseconds for one root, the best of some rounds: with the roots independent of each other, and each waiting for the
// one before.
static void time_one(const char *name, float (*root)(float)) {
    double alone = 1e18, chained = 1e18;
    volatile float sink = 0;
    for (int r = 0; r < ROUNDS; r++) {
        float a = 0;
        double t = now();
        for (int i = 0; i < COUNT; i++) a += root(in[i]);
        t = (now() - t) / COUNT;
        if (t < alone) alone = t;
        sink += a;
        a = 0;
        t = now();
        for (int i = 0; i < COUNT; i++) a = root(in[i] + a * 0.0f);
        t = (now() - t) / COUNT;
        if (t < chained) chained = t;
        sink += a;
    }
    printf("%s: %.2f ns a root, %.2f ns where each waits for the one before\n", name, alone, chained);
}

int main(void) {
    // squared lengths from 0 to 300, by a fixed generator
    uint32_t s = 1;
    for (int i = 0; i < COUNT; i++) {
        s = s * 1664525u + 1013904223u;
        in[i] = (float)(s >> 8) * (300.0f / 16777216.0f);
    }
    time_one("port   ", root_check_sqrt);
    time_one("machine", machine);
    return compare_all();
}
