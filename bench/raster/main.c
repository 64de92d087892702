/* Times blends of crates/raster against the same work in C, in one run, and compares what they leave. */
#include <stdint.h>
#include <stdio.h>
#include <string.h>
#include <time.h>

enum { LENGTH = 8192, TURNS = 20000000, RUNS = 7 };

typedef void paint(uint8_t *buffer, size_t length, size_t bits, size_t turns, uint8_t op, uint16_t mask, uint16_t colour);
paint bench_raster_paint, c_paint;

static double seconds(paint *f, uint8_t *buffer, size_t bits, uint8_t op) {
    struct timespec from, to;
    clock_gettime(CLOCK_MONOTONIC, &from);
    f(buffer, LENGTH, bits, TURNS, op, 0x5AF3, 0xC396);
    clock_gettime(CLOCK_MONOTONIC, &to);
    return (to.tv_sec - from.tv_sec) + 1e-9 * (to.tv_nsec - from.tv_nsec);
}

int main(void) {
    static uint8_t ours[LENGTH], theirs[LENGTH];
    double worst = 0;
    printf("bits  ns/blend Rattle  ns/blend C  ratio\n");
    for (size_t bits = 1; bits <= 8; bits *= 2) {
        double rattle = 1e9, c = 1e9;
        for (int run = 0; run < RUNS; run++) {
            for (int i = 0; i < LENGTH; i++) ours[i] = theirs[i] = (uint8_t)(i * 37 + run);
            uint8_t op = (uint8_t)(6 + run); /* the best of several operations: the work is the same for all */
            double r = seconds(bench_raster_paint, ours, bits, op);
            double s = seconds(c_paint, theirs, bits, op);
            if (memcmp(ours, theirs, LENGTH)) {
                printf("operation %d at %zu bits: the buffers differ\n", op, bits);
                return 1;
            }
            if (r < rattle) rattle = r;
            if (s < c) c = s;
        }
        printf("%4zu  %15.2f  %10.2f  %5.2f\n", bits, rattle * 1e9 / TURNS, c * 1e9 / TURNS, rattle / c);
        if (rattle / c > worst) worst = rattle / c;
    }
    printf("worst ratio %.2f, limit 1.20\n", worst);
    return worst > 1.2;
}
