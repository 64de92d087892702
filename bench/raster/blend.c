/* The same work as crates/raster's blend with a colour, written bytewise in C. Its own file, so that gcc optimises it apart from the timing. */
#include <stddef.h>
#include <stdint.h>

struct surface { size_t base, words, bits, left, top, width, height; };
struct pen { uint16_t fore, back, mask, pattern; uint8_t op, transparent; };
struct truth { uint8_t a, b, c, d; };

static const struct truth truths[16] = {
    {0, 0, 0, 0},     {0, 0, 0, 255},     {0, 0, 255, 0},     {0, 0, 255, 255},
    {0, 255, 0, 0},   {0, 255, 0, 255},   {0, 255, 255, 0},   {0, 255, 255, 255},
    {255, 0, 0, 0},   {255, 0, 0, 255},   {255, 0, 255, 0},   {255, 0, 255, 255},
    {255, 255, 0, 0}, {255, 255, 0, 255}, {255, 255, 255, 0}, {255, 255, 255, 255},
};

static inline uint8_t mux(uint8_t m, uint8_t x, uint8_t y) { return x ^ ((x ^ y) & m); }

static inline void blend(uint8_t *buffer, struct surface s, struct pen pen, struct truth t, size_t x, size_t y, uint16_t colour) {
    size_t bits = (s.left + x) * s.bits;
    size_t byte = (bits / 8) ^ 1;
    size_t at = s.base + 2 * s.words * (s.top + y) + byte;
    unsigned shift = 8 - s.bits - bits % 8;
    unsigned half = byte % 2;
    uint8_t source = colour >> (8 * half);
    uint8_t under = (pen.mask >> (8 * half)) & (((1u << s.bits) - 1) << shift);
    uint8_t old = buffer[at];
    buffer[at] = mux(under, old, mux(old, mux(source, t.a, t.b), mux(source, t.c, t.d)));
}

void c_paint(uint8_t *buffer, size_t length, size_t bits, size_t turns, uint8_t op, uint16_t mask, uint16_t colour) {
    (void)length;
    struct surface s = {0, 64, bits, 0, 0, 128, 64};
    struct pen pen = {colour, 0, mask, 0, op, 0};
    struct truth t = truths[op];
    for (size_t i = 0; i < turns; i++) blend(buffer, s, pen, t, i % 128, i / 128 % 64, colour);
}
