/* Lines. The pixels in the clip are an interval, worked out before the first is drawn, so the loops test nothing;
 * the address goes from pixel to pixel by a step along each axis. */
#include "peer.h"
#include "words.h"

#include <stdlib.h>

/* A line from one of its pixels on: n and m are the larger and the smaller of |dx| and |dy|. Pixel i lies at i along
 * the larger axis and at floor((2im + n) / (2n)) along the other; `rest` is that division's remainder. */
typedef struct {
    size_t row, bit; /* the byte where the row begins, and the bit of the row where the pixel does */
    size_t right, down; /* a step along each axis, in bits and in bytes; a negative one wraps */
    int rest, m, n;
    int count;
    uint16_t pattern;
} Trace;

static int64_t floor_of(int64_t a, int64_t b)
{
    return a >= 0 ? a / b : -((b - 1 - a) / b);
}

/* Takes from an interval of indices those whose major coordinate, start + sign * i, is not from low to high. */
static void limit_major(int start, int sign, int low, int high, int64_t *first, int64_t *last)
{
    int64_t from = sign < 0 ? start - high : low - start, to = sign < 0 ? start - low : high - start;
    *first = from > *first ? from : *first;
    *last = to < *last ? to : *last;
}

/* .. and those whose minor coordinate is not: floor((2im + n) / (2n)) is at least k where i >= (2nk - n) / (2m). */
static void limit_minor(int start, int sign, int low, int high, int64_t m, int64_t n, int64_t *first, int64_t *last)
{
    int64_t from = sign < 0 ? start - high : low - start, to = sign < 0 ? start - low : high - start;
    if (m == 0) {
        if (from > 0 || to < 0)
            *last = *first - 1;
        return;
    }
    int64_t begin = floor_of(2 * n * from - n + 2 * m - 1, 2 * m), end = floor_of(2 * n * to + n - 1, 2 * m);
    *first = begin > *first ? begin : *first;
    *last = end < *last ? end : *last;
}

/* The loop. `across`: the larger axis is x. `solid`: the pattern is all 1s. `bytewise`: a pixel is a byte, of which
 * those of even columns are in the high halves of their words. All are known where this is made part of its callers. */
static inline __attribute__((always_inline)) void trace(uint8_t *bytes, Trace t, const Ink inks[2], int depth,
                                                        bool across, bool solid, bool bytewise)
{
    uint8_t keep[2][2], flip[2][2];
    for (int on = 0; bytewise && on < 2; on++)
        for (int odd = 0; odd < 2; odd++) {
            keep[on][odd] = (uint8_t)(inks[on].keep >> (odd ? 0 : 8));
            flip[on][odd] = (uint8_t)(inks[on].flip >> (odd ? 0 : 8));
        }
    uint16_t lead = (uint16_t)(0xFFFF << (16 - depth));
    int level = 2 * t.m, turn = 2 * t.m - 2 * t.n;
    for (int left = t.count; left > 0; left--) {
        int on = solid ? 1 : t.pattern >> 15;
        if (bytewise) {
            size_t column = t.bit / 8;
            uint8_t *at = bytes + t.row + (column ^ 1);
            *at = (uint8_t)((*at & keep[on][column & 1]) ^ flip[on][column & 1]);
        } else {
            ink_word(bytes + t.row + t.bit / 16 * 2, (uint16_t)(lead >> (t.bit & 15)), inks[on].keep, inks[on].flip);
        }
        bool turns = t.rest + turn >= 0;
        t.rest += turns ? turn : level;
        t.bit += across || turns ? t.right : 0;
        t.row += !across || turns ? t.down : 0;
        if (!solid)
            t.pattern = rotated_left(t.pattern, 1);
    }
}

static inline __attribute__((always_inline)) void trace_at(uint8_t *bytes, Trace t, const Ink inks[2], int depth,
                                                           bool across, bool solid)
{
    if (depth == 8)
        trace(bytes, t, inks, depth, across, solid, true);
    else
        trace(bytes, t, inks, depth, across, solid, false);
}

static void draw_trace(uint8_t *bytes, Trace t, const Ink inks[2], int depth, bool across)
{
    if (across && t.pattern == 0xFFFF)
        trace_at(bytes, t, inks, depth, true, true);
    else if (across)
        trace_at(bytes, t, inks, depth, true, false);
    else if (t.pattern == 0xFFFF)
        trace_at(bytes, t, inks, depth, false, true);
    else
        trace_at(bytes, t, inks, depth, false, false);
}

static bool holds(const Rectangle *clip, Point p)
{
    return p.x >= clip->left && p.x <= clip->right && p.y >= clip->top && p.y <= clip->bottom;
}

/* The indices of a sloped line's visible pixels, from `first` to `last` at most: false if there are none. */
static bool crop(const Rectangle *clip, Point from, int dx, int dy, int64_t *first, int64_t *last)
{
    int wide = abs(dx), tall = abs(dy), right = dx < 0 ? -1 : 1, down = dy < 0 ? -1 : 1;
    if (holds(clip, from) && holds(clip, (Point){from.x + dx, from.y + dy}))
        return *first <= *last;
    if (wide >= tall) {
        limit_major(from.x, right, clip->left, clip->right, first, last);
        limit_minor(from.y, down, clip->top, clip->bottom, tall, wide, first, last);
    } else {
        limit_major(from.y, down, clip->top, clip->bottom, first, last);
        limit_minor(from.x, right, clip->left, clip->right, wide, tall, first, last);
    }
    return *first <= *last;
}

static void draw_sloped(const Canvas *canvas, Point from, int dx, int dy, int start, uint16_t pattern)
{
    const Bitmap *bitmap = &canvas->bitmap;
    bool across = abs(dx) >= abs(dy);
    int n = across ? abs(dx) : abs(dy), m = across ? abs(dy) : abs(dx), right = dx < 0 ? -1 : 1, down = dy < 0 ? -1 : 1;
    int64_t first = start, last = n;
    if (!crop(&canvas->clip, from, dx, dy, &first, &last))
        return;
    int64_t twice = 2 * first * m + n;
    int major = (int)first, minor = first == 0 ? 0 : (int)(twice / (2 * n));
    int x = from.x + right * (across ? major : minor), y = from.y + down * (across ? minor : major);
    Trace t = {
        .row = (size_t)y * bitmap->stride,
        .bit = (size_t)(x * bitmap->depth),
        .right = (size_t)(right * bitmap->depth),
        .down = (size_t)down * bitmap->stride,
        .rest = (int)(twice - (int64_t)minor * 2 * n),
        .m = m,
        .n = n,
        .count = (int)(last - first + 1),
        .pattern = rotated_left(pattern, (unsigned)(first - start)),
    };
    Ink inks[2] = {canvas->transparent ? NO_INK : canvas->inks[0], canvas->inks[1]};
    draw_trace(bitmap->bytes, t, inks, bitmap->depth, across);
}

void draw_line(const Canvas *canvas, Point from, int dx, int dy, int first, uint16_t pattern)
{
    int skipped = dx < 0 ? -first : first;
    if (dy != 0)
        draw_sloped(canvas, from, dx, dy, first, pattern);
    else if (first <= abs(dx))
        draw_run(canvas, (Point){from.x + skipped, from.y}, dx - skipped, pattern);
}

/* Four sides, each after the first from the pixel after the corner on; the pattern goes on through the corners. */
void draw_outline(const Canvas *canvas, Point from, int dx, int dy)
{
    int wide = abs(dx), tall = abs(dy), right = dx < 0 ? -1 : 1, down = dy < 0 ? -1 : 1;
    Point far = {from.x + dx, from.y + dy};
    uint16_t pattern = canvas->pattern;
    draw_run(canvas, from, dx, pattern);
    pattern = rotated_left(pattern, (unsigned)wide + 1);
    if (tall == 0)
        return;
    draw_line(canvas, (Point){far.x, from.y + down}, 0, dy - down, 0, pattern);
    pattern = rotated_left(pattern, (unsigned)tall);
    if (wide == 0)
        return;
    draw_run(canvas, (Point){far.x - right, far.y}, right - dx, pattern);
    pattern = rotated_left(pattern, (unsigned)wide);
    if (tall > 1)
        draw_line(canvas, (Point){from.x, far.y - down}, 0, 2 * down - dy, 0, pattern);
}
