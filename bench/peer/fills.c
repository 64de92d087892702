/* Horizontal runs. Sixteen pixels of a pattern repeat after 2 * depth bytes, so after sixteen bytes at every depth: a
 * strip of sixteen bytes, counted from the row's first byte, says what the pattern makes of the whole row. */
#include "peer.h"
#include "words.h"

/* The strip twice over, so that sixteen bytes can be taken from any word of it on. */
typedef struct {
    uint8_t keep[32], flip[32];
} Strip;

/* `columns` has the pattern's bit for column c in bit 15 - c mod 16. */
static void weave(const Canvas *canvas, uint16_t columns, Strip *strip)
{
    int depth = canvas->bitmap.depth, pixels = 16 / depth;
    Ink fore = canvas->inks[1], back = canvas->transparent ? NO_INK : canvas->inks[0];
    for (int word = 0; word < depth; word++) {
        unsigned bits = ((unsigned)columns << word * pixels & 0xFFFF) >> (16 - pixels);
        uint16_t chosen = spread(depth, bits);
        uint16_t keep = (uint16_t)((fore.keep & chosen) | (back.keep & ~chosen));
        uint16_t flip = (uint16_t)((fore.flip & chosen) | (back.flip & ~chosen));
        for (int at = word; at < 16; at += depth) {
            put_word(strip->keep + 2 * at, keep);
            put_word(strip->flip + 2 * at, flip);
        }
    }
}

/* A strip whose keep is the same in all bytes, and so its flip: a run in one colour. */
static void plain(Ink ink, Strip *strip)
{
    for (int at = 0; at < 32; at += 8) {
        put_four(strip->keep + at, fourfold(ink.keep));
        put_four(strip->flip + at, fourfold(ink.flip));
    }
}

/* Puts the strip, which keeps nothing, on so many bytes from `at` on, the first at place `from` of the strip. */
static void lay(uint8_t *at, size_t count, const Strip *strip, size_t from)
{
    const uint8_t *flip = strip->flip + from;
    if (get_four(flip) == get_four(flip + 8) && get_four(flip) == flip[0] * UINT64_C(0x0101010101010101)) {
        memset(at, flip[0], count);
        return;
    }
    Eight eight = get_eight(flip);
#pragma GCC unroll 4
    for (; count >= 16; count -= 16, at += 16)
        put_eight(at, eight);
    memcpy(at, flip, count);
}

/* Mixes so many bytes from `at` on with the strip. */
static void mix(uint8_t *at, size_t count, const Strip *strip, size_t from)
{
    Eight keep = get_eight(strip->keep + from), flip = get_eight(strip->flip + from);
#pragma GCC unroll 4
    for (; count >= 16; count -= 16, at += 16)
        put_eight(at, (get_eight(at) & keep) ^ flip);
    for (; count > 0; count -= 2, at += 2, from += 2)
        ink_word(at, 0xFFFF, get_word(strip->keep + from), get_word(strip->flip + from));
}

static void draw_between(const Canvas *canvas, const Strip *strip, int left, int right, int y)
{
    uint8_t *row = canvas->bitmap.bytes + (size_t)y * canvas->bitmap.stride;
    size_t begin = (size_t)left * (size_t)canvas->bitmap.depth;
    size_t last = ((size_t)right + 1) * (size_t)canvas->bitmap.depth - 1;
    size_t first_byte = begin / 16 * 2, last_byte = last / 16 * 2;
    uint16_t head = (uint16_t)(0xFFFF >> begin % 16), tail = (uint16_t)(0xFFFF << (15 - last % 16));
    size_t from = first_byte % 16, to = last_byte % 16;
    if (first_byte == last_byte)
        head &= tail;
    ink_word(row + first_byte, head, get_word(strip->keep + from), get_word(strip->flip + from));
    if (first_byte == last_byte)
        return;
    ink_word(row + last_byte, tail, get_word(strip->keep + to), get_word(strip->flip + to));
    size_t count = last_byte - first_byte - 2;
    from = (first_byte + 2) % 16;
    if ((get_four(strip->keep) | get_four(strip->keep + 8)) == 0)
        lay(row + first_byte + 2, count, strip, from);
    else
        mix(row + first_byte + 2, count, strip, from);
}

/* The pattern's bit for column c in bit 15 - c mod 16, where the run from column x on takes the pattern from bit 15. */
static uint16_t columns_of(int x, int dx, uint16_t pattern)
{
    if (pattern == 0xFFFF)
        return pattern;
    if (dx < 0)
        return rotated_left((uint16_t)reversed_four(pattern), 15 - (unsigned)x);
    return rotated_left(pattern, 0u - (unsigned)x);
}

static void strip_of(const Canvas *canvas, uint16_t columns, Strip *strip)
{
    if (columns == 0xFFFF)
        plain(canvas->inks[1], strip);
    else
        weave(canvas, columns, strip);
}

/* The visible columns of a run, if there are any. */
static bool crop(const Rectangle *clip, Point from, int dx, int *left, int *right)
{
    *left = larger(dx < 0 ? from.x + dx : from.x, clip->left);
    *right = smaller(dx < 0 ? from.x : from.x + dx, clip->right);
    return *left <= *right && from.y >= clip->top && from.y <= clip->bottom;
}

void draw_run(const Canvas *canvas, Point from, int dx, uint16_t pattern)
{
    int left, right;
    if (!crop(&canvas->clip, from, dx, &left, &right))
        return;
    Strip strip;
    strip_of(canvas, columns_of(from.x, dx, pattern), &strip);
    draw_between(canvas, &strip, left, right, from.y);
}

/* The strip of one run serves the next one that has the same columns. */
void draw_runs(const Canvas *canvas, const uint8_t *triples, int count, Point *position)
{
    Strip strip;
    bool woven = false;
    uint16_t columns = 0;
    for (int k = 0; k < count; k++, triples += 6) {
        position->x = (int16_t)(position->x + get_word(triples));
        position->y = (int16_t)(position->y + get_word(triples + 2));
        int dx = (int16_t)get_word(triples + 4), left, right;
        if (!crop(&canvas->clip, *position, dx, &left, &right))
            continue;
        uint16_t wanted = columns_of(position->x, dx, canvas->pattern);
        if (!woven || wanted != columns)
            strip_of(canvas, wanted, &strip);
        woven = true;
        columns = wanted;
        draw_between(canvas, &strip, left, right, position->y);
    }
}
