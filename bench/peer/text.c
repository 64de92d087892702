/* Characters: turned upright once, then drawn row by row, by four words, two and one. */
#include "peer.h"
#include "words.h"

/* A character: one word a row, the leftmost cell in bit 15. */
typedef struct {
    int width, height;
    bool still;
    uint16_t rows[16];
} Glyph;

/* Eight cells, the leftmost in bit 7, spread over pixels of 4 and of 8 bits. */
static uint32_t fours[256];
static uint64_t eights[256];

static void fill_tables(void)
{
    if (eights[255] != 0)
        return;
    for (unsigned cells = 0; cells < 256; cells++) {
        fours[cells] = spread(4, cells >> 4) | (uint32_t)spread(4, cells & 15) << 16;
        for (unsigned word = 0; word < 4; word++)
            eights[cells] |= (uint64_t)spread(8, cells >> (6 - 2 * word) & 3) << 16 * word;
    }
}

/* The first cells of a row, the leftmost in bit 31, spread over four words, over two, and over one. */
static inline uint64_t spread_four(int depth, uint32_t cells)
{
    if (depth == 8)
        return eights[cells >> 24];
    return fours[cells >> 24] | (uint64_t)fours[cells >> 16 & 255] << 32;
}

static inline uint32_t spread_two(int depth, uint32_t cells)
{
    if (depth == 8)
        return (uint32_t)eights[cells >> 24];
    if (depth == 4)
        return fours[cells >> 24];
    if (depth == 2)
        return spread(2, cells >> 24) | (uint32_t)spread(2, cells >> 16 & 255) << 16;
    return cells << 16 | cells >> 16;
}

static inline uint16_t spread_one(int depth, uint32_t cells)
{
    return (uint16_t)spread_two(depth, cells);
}

/* Bit 15 - j of row i becomes bit 15 - i of row j: halves, quarters, pairs, neighbours change places. */
static void transpose(uint16_t rows[16])
{
    uint64_t q[4], swapped;
    memcpy(q, rows, sizeof q);
    for (int k = 0; k < 2; k++) { /* rows 8 apart */
        swapped = (q[k] ^ q[k + 2] >> 8) & fourfold(0x00FF);
        q[k] ^= swapped;
        q[k + 2] ^= swapped << 8;
    }
    for (int k = 0; k < 4; k += 2) { /* rows 4 apart */
        swapped = (q[k] ^ q[k + 1] >> 4) & fourfold(0x0F0F);
        q[k] ^= swapped;
        q[k + 1] ^= swapped << 4;
    }
    for (int k = 0; k < 4; k++) { /* rows 2 apart, and neighbours */
        swapped = (q[k] ^ q[k] >> 34) & UINT64_C(0x0000000033333333);
        q[k] ^= swapped ^ swapped << 34;
        swapped = (q[k] ^ q[k] >> 17) & UINT64_C(0x0000555500005555);
        q[k] ^= swapped ^ swapped << 17;
    }
    memcpy(rows, q, sizeof q);
}

/* The bits of all rows from the other end, the first of `width` cells then being in bit 15. */
static void mirror(uint16_t rows[16], int width)
{
    uint64_t q[4];
    memcpy(q, rows, sizeof q);
    for (int k = 0; k < 4; k++)
        q[k] = reversed_four(q[k]) << (16 - width);
    memcpy(rows, q, sizeof q);
}

static void reverse_rows(uint16_t rows[16], int height)
{
    for (int i = 0, j = height - 1; i < j; i++, j--) {
        uint16_t row = rows[i];
        rows[i] = rows[j];
        rows[j] = row;
    }
}

/* The character as it stands on the screen, and its upper left corner: cell (i,j) of a character at (x,y) falls on
 * (x+i,y+j), (x+j,y-i), (x-i,y-j), (x-j,y+i). */
static Point turn(Glyph *glyph, int rotation, Point at)
{
    int width = glyph->width, height = glyph->height;
    switch (rotation) {
    case 1:
        transpose(glyph->rows);
        reverse_rows(glyph->rows, width);
        at.y -= width - 1;
        break;
    case 2:
        reverse_rows(glyph->rows, height);
        mirror(glyph->rows, width);
        at.x -= width - 1;
        at.y -= height - 1;
        break;
    case 3:
        reverse_rows(glyph->rows, height);
        transpose(glyph->rows);
        at.x -= height - 1;
        break;
    }
    if (rotation & 1) {
        glyph->width = height;
        glyph->height = width;
    }
    return at;
}

/* How rows of cells go on the screen: the inks, and the bits of the row's words that are drawn. */
typedef struct {
    uint64_t keep, flip; /* of a 0 */
    uint64_t other_keep, other_flip; /* what a 1 changes of that */
    int words;
    uint64_t cover[4]; /* of the first four words, the next four, two and one */
} Stencil;

static inline uint64_t mixed(const Stencil *s, uint64_t old, uint64_t cells, uint64_t cover)
{
    uint64_t keep = s->keep ^ (s->other_keep & cells), flip = s->flip ^ (s->other_flip & cells);
    return (old & (keep | ~cover)) ^ (flip & cover);
}

/* The cells after those of so many words. */
static inline uint32_t after(int depth, uint32_t cells, int words)
{
    return (uint32_t)((uint64_t)cells << words * (16 / depth));
}

static inline void cover_words(Stencil *s, uint32_t cells, int depth)
{
    int k = 0;
    for (int words = s->words; depth >= 4 && words >= 4; words -= 4) {
        s->cover[k++] = spread_four(depth, cells);
        cells = after(depth, cells, 4);
    }
    s->cover[2] = spread_two(depth, cells);
    if (s->words & 2)
        cells = after(depth, cells, 2);
    s->cover[3] = spread_one(depth, cells);
}

static inline void stamp(uint8_t *at, const Stencil *s, uint32_t cells, int depth)
{
    int k = 0;
    for (int words = s->words; depth >= 4 && words >= 4; words -= 4, at += 8) {
        put_four(at, mixed(s, get_four(at), spread_four(depth, cells), s->cover[k++]));
        cells = after(depth, cells, 4);
    }
    if (s->words & 2) {
        put_two(at, (uint32_t)mixed(s, get_two(at), spread_two(depth, cells), s->cover[2]));
        cells = after(depth, cells, 2);
        at += 4;
    }
    if (s->words & 1)
        put_word(at, (uint16_t)mixed(s, get_word(at), spread_one(depth, cells), s->cover[3]));
}

static inline void stamp_rows(const Canvas *canvas, const Glyph *glyph, Point at, const Stencil *inks, int depth)
{
    const Rectangle *clip = &canvas->clip;
    int first = larger(clip->left - at.x, 0), last = smaller(clip->right - at.x, glyph->width - 1);
    int top = larger(clip->top - at.y, 0), bottom = smaller(clip->bottom - at.y, glyph->height - 1);
    if (first > last || top > bottom)
        return;
    int column = at.x + first, phase = column % (16 / depth);
    Stencil stencil = *inks;
    stencil.words = (phase + last - first) / (16 / depth) + 1;
    cover_words(&stencil, (0xFFFFFFFFu << (31 - (last - first))) >> phase, depth);
    size_t stride = canvas->bitmap.stride;
    uint8_t *word = canvas->bitmap.bytes + (size_t)(at.y + top) * stride + 2 * (size_t)(column / (16 / depth));
    for (int j = top; j <= bottom; j++, word += stride)
        stamp(word, &stencil, ((uint32_t)glyph->rows[j] << (16 + first)) >> phase, depth);
}

/* The descriptor of character k of a string: where its first word stands, if all of it is in the store. */
static bool descriptor_of(const Text *text, int k, size_t *at)
{
    size_t selector;
    if (text->byte_mode) {
        size_t offset = text->font + 2 * (size_t)text->store[text->codes + (size_t)k];
        if (offset + 2 > text->length)
            return false;
        selector = get_word(text->store + offset);
    } else {
        selector = get_word(text->store + text->codes + 2 * (size_t)k);
    }
    *at = text->font + 2 * selector;
    return *at + 2 <= text->length && *at + 4 + 2 * (text->store[*at + 1] & 15u) <= text->length;
}

static Glyph glyph_at(const uint8_t *descriptor)
{
    unsigned first = get_word(descriptor);
    Glyph glyph = {.width = (first & 15) + 1, .height = (first >> 8 & 15) + 1, .still = first >> 14 & 1};
    for (int j = 0; j < glyph.height; j++)
        glyph.rows[j] = (uint16_t)(get_word(descriptor + 2 + 2 * j) << (16 - glyph.width));
    return glyph;
}

static inline void draw_glyphs(const Canvas *canvas, const Text *text, const Stencil *inks, Point *position, int depth)
{
    static const int steps[4][2] = {{1, 0}, {0, -1}, {-1, 0}, {0, 1}};
    for (int k = 0; k < text->count; k++) {
        size_t at;
        descriptor_of(text, k, &at);
        Glyph glyph = glyph_at(text->store + at);
        int far = text->spacing + ((text->path ^ text->rotation) & 1 ? glyph.height : glyph.width);
        stamp_rows(canvas, &glyph, turn(&glyph, text->rotation, *position), inks, depth);
        if (!glyph.still) {
            position->x = (int16_t)(position->x + far * steps[text->path][0]);
            position->y = (int16_t)(position->y + far * steps[text->path][1]);
        }
    }
}

bool draw_text(const Canvas *canvas, const Text *text, Point *position)
{
    size_t at;
    for (int k = 0; k < text->count; k++)
        if (!descriptor_of(text, k, &at))
            return false;
    fill_tables();
    Ink fore = canvas->inks[1], back = text->transparent ? NO_INK : canvas->inks[0];
    Stencil inks = {.keep = fourfold(back.keep),
                    .flip = fourfold(back.flip),
                    .other_keep = fourfold(back.keep ^ fore.keep),
                    .other_flip = fourfold(back.flip ^ fore.flip)};
    switch (canvas->bitmap.depth) {
    case 1:
        draw_glyphs(canvas, text, &inks, position, 1);
        break;
    case 2:
        draw_glyphs(canvas, text, &inks, position, 2);
        break;
    case 4:
        draw_glyphs(canvas, text, &inks, position, 4);
        break;
    default:
        draw_glyphs(canvas, text, &inks, position, 8);
    }
    return true;
}
