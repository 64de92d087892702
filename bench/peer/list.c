/* A list: commands read from the store and done, one after the other. */
#include "peer.h"
#include "words.h"

enum {
    LINK = 0x02, NOP = 0x03, DEF_TEXTURE_OPAQUE = 0x06, DEF_TEXTURE_TRANSPARENT = 0x07, DEF_CHAR_SET_WORDS = 0x0A,
    DEF_CHAR_SET_BYTES = 0x0B, CALL = 0x0F, RETURN = 0x17, DEF_BITMAP = 0x1A, DEF_COLORS = 0x3D, DEF_LOGICAL_OP = 0x41,
    DEF_CLIP_RECT = 0x46, DEF_SPACE = 0x4D, DEF_CHAR_ORIENT = 0x4E, ABS_MOV = 0x4F, REL_MOV = 0x52, POINT = 0x53,
    LINE = 0x54, RECT = 0x58, BIT_BLT = 0x64, POLYLINE = 0x74, CIRCLE = 0x8E, CHAR_OPAQUE = 0xA6,
    CHAR_TRANSPARENT = 0xA7, BIT_BLT_M = 0xAE, SCAN_LINES = 0xBA
};

/* How many words follow an opcode, and one more, so that an unknown one has 0. */
static const uint8_t lengths[256] = {
    [LINK] = 3, [NOP] = 1, [DEF_TEXTURE_OPAQUE] = 2, [DEF_TEXTURE_TRANSPARENT] = 2, [DEF_CHAR_SET_WORDS] = 3,
    [DEF_CHAR_SET_BYTES] = 3, [CALL] = 3, [RETURN] = 1, [DEF_BITMAP] = 6, [DEF_COLORS] = 3, [DEF_LOGICAL_OP] = 3,
    [DEF_CLIP_RECT] = 5, [DEF_SPACE] = 2, [DEF_CHAR_ORIENT] = 2, [ABS_MOV] = 3, [REL_MOV] = 3, [POINT] = 3, [LINE] = 3,
    [RECT] = 3, [BIT_BLT] = 5, [POLYLINE] = 4, [CIRCLE] = 2, [CHAR_OPAQUE] = 4, [CHAR_TRANSPARENT] = 4,
    [BIT_BLT_M] = 9, [SCAN_LINES] = 4};

enum { MOST_RETURNS = 8, PANE = 0x200000 };

/* What the commands of a list work on. */
typedef struct {
    uint8_t *store;
    size_t length;
    Bitmap screen;
    Canvas canvas;
    bool has_bitmap, has_font, byte_mode;
    Point position;
    int spacing, path, rotation;
    size_t font;
    size_t pointer;
    size_t returns[MOST_RETURNS];
    int kept;
} Pane;

static int number(const uint8_t *words, int k)
{
    return (int16_t)get_word(words + 2 * k);
}

/* The address in two words: 22 bits. */
static size_t address(const uint8_t *words)
{
    return get_word(words) | (size_t)(get_word(words + 2) & 0x3F) << 16;
}

static void move_by(Pane *pane, int dx, int dy)
{
    pane->position.x = (int16_t)(pane->position.x + dx);
    pane->position.y = (int16_t)(pane->position.y + dy);
}

static bool define_bitmap(Pane *pane, const uint8_t *words)
{
    Bitmap *screen = &pane->screen;
    if (address(words) != PANE || get_word(words + 4) + 1 != screen->width || get_word(words + 6) + 1 != screen->height
        || get_word(words + 8) != screen->depth)
        return false;
    pane->canvas.bitmap = *screen;
    pane->canvas.clip = (Rectangle){0, 0, screen->width - 1, screen->height - 1};
    pane->has_bitmap = true;
    return true;
}

static bool define_clip(Pane *pane, const uint8_t *words)
{
    Rectangle clip = {number(words, 0), number(words, 1), number(words, 2), number(words, 3)};
    int width = pane->screen.width, height = pane->screen.height;
    if (!pane->has_bitmap || clip.left < 0 || clip.left >= width || clip.right < 0 || clip.right >= width
        || clip.top < 0 || clip.top >= height || clip.bottom < 0 || clip.bottom >= height)
        return false;
    pane->canvas.clip = clip;
    return true;
}

static bool call(Pane *pane, size_t target)
{
    if (pane->kept == MOST_RETURNS)
        return false;
    pane->returns[pane->kept++] = pane->pointer;
    pane->pointer = target;
    return true;
}

static bool polyline(Pane *pane, const uint8_t *words)
{
    size_t at = address(words);
    int count = get_word(words + 4);
    if (at % 2 != 0 || at + 4 * (size_t)count > pane->length)
        return false;
    unsigned index = 0;
    for (int k = 0; k < count; k++, at += 4) {
        int dx = number(pane->store + at, 0), dy = number(pane->store + at, 1);
        int wide = dx < 0 ? -dx : dx, tall = dy < 0 ? -dy : dy, skipped = k == 0 ? 0 : 1;
        draw_line(&pane->canvas, pane->position, dx, dy, skipped, rotated_left(pane->canvas.pattern, index));
        index += (unsigned)(larger(wide, tall) + 1 - skipped);
        move_by(pane, dx, dy);
    }
    return true;
}

static bool scan_lines(Pane *pane, const uint8_t *words)
{
    size_t at = address(words);
    int count = get_word(words + 4);
    if (at % 2 != 0 || at + 6 * (size_t)count > pane->length)
        return false;
    draw_runs(&pane->canvas, pane->store + at, count, &pane->position);
    return true;
}

static bool copy(Pane *pane, const Bitmap *source, const uint8_t *words)
{
    Block block = {number(words, 0), number(words, 1), number(words, 2), number(words, 3)};
    if (block.x < 0 || block.y < 0 || block.dx < 0 || block.dy < 0 || block.x + block.dx >= source->width
        || block.y + block.dy >= source->height)
        return false;
    copy_block(&pane->canvas, source, block, pane->position);
    move_by(pane, block.dx + pane->spacing, 0);
    return true;
}

static bool copy_from_store(Pane *pane, const uint8_t *words)
{
    size_t at = address(words);
    Bitmap source = {.width = get_word(words + 4) + 1, .height = get_word(words + 6) + 1, .depth = pane->screen.depth};
    source.stride = ((size_t)source.width * (size_t)source.depth + 15) / 16 * 2;
    if (at % 2 != 0 || source.width > 0x8000 || source.height > 0x8000
        || at + source.stride * (size_t)source.height > pane->length)
        return false;
    source.bytes = pane->store + at;
    return copy(pane, &source, words + 8);
}

static bool characters(Pane *pane, const uint8_t *words, bool transparent)
{
    Text text = {.store = pane->store,
                 .length = pane->length,
                 .font = pane->font,
                 .codes = address(words),
                 .count = get_word(words + 4),
                 .byte_mode = pane->byte_mode,
                 .transparent = transparent,
                 .path = pane->path,
                 .rotation = pane->rotation,
                 .spacing = pane->spacing};
    size_t bytes = (size_t)text.count * (text.byte_mode ? 1 : 2);
    if (!pane->has_font || (!text.byte_mode && text.codes % 2 != 0) || text.codes + bytes > text.length)
        return false;
    return draw_text(&pane->canvas, &text, &pane->position);
}

/* A command that draws nothing. */
static bool settle(Pane *pane, unsigned opcode, const uint8_t *words)
{
    Canvas *canvas = &pane->canvas;
    switch (opcode) {
    case NOP:
        return true;
    case LINK:
        pane->pointer = address(words);
        return true;
    case CALL:
        return call(pane, address(words));
    case RETURN:
        if (pane->kept == 0)
            return false;
        pane->pointer = pane->returns[--pane->kept];
        return true;
    case ABS_MOV:
        pane->position = (Point){number(words, 0), number(words, 1)};
        return true;
    case REL_MOV:
        move_by(pane, number(words, 0), number(words, 1));
        return true;
    case DEF_BITMAP:
        return define_bitmap(pane, words);
    case DEF_CLIP_RECT:
        return define_clip(pane, words);
    case DEF_COLORS:
        canvas->foreground = get_word(words);
        canvas->background = get_word(words + 2);
        settle_inks(canvas);
        return true;
    case DEF_LOGICAL_OP:
        canvas->mask = get_word(words);
        canvas->operation = get_word(words + 2) & 15;
        settle_inks(canvas);
        return true;
    case DEF_TEXTURE_OPAQUE:
    case DEF_TEXTURE_TRANSPARENT:
        canvas->pattern = get_word(words);
        canvas->transparent = opcode == DEF_TEXTURE_TRANSPARENT;
        return true;
    case DEF_SPACE:
        pane->spacing = number(words, 0);
        return true;
    case DEF_CHAR_ORIENT:
        pane->path = get_word(words) >> 8 & 3;
        pane->rotation = get_word(words) & 3;
        return true;
    default: /* DEF_CHAR_SET */
        pane->font = address(words);
        pane->byte_mode = opcode == DEF_CHAR_SET_BYTES;
        pane->has_font = pane->font % 2 == 0;
        return pane->has_font;
    }
}

static bool draw(Pane *pane, unsigned opcode, const uint8_t *words)
{
    const Canvas *canvas = &pane->canvas;
    Point position = pane->position;
    switch (opcode) {
    case POINT:
        move_by(pane, number(words, 0), number(words, 1));
        draw_run(canvas, pane->position, 0, canvas->pattern);
        return true;
    case LINE:
        draw_line(canvas, position, number(words, 0), number(words, 1), 0, canvas->pattern);
        move_by(pane, number(words, 0), number(words, 1));
        return true;
    case RECT:
        draw_outline(canvas, position, number(words, 0), number(words, 1));
        return true;
    case CIRCLE:
        if (number(words, 0) < 0)
            return false;
        draw_circle(canvas, position, number(words, 0));
        return true;
    case POLYLINE:
        return polyline(pane, words);
    case SCAN_LINES:
        return scan_lines(pane, words);
    case BIT_BLT:
        return copy(pane, &pane->screen, words);
    case BIT_BLT_M:
        return copy_from_store(pane, words);
    default: /* CHAR */
        return characters(pane, words, opcode == CHAR_TRANSPARENT);
    }
}

static bool draws(unsigned opcode)
{
    return opcode > REL_MOV;
}

/* The command at the pointer done, or nothing. */
static bool step(Pane *pane)
{
    size_t at = pane->pointer;
    if (at % 2 != 0 || at + 2 > pane->length)
        return false;
    unsigned first = get_word(pane->store + at), opcode = first >> 8;
    size_t length = 2 * (size_t)lengths[opcode];
    if ((first & 1) != 0 || length == 0 || at + length > pane->length)
        return false;
    pane->pointer = at + length;
    if (draws(opcode))
        return pane->has_bitmap && draw(pane, opcode, pane->store + at + 2);
    return settle(pane, opcode, pane->store + at + 2);
}

uint32_t peer_run(uint8_t *screen, size_t screen_length, uint8_t *stores, size_t stores_length, uint32_t width,
                  uint32_t height, uint32_t depth, uint32_t length, uint32_t budget)
{
    size_t stride = ((size_t)width * depth + 15) / 16 * 2;
    if (stride * height > screen_length || length > stores_length)
        return 0;
    Pane pane = {
        .store = stores,
        .length = length,
        .screen = {screen, stride, (int)width, (int)height, (int)depth},
        .canvas = {.mask = 0xFFFF, .pattern = 0xFFFF, .operation = 5},
    };
    settle_inks(&pane.canvas);
    uint32_t done = 0;
    while (done < budget && step(&pane))
        done++;
    return done;
}
