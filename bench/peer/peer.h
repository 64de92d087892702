/* The peer: the console's lists drawn by plain C that is written for speed, to be timed beside the console.
 *
 * It draws on one pane over the whole screen, and reads stores only. It checks what keeps it within its buffers; a
 * command that it does not know, or that the console would refuse to do, ends the run. list.c reads the list, and each
 * kind of drawing has a file. */
#ifndef PEER_H
#define PEER_H

#include <stdbool.h>
#include <stddef.h>
#include <stdint.h>

/* Rows of 16-bit words, low byte first. The leftmost pixel of a word is in its highest bits; a pixel has `depth` bits,
 * 1, 2, 4 or 8. */
typedef struct {
    uint8_t *bytes;
    size_t stride;
    int width, height;
    int depth;
} Bitmap;

/* Columns and rows from a first to a last one, both in. */
typedef struct {
    int left, top, right, bottom;
} Rectangle;

/* What a colour makes of a word under operation and mask: (old & keep) ^ flip. */
typedef struct {
    uint16_t keep, flip;
} Ink;

/* Where and how a command draws. `inks` follows from colours, operation and mask: background first. */
typedef struct {
    Bitmap bitmap;
    Rectangle clip;
    uint16_t foreground, background, mask, pattern;
    unsigned operation;
    bool transparent;
    Ink inks[2];
} Canvas;

/* A pattern's or a cell's 0 under transparency. */
static const Ink NO_INK = {0xFFFF, 0};

typedef struct {
    int x, y;
} Point;

/* The columns and rows (x,y) to (x + dx, y + dy) of a bitmap. */
typedef struct {
    int x, y, dx, dy;
} Block;

/* A string: the bytes of its selectors or codes, and the font that they name characters of. */
typedef struct {
    const uint8_t *store;
    size_t length;
    size_t font, codes;
    int count;
    bool byte_mode, transparent;
    int path, rotation, spacing;
} Text;

/* pens.c */
void settle_inks(Canvas *canvas);
uint16_t spread(int depth, unsigned pixels);

/* fills.c: a horizontal run by dx, whose first pixel takes bit 15 of the pattern; and SCAN_LINES' triples, so many. */
void draw_run(const Canvas *canvas, Point from, int dx, uint16_t pattern);
void draw_runs(const Canvas *canvas, const uint8_t *triples, int count, Point *position);

/* lines.c. draw_line draws from pixel `first` on, 0 or 1, which takes bit 15 of the pattern. */
void draw_line(const Canvas *canvas, Point from, int dx, int dy, int first, uint16_t pattern);
void draw_outline(const Canvas *canvas, Point from, int dx, int dy);

/* circles.c */
void draw_circle(const Canvas *canvas, Point centre, int radius);

/* copies.c: a block of a bitmap of the same depth, which may be the canvas's own, copied to a position. */
void copy_block(const Canvas *canvas, const Bitmap *source, Block block, Point to);

/* text.c: false if a character lies outside the store, and then nothing is drawn. */
bool draw_text(const Canvas *canvas, const Text *text, Point *position);

/* list.c: the commands done. */
uint32_t peer_run(uint8_t *screen, size_t screen_length, uint8_t *stores, size_t stores_length, uint32_t width,
                  uint32_t height, uint32_t depth, uint32_t length, uint32_t budget);

#endif
