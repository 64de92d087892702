/* Circles: a walk along an eighth, whose points are drawn in all eight reflections, each once. */
#include "peer.h"
#include "words.h"

/* What the foreground makes of the pixel in one column: of a word of its row. */
typedef struct {
    size_t at;
    uint16_t keep, flip;
} Dot;

static inline Dot dot_in(const Canvas *canvas, int column)
{
    unsigned depth = (unsigned)canvas->bitmap.depth, bit = (unsigned)column * depth;
    uint16_t chosen = (uint16_t)((0xFFFF << (16 - depth) & 0xFFFF) >> (bit & 15));
    Ink ink = canvas->inks[1];
    return (Dot){bit / 16 * 2, (uint16_t)(ink.keep | ~chosen), ink.flip & chosen};
}

static inline void plot(uint8_t *row, Dot dot)
{
    ink_word(row + dot.at, 0xFFFF, dot.keep, dot.flip);
}

/* The pixels in two columns of two rows, all of them in the clip. */
static inline void plot_inside(const Canvas *canvas, int left, int right, int top, int bottom)
{
    uint8_t *bytes = canvas->bitmap.bytes;
    size_t stride = canvas->bitmap.stride;
    uint8_t *upper = bytes + (size_t)top * stride, *lower = bytes + (size_t)bottom * stride;
    Dot first = dot_in(canvas, left), second = dot_in(canvas, right);
    plot(upper, first);
    plot(upper, second);
    plot(lower, first);
    plot(lower, second);
}

/* .. or those that are in the clip, where columns and rows may also be one and the same. */
static inline void plot_clipped(const Canvas *canvas, int left, int right, int top, int bottom)
{
    const Rectangle *clip = &canvas->clip;
    uint8_t *bytes = canvas->bitmap.bytes;
    size_t stride = canvas->bitmap.stride;
    bool upper = top >= clip->top && top <= clip->bottom;
    bool lower = bottom >= clip->top && bottom <= clip->bottom && bottom != top;
    if (!upper && !lower)
        return;
    for (int k = 0; k < (left == right ? 1 : 2); k++) {
        int column = k == 0 ? left : right;
        if (column < clip->left || column > clip->right)
            continue;
        Dot dot = dot_in(canvas, column);
        if (upper)
            plot(bytes + (size_t)top * stride, dot);
        if (lower)
            plot(bytes + (size_t)bottom * stride, dot);
    }
}

/* Where 0 <= i <= j: j (j - 1) < r^2 - i^2 <= j (j + 1). `over` is by how much the left side is exceeded. */
static inline void walk(const Canvas *canvas, Point centre, int radius, bool inside)
{
    int x = centre.x, y = centre.y, j = radius, over = radius;
    plot_clipped(canvas, x, x, y - j, y + j);
    plot_clipped(canvas, x - j, x + j, y, y);
    for (int i = 1;; i++) {
        over -= 2 * i - 1;
        if (over <= 0) {
            j--;
            over += 2 * j;
        }
        if (i >= j) {
            if (i == j)
                plot_clipped(canvas, x - i, x + i, y - i, y + i);
            return;
        }
        if (inside) {
            plot_inside(canvas, x - i, x + i, y - j, y + j);
            plot_inside(canvas, x - j, x + j, y - i, y + i);
        } else {
            plot_clipped(canvas, x - i, x + i, y - j, y + j);
            plot_clipped(canvas, x - j, x + j, y - i, y + i);
        }
    }
}

void draw_circle(const Canvas *canvas, Point centre, int radius)
{
    const Rectangle *clip = &canvas->clip;
    int left = centre.x - radius, right = centre.x + radius, top = centre.y - radius, bottom = centre.y + radius;
    if (right < clip->left || left > clip->right || bottom < clip->top || top > clip->bottom)
        return;
    if (radius == 0)
        plot_clipped(canvas, left, left, top, top);
    else if (left >= clip->left && right <= clip->right && top >= clip->top && bottom <= clip->bottom)
        walk(canvas, centre, radius, true);
    else
        walk(canvas, centre, radius, false);
}
