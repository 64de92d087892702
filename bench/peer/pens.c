/* What a pen makes of a word, and the bits of a pattern spread over pixels. */
#include "peer.h"

/* The code's bits, from the highest: the new bit for source 0 and old 0, 1 and 0, 0 and 1, 1 and 1. */
static uint16_t operate(unsigned code, uint16_t source, uint16_t old)
{
    unsigned a = code & 8 ? 0xFFFF : 0, b = code & 4 ? 0xFFFF : 0;
    unsigned c = code & 2 ? 0xFFFF : 0, d = code & 1 ? 0xFFFF : 0;
    unsigned at_0 = (source & b) | (~source & a), at_1 = (source & d) | (~source & c);
    return (uint16_t)((old & at_1) | (~old & at_0));
}

static Ink ink_of(const Canvas *canvas, uint16_t colour)
{
    uint16_t of_0 = operate(canvas->operation, colour, 0) & canvas->mask;
    uint16_t of_1 = (uint16_t)(operate(canvas->operation, colour, 0xFFFF) | ~canvas->mask);
    return (Ink){.keep = of_0 ^ of_1, .flip = of_0};
}

void settle_inks(Canvas *canvas)
{
    canvas->inks[0] = ink_of(canvas, canvas->background);
    canvas->inks[1] = ink_of(canvas, canvas->foreground);
}

/* The word in which each pixel has all its bits as its one bit in `pixels`, the leftmost being the highest of the
 * 16 / depth bits. */
uint16_t spread(int depth, unsigned pixels)
{
    static const uint16_t fours[16] = {0x0000, 0x000F, 0x00F0, 0x00FF, 0x0F00, 0x0F0F, 0x0FF0, 0x0FFF,
                                       0xF000, 0xF00F, 0xF0F0, 0xF0FF, 0xFF00, 0xFF0F, 0xFFF0, 0xFFFF};
    static const uint16_t eights[4] = {0x0000, 0x00FF, 0xFF00, 0xFFFF};
    switch (depth) {
    case 1:
        return (uint16_t)pixels;
    case 2: /* each bit of the byte goes to twice its place, and then doubles */
        pixels = (pixels | pixels << 4) & 0x0F0F;
        pixels = (pixels | pixels << 2) & 0x3333;
        pixels = (pixels | pixels << 1) & 0x5555;
        return (uint16_t)(pixels * 3);
    case 4:
        return fours[pixels & 15];
    default:
        return eights[pixels & 3];
    }
}
