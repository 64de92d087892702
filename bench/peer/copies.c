/* Copies. A row of the block goes by words: the first and the last under a cover, those between by memmove where the
 * bits lie alike in their words and are replaced, else eight at a time. Rows, and the words of a row that is copied
 * onto itself, go in the order that reads before it draws. */
#include "peer.h"
#include "words.h"

/* What operation and mask make of source s and old bits: (s & p) ^ a ^ (old & ((s & q) ^ r)). */
typedef struct {
    uint16_t p, a, q, r;
} Mixture;

/* A row of the block, by words of its row on the canvas: word w is made of word w + shift of the source's row and,
 * if bits > 0, the one after it, moved left by so many bits. */
typedef struct {
    long first, last;
    long source_first, source_last;
    long shift;
    uint16_t bits;
    uint16_t head, tail;
    bool replaces;
    Mixture mixture;
} Plan;

static Mixture mixture_of(unsigned code, uint16_t mask)
{
    uint16_t a = code & 8 ? 0xFFFF : 0, b = code & 4 ? 0xFFFF : 0;
    uint16_t c = code & 2 ? 0xFFFF : 0, d = code & 1 ? 0xFFFF : 0;
    return (Mixture){
        .p = (a ^ b) & mask,
        .a = a & mask,
        .q = (a ^ b ^ c ^ d) & mask,
        .r = (uint16_t)(((a ^ c) & mask) | ~mask),
    };
}

static inline uint16_t mixed(const Mixture *m, unsigned source, uint16_t old)
{
    return (uint16_t)((source & m->p) ^ m->a ^ (old & ((source & m->q) ^ m->r)));
}

/* The first or last word of a row: words of the source that the block does not touch are not read. */
static void draw_edge(uint8_t *to, const uint8_t *from, const Plan *plan, long word, uint16_t cover)
{
    long at = word + plan->shift;
    unsigned source = 0;
    if (at >= plan->source_first)
        source = (unsigned)get_word(from + 2 * at) << plan->bits;
    if (plan->bits > 0 && at < plan->source_last)
        source |= (unsigned)get_word(from + 2 * at + 2) >> (16 - plan->bits);
    uint16_t old = get_word(to + 2 * word);
    uint16_t new = mixed(&plan->mixture, source, old);
    put_word(to + 2 * word, (uint16_t)((old & ~cover) | (new & cover)));
}

/* Eight words, and one. */
static inline void draw_eight(uint8_t *to, const uint8_t *from, const Mixture *m, uint16_t bits, bool replaces)
{
    Eight source = get_eight(from);
    if (bits > 0)
        source = source << bits | get_eight(from + 2) >> (uint16_t)(16 - bits);
    if (!replaces) {
        Eight old = get_eight(to);
        source = (source & eightfold(m->p)) ^ eightfold(m->a) ^ (old & ((source & eightfold(m->q)) ^ eightfold(m->r)));
    }
    put_eight(to, source);
}

static inline void draw_one(uint8_t *to, const uint8_t *from, const Mixture *m, uint16_t bits)
{
    unsigned source = get_word(from);
    if (bits > 0)
        source = source << bits | (unsigned)get_word(from + 2) >> (16 - bits);
    put_word(to, mixed(m, source, get_word(to)));
}

/* So many words, the last one first if the row is copied to the right onto itself. */
static inline void draw_words(uint8_t *to, const uint8_t *from, Mixture m, long count, bool backward, uint16_t bits,
                              bool replaces)
{
    if (backward) {
        for (; count >= 8; count -= 8)
            draw_eight(to + 2 * count - 16, from + 2 * count - 16, &m, bits, replaces);
        while (count-- > 0)
            draw_one(to + 2 * count, from + 2 * count, &m, bits);
    } else {
        for (; count >= 8; count -= 8, to += 16, from += 16)
            draw_eight(to, from, &m, bits, replaces);
        for (; count > 0; count--, to += 2, from += 2)
            draw_one(to, from, &m, bits);
    }
}

/* The words between the first and the last. */
static void draw_middle(uint8_t *to, const uint8_t *from, const Plan *plan, bool backward)
{
    long count = plan->last - plan->first - 1;
    to += 2 * (plan->first + 1);
    from += 2 * (plan->first + 1 + plan->shift);
    if (plan->replaces && plan->bits == 0)
        memmove(to, from, 2 * (size_t)count);
    else if (plan->replaces)
        draw_words(to, from, plan->mixture, count, backward, plan->bits, true);
    else if (plan->bits == 0)
        draw_words(to, from, plan->mixture, count, backward, 0, false);
    else
        draw_words(to, from, plan->mixture, count, backward, plan->bits, false);
}

static void draw_row(uint8_t *to, const uint8_t *from, const Plan *plan, bool backward)
{
    if (backward && plan->last > plan->first)
        draw_edge(to, from, plan, plan->last, plan->tail);
    if (!backward)
        draw_edge(to, from, plan, plan->first, plan->head);
    if (plan->last > plan->first + 1)
        draw_middle(to, from, plan, backward);
    if (backward)
        draw_edge(to, from, plan, plan->first, plan->head);
    else if (plan->last > plan->first)
        draw_edge(to, from, plan, plan->last, plan->tail);
}

static Plan plan_of(const Canvas *canvas, long source, long target, long count)
{
    long distance = source - target;
    Plan plan = {
        .first = target / 16,
        .last = (target + count - 1) / 16,
        .source_first = source / 16,
        .source_last = (source + count - 1) / 16,
        .bits = distance & 15,
        .head = (uint16_t)(0xFFFF >> target % 16),
        .tail = (uint16_t)(0xFFFF << (15 - (target + count - 1) % 16)),
        .replaces = canvas->operation == 5 && canvas->mask == 0xFFFF,
        .mixture = mixture_of(canvas->operation, canvas->mask),
    };
    plan.shift = (distance - (long)plan.bits) / 16;
    if (plan.first == plan.last)
        plan.head &= plan.tail;
    return plan;
}

void copy_block(const Canvas *canvas, const Bitmap *source, Block block, Point to)
{
    const Rectangle *clip = &canvas->clip;
    int left = larger(clip->left - to.x, 0), right = smaller(clip->right - to.x, block.dx);
    int top = larger(clip->top - to.y, 0), bottom = smaller(clip->bottom - to.y, block.dy);
    if (left > right || top > bottom)
        return;
    long depth = canvas->bitmap.depth;
    Plan plan = plan_of(canvas, (block.x + left) * depth, (to.x + left) * depth, (right - left + 1) * depth);
    bool same = source->bytes == canvas->bitmap.bytes, upward = same && to.y > block.y;
    bool backward = same && to.y == block.y && to.x > block.x;
    for (int k = 0; k <= bottom - top; k++) {
        int j = upward ? bottom - k : top + k;
        const uint8_t *from = source->bytes + (size_t)(block.y + j) * source->stride;
        draw_row(canvas->bitmap.bytes + (size_t)(to.y + j) * canvas->bitmap.stride, from, &plan, backward);
    }
}
