/* Words of a buffer: one, two, four or eight at a time. The machine's byte order is the console's, low byte first, so
 * the first of several words is in the lowest bits. Eight words are a vector of GNU C, whose operations go word by
 * word. */
#ifndef WORDS_H
#define WORDS_H

#include <stdint.h>
#include <string.h>

static inline uint16_t get_word(const uint8_t *at)
{
    uint16_t word;
    memcpy(&word, at, sizeof word);
    return word;
}

static inline void put_word(uint8_t *at, uint16_t word)
{
    memcpy(at, &word, sizeof word);
}

static inline uint32_t get_two(const uint8_t *at)
{
    uint32_t two;
    memcpy(&two, at, sizeof two);
    return two;
}

static inline void put_two(uint8_t *at, uint32_t two)
{
    memcpy(at, &two, sizeof two);
}

static inline uint64_t get_four(const uint8_t *at)
{
    uint64_t four;
    memcpy(&four, at, sizeof four);
    return four;
}

static inline void put_four(uint8_t *at, uint64_t four)
{
    memcpy(at, &four, sizeof four);
}

/* A word in all four places. */
static inline uint64_t fourfold(uint16_t word)
{
    return word * UINT64_C(0x0001000100010001);
}

typedef uint16_t Eight __attribute__((vector_size(16)));

static inline Eight get_eight(const uint8_t *at)
{
    Eight eight;
    memcpy(&eight, at, sizeof eight);
    return eight;
}

static inline void put_eight(uint8_t *at, Eight eight)
{
    memcpy(at, &eight, sizeof eight);
}

static inline Eight eightfold(uint16_t word)
{
    return (Eight){word, word, word, word, word, word, word, word};
}

/* The bits of each of four words from the other end. */
static inline uint64_t reversed_four(uint64_t r)
{
    r = (r & fourfold(0x5555)) << 1 | (r >> 1 & fourfold(0x5555));
    r = (r & fourfold(0x3333)) << 2 | (r >> 2 & fourfold(0x3333));
    r = (r & fourfold(0x0F0F)) << 4 | (r >> 4 & fourfold(0x0F0F));
    return (r & fourfold(0x00FF)) << 8 | (r >> 8 & fourfold(0x00FF));
}

static inline uint16_t rotated_left(uint16_t word, unsigned by)
{
    by &= 15;
    return (uint16_t)((uint32_t)word << by | (uint32_t)word >> (16 - by));
}

/* The word at `at` inked where `chosen` has a 1. */
static inline void ink_word(uint8_t *at, uint16_t chosen, uint16_t keep, uint16_t flip)
{
    put_word(at, (uint16_t)((get_word(at) & (keep | ~chosen)) ^ (flip & chosen)));
}

static inline int larger(int a, int b)
{
    return a > b ? a : b;
}

static inline int smaller(int a, int b)
{
    return a < b ? a : b;
}

#endif
