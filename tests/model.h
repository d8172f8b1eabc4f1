/* An independent model of the operations on posits of 16 bits with one exponent bit, in whole numbers: no floating point, and
 * nothing of the library's. */
#ifndef MODEL_H
#define MODEL_H

#include <stdbool.h>
#include <stdint.h>

#define MODEL_NAR 0x8000
#define MODEL_LARGEST 0x7FFF

__extension__ typedef __int128 Wide;

/* The number of the posit p of n bits, which lies above zero, read off its bits, in units of the smallest: 2^-28 for 16 bits,
 * 2^-30 for 17. */
static inline int64_t model_magnitude(uint32_t p, int n)
{
    int first = p >> (n - 2) & 1, run = 0, at = n - 2;
    for (; at >= 0 && (int)(p >> at & 1) == first; at--)
        run++;
    at--; /* the bit that ends the run */
    int exponent = at >= 0 ? (int)(p >> at & 1) : 0;
    int bits = at > 0 ? at : 0; /* of the fraction */
    int64_t digits = (1 << bits) + (int64_t)(p & ((1u << bits) - 1));
    return digits << (2 * (n - 2) + 2 * (first ? run - 1 : -run) + exponent - bits);
}

/* The number of the pattern p, which is not NaR, in units of 2^-28. */
static inline int64_t model_units(uint16_t p)
{
    if (p == 0)
        return 0;
    return p < MODEL_NAR ? model_magnitude(p, 16) : -model_magnitude(0x10000u - p, 16);
}

/* dividing[u] lies between the posits u and u + 1, in units of 2^-30. */
static int64_t model_dividing[MODEL_LARGEST];

static inline void model_start(void)
{
    for (uint32_t u = 1; u < MODEL_LARGEST; u++)
        model_dividing[u] = model_magnitude(2 * u + 1, 17);
}

/* The pattern for x * 2^-bits: the largest magnitude that x reaches, from 1 to 0x7FFF for all but zero. */
static inline uint16_t model_round(Wide x, int bits)
{
    Wide size = x < 0 ? -x : x;
    uint32_t u = 1, past = MODEL_LARGEST + 1;
    if (x == 0)
        return 0;
    size <<= bits < 30 ? 30 - bits : 0;
    while (past - u > 1) {
        uint32_t middle = (u + past) / 2;
        Wide dividing = (Wide)model_dividing[middle - 1] << (bits > 30 ? bits - 30 : 0);
        if (dividing < size || (dividing == size && middle % 2 == 0))
            u = middle;
        else
            past = middle;
    }
    return (uint16_t)(x < 0 ? 0x10000u - u : u);
}

static inline uint16_t model_add(uint16_t a, uint16_t b)
{
    if (a == MODEL_NAR || b == MODEL_NAR)
        return MODEL_NAR;
    return model_round((Wide)model_units(a) + model_units(b), 28);
}

static inline uint16_t model_multiply(uint16_t a, uint16_t b)
{
    if (a == MODEL_NAR || b == MODEL_NAR)
        return MODEL_NAR;
    return model_round((Wide)model_units(a) * model_units(b), 56);
}

#endif
