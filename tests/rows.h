/* An independent model of document 01's ten rows, with the side on which an answer lies of the number that was rounded: whole
 * numbers wide enough for every step, no floating point, and nothing of the library's. Each row stands below its sentence of
 * document 01. "P is the `poly` of the named file, every shift and constant as there": src/p16e1/math of softposit 0.4.0. */
#ifndef ROWS_H
#define ROWS_H

#include "model.h"

/* What a row says of a pattern: the answer outright, or the number that is rounded, number / 2^bits. In row 2 bits is -1 from
 * 2^27 on. */
typedef struct {
    bool outright;
    uint16_t answer;
    Wide number;
    int bits;
} Row;

static inline Row row_outright(uint16_t answer) { return (Row){true, answer, 0, 0}; }

static inline Row row_rounded(Wide number, int bits) { return (Row){false, 0, number, bits}; }

/* "put the sign of x back on the answer", and the sign that a quadrant changes. Minus 0 is 0, and minus NaR is NaR. */
static inline Row row_signed(bool negative, Row row)
{
    if (negative) {
        row.answer = (uint16_t)(0x10000u - row.answer);
        row.number = -row.number;
    }
    return row;
}

static inline Wide two_to(int power) { return (Wide)1 << power; }

/* "floor is toward minus infinity", of a / b with b above zero */
static inline Wide floor_of(Wide a, Wide b) { return a / b - (a % b < 0); }

/* "the floor of the square root", of a number below 2^56 */
static inline Wide root_of(Wide square)
{
    Wide root = 0;
    for (int at = 27; at >= 0; at--)
        if ((root + two_to(at)) * (root + two_to(at)) <= square)
            root += two_to(at);
    return root;
}

/* "the magnitude pattern", and the magnitude of x·2^28 */
static inline uint32_t magnitude_pattern(uint16_t p) { return p < MODEL_NAR ? p : 0x10000u - p; }

static inline Wide magnitude_units(uint16_t p) { return p == 0 ? 0 : model_magnitude(magnitude_pattern(p), 16); }

/* ---- rows 1 and 2: powers */

static inline Wide poly_exp(Wide f)
{
    Wide s = (f * 7529) >> 26;
    s = (f * (20487 + s)) >> 20;
    s = (f * (0x4F8300 + s)) >> 24;
    s = (f * (0x38CC980 + s)) >> 20;
    s = (f * (0x1EBFFC800 + s)) >> 26;
    return ((f * (0x2C5C83600 + s)) >> 22) + 2048;
}

/* "below 192 or above 65407: 0x4000; 28846 to 0x7FFF: 0x7FFF; 0x8001 to 36690: 0x0001; NaR: NaR" and "t = floor(x·48,408,813),
 * n = floor(t/2^25); rounded (2^37 + P(t mod 2^25))·2^(n-37)" */
static inline Row row_exp(uint16_t p)
{
    if (p < 192 || p > 65407)
        return row_outright(0x4000);
    if (28846 <= p && p <= 0x7FFF)
        return row_outright(0x7FFF);
    if (0x8001 <= p && p <= 36690)
        return row_outright(0x0001);
    if (p == MODEL_NAR)
        return row_outright(MODEL_NAR);
    Wide t = floor_of(model_units(p) * (Wide)48408813, two_to(28)), n = floor_of(t, two_to(25));
    return row_rounded(two_to(37) + poly_exp(t - n * two_to(25)), 37 - (int)n);
}

static inline Wide poly_exp2(Wide f)
{
    Wide s = (f * (0x9BA00000 + (f * 491))) >> 34;
    s = (f * (0x13F840 + s)) >> 20;
    s = (f * (0x718A80 + s)) >> 16;
    s = (f * (0x1EC04000 + s)) >> 21;
    return (f * (0x2C5C8000 + s)) >> 24;
}

/* "below 221 or above 65379: 0x4000; 29377 to 0x7FFF: 0x7FFF; 0x8001 to 36159: 0x0001; NaR: NaR" and "t = x·2^20,
 * n = floor(t/2^20); rounded (2^26 + P(t mod 2^20))·2^(n-26)"; "x·2^20 is whole for every pattern that reaches the kernel" */
static inline Row row_exp2(uint16_t p)
{
    if (p < 221 || p > 65379)
        return row_outright(0x4000);
    if (29377 <= p && p <= 0x7FFF)
        return row_outright(0x7FFF);
    if (0x8001 <= p && p <= 36159)
        return row_outright(0x0001);
    if (p == MODEL_NAR)
        return row_outright(MODEL_NAR);
    Wide t = floor_of(model_units(p), two_to(8)), n = floor_of(t, two_to(20));
    return row_rounded(two_to(26) + poly_exp2(t - n * two_to(20)), 26 - (int)n);
}

/* ---- rows 3 and 4: logarithms */

/* "x = (1 + h/4096)·2^E" */
typedef struct {
    int power;
    Wide h;
} Split;

static inline Split split_of(uint16_t p)
{
    Wide units = magnitude_units(p);
    int top = 0;
    while (units >> (top + 1))
        top++;
    return (Split){top - 28, ((units * 4096) >> top) - 4096};
}

static inline Wide poly_ln(Wide f)
{
    Wide z = ((f << 31) + 2) / (f + 8192), zsq = (z * z) >> 30;
    Wide s = (zsq * 1584) >> 28;
    s = (zsq * (26661 + s)) >> 29;
    s = (zsq * (302676 + s)) >> 27;
    s = (zsq * (16136153 + s)) >> 30;
    return (z * (193635259 + s)) >> 27;
}

/* "0 and above 0x7FFF: NaR" and "L = 2^30·E + P(h), where x = (1 + h/4096)·2^E; M = floor of the magnitude of L times c over
 * 2^28, c = 186,065,280 if L is negative, else 186,065,279; rounded M/2^30 with L's sign" */
static inline Row row_ln(uint16_t p)
{
    if (p == 0 || p > 0x7FFF)
        return row_outright(MODEL_NAR);
    Split x = split_of(p);
    Wide l = two_to(30) * x.power + poly_ln(x.h);
    Wide m = l < 0 ? -l * 186065280 / two_to(28) : l * 186065279 / two_to(28);
    return row_signed(l < 0, row_rounded(m, 30));
}

static inline Wide poly_log2(Wide f)
{
    Wide z = (f << 29) / (f + 8192), zsq = (z * z) >> 30;
    Wide s = (zsq * 1661) >> 25;
    s = (zsq * (13209 + s)) >> 26;
    s = (zsq * (75694 + s)) >> 24;
    s = (zsq * (2017019 + s)) >> 24;
    return (z * (96817627 + s)) >> 26;
}

/* "as row 3" and "L = 2^28·E + P(h); rounded L/2^28" */
static inline Row row_log2(uint16_t p)
{
    if (p == 0 || p > 0x7FFF)
        return row_outright(MODEL_NAR);
    Split x = split_of(p);
    return row_rounded(two_to(28) * x.power + poly_log2(x.h), 28);
}

/* ---- rows 5 to 7: "quadrant and rest of the magnitude of x·2^28 by 2^27" */

static inline int quadrant_of(uint16_t p) { return (int)(magnitude_units(p) / two_to(27) % 4); }

static inline Wide rest_of(uint16_t p) { return magnitude_units(p) % two_to(27); }

/* "odd quadrant reflects" */
static inline Wide reflected_rest(uint16_t p) { return quadrant_of(p) % 2 ? two_to(27) - rest_of(p) : rest_of(p); }

static inline Wide poly_sin_pi(Wide f)
{
    if (f < 0xA5801)
        return (f * 102943) >> 15;
    Wide fs = f >> 11, fsq = (fs * fs) >> 8;
    Wide s = (fsq * 650) >> 25;
    s = (fsq * (9813 - s)) >> 23;
    s = (fsq * (334253 - s)) >> 23;
    s = (fsq * (5418741 - s)) >> 22;
    return (fs * (52707180 - s)) >> 13;
}

/* "magnitude pattern 31744 to 0x7FFF: 0; NaR: NaR; 0: 0" and "rest 0 gives 0, 1 or -1; odd quadrant reflects; quadrants 2 and 3
 * (mod 4) change the sign; rounded P/2^28" */
static inline Row row_sin_pi(uint16_t p)
{
    if (p == MODEL_NAR)
        return row_outright(MODEL_NAR);
    if (magnitude_pattern(p) >= 31744 || p == 0)
        return row_outright(0);
    int quadrant = quadrant_of(p);
    Row size = rest_of(p) == 0 ? row_outright(quadrant % 2 ? 0x4000 : 0) : row_rounded(poly_sin_pi(reflected_rest(p)), 28);
    return row_signed((quadrant >= 2) != (p > MODEL_NAR), size);
}

static inline Wide poly_cos_pi(Wide f)
{
    if (f < 0xE6001)
        return 0x1FFFFFF;
    Wide fs = f >> 11, fsq = (fs * fs) >> 8;
    Wide s = 349194 - ((fsq * 28875) >> 25);
    s = 4255560 - ((fsq * s) >> 24);
    s = 20698014 - ((fsq * s) >> 24);
    return 33554428 - ((fsq * s) >> 23);
}

/* "NaR: NaR" and "the same with the quadrant signs of cosine; rounded P/2^25"; "row 6 works on the magnitude alone" */
static inline Row row_cos_pi(uint16_t p)
{
    if (p == MODEL_NAR)
        return row_outright(MODEL_NAR);
    int quadrant = quadrant_of(p);
    Row size = rest_of(p) == 0 ? row_outright(quadrant % 2 ? 0 : 0x4000) : row_rounded(poly_cos_pi(reflected_rest(p)), 25);
    return row_signed(quadrant == 1 || quadrant == 2, size);
}

static inline Wide poly_tan_pi(Wide f)
{
    if (f < 0xE001)
        return (f * 102943) >> 15;
    Wide fs = f >> 9, fsq = (fs * fs) >> 10;
    Wide num = (fsq * 182527) >> 27, den = (fsq * 13335493) >> 25;
    num = (fsq * (3648552 - num)) >> 23;
    den = 0x8000000 - ((fsq * (295106440 - den)) >> 27);
    num = (fs * (105414368 - num)) << 11;
    return num / den;
}

/* "as row 5" and "x·2^28 modulo 2^28: 0 gives 0, 2^27 gives NaR, 2^26 gives 1, 3·2^26 gives -1"; "the kernel's argument is the
 * remainder itself below 2^27, and 2^28 less the remainder above it; in the second case the answer's sign changes"; "rounded
 * P/2^28" */
static inline Row row_tan_pi(uint16_t p)
{
    if (p == MODEL_NAR)
        return row_outright(MODEL_NAR);
    if (magnitude_pattern(p) >= 31744 || p == 0)
        return row_outright(0);
    Wide remainder = magnitude_units(p) % two_to(28);
    bool above = remainder > two_to(27);
    Row size = remainder == 0               ? row_outright(0)
               : remainder == two_to(27)     ? row_outright(MODEL_NAR)
               : remainder == two_to(26)     ? row_outright(0x4000)
               : remainder == 3 * two_to(26) ? row_outright(0xC000)
               : row_signed(above, row_rounded(poly_tan_pi(above ? two_to(28) - remainder : remainder), 28));
    return row_signed(p > MODEL_NAR, size);
}

/* ---- rows 8 to 10: angles */

static inline Wide poly_atan_pi(Wide f)
{
    Wide fsq = (f * f) >> 28;
    Wide s = (fsq * 6969) >> 24;
    s = (fsq * (530432 - s)) >> 28;
    s = (fsq * (1273944 - s)) >> 28;
    s = (fsq * (2358656 - s)) >> 27;
    s = (fsq * (9340208 - s)) >> 29;
    s = (fsq * (17568064 - s)) >> 24;
    return ((f + 1) << 30) / (843315168 + s);
}

/* "0 and NaR: themselves" and "four ranges of the magnitude pattern: to 4925, to 0x3FFF, to 27108, above; each by its own
 * quotient in the file; rounded K/2^30". The file's f is x·2^28, x·2^28, x·2^12 and x·2^8, each a whole number in its range. */
static inline Row row_atan_pi(uint16_t p)
{
    if (p == 0 || p == MODEL_NAR)
        return row_outright(p);
    uint32_t size = magnitude_pattern(p);
    Wide f = magnitude_units(p), k;
    if (size <= 4925)
        k = (f << 30) / ((((f * f) >> 34) * 67) + 843314118);
    else if (size <= 0x3FFF)
        k = poly_atan_pi(f);
    else if (size <= 27108)
        k = 0x20000000 - poly_atan_pi(0x10000000000 / (f >> 16));
    else
        k = 0x20000000 - 0x28BE5FF800000 / (((f >> 20) << 13) + 0x0AA55000 / (f >> 20));
    return row_signed(p > MODEL_NAR, row_rounded(k, 30));
}

static inline Wide poly_asin_pi(Wide f)
{
    Wide fsq = (f * f) >> 28;
    Wide s = 13944 + ((fsq * 3855) >> 26);
    s = 100344 + ((fsq * s) >> 26);
    s = 1780112 + ((fsq * s) >> 25);
    s = 42722832 + ((fsq * s) >> 26);
    return (f * s) >> 25;
}

/* "0 and NaR: themselves; magnitude above 0x4000: NaR" and "below 0x3000 by P; else 2^29 less twice P of a square root; rounded
 * K/2^30" */
static inline Row row_asin_pi(uint16_t p)
{
    if (p == 0 || p == MODEL_NAR)
        return row_outright(p);
    uint32_t size = magnitude_pattern(p);
    if (size > 0x4000)
        return row_outright(MODEL_NAR);
    Wide k = size < 0x3000 ? poly_asin_pi(magnitude_units(p))
                           : two_to(29) - 2 * poly_asin_pi(root_of((0x4000 - size) * two_to(42)));
    return row_signed(p > MODEL_NAR, row_rounded(k, 30));
}

static inline Wide poly_acos_pi(Wide f)
{
    Wide fsq = (f * f) >> 28;
    Wide s = 13696 + ((fsq * 7955) >> 27);
    s = 100510 + ((fsq * s) >> 26);
    s = 1780047 + ((fsq * s) >> 25);
    s = 42722829 + ((fsq * s) >> 26);
    return 0x20000000 - ((f * s) >> 25);
}

/* "above 0x4000 and below 0xC000: NaR; below 165 or above 65307: 0x3000" and "four ranges cut at 0x3000, 0x4001 and above
 * 53248; rounded K/2^30" */
static inline Row row_acos_pi(uint16_t p)
{
    if (0x4000 < p && p < 0xC000)
        return row_outright(MODEL_NAR);
    if (p < 165 || p > 65307)
        return row_outright(0x3000);
    if (p < 0x3000)
        return row_rounded(poly_acos_pi(magnitude_units(p)), 30);
    if (p < 0x4001)
        return row_rounded(two_to(30) - 2 * poly_acos_pi(root_of((0x4000 - p) * two_to(42))), 30);
    if (p > 53248)
        return row_rounded(two_to(30) - poly_acos_pi(magnitude_units(p)), 30);
    return row_rounded(2 * poly_acos_pi(root_of((p - 0xC000) * two_to(42))), 30);
}

/* ---- the answer of a row and its side: -1 below the number that was rounded, 0 on it, 1 above it */

typedef struct {
    uint16_t answer;
    int side;
} Sided;

/* "It speaks of the kernel's fraction, not of the exact mathematical function. Rows answered before the kernel say "on" where
 * document 01 names the pattern outright or gives the argument itself, and so do the answers 0, 1, -1 and NaR that rows 5 to 7
 * give without P." (P4) */
static inline Sided row_answer(Row row)
{
    if (row.outright)
        return (Sided){row.answer, 0};
    uint16_t answer = model_round(row.number, row.bits);
    Wide found = model_units(answer) * two_to(row.bits > 28 ? row.bits - 28 : 0);
    Wide wanted = row.number * two_to(row.bits < 28 ? 28 - row.bits : 0);
    return (Sided){answer, (found > wanted) - (found < wanted)};
}

/* Of the function with that number, 1 to 10. */
static inline Row model_row(uint16_t function, uint16_t p)
{
    static Row (*const rows[])(uint16_t) = {
        row_exp, row_exp2, row_ln, row_log2, row_sin_pi, row_cos_pi, row_tan_pi, row_atan_pi, row_asin_pi, row_acos_pi};
    return rows[function - 1](p);
}

static inline Sided model_sided(uint16_t function, uint16_t p) { return row_answer(model_row(function, p)); }

#endif
