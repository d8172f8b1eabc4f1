/* balehasp: ten functions of 16-bit posits with one exponent bit, also with the way each answer was rounded; negation, sums,
 * differences and products, the turn of a lever arm, a batch, a listing, whole or in pieces, the differences of two answered
 * listings, conversions with double, and spans.
 *
 * A posit is passed as its pattern, a uint16_t. 0x0000 is zero and 0x8000 is NaR ("not a real"). NaR is an answer and not an
 * error: ln of a negative number is NaR, and a call that answers it has succeeded.
 *
 * A call that can be refused returns the number of its refusal, 0 where it was not refused. That result is never the answer,
 * though both are uint16_t: the answer is written through a pointer. A refused call leaves the output as it was.
 *
 * A place for a result may be NULL where the caller does not want it. Where a length is 0 its pointer is not looked at, so
 * NULL will do. Where input and output may overlap, the call says so. What no call can test is the caller's to see to: a
 * pointer points to as many items as its length says, and a place for a result is one.
 *
 * No call allocates, blocks or keeps a pointer. The library has no state of its own, so threads may call at once; what is
 * kept between two calls for a listing in pieces lies with the caller, who sees to it that one thread at a time lends it. */
#ifndef BALEHASP_H
#define BALEHASP_H

#include <stdbool.h>
#include <stddef.h>
#include <stdint.h>
#include <string.h>

#define BALEHASP_VERSION_MAJOR 0
#define BALEHASP_VERSION_MINOR 7
#define BALEHASP_VERSION_PATCH 0
#define BALEHASP_VERSION "0.7.0"

/* Has the compiler warn where a result is dropped. */
#if (defined __cplusplus && __cplusplus >= 201703L) || (defined __STDC_VERSION__ && __STDC_VERSION__ > 201710L)
#define BALEHASP_MUST_USE [[nodiscard]]
#elif defined __GNUC__
#define BALEHASP_MUST_USE __attribute__((warn_unused_result))
#else
#define BALEHASP_MUST_USE
#endif

#ifdef __cplusplus
extern "C" {
#endif

#define BALEHASP_NAR ((uint16_t)0x8000)

/* The functions' numbers. */
enum {
    BALEHASP_EXP = 1,
    BALEHASP_EXP2 = 2,
    BALEHASP_LN = 3,
    BALEHASP_LOG2 = 4,
    BALEHASP_SIN_PI = 5,
    BALEHASP_COS_PI = 6,
    BALEHASP_TAN_PI = 7,
    BALEHASP_ATAN_PI = 8,
    BALEHASP_ASIN_PI = 9,
    BALEHASP_ACOS_PI = 10
};

/* The refusals' numbers. Each call names those that it gives; 7 and 8 are balehasp_difference's alone, and 12 is given by
 * balehasp_piece and balehasp_end. 9, 10 and 11 are no refusals yet. */
enum {
    BALEHASP_REFUSED_FUNCTION = 1,  /* a function number outside 1 to 10 */
    BALEHASP_REFUSED_OUTPUT = 2,    /* the output is too short */
    BALEHASP_REFUSED_START = 3,     /* the start lies beyond the input */
    BALEHASP_REFUSED_CUT = 4,       /* a count or a section of a listing is cut short */
    BALEHASP_REFUSED_LIMITS = 5,    /* a count of a listing is outside its limits */
    BALEHASP_REFUSED_AFTER = 6,     /* bytes after a listing's patterns, or after an answered one's answers */
    BALEHASP_REFUSED_COUNT = 7,     /* the count of answers is not functions times patterns */
    BALEHASP_REFUSED_DIFFERENT = 8, /* two listings ask different things */
    BALEHASP_REFUSED_STATE = 12     /* a state that no calls from a fresh one produce */
};

/* No refusal, but a call that cannot be made: NULL with a length above 0, a pointer that is not aligned for its items, more
 * bytes than an object can have or than there are addresses, or an overlap that the call does not allow. Like a refused call
 * it does nothing. It goes before every refusal. */
#define BALEHASP_MISUSED ((uint16_t)0xFFFF)

/* The sides on which balehasp_sided says that an answer lies. */
enum {
    BALEHASP_BELOW = -1, /* the answer is less than the number that was rounded */
    BALEHASP_ON = 0,     /* it is that number, or it was given outright */
    BALEHASP_ABOVE = 1   /* it is greater than that number */
};

/* The bytes of the longest listing, ten functions and 1,024 patterns, and of the longest answered one. */
#define BALEHASP_LONGEST_LISTING 2072
#define BALEHASP_LONGEST_ANSWERED 22554

/* The function of the posit p, for every pattern p. The circular functions take and give half-turns: sin_pi(x) is the sine of
 * pi times x, and asin_pi(x) the angle over pi. */
BALEHASP_MUST_USE uint16_t balehasp_exp(uint16_t p);
BALEHASP_MUST_USE uint16_t balehasp_exp2(uint16_t p);
BALEHASP_MUST_USE uint16_t balehasp_ln(uint16_t p);
BALEHASP_MUST_USE uint16_t balehasp_log2(uint16_t p);
BALEHASP_MUST_USE uint16_t balehasp_sin_pi(uint16_t p);
BALEHASP_MUST_USE uint16_t balehasp_cos_pi(uint16_t p);
BALEHASP_MUST_USE uint16_t balehasp_tan_pi(uint16_t p);
BALEHASP_MUST_USE uint16_t balehasp_atan_pi(uint16_t p);
BALEHASP_MUST_USE uint16_t balehasp_asin_pi(uint16_t p);
BALEHASP_MUST_USE uint16_t balehasp_acos_pi(uint16_t p);

/* Minus p, a + b, a - b and a * b, for all patterns: the exact result, rounded once. NaR with anything is NaR, zero times NaR
 * too; of two numbers none is. A result that is a posit's number is that posit, so a - a is 0; no other result is 0, and none
 * goes past 0x7FFF or 0x8001: two tiny numbers have the product 0x0001 or 0xFFFF. */
BALEHASP_MUST_USE uint16_t balehasp_negate(uint16_t p);
BALEHASP_MUST_USE uint16_t balehasp_add(uint16_t a, uint16_t b);
BALEHASP_MUST_USE uint16_t balehasp_subtract(uint16_t a, uint16_t b);
BALEHASP_MUST_USE uint16_t balehasp_multiply(uint16_t a, uint16_t b);

/* Turns the arm, three posits along the first, second and third axis, and writes the three parts to `turned`. The angles are
 * half-turns: roll about the first axis, then pitch about the second, then heading about the third, each counter-clockwise as
 * seen from the axis's positive end. With the matrices of the three, the sines and cosines of balehasp_sin_pi and
 * balehasp_cos_pi in them, it is ((heading times pitch) times roll) times the arm, every product rounded, every sum rounded and
 * taken left to right: docs/TURN.md has the matrices and how far 16 bits are from the exact turn.
 * NaR in any angle or any part of the arm makes all three parts NaR, and nothing else makes any part NaR. There is no refusal.
 * `turned` may be `arm` or overlap it: the arm is read before anything is written. Where `turned` is NULL nothing is written;
 * where `arm` is NULL all three parts are NaR. Neither needs to be aligned. */
void balehasp_turn(uint16_t heading, uint16_t pitch, uint16_t roll, const uint16_t arm[3], uint16_t turned[3]);

/* The function with that number, of p: writes the answer to *answer and returns 0. Refusal: 1, with *answer as it was, which
 * is stale then. */
BALEHASP_MUST_USE uint16_t balehasp_answer(uint16_t function, uint16_t p, uint16_t *answer);

/* The side speaks of the kernel's fraction, the number that the function's row in document 01 rounds, and not of the exact
 * function. Writes to *answer what balehasp_answer writes, and to *side whether that answer lies below the number that was
 * rounded, on it or above it: BALEHASP_BELOW, BALEHASP_ON or BALEHASP_ABOVE. Returns 0.
 * The kernel's fraction can be a little off the exact value, so the side does not say where the answer lies of that: ln of
 * 0x2F0B is 0xC8D9 and BALEHASP_ON, since fraction and answer are both -5927/8192, and it lies above the exact logarithm.
 * An answer that was not rounded is BALEHASP_ON, however far it is from the exact value: where the row names the pattern
 * outright (NaR; of exp and exp2 0x4000 near zero, 0x7FFF and 0x0001 far out; of acos_pi 0x3000 near zero) or gives the
 * argument itself, and where sin_pi, cos_pi and tan_pi give 0, 1, -1 or NaR without their kernel. A kernel's 0 is a number like
 * any other: ln of 1 is 0, BALEHASP_ON.
 * Below and above are meant of signed numbers. Past the ends: a number above 2^28 gets 0x7FFF, which lies below it, and one
 * between 0 and 2^-28 gets 0x0001, above it; a negative one gets 0x8001, above it, or 0xFFFF, below it.
 * Refusal: 1, with *answer and *side as they were, which are stale then. Either place may be NULL. Neither needs to be aligned,
 * and they may overlap: the answer is written first, then the side. */
BALEHASP_MUST_USE uint16_t balehasp_sided(uint16_t function, uint16_t p, uint16_t *answer, int8_t *side);

/* Answers the patterns input[start], input[start + 1], .. one after the other, at most `limit` of them and none past the
 * input's end, each at the same place of `output`, which is at least as long as the input. No other place of the output
 * changes. Writes to *next the place after the last answered, where the next call starts, and to *nars how many of the answers
 * of this call are NaR. A limit of 0 answers nothing and is no refusal.
 * Refusals, in this order: 1, 2, 3; then *next is `start` and *nars is 0.
 * `output` may be `input`: then each answer takes its pattern's place. Any other overlap of the two is BALEHASP_MISUSED. */
BALEHASP_MUST_USE uint16_t balehasp_batch(
    uint16_t function,
    const uint16_t *input, size_t input_length,
    uint16_t *output, size_t output_length,
    size_t start, size_t limit,
    size_t *next, size_t *nars);

/* Reads a listing, `input_length` bytes, and writes the answered one into the first bytes of `output`; *written is how many
 * they are, and the bytes after them stay as they were. All numbers are 16 bits, low byte first. A listing is a count of
 * functions (1 to 10) and their numbers, then a count of patterns (0 to 1,024) and the patterns; the answered one has after
 * that the count of answers and the answers, all of the first function's, then the next's.
 * Refusals: 4, 5 and 1 as the sections are read, then 6, then 2; then *written is 0.
 * Input and output may overlap: the stack has room for a copy of the input, some 2,100 bytes. */
BALEHASP_MUST_USE uint16_t balehasp_listing(
    const uint8_t *input, size_t input_length,
    uint8_t *output, size_t output_length,
    size_t *written);

/* How many bytes a state has that is kept between the pieces of a listing. */
#define BALEHASP_PIECES 2076

/* Takes the next `length` bytes of a listing that comes in pieces, cut wherever the radio cuts it; a length of 0 is a piece too.
 * `state` is kept between the calls, one for each listing that is on its way. All zeros are a fresh one: start with
 * uint8_t state[BALEHASP_PIECES] = {0}, hand it to balehasp_piece as often as bytes come, then to balehasp_end. It may be stored
 * and read back; it holds the bytes so far and zeros after them (BALEHASP_LONGEST_LISTING in all), then how many they are as two
 * bytes, low first, then the refusal as two bytes.
 * Whatever the cuts, what balehasp_end gives is what balehasp_listing gives on all the bytes at once, but that some refusals
 * come earlier. Returns 0, or the refusal that the bytes so far meet, as soon as they meet it:
 *   5 at the call that brings the second byte of a count outside its limits,
 *   1 at the call that brings the last byte of the functions,
 *   6 at the call that brings the first byte after the patterns.
 * A piece is never refused for 4, which is balehasp_end's to say. Refused, the state keeps no bytes, all zeros but the refusal,
 * and every later call, balehasp_piece or balehasp_end, repeats that refusal and changes nothing, until the caller sets the
 * state to zeros for the next listing.
 * Refusal 12 goes before all of these: a state that no calls from a fresh one produce, which stays as it was.
 * `state` may not be NULL and may not overlap the piece, else BALEHASP_MISUSED. This call and balehasp_end each need some 5,300
 * bytes of stack, for copies of the state. */
BALEHASP_MUST_USE uint16_t balehasp_piece(uint8_t state[BALEHASP_PIECES], const uint8_t *piece, size_t length);

/* Says that the listing has come whole, and answers it: writes what balehasp_listing would write into the first bytes of
 * `output`, and to *written how many they are; the bytes after them stay as they were. Returns 0, and the state is fresh again.
 * Refusals: 12 and those that the state keeps, as in balehasp_piece; then 4 and 2, which the state keeps from then on, so an
 * output that was too short cannot be mended by a second call: BALEHASP_LONGEST_ANSWERED bytes are always enough. A refused call
 * writes nothing to the output, and *written is 0.
 * `state` may not be NULL and may not overlap the output or the place for *written, else BALEHASP_MISUSED, with *written 0 where
 * that is a place of its own. */
BALEHASP_MUST_USE uint16_t balehasp_end(
    uint8_t state[BALEHASP_PIECES],
    uint8_t *output, size_t output_length,
    size_t *written);

/* Compares two answered listings, as balehasp_listing writes them, answer by answer. With F functions and N patterns there are
 * F * N answers, at the places 0, 1, ..: place k is of function k / N and pattern k % N, both counted from 0, and its answer is
 * the two bytes from 6 + 2 * (F + N + k) on. Writes to *place the least place, `from` or later, at which the two differ, and
 * F * N where there is none, also where `from` is above F * N. Whether an answer is right is not asked.
 * To find every difference start with `from` 0 and go on with *place + 1 until *place is F * N, which a call with `from`
 * SIZE_MAX gives.
 * Refusals, in this order: the first listing's, the second's, then 8, where the two ask different things: functions or patterns
 * that differ in number, value or order. A listing's own are 4, 5 and 1 as its first two sections are read, as in
 * balehasp_listing; then 4 where the count of answers is missing, 7 where it is not F * N, 4 where answers are missing, 6 for
 * bytes after them. A refused call leaves *place as it was, which is stale then. What is longer than the longest answered
 * listing, 22,554 bytes, is refused in any case.
 * The two listings may overlap or be one. A place for the result that lies in either is BALEHASP_MISUSED. */
BALEHASP_MUST_USE uint16_t balehasp_difference(
    const uint8_t *first, size_t first_length,
    const uint8_t *second, size_t second_length,
    size_t from, size_t *place);

/* Whether p is a real number; if so, writes to *real exactly that number, +0.0 for zero. NaR is no real number: then the result
 * is false and *real stays as it was, so whoever does not look at the result goes on with the number of the call before. */
BALEHASP_MUST_USE bool balehasp_to_f64(uint16_t p, double *real);

/* The posit that x rounds to. A NaN and both infinities give NaR, both zeros 0, and no other number rounds to 0 or NaR. */
BALEHASP_MUST_USE uint16_t balehasp_from_f64(double x);

/* Bits of *edges in balehasp_span. An edge that does not exist is not included. */
enum {
    BALEHASP_LOWER_EXISTS = 1,
    BALEHASP_LOWER_INCLUDED = 2,
    BALEHASP_UPPER_EXISTS = 4,
    BALEHASP_UPPER_INCLUDED = 8
};

/* Whether p has a span; if so, writes the numbers of its edges to *lower and *upper and what they are to *edges. NaR has none:
 * then the result is false, and all places stay as they were, stale like *real.
 * A double x converts to p, balehasp_from_f64(x) == p, exactly when it lies in p's span: it is finite; above *lower, or on it
 * where that edge is included, or that edge does not exist; and below *upper likewise. So the spans of two patterns have no
 * double in common, and every finite one lies in one of them.
 * The edges are the numbers of the posits of 17 bits next below and next above p, included where p is even and not where it is
 * odd, but at the ends of the range. No number but zero rounds to 0: its span is zero alone, both edges 0.0 and included. That
 * of 0x0001 starts at 0.0, which is not included, and that of 0x7FFF has no upper edge. 0xFFFF and 0x8001 mirror these two.
 * A missing edge and an edge at zero hold +0.0, so look at *edges first: *upper of 0x7FFF is no bound. */
BALEHASP_MUST_USE bool balehasp_span(uint16_t p, double *lower, double *upper, uint8_t *edges);

/* ---- The calls with pointers as C makes them.
 *
 * The entries above are proved for lent places that exist, are aligned and do not overlap. The functions below see to that, or
 * say BALEHASP_MISUSED, and call the entry; from here on the entry's name stands for them. They are not proved: tests/outside.c
 * tests them. */

/* Writes a result where the caller wants it, byte by byte, since the place may be anything. */
static inline void balehasp_give(void *place, const void *result, size_t size)
{
    if (place)
        memcpy(place, result, size);
}

/* Whether `length` items of `size` bytes can lie at `at`. */
static inline bool balehasp_can_lie(const void *at, size_t length, size_t size)
{
    return length == 0 || (at && (uintptr_t)at % size == 0 && length <= PTRDIFF_MAX / size
                           && length * size <= UINTPTR_MAX - (uintptr_t)at);
}

static inline bool balehasp_overlap(const void *a, size_t a_bytes, const void *b, size_t b_bytes)
{
    uintptr_t p = (uintptr_t)a, q = (uintptr_t)b;
    return a_bytes && b_bytes && (p <= q ? q - p < a_bytes : p - q < b_bytes);
}

BALEHASP_MUST_USE static inline uint16_t balehasp_answer_checked(uint16_t function, uint16_t p, uint16_t *answer)
{
    uint16_t found = 0, refusal = balehasp_answer(function, p, &found);
    if (refusal == 0)
        balehasp_give(answer, &found, sizeof found);
    return refusal;
}

BALEHASP_MUST_USE static inline uint16_t balehasp_sided_checked(uint16_t function, uint16_t p, uint16_t *answer, int8_t *side)
{
    uint16_t found = 0;
    int8_t lies = 0;
    uint16_t refusal = balehasp_sided(function, p, &found, &lies);
    if (refusal == 0) {
        balehasp_give(answer, &found, sizeof found);
        balehasp_give(side, &lies, sizeof lies);
    }
    return refusal;
}

/* The arm is copied before it is lent, so that what is lent to be read is not lent to be written. */
static inline void balehasp_turn_checked(uint16_t heading, uint16_t pitch, uint16_t roll, const uint16_t *arm, uint16_t *turned)
{
    uint16_t from[3] = {BALEHASP_NAR, BALEHASP_NAR, BALEHASP_NAR}, to[3] = {0, 0, 0};
    if (arm)
        memcpy(from, arm, sizeof from);
    balehasp_turn(heading, pitch, roll, from, to);
    balehasp_give(turned, to, sizeof to);
}

/* A batch whose answers take the patterns' places. Each piece of the patterns is copied first, so that what is lent to be read
 * is not lent to be written. The entry tests the function's number; the lengths are never lent as a whole and are tested here. */
static inline uint16_t balehasp_batch_in_place(
    uint16_t function, uint16_t *patterns, size_t input_length, size_t output_length, size_t start, size_t limit,
    size_t *next, size_t *nars)
{
    uint16_t piece[64] = {0}, none = 0;
    size_t left = 0, done = 0, found = 0;
    uint16_t refusal = balehasp_batch(function, piece, 0, &none, 0, 0, 0, &done, &found);
    if (refusal == 0 && output_length < input_length)
        refusal = BALEHASP_REFUSED_OUTPUT;
    else if (refusal == 0 && input_length < start)
        refusal = BALEHASP_REFUSED_START;
    else if (refusal == 0)
        left = limit < input_length - start ? limit : input_length - start;
    for (; left > 0; left -= done) {
        size_t n = left < 64 ? left : 64;
        memcpy(piece, patterns + *next, n * sizeof *piece);
        refusal = balehasp_batch(function, piece, n, patterns + *next, n, 0, n, &done, &found);
        *next += done;
        *nars += found;
    }
    return refusal;
}

BALEHASP_MUST_USE static inline uint16_t balehasp_batch_checked(
    uint16_t function,
    const uint16_t *input, size_t input_length,
    uint16_t *output, size_t output_length,
    size_t start, size_t limit,
    size_t *next, size_t *nars)
{
    uint16_t no_input = 0, no_output = 0, refusal = BALEHASP_MISUSED;
    size_t after = start, found = 0;
    if (balehasp_can_lie(input, input_length, sizeof *input) && balehasp_can_lie(output, output_length, sizeof *output)) {
        if (!balehasp_overlap(input, input_length * sizeof *input, output, output_length * sizeof *output))
            refusal = balehasp_batch(
                function, input_length ? input : &no_input, input_length, output_length ? output : &no_output, output_length,
                start, limit, &after, &found);
        else if (input == output)
            refusal = balehasp_batch_in_place(function, output, input_length, output_length, start, limit, &after, &found);
    }
    balehasp_give(next, &after, sizeof after);
    balehasp_give(nars, &found, sizeof found);
    return refusal;
}

/* Where the two overlap the input is copied. What is longer than every listing is refused for its first bytes, as many as the
 * longest listing has and one more (first-bytes-decide, crates/listing/proofs/Prefix.antt), so no more is copied. */
BALEHASP_MUST_USE static inline uint16_t balehasp_listing_checked(
    const uint8_t *input, size_t input_length,
    uint8_t *output, size_t output_length,
    size_t *written)
{
    uint8_t copy[BALEHASP_LONGEST_LISTING + 1], no_input = 0, no_output = 0;
    uint16_t refusal = BALEHASP_MISUSED;
    size_t bytes = 0;
    if (balehasp_can_lie(input, input_length, 1) && balehasp_can_lie(output, output_length, 1)) {
        if (balehasp_overlap(input, input_length, output, output_length)) {
            input_length = input_length < sizeof copy ? input_length : sizeof copy;
            memcpy(copy, input, input_length);
            input = copy;
        }
        refusal = balehasp_listing(
            input_length ? input : &no_input, input_length, output_length ? output : &no_output, output_length, &bytes);
    }
    balehasp_give(written, &bytes, sizeof bytes);
    return refusal;
}

/* The state is written, so what is read or written beside it may not lie in it. */
BALEHASP_MUST_USE static inline uint16_t balehasp_piece_checked(uint8_t *state, const uint8_t *piece, size_t length)
{
    uint8_t no_bytes = 0;
    if (!balehasp_can_lie(state, BALEHASP_PIECES, 1) || !balehasp_can_lie(piece, length, 1)
        || balehasp_overlap(state, BALEHASP_PIECES, piece, length))
        return BALEHASP_MISUSED;
    return balehasp_piece(state, length ? piece : &no_bytes, length);
}

BALEHASP_MUST_USE static inline uint16_t balehasp_end_checked(
    uint8_t *state, uint8_t *output, size_t output_length, size_t *written)
{
    uint8_t no_bytes = 0;
    uint16_t refusal = BALEHASP_MISUSED;
    size_t bytes = 0;
    if (balehasp_overlap(state, state ? BALEHASP_PIECES : 0, written, written ? sizeof *written : 0))
        return BALEHASP_MISUSED;
    if (balehasp_can_lie(state, BALEHASP_PIECES, 1) && balehasp_can_lie(output, output_length, 1)
        && !balehasp_overlap(state, BALEHASP_PIECES, output, output_length))
        refusal = balehasp_end(state, output_length ? output : &no_bytes, output_length, &bytes);
    balehasp_give(written, &bytes, sizeof bytes);
    return refusal;
}

/* Both listings are only read, so they may overlap. The next call reads them again, so the result is not written into them. */
BALEHASP_MUST_USE static inline uint16_t balehasp_difference_checked(
    const uint8_t *first, size_t first_length,
    const uint8_t *second, size_t second_length,
    size_t from, size_t *place)
{
    uint8_t no_bytes = 0;
    uint16_t refusal = BALEHASP_MISUSED;
    size_t found = 0, place_bytes = place ? sizeof *place : 0;
    if (balehasp_can_lie(first, first_length, 1) && balehasp_can_lie(second, second_length, 1)
        && !balehasp_overlap(place, place_bytes, first, first_length)
        && !balehasp_overlap(place, place_bytes, second, second_length))
        refusal = balehasp_difference(
            first_length ? first : &no_bytes, first_length, second_length ? second : &no_bytes, second_length, from, &found);
    if (refusal == 0)
        balehasp_give(place, &found, sizeof found);
    return refusal;
}

BALEHASP_MUST_USE static inline bool balehasp_to_f64_checked(uint16_t p, double *real)
{
    double number = 0;
    bool is_real = balehasp_to_f64(p, &number);
    if (is_real)
        balehasp_give(real, &number, sizeof number);
    return is_real;
}

BALEHASP_MUST_USE static inline bool balehasp_span_checked(uint16_t p, double *lower, double *upper, uint8_t *edges)
{
    double below = 0, above = 0;
    uint8_t bits = 0;
    bool has_span = balehasp_span(p, &below, &above, &bits);
    if (has_span) {
        balehasp_give(lower, &below, sizeof below);
        balehasp_give(upper, &above, sizeof above);
        balehasp_give(edges, &bits, sizeof bits);
    }
    return has_span;
}

#define balehasp_answer balehasp_answer_checked
#define balehasp_sided balehasp_sided_checked
#define balehasp_turn balehasp_turn_checked
#define balehasp_batch balehasp_batch_checked
#define balehasp_listing balehasp_listing_checked
#define balehasp_piece balehasp_piece_checked
#define balehasp_end balehasp_end_checked
#define balehasp_difference balehasp_difference_checked
#define balehasp_to_f64 balehasp_to_f64_checked
#define balehasp_span balehasp_span_checked

#ifdef __cplusplus
}
#endif

#endif
