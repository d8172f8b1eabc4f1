/* The compiled library and its header from outside, against the answers of the original Rust and an independent model of
 * document 01.
 *
 *   outside ANSWERS ROUNDS SEED
 *
 * ANSWERS is what oracle/record writes, ROUNDS how many random cases each part tries. Every buffer that a call gets lies
 * between pages that may not be touched, against the one before it or the one after it; what it does not lend is filled with
 * noise, and all of it is compared after the call. The model names refusals by the header's constants, which so are held to
 * the numbers that the archive gives. */
#define _DEFAULT_SOURCE
#include <inttypes.h>
#include <math.h>
#include <stdio.h>
#include <stdlib.h>
#include <string.h>
#include <sys/mman.h>
#include <unistd.h>

#include "balehasp.h"
#include "model.h"
#include "rows.h"

#define FUNCTIONS 10
#define PATTERNS 65536

static uint16_t answers[FUNCTIONS][PATTERNS];
static uint64_t state;
static unsigned rounds;

static void fail(const char *what, uint64_t a, uint64_t b)
{
    fprintf(stderr, "outside: %s (%" PRIu64 ", %" PRIu64 ")\n", what, a, b);
    exit(1);
}

static void expect(bool holds, const char *what, uint64_t a, uint64_t b)
{
    if (!holds)
        fail(what, a, b);
}

static uint64_t noise(void)
{
    uint64_t z = state += 0x9E3779B97F4A7C15u;
    z = (z ^ (z >> 30)) * 0xBF58476D1CE4E5B9u;
    z = (z ^ (z >> 27)) * 0x94D049BB133111EBu;
    return z ^ (z >> 31);
}

static uint64_t below(uint64_t n) { return noise() % n; }

/* ---- buffers between pages that may not be touched */

typedef struct {
    uint8_t *bytes, *before; /* what a call may touch, and a copy of it */
    size_t size;
} Guarded;

static Guarded guarded(size_t size)
{
    size_t page = (size_t)sysconf(_SC_PAGESIZE);
    size = (size + page - 1) / page * page;
    uint8_t *all = mmap(NULL, size + 2 * page, PROT_NONE, MAP_PRIVATE | MAP_ANONYMOUS, -1, 0);
    if (all == MAP_FAILED || mprotect(all + page, size, PROT_READ | PROT_WRITE) != 0)
        fail("no guarded memory", size, 0);
    Guarded g = {all + page, malloc(size), size};
    if (!g.before)
        fail("no memory", size, 0);
    for (size_t i = 0; i < size; i++)
        g.bytes[i] = (uint8_t)noise();
    return g;
}

/* A place for `size` bytes against the page before the buffer or the one after it. The bytes around it that a call could reach
 * by a small slip are filled anew. */
static uint8_t *place(Guarded *g, size_t size, bool at_end)
{
    uint8_t *p = at_end ? g->bytes + g->size - size : g->bytes;
    size_t near = size + 64 < g->size ? size + 64 : g->size;
    uint8_t *from = at_end ? g->bytes + g->size - near : g->bytes;
    for (size_t i = 0; i < near; i += 8) {
        uint64_t w = noise();
        memcpy(from + i, &w, near - i < 8 ? near - i : 8);
    }
    return p;
}

static void keep(Guarded *g) { memcpy(g->before, g->bytes, g->size); }

static void expect_same(const Guarded *g, const char *what, uint64_t a, uint64_t b)
{
    expect(memcmp(g->before, g->bytes, g->size) == 0, what, a, b);
}

/* ---- the functions, all patterns */

static uint16_t (*const entries[FUNCTIONS + 1])(uint16_t) = {
    [BALEHASP_EXP] = balehasp_exp, [BALEHASP_EXP2] = balehasp_exp2, [BALEHASP_LN] = balehasp_ln,
    [BALEHASP_LOG2] = balehasp_log2, [BALEHASP_SIN_PI] = balehasp_sin_pi, [BALEHASP_COS_PI] = balehasp_cos_pi,
    [BALEHASP_TAN_PI] = balehasp_tan_pi, [BALEHASP_ATAN_PI] = balehasp_atan_pi,
    [BALEHASP_ASIN_PI] = balehasp_asin_pi, [BALEHASP_ACOS_PI] = balehasp_acos_pi};

static void each_function(void)
{
    for (unsigned f = 1; f <= FUNCTIONS; f++) {
        for (unsigned p = 0; p < PATTERNS; p++) {
            expect(entries[f]((uint16_t)p) == answers[f - 1][p], "a function differs from the Rust", f, p);
            uint16_t answer = (uint16_t)~answers[f - 1][p];
            expect(balehasp_answer((uint16_t)f, (uint16_t)p, &answer) == 0, "answer refuses a known function", f, p);
            expect(answer == answers[f - 1][p], "answer differs from the Rust", f, p);
        }
    }
    for (unsigned f = 0; f < 65536; f++) {
        if (1 <= f && f <= FUNCTIONS)
            continue;
        uint16_t p = (uint16_t)noise(), poison = (uint16_t)noise(), answer = poison;
        expect(balehasp_answer((uint16_t)f, p, &answer) == BALEHASP_REFUSED_FUNCTION, "answer takes an unknown function", f, p);
        expect(answer == poison, "a refused answer is written", f, p);
    }
    expect(balehasp_answer(1, 0, NULL) == 0 && balehasp_answer(0, 0, NULL) == BALEHASP_REFUSED_FUNCTION, "no place for the answer", 0, 0);
    puts("655360 answers by ten entries, and again by number: all as the Rust's");
    puts("65526 unknown function numbers: refused, nothing written");
}

/* ---- the operations and the turn */

/* A pattern: any, or one of those at which answers are special. */
static uint16_t some_pattern(void)
{
    static const uint16_t special[] = {0, 1, 2, 0x2000, 0x3000, 0x3FFF, 0x4000, 0x4001, 0x5000, 0x7FFE, 0x7FFF, 0x8000, 0x8001, 0xC000, 0xFFFF};
    return below(8) ? (uint16_t)noise() : special[below(sizeof special / sizeof *special)];
}

static void operations(void)
{
    for (unsigned i = 0; i < rounds; i++) {
        uint16_t a = some_pattern(), b = some_pattern(), minus = (uint16_t)(0x10000u - b);
        expect(balehasp_negate(b) == minus, "minus a posit", b, balehasp_negate(b));
        expect(balehasp_add(a, b) == model_add(a, b), "a sum", a, b);
        expect(balehasp_subtract(a, b) == model_add(a, minus), "a difference", a, b);
        expect(balehasp_multiply(a, b) == model_multiply(a, b), "a product", a, b);
    }
    printf("%u sums, differences and products: as the exact model's\n", rounds);
}

typedef struct {
    uint16_t parts[3];
} Three;

typedef struct {
    Three rows[3];
} Matrix;

/* The three matrices by their axes: the plane that turns takes the axis `from` towards the axis `to`. */
static Matrix model_matrix(uint16_t angle, int from, int to)
{
    uint16_t sine = answers[BALEHASP_SIN_PI - 1][angle], cosine = answers[BALEHASP_COS_PI - 1][angle];
    Matrix m = {{{{0x4000, 0, 0}}, {{0, 0x4000, 0}}, {{0, 0, 0x4000}}}};
    m.rows[from].parts[from] = m.rows[to].parts[to] = cosine;
    m.rows[to].parts[from] = sine;
    m.rows[from].parts[to] = (uint16_t)(0x10000u - sine);
    return m;
}

static Three model_column(Matrix m, int k) { return (Three){{m.rows[0].parts[k], m.rows[1].parts[k], m.rows[2].parts[k]}}; }

static uint16_t model_entry(Three row, Three column)
{
    uint16_t sum = model_multiply(row.parts[0], column.parts[0]);
    for (int k = 1; k < 3; k++)
        sum = model_add(sum, model_multiply(row.parts[k], column.parts[k]));
    return sum;
}

static Three model_turn(uint16_t heading, uint16_t pitch, uint16_t roll, Three arm)
{
    Matrix m = model_matrix(heading, 0, 1), factors[2] = {model_matrix(pitch, 2, 0), model_matrix(roll, 1, 2)};
    bool nar = heading == MODEL_NAR || pitch == MODEL_NAR || roll == MODEL_NAR;
    Three turned;
    for (int f = 0; f < 2; f++) {
        Matrix product;
        for (int i = 0; i < 3; i++)
            for (int k = 0; k < 3; k++)
                product.rows[i].parts[k] = model_entry(m.rows[i], model_column(factors[f], k));
        m = product;
    }
    for (int i = 0; i < 3; i++)
        nar = nar || arm.parts[i] == MODEL_NAR;
    for (int i = 0; i < 3; i++)
        turned.parts[i] = nar ? MODEL_NAR : model_entry(m.rows[i], arm);
    return turned;
}

static Guarded arms, turns_out;

/* One turn of the bytes at `from` into those at `to`, which may be the same, overlap or be none. */
static Three one_turn(uint16_t heading, uint16_t pitch, uint16_t roll, uint8_t *from, uint8_t *to)
{
    Three arm = {{MODEL_NAR, MODEL_NAR, MODEL_NAR}};
    if (from)
        memcpy(&arm, from, sizeof arm);
    keep(&arms);
    keep(&turns_out);
    Three wants = model_turn(heading, pitch, roll, arm);
    balehasp_turn(heading, pitch, roll, (const uint16_t *)(const void *)from, (uint16_t *)(void *)to);
    Guarded *lent = to && arms.bytes <= to && to < arms.bytes + arms.size ? &arms : &turns_out;
    if (to)
        memcpy(lent->before + (to - lent->bytes), &wants, sizeof wants);
    expect_same(&arms, "a turn, at the arm", heading, pitch);
    expect_same(&turns_out, "a turn, at the turned arm", heading, pitch);
    return wants;
}

static void turns(void)
{
    arms = guarded(1);
    turns_out = guarded(1);
    unsigned nars = 0, in_place = 0, overlapping = 0, without = 0;
    for (unsigned i = 0; i < rounds; i++) {
        bool at_end = below(2);
        uint8_t *from = place(&arms, sizeof(Three), at_end), *to = place(&turns_out, sizeof(Three), below(2));
        Three arm = {{some_pattern(), some_pattern(), some_pattern()}};
        memcpy(from, &arm, sizeof arm);
        switch (below(8)) {
        case 0: to = from, in_place++; break;
        case 1: to = from + (at_end ? -1 : 1) * (int)(1 + below(5)), overlapping++; break; /* unaligned too */
        case 2:
            if (below(2))
                from = NULL;
            else
                to = NULL;
            without++;
            break;
        }
        nars += one_turn(some_pattern(), some_pattern(), some_pattern(), from, to).parts[2] == MODEL_NAR;
    }
    printf("%u turns, %u in place, %u into an overlap, %u without an arm or a place: as the model's, %u NaR\n",
           rounds, in_place, overlapping, without, nars);
}

/* ---- the batch */

static size_t smaller(size_t a, size_t b) { return a < b ? a : b; }

static Guarded batch_in, batch_out;

/* Where a call may write a result, or nowhere. */
static void *perhaps(void *place) { return below(8) ? place : NULL; }

/* What a caller may hand over with length 0: nothing, what is aligned for nothing, a place inside the other buffer. */
static uint16_t *nowhere(const uint16_t *other)
{
    switch (below(3)) {
    case 0: return NULL;
    case 1: return (uint16_t *)1;
    default: return (uint16_t *)((uintptr_t)other + 2);
    }
}

/* One batch with buffers of its own, or with the output in the input's place. */
static uint16_t one_batch(uint16_t f, size_t inputs, size_t outputs, size_t start, size_t limit, bool in_place)
{
    uint16_t *output = (uint16_t *)(void *)place(&batch_out, 2 * (in_place && outputs < inputs ? inputs : outputs), below(2));
    uint16_t *input = in_place ? output : (uint16_t *)(void *)place(&batch_in, 2 * inputs, below(2));
    size_t next = (size_t)noise(), nars = (size_t)noise();
    size_t *next_place = perhaps(&next), *nars_place = perhaps(&nars);
    keep(&batch_in);
    keep(&batch_out);
    uint16_t *model = (uint16_t *)(void *)(batch_out.before + ((uint8_t *)output - batch_out.bytes));

    uint16_t refusal = f < 1 || f > FUNCTIONS ? BALEHASP_REFUSED_FUNCTION
                       : outputs < inputs     ? BALEHASP_REFUSED_OUTPUT
                       : inputs < start       ? BALEHASP_REFUSED_START
                                              : 0;
    size_t done = refusal ? 0 : smaller(limit, inputs - start), found = 0;
    for (size_t i = start; done && i < start + done; i++) {
        model[i] = answers[f - 1][input[i]];
        found += model[i] == BALEHASP_NAR;
    }

    if (!inputs)
        input = nowhere(output);
    if (!outputs)
        output = nowhere(input);
    uint16_t said = balehasp_batch(f, input, inputs, output, outputs, start, limit, next_place, nars_place);
    expect(said == refusal, "a batch's refusal", said, refusal);
    expect(!next_place || next == start + done, "a batch's next place", next, start + done);
    expect(!nars_place || nars == found, "a batch's count of NaR", nars, found);
    expect_same(&batch_in, "a batch changes its input", f, inputs);
    expect_same(&batch_out, "a batch's output", f, start);
    return refusal;
}

/* A batch that cannot be made: it says so whatever else is wrong, reports no work, and changes nothing. */
static void misused_batch(const void *input, size_t inputs, void *output, size_t outputs)
{
    uint16_t f = (uint16_t)below(12);
    size_t start = (size_t)below(inputs + 2), next = ~start, nars = 7;
    size_t *next_place = perhaps(&next), *nars_place = perhaps(&nars);
    keep(&batch_out);
    expect(balehasp_batch(f, input, inputs, output, outputs, start, 5, next_place, nars_place) == BALEHASP_MISUSED, "a batch that cannot be made", inputs, outputs);
    expect((!next_place || next == start) && (!nars_place || nars == 0), "a batch that cannot be made reports work", next, nars);
    expect_same(&batch_out, "a batch that cannot be made writes", inputs, outputs);
}

/* Overlaps other than the same place, odd addresses, null pointers, lengths that nothing can have. Returns how many. */
static unsigned misused_batches(void)
{
    _Static_assert(BALEHASP_MISUSED > BALEHASP_REFUSED_DIFFERENT, "no refusal's number");
    unsigned count = 0;
    uint8_t *whole = place(&batch_out, 400, true);
    for (size_t n = 1; n <= 40; n++) {
        uint16_t *first = (uint16_t *)(void *)whole; /* neighbours do not overlap */
        expect(balehasp_batch(1, first, n, first + n, n, 0, n, NULL, NULL) == 0, "an output right after the input", n, 0);
        expect(balehasp_batch(1, first + n, n, first, n, 0, n, NULL, NULL) == 0, "an input right after the output", n, 0);
        for (size_t m = 1; m <= 40; m++) {
            for (size_t by = 1; by < n; by++, count++) /* the output begins inside the input */
                misused_batch(whole, n, whole + 2 * by, m);
            for (size_t by = 1; by < m; by++, count++) /* the input begins inside the output */
                misused_batch(whole + 2 * by, n, whole, m);
        }
        misused_batch(whole + 1, n, whole + 200, n);
        misused_batch(whole, n, whole + 201, n);
        misused_batch(whole + 1, n, whole + 1, n);
        misused_batch(NULL, n, whole, n);
        misused_batch(whole, n, NULL, n);
        misused_batch(NULL, n, NULL, n);
        misused_batch(whole, PTRDIFF_MAX / 2 + n, whole + 200, n);
        misused_batch(whole, n, whole + 200, SIZE_MAX - n);
        misused_batch(whole, n, (void *)(UINTPTR_MAX - 1), n);
        count += 9;
    }
    return count;
}

/* Places for results that lie in the buffers, or in one another: they are written after the answers, the last named last. */
static void results_in_the_buffers(void)
{
    size_t word[2] = {0, 0}, one = 1, two = 2;
    uint16_t *patterns = (uint16_t *)(void *)word;
    const uint16_t in[] = {BALEHASP_NAR, 0x4000}, out[] = {BALEHASP_NAR, 0};
    memcpy(patterns, in, sizeof in);
    expect(balehasp_batch(BALEHASP_LN, patterns, 2, patterns + sizeof two / 2, 2, 0, 2, word, word) == 0, "results in one place", 0, 0);
    expect(memcmp(word, &one, sizeof one) == 0 && memcmp(word + 1, out, sizeof out) == 0, "the count of NaR comes last", 0, 0);
    memcpy(patterns, in, sizeof in);
    expect(balehasp_batch(BALEHASP_LN, patterns, 2, patterns, 2, 0, 2, word, NULL) == 0, "a result in the output", 0, 0);
    expect(memcmp(word, &two, sizeof two) == 0, "the next place comes after the answers", 0, 0);
}

static uint16_t some_function(void)
{
    switch (below(12)) {
    case 0: return (uint16_t)noise();
    case 1: return (uint16_t)(11 * below(2));
    default: return (uint16_t)(1 + below(FUNCTIONS));
    }
}

static size_t some_limit(size_t start)
{
    switch (below(6)) {
    case 0: return 0;
    case 1: return 1;
    case 2: return SIZE_MAX - below(3);
    case 3: return (size_t)0 - start + (size_t)below(5) - 2; /* start + limit about 2^64 */
    default: return (size_t)below(80);
    }
}

static void batches(void)
{
    batch_in = guarded(4096);
    batch_out = guarded(4096);
    /* the refusals, each alone and where several would be given */
    for (int b = 0; b < 2; b++) {
        expect(one_batch(0, 4, 4, 0, 4, b) == 1 && one_batch(11, 4, 3, 5, 0, b) == 1, "refusal 1 is first", 0, 0);
        expect(one_batch(1, 4, 3, 0, 4, b) == 2 && one_batch(1, 4, 3, 5, 0, b) == 2, "refusal 2 is second", 0, 0);
        expect(one_batch(1, 4, 4, 5, 4, b) == 3 && one_batch(1, 4, 4, 5, 0, b) == 3, "refusal 3, also at limit 0", 0, 0);
        expect(one_batch(1, 4, 4, 4, 4, b) == 0 && one_batch(1, 0, 0, 0, 1, b) == 0 && one_batch(10, 4, 9, 1, 0, b) == 0, "no refusal", 0, 0);
    }
    for (int i = 0; i < 100; i++) /* no input, no output, neither, in every way of saying so */
        expect(one_batch(1, 0, 0, 0, 1, false) == 0 && one_batch(1, 0, 3, 0, 1, i % 2) == 0 && one_batch(1, 3, 0, 0, 1, i % 2) == 2, "an empty buffer", 0, 0);
    results_in_the_buffers();
    printf("%u batches that cannot be made: told, nothing written\n", misused_batches());
    /* each call starts where the last one ended: n patterns in n / limit calls, rounded up */
    for (size_t n = 0; n <= 40; n++) {
        for (size_t limit = 1; limit <= n + 1; limit++) {
            uint16_t input[40], output[40];
            size_t start = 0, calls = 0;
            for (size_t i = 0; i < n; i++)
                input[i] = (uint16_t)noise();
            while (start < n) {
                size_t next, nars;
                expect(balehasp_batch(4, input, n, output, n, start, limit, &next, &nars) == 0, "a call in a row is refused", n, limit);
                start = next;
                calls++;
            }
            expect(calls == (n + limit - 1) / limit, "how many calls finish a batch", n, limit);
            for (size_t i = 0; i < n; i++)
                expect(output[i] == answers[3][input[i]], "an answer after calls in a row", n, i);
        }
    }
    unsigned refusals[4] = {0}, in_place = 0;
    for (unsigned i = 0; i < rounds; i++) {
        size_t inputs = (size_t)(below(50) ? below(40) : below(2000));
        size_t outputs = below(8) ? inputs + (size_t)below(4) : (size_t)below(inputs + 2);
        size_t start = below(8) ? (size_t)below(inputs + 1) : below(4) ? inputs + (size_t)below(3) : (size_t)noise();
        bool same = !below(3);
        in_place += same;
        refusals[one_batch(some_function(), inputs, outputs, start, some_limit(start), same)]++;
    }
    printf("%u random batches as the model's, %u of them in place; refused by 1, 2, 3: %u, %u, %u\n", rounds, in_place,
           refusals[1], refusals[2], refusals[3]);
}

/* ---- the listing */

static uint16_t number_at(const uint8_t *bytes, size_t at) { return (uint16_t)(bytes[at] | bytes[at + 1] << 8); }

static size_t put(uint8_t *bytes, size_t at, uint16_t number)
{
    bytes[at] = (uint8_t)number;
    bytes[at + 1] = (uint8_t)(number >> 8);
    return at + 2;
}

/* What a listing asks: how many functions and how many patterns, and where the patterns end. */
typedef struct {
    size_t functions, patterns, end;
} Asked;

/* The two sections of a listing, or the first refusal in them. What comes after them is the caller's to judge. */
static uint16_t model_sections(const uint8_t *in, size_t length, Asked *asked)
{
    if (length < 2)
        return BALEHASP_REFUSED_CUT;
    size_t functions = number_at(in, 0);
    if (functions < 1 || functions > 10)
        return BALEHASP_REFUSED_LIMITS;
    if (length < 2 + 2 * functions)
        return BALEHASP_REFUSED_CUT;
    for (size_t i = 0; i < functions; i++)
        if (number_at(in, 2 + 2 * i) < 1 || number_at(in, 2 + 2 * i) > FUNCTIONS)
            return BALEHASP_REFUSED_FUNCTION;
    size_t from = 2 + 2 * functions + 2;
    if (length < from)
        return BALEHASP_REFUSED_CUT;
    size_t patterns = number_at(in, from - 2);
    if (patterns > 1024)
        return BALEHASP_REFUSED_LIMITS;
    if (length < from + 2 * patterns)
        return BALEHASP_REFUSED_CUT;
    *asked = (Asked){functions, patterns, from + 2 * patterns};
    return 0;
}

/* The answered listing into `out`, which is long enough, and its length; or the refusal. */
static uint16_t model_listing(const uint8_t *in, size_t length, size_t room, uint8_t *out, size_t *written)
{
    Asked asked = {0, 0, 0};
    uint16_t refusal = model_sections(in, length, &asked);
    *written = 0;
    if (refusal)
        return refusal;
    if (length > asked.end)
        return BALEHASP_REFUSED_AFTER;
    if (room < length + 2 + 2 * asked.functions * asked.patterns)
        return BALEHASP_REFUSED_OUTPUT;
    memcpy(out, in, length);
    size_t at = put(out, length, (uint16_t)(asked.functions * asked.patterns));
    for (size_t i = 0; i < asked.functions; i++)
        for (size_t j = 0; j < asked.patterns; j++)
            at = put(out, at, answers[number_at(in, 2 + 2 * i) - 1][number_at(in, 4 + 2 * (asked.functions + j))]);
    *written = at;
    return 0;
}

static uint8_t model_out[32768];

/* One listing with buffers of its own, or with an input and an output that overlap. Comparing all of a buffer takes time, so a
 * small one serves where it has room. */
static uint16_t one_listing(const uint8_t *bytes, size_t length, size_t room, bool overlap)
{
    static Guarded inputs, small, large;
    if (!small.bytes) {
        inputs = guarded(4096);
        small = guarded(4096);
        large = guarded(32768);
    }
    Guarded *outputs = room + length + 64 <= small.size ? &small : &large;
    bool input_first = below(2);
    size_t less = smaller(length, room), both = length + room - less + (overlap && less ? (size_t)below(less) : 0);
    uint8_t *output = place(outputs, overlap ? both : room, below(2));
    uint8_t *input = !overlap ? place(&inputs, length, below(2)) : input_first ? output : output + both - length;
    if (overlap && input_first)
        output += both - room;
    memcpy(input, bytes, length);
    size_t written = (size_t)noise(), wanted, *written_place = perhaps(&written);
    keep(&inputs);
    keep(outputs);
    uint16_t refusal = model_listing(bytes, length, room, model_out, &wanted);
    memcpy(outputs->before + (output - outputs->bytes), model_out, wanted);
    uint16_t said = balehasp_listing(length || below(2) ? input : NULL, length, room || below(2) ? output : NULL, room, written_place);
    expect(said == refusal, "a listing's refusal", said, refusal);
    expect(!written_place || written == wanted, "how many bytes a listing writes", written, wanted);
    expect_same(&inputs, "a listing changes its input", length, room);
    expect_same(outputs, "a listing's output", length, room);
    return refusal;
}

/* The longest listing, in exactly the room that the header names and in one byte less. */
static void longest_listing(uint8_t *bytes)
{
    size_t at = put(bytes, 0, FUNCTIONS);
    for (uint16_t f = 1; f <= FUNCTIONS; f++)
        at = put(bytes, at, f);
    at = put(bytes, at, 1024);
    for (int i = 0; i < 1024; i++)
        at = put(bytes, at, (uint16_t)noise());
    expect(at == BALEHASP_LONGEST_LISTING, "the length of the longest listing", at, 0);
    for (int overlap = 0; overlap < 2; overlap++) {
        expect(one_listing(bytes, at, BALEHASP_LONGEST_ANSWERED, overlap) == 0, "the longest listing in its room", at, 0);
        expect(one_listing(bytes, at, BALEHASP_LONGEST_ANSWERED - 1, overlap) == BALEHASP_REFUSED_OUTPUT, "the longest listing in one byte less", at, 0);
        for (size_t more = 1; more < 1000; more++) {
            bytes[at + more - 1] = (uint8_t)noise();
            expect(one_listing(bytes, at + more, BALEHASP_LONGEST_ANSWERED, overlap) == BALEHASP_REFUSED_AFTER, "bytes after the longest listing", more, 0);
        }
    }
    static uint8_t exactly[BALEHASP_LONGEST_ANSWERED];
    size_t written = 0;
    expect(balehasp_listing(bytes, at, exactly, sizeof exactly, &written) == 0 && written == sizeof exactly, "the longest answered listing", written, 0);
    puts("the longest listing: answered in exactly its room, refused in one byte less");
}

static void misused_listing(const uint8_t *input, size_t length, uint8_t *output, size_t room)
{
    size_t written = 7;
    expect(balehasp_listing(input, length, output, room, &written) == BALEHASP_MISUSED && written == 0, "a listing that cannot be made", length, room);
}

static size_t listing_of(uint8_t *bytes, size_t functions, size_t patterns)
{
    size_t at = put(bytes, 0, (uint16_t)functions);
    for (size_t i = 0; i < functions; i++)
        at = put(bytes, at, (uint16_t)(1 + below(FUNCTIONS)));
    at = put(bytes, at, (uint16_t)patterns);
    for (size_t i = 0; i < patterns; i++)
        at = put(bytes, at, (uint16_t)noise());
    return at;
}

static size_t some_listing(uint8_t *bytes)
{
    size_t functions = (size_t)(1 + below(10)), patterns = (size_t)(below(100) ? below(24) : below(1025));
    return listing_of(bytes, functions, patterns);
}

/* The same, with damage: cut short, lengthened, a bit turned over, a count or a function number changed. */
static size_t damage(uint8_t *bytes, size_t length)
{
    switch (below(6)) {
    case 0: return (size_t)below(length);
    case 1:
        for (size_t i = length; i < length + 3; i++)
            bytes[i] = (uint8_t)noise();
        return length + 1 + (size_t)below(3);
    case 2: bytes[below(length)] ^= (uint8_t)(1 << below(8)); return length;
    case 3: put(bytes, 0, (uint16_t)(below(2) ? below(13) : noise())); return length;
    case 4: put(bytes, 2 + 2 * (size_t)number_at(bytes, 0), (uint16_t)(below(2) ? 1023 + below(3) : noise())); return length;
    default: put(bytes, 2 + 2 * (size_t)below(number_at(bytes, 0)), (uint16_t)(below(2) ? 11 * below(2) : noise())); return length;
    }
}

static void listings(void)
{
    static uint8_t bytes[4096];
    static const uint8_t in[] = {1, 0, 2, 0, 2, 0, 0x00, 0x40, 0x00, 0x80};
    static const uint8_t out[] = {1, 0, 2, 0, 2, 0, 0x00, 0x40, 0x00, 0x80, 2, 0, 0x00, 0x50, 0x00, 0x80};
    uint8_t got[sizeof out];
    size_t written;
    expect(balehasp_listing(in, sizeof in, got, sizeof got, &written) == 0 && written == sizeof out && memcmp(got, out, sizeof out) == 0, "the whole case of document 01", 0, 0);
    /* the whole case cut at each place, lengthened, and with an output that is too short by one */
    for (size_t n = 0; n < sizeof in; n++)
        for (size_t room = 0; room < 64; room++)
            expect(one_listing(in, n, room, room % 2) == 4, "a listing that is cut short", n, room);
    memcpy(bytes, in, sizeof in);
    expect(one_listing(bytes, sizeof in + 1, 0, false) == 6, "6 comes before 2", 0, 0);
    expect(one_listing(in, sizeof in, sizeof out - 1, false) == 2 && one_listing(in, sizeof in, sizeof out, false) == 0, "the shortest output", 0, 0);
    longest_listing(bytes);
    misused_listing(NULL, 1, bytes, sizeof bytes);
    misused_listing(in, sizeof in, NULL, 1);
    misused_listing(in, SIZE_MAX, bytes, sizeof bytes);
    misused_listing(in, sizeof in, bytes, (size_t)PTRDIFF_MAX + 1);
    misused_listing((const uint8_t *)UINTPTR_MAX, 1, bytes, sizeof bytes);

    unsigned refusals[7] = {0}, overlaps = 0;
    for (unsigned i = 0; i < rounds; i++) {
        size_t length = some_listing(bytes), wanted;
        if (below(2))
            length = damage(bytes, length);
        model_listing(bytes, length, SIZE_MAX, model_out, &wanted);
        size_t room = below(6) ? wanted + (size_t)below(9) : (size_t)below(wanted + 1);
        bool overlap = !below(3);
        overlaps += overlap && length && room;
        refusals[one_listing(bytes, length, room, overlap)]++;
    }
    printf("%u random and damaged listings as the model's, %u of them overlapping; refused by 1, 2, 4, 5, 6: %u, %u, %u, %u, %u\n",
           rounds, overlaps, refusals[1], refusals[2], refusals[4], refusals[5], refusals[6]);
}

/* ---- the differences of two answered listings */

typedef struct {
    uint8_t bytes[BALEHASP_LONGEST_ANSWERED + 64];
    size_t length;
} Answered;

static Answered pair[2];

/* All three sections of an answered listing: what it asks, or the first refusal. */
static uint16_t model_answered(const Answered *listing, Asked *asked)
{
    uint16_t refusal = model_sections(listing->bytes, listing->length, asked);
    if (refusal)
        return refusal;
    size_t from = asked->end + 2, count = asked->functions * asked->patterns;
    if (listing->length < from)
        return BALEHASP_REFUSED_CUT;
    if (number_at(listing->bytes, asked->end) != count)
        return BALEHASP_REFUSED_COUNT;
    if (listing->length < from + 2 * count)
        return BALEHASP_REFUSED_CUT;
    return listing->length > from + 2 * count ? BALEHASP_REFUSED_AFTER : 0;
}

/* The pair's least difference at or after `from`, or the number of answers; or the refusal. */
static uint16_t model_difference(size_t from, size_t *least)
{
    Asked asked[2] = {{0, 0, 0}, {0, 0, 0}};
    for (int i = 0; i < 2; i++) {
        uint16_t refusal = model_answered(&pair[i], &asked[i]);
        if (refusal)
            return refusal;
    }
    size_t end = asked[0].end, count = asked[0].functions * asked[0].patterns;
    if (end != asked[1].end || memcmp(pair[0].bytes, pair[1].bytes, end) != 0)
        return BALEHASP_REFUSED_DIFFERENT;
    *least = count;
    for (size_t k = count; k > from; k--)
        if (number_at(pair[0].bytes, end + 2 * k) != number_at(pair[1].bytes, end + 2 * k))
            *least = k - 1;
    return 0;
}

/* The pair compared, each listing in a buffer of its own. */
static uint16_t one_difference(size_t from)
{
    static Guarded small[2], large[2];
    Guarded *used[2];
    const uint8_t *at[2];
    for (int i = 0; i < 2; i++) {
        if (!small[i].bytes) {
            small[i] = guarded(4096);
            large[i] = guarded(32768);
        }
        size_t length = pair[i].length;
        used[i] = length + 64 <= small[i].size ? &small[i] : &large[i];
        uint8_t *bytes = place(used[i], length, below(2));
        memcpy(bytes, pair[i].bytes, length);
        keep(used[i]);
        at[i] = length ? bytes : (const uint8_t *)nowhere((const uint16_t *)(const void *)used[i]->bytes);
    }
    size_t poison = (size_t)noise(), found = poison, wanted = poison, *found_place = perhaps(&found);
    uint16_t refusal = model_difference(from, &wanted);
    uint16_t said = balehasp_difference(at[0], pair[0].length, at[1], pair[1].length, from, found_place);
    expect(said == refusal, "a comparison's refusal", said, refusal);
    expect(found == (found_place ? wanted : poison), "the place of a difference", found, wanted);
    for (int i = 0; i < 2; i++)
        expect_same(used[i], "a comparison changes a listing", (uint64_t)i, from);
    return refusal;
}

static void copy_first(void)
{
    memcpy(pair[1].bytes, pair[0].bytes, pair[0].length);
    pair[1].length = pair[0].length;
}

/* A listing answered twice, with some answers of the second changed, most of them by one bit. Returns how many answers there
 * are. */
static size_t some_pair(const uint8_t *bytes, size_t length)
{
    model_listing(bytes, length, SIZE_MAX, pair[0].bytes, &pair[0].length);
    copy_first();
    size_t count = (pair[0].length - length) / 2 - 1;
    for (size_t left = count == 0 ? 0 : (size_t)(below(4) ? below(4) : below(count + 1)); left > 0; left--) {
        uint8_t *answer = pair[1].bytes + length + 2 + 2 * (size_t)below(count);
        if (below(4))
            answer[below(2)] ^= (uint8_t)(1 << below(8));
        else
            put(answer, 0, (uint16_t)noise());
    }
    return count;
}

/* Damage to a sound answered listing: as to any listing, to the third section, or to what it asks, where it stays sound. */
static void damage_answered(Answered *listing)
{
    Asked asked = {0, 0, 0};
    expect(model_answered(listing, &asked) == 0, "damage to what is not sound", listing->length, 0);
    uint8_t *bytes = listing->bytes, *patterns = bytes + 4 + 2 * asked.functions;
    size_t count = asked.functions * asked.patterns;
    switch (below(8)) {
    case 0: put(bytes, asked.end, (uint16_t)(below(2) ? count + below(3) - 1 : noise())); break;
    case 1: listing->length = asked.end + (size_t)below(4); break;
    case 2: put(bytes, 2 + 2 * (size_t)below(asked.functions), (uint16_t)(1 + below(FUNCTIONS))); break;
    case 3: /* two patterns exchanged */
        if (asked.patterns > 0) {
            size_t i = 2 * (size_t)below(asked.patterns), j = 2 * (size_t)below(asked.patterns);
            uint16_t kept = number_at(patterns, i);
            put(patterns, i, number_at(patterns, j));
            put(patterns, j, kept);
        }
        break;
    case 4: /* a pattern less, with as many answers as that asks for */
        if (asked.patterns > 0) {
            put(bytes, 2 + 2 * asked.functions, (uint16_t)(asked.patterns - 1));
            put(bytes, asked.end - 2, (uint16_t)(count - asked.functions));
            listing->length -= 2 + 2 * asked.functions;
        }
        break;
    default: listing->length = damage(bytes, listing->length);
    }
}

/* Places around those of the answers, and so large that twice the place, or its low half, is small again. */
static size_t some_from(size_t count)
{
    switch (below(8)) {
    case 0: return 0;
    case 1: return count + (size_t)below(3) - 1;
    case 2: return SIZE_MAX - (size_t)below(3);
    case 3: return SIZE_MAX / 2 + 1 + (size_t)below(count + 1) - (size_t)below(32);
    case 4: return (size_t)((uint64_t)1 << (below(2) ? 16 : 32)) + (size_t)below(count + 1);
    default: return (size_t)below(count + 1);
    }
}

/* The walk that the header describes, beside every place of the pair. Returns how many differences it finds. */
static unsigned walk(void)
{
    Asked asked = {0, 0, 0};
    size_t count = 0, at = 0;
    unsigned found = 0;
    expect(model_answered(&pair[0], &asked) == 0, "a walk over what is refused", 0, 0);
    expect(balehasp_difference(pair[0].bytes, pair[0].length, pair[1].bytes, pair[1].length, SIZE_MAX, &count) == 0
               && count == asked.functions * asked.patterns, "the number of answers", count, 0);
    for (size_t k = 0; k <= count; k++) {
        size_t answer = 6 + 2 * (asked.functions + asked.patterns + k);
        if (k == count || number_at(pair[0].bytes, answer) != number_at(pair[1].bytes, answer)) {
            expect(balehasp_difference(pair[0].bytes, pair[0].length, pair[1].bytes, pair[1].length, at, &at) == 0 && at == k, "a step of a walk", at, k);
            found += at++ < count;
        }
    }
    return found;
}

/* The whole case of document 01, answered, with the fault that has this number, or with none. */
static void whole_case(Answered *listing, uint16_t fault)
{
    static const uint8_t sound[] = {1, 0, 2, 0, 2, 0, 0x00, 0x40, 0x00, 0x80, 2, 0, 0x00, 0x50, 0x00, 0x80};
    memcpy(listing->bytes, sound, sizeof sound);
    listing->length = sizeof sound - (fault == BALEHASP_REFUSED_CUT) + (fault == BALEHASP_REFUSED_AFTER);
    listing->bytes[sizeof sound] = 0;
    if (fault == BALEHASP_REFUSED_FUNCTION)
        listing->bytes[2] = 11;
    if (fault == BALEHASP_REFUSED_LIMITS)
        listing->bytes[0] = 0;
    if (fault == BALEHASP_REFUSED_COUNT)
        listing->bytes[10] = 3;
}

/* Each fault in the first with each in the second: the first's goes first, and 8 comes last. */
static void order_of_refusals(void)
{
    static const uint16_t faults[] = {0, 1, 4, 5, 6, 7};
    for (int i = 0; i < 6; i++)
        for (int j = 0; j < 6; j++)
            for (int different = 0; different < 2; different++) {
                whole_case(&pair[0], faults[i]);
                whole_case(&pair[1], faults[j]);
                pair[1].bytes[6] ^= (uint8_t)different;
                uint16_t wanted = faults[i] ? faults[i] : faults[j] ? faults[j] : different ? 8 : 0;
                expect(one_difference((size_t)below(4)) == wanted, "the order of a comparison's refusals", faults[i], faults[j]);
            }
    for (int i = 0; i < 2; i++) { /* within the third section */
        whole_case(&pair[1 - i], 0);
        for (size_t length = 0; length < 16; length++) {
            whole_case(&pair[i], 0);
            pair[i].length = length;
            expect(one_difference(0) == 4, "an answered listing that is cut short", (uint64_t)i, length);
            whole_case(&pair[i], 7);
            pair[i].length = length;
            expect(one_difference(0) == (length < 12 ? 4 : 7), "7 comes before missing answers", (uint64_t)i, length);
        }
        whole_case(&pair[i], 7);
        for (pair[i].length = 16; pair[i].length < 20; pair[i].length++)
            expect(one_difference(0) == 7, "7 comes before 6", (uint64_t)i, pair[i].length);
    }
}

/* An answered listing in which every number but the counts is 1. */
static void all_ones(Answered *listing, size_t functions, size_t patterns)
{
    size_t counts[] = {functions, patterns, functions * patterns}, at = 0;
    for (int i = 0; i < 3; i++) {
        at = put(listing->bytes, at, (uint16_t)counts[i]);
        for (size_t k = 0; k < counts[i]; k++)
            at = put(listing->bytes, at, 1);
    }
    listing->length = at;
}

/* Listings that differ in their counts alone, two functions and three patterns beside three and two among them. */
static void counts_that_differ(void)
{
    for (size_t f = 1; f <= FUNCTIONS; f++)
        for (size_t n = 0; n < 10; n++) {
            all_ones(&pair[0], f, n);
            for (size_t g = 1; g <= FUNCTIONS; g++)
                for (size_t m = 0; m < 10; m++) {
                    all_ones(&pair[1], g, m);
                    expect(one_difference(0) == (f == g && n == m ? 0 : BALEHASP_REFUSED_DIFFERENT), "counts that differ", 10 * f + n, 10 * g + m);
                }
        }
}

/* The longest answered listing, with a difference at its last place and with none. */
static void longest_pair(void)
{
    uint8_t bytes[BALEHASP_LONGEST_LISTING];
    size_t count = some_pair(bytes, listing_of(bytes, FUNCTIONS, 1024)), last = BALEHASP_LONGEST_ANSWERED - 1, found = 0;
    copy_first();
    expect(pair[0].length == BALEHASP_LONGEST_ANSWERED, "the length of the longest answered listing", pair[0].length, 0);
    for (int differ = 0; differ < 2; differ++) {
        pair[1].bytes[last] ^= (uint8_t)(differ << 7);
        for (size_t from = count - 2; from < count + 3; from++)
            expect(one_difference(from) == 0, "the longest answered listing", from, 0);
        expect(walk() == (unsigned)differ, "the differences of the longest answered listing", 0, 0);
        for (int i = 0; i < 2; i++) {
            pair[i].length++;
            expect(one_difference(0) == BALEHASP_REFUSED_AFTER, "a byte after the longest answered listing", (uint64_t)i, 0);
            pair[i].length--;
        }
    }
    expect(balehasp_difference(pair[0].bytes, pair[0].length, pair[1].bytes, pair[1].length, 0, &found) == 0 && found == count - 1, "the last place", found, count);
    puts("the longest answered listing: a difference at its last place found, a byte more refused");
}

/* Listings that share bytes: one with itself, and two that lie one number apart. */
static void listings_that_overlap(void)
{
    static const uint8_t ones[] = {1, 0, 1, 0, 1, 0, 1, 0, 1, 0, 1, 0, 2, 0};
    size_t found = 7;
    expect(balehasp_difference(ones, 12, ones, 12, 0, &found) == 0 && found == 1, "a listing beside itself", found, 0);
    expect(balehasp_difference(ones, 12, ones + 2, 12, 0, &found) == 0 && found == 0, "a listing that begins in the other", found, 0);
    expect(balehasp_difference(ones + 2, 12, ones, 12, 1, &found) == 0 && found == 1, "and after its difference", found, 0);
    expect(balehasp_difference(ones, 12, ones, 11, 0, &found) == BALEHASP_REFUSED_CUT && found == 1, "one cut short, in one place", found, 0);
}

static void misused_difference(const uint8_t *first, size_t first_length, const uint8_t *second, size_t second_length)
{
    size_t found = 7;
    expect(balehasp_difference(first, first_length, second, second_length, 0, &found) == BALEHASP_MISUSED && found == 7, "a comparison that cannot be made", first_length, second_length);
    expect(balehasp_difference(first, first_length, second, second_length, 0, NULL) == BALEHASP_MISUSED, "the same without a place", first_length, second_length);
}

/* Null pointers, lengths that nothing can have, and a place for the result at every byte in and around the listings. Returns
 * how many cannot be made. */
static unsigned misused_differences(void)
{
    unsigned count = 0;
    whole_case(&pair[0], 0);
    const uint8_t *bytes = pair[0].bytes;
    const struct {
        const uint8_t *at;
        size_t length;
    } wrong[] = {{NULL, 1}, {NULL, 16}, {bytes, SIZE_MAX}, {bytes, (size_t)PTRDIFF_MAX + 1}, {(const uint8_t *)UINTPTR_MAX, 1}};
    for (size_t i = 0; i < sizeof wrong / sizeof *wrong; i++, count += 3) {
        misused_difference(wrong[i].at, wrong[i].length, bytes, 16);
        misused_difference(bytes, 16, wrong[i].at, wrong[i].length);
        misused_difference(wrong[i].at, wrong[i].length, wrong[i].at, wrong[i].length);
    }
    static Guarded around;
    around = guarded(4096);
    size_t size = sizeof(size_t), wanted = 2;
    for (size_t offset = 0; offset <= 16 + size; offset++) {
        uint8_t *listing = place(&around, 64, true) + size;
        memcpy(listing, bytes, 16);
        size_t *result = (size_t *)(void *)(listing - size + offset);
        bool apart = offset == 0 || offset == 16 + size;
        keep(&around);
        if (apart)
            memcpy(around.before + ((uint8_t *)result - around.bytes), &wanted, size);
        else
            count += 3;
        expect(balehasp_difference(listing, 16, bytes, 16, 0, result) == (apart ? 0 : BALEHASP_MISUSED), "a place in the first listing", offset, 0);
        expect(balehasp_difference(bytes, 16, listing, 16, 0, result) == (apart ? 0 : BALEHASP_MISUSED), "a place in the second listing", offset, 0);
        expect(balehasp_difference(listing, 16, listing, 16, 0, result) == (apart ? 0 : BALEHASP_MISUSED), "a place in both listings", offset, 0);
        expect_same(&around, "a place in or beside a listing", offset, 0);
        expect(balehasp_difference(listing, 0, bytes, 0, 0, result) == BALEHASP_REFUSED_CUT, "no listing has no place in it", offset, 0);
    }
    return count;
}

static void differences(void)
{
    static uint8_t bytes[BALEHASP_LONGEST_LISTING];
    whole_case(&pair[0], 0);
    for (unsigned changed = 0; changed < 16; changed++) { /* in each byte of the two answers, or in none */
        whole_case(&pair[1], 0);
        for (int byte = 0; byte < 4; byte++)
            pair[1].bytes[12 + byte] ^= (uint8_t)((changed >> byte & 1) << below(8));
        for (size_t from = 0; from < 5; from++)
            expect(one_difference(from) == 0, "the whole case, answered", changed, from);
        expect(walk() == (unsigned)((changed & 3) != 0) + (changed >> 2 != 0), "how many differences", changed, 0);
    }
    order_of_refusals();
    counts_that_differ();
    longest_pair();
    listings_that_overlap();
    printf("%u comparisons that cannot be made: told, nothing written\n", misused_differences());

    unsigned refusals[9] = {0}, found = 0, walks = 0;
    for (unsigned i = 0; i < rounds; i++) {
        size_t count = some_pair(bytes, some_listing(bytes));
        if (below(2)) {
            uint64_t which = below(5); /* the first, the second, or both */
            if (which != 1 && which != 3)
                damage_answered(&pair[0]);
            if (which != 0 && which != 2)
                damage_answered(&pair[1]);
        }
        uint16_t refusal = one_difference(some_from(count));
        refusals[refusal]++;
        if (refusal == 0 && below(8) == 0) {
            found += walk();
            walks++;
        }
    }
    printf("%u pairs of answered listings as the model's, %u differences in %u walks; refused by 1, 4, 5, 6, 7, 8: %u, %u, %u, %u, %u, %u\n",
           rounds, found, walks, refusals[1], refusals[4], refusals[5], refusals[6], refusals[7], refusals[8]);
}

/* ---- reals */

/* The number of the posit p of n bits with one exponent bit, which is neither zero nor NaR. */
static double number_of(uint32_t p, int n)
{
    bool negative = p >> (n - 1);
    double size = ldexp((double)model_magnitude(negative ? (1u << n) - p : p, n), -2 * (n - 2)); /* 14 bits: exactly */
    return negative ? -size : size;
}

/* The pattern that x rounds to, by the dividing numbers: the largest magnitude that x reaches. */
static uint16_t rounded(double x)
{
    if (isnan(x) || isinf(x))
        return BALEHASP_NAR;
    if (x == 0)
        return 0;
    double size = fabs(x);
    uint32_t u = 1, past = 0x8000;
    while (past - u > 1) {
        uint32_t middle = (u + past) / 2;
        double dividing = number_of(2 * (middle - 1) + 1, 17); /* between middle - 1 and middle */
        if (dividing < size || (dividing == size && middle % 2 == 0))
            u = middle;
        else
            past = middle;
    }
    return (uint16_t)(x < 0 ? 0u - u : u);
}

static bool same_bits(double a, double b) { return memcmp(&a, &b, sizeof a) == 0; }

static void one_real(double x) { expect(balehasp_from_f64(x) == rounded(x), "from_f64", rounded(x), balehasp_from_f64(x)); }

/* A random f64, most often within the posits' range. */
static double some_real(void)
{
    uint64_t bits = noise();
    if (below(4))
        bits = (bits & 0x800FFFFFFFFFFFFFu) | (1023 - 32 + below(64)) << 52;
    double x;
    memcpy(&x, &bits, sizeof x);
    return x;
}

static void reals(void)
{
    for (uint32_t p = 0; p < PATTERNS; p++) {
        double poison = ldexp((double)noise(), -70), real = poison;
        bool is_real = balehasp_to_f64((uint16_t)p, &real);
        if (p == BALEHASP_NAR) {
            expect(!is_real && same_bits(real, poison), "NaR is no real", p, 0);
            continue;
        }
        expect(is_real && same_bits(real, p ? number_of(p, 16) : 0.0), "to_f64", p, 0);
        one_real(real);
        one_real(nextafter(real, INFINITY));
        one_real(nextafter(real, -INFINITY));
    }
    expect(balehasp_to_f64(0x4000, NULL) && !balehasp_to_f64(BALEHASP_NAR, NULL), "no place for the real", 0, 0);
    double ends[] = {0.0, -0.0, INFINITY, -INFINITY, NAN, -NAN, 5e-324, -5e-324, 1.7976931348623157e308, -1.7976931348623157e308};
    for (size_t i = 0; i < sizeof ends / sizeof *ends; i++)
        one_real(ends[i]);
    for (unsigned i = 0; i < rounds; i++)
        one_real(some_real());
    printf("65536 patterns to f64, and %u numbers from f64: as the rule's\n", 65535 * 3 + 10 + rounds);
}

/* ---- spans */

typedef bool SpanCall(uint16_t, double *, double *, uint8_t *);

/* The archive's own entry, whose name the header gives to the function before it. */
#undef balehasp_span
static SpanCall *const span_entry = balehasp_span;
#define balehasp_span balehasp_span_checked

typedef struct {
    double lower, upper;
    uint8_t edges;
} Span;

/* The span of p, which is not NaR: what the model rounds to p lies between the dividing numbers of its magnitude u, and takes
 * one in where the model rounds that to p. There is none above the largest, and none but zero below the smallest. */
static Span model_span(uint16_t p)
{
    bool negative = p > BALEHASP_NAR, ends = true;
    uint32_t u = negative ? 0x10000u - p : p;
    double inner = u > 1 ? number_of(2 * u - 1, 17) : 0.0, outer = 0.0;
    if (u == MODEL_LARGEST)
        ends = false;
    else if (u > 0)
        outer = number_of(2 * u + 1, 17);
    if (negative) {
        inner = inner > 0 ? -inner : 0.0;
        outer = outer > 0 ? -outer : 0.0;
    }
    unsigned in = 1 + (rounded(inner) == p ? 2 : 0), out = ends ? 1 + (rounded(outer) == p ? 2 : 0) : 0;
    return negative ? (Span){outer, inner, (uint8_t)(out + 4 * in)} : (Span){inner, outer, (uint8_t)(in + 4 * out)};
}

/* Whether x lies in a span, as the header says it. */
static bool lies_in(Span s, double x)
{
    bool from = !(s.edges & BALEHASP_LOWER_EXISTS) || s.lower < x || (s.lower == x && (s.edges & BALEHASP_LOWER_INCLUDED));
    bool to = !(s.edges & BALEHASP_UPPER_EXISTS) || x < s.upper || (s.upper == x && (s.edges & BALEHASP_UPPER_INCLUDED));
    return isfinite(x) && from && to;
}

enum { LOWER, UPPER, EDGES, SPAN_PLACES };
static const size_t span_sizes[SPAN_PLACES] = {sizeof(double), sizeof(double), sizeof(uint8_t)};
static Guarded span_rooms[SPAN_PLACES];

/* One call into these places, of which the header's function takes any, one in another too. */
static void one_span(SpanCall *call, uint16_t p, uint8_t *const places[SPAN_PLACES])
{
    bool has_span = p != BALEHASP_NAR;
    Span wants = has_span ? model_span(p) : (Span){0, 0, 0};
    const void *const results[SPAN_PLACES] = {&wants.lower, &wants.upper, &wants.edges};
    for (int i = 0; i < SPAN_PLACES; i++)
        keep(&span_rooms[i]);
    for (int i = 0; has_span && i < SPAN_PLACES; i++)
        for (int k = 0; places[i] && k < SPAN_PLACES; k++) {
            Guarded *room = &span_rooms[k];
            if (room->bytes <= places[i] && places[i] < room->bytes + room->size)
                memcpy(room->before + (places[i] - room->bytes), results[i], span_sizes[i]);
        }
    expect(call(p, (double *)(void *)places[LOWER], (double *)(void *)places[UPPER], places[EDGES]) == has_span, "whether there is a span", p, 0);
    for (int i = 0; i < SPAN_PLACES; i++)
        expect_same(&span_rooms[i], "the span", p, (uint64_t)i);
}

static void span_places(uint8_t *places[SPAN_PLACES])
{
    for (int i = 0; i < SPAN_PLACES; i++)
        places[i] = place(&span_rooms[i], span_sizes[i], below(2));
}

/* The header's function with places left out, at odd addresses, or in one another. */
static void span_otherwise(uint16_t p)
{
    uint8_t *places[SPAN_PLACES];
    span_places(places);
    switch (below(4)) {
    case 0: places[below(SPAN_PLACES)] = NULL; break;
    case 1: places[LOWER] = places[UPPER] = places[EDGES] = NULL; break;
    case 2: places[LOWER] += places[LOWER] == span_rooms[LOWER].bytes ? 1 : -1; break;
    case 3: places[EDGES] = places[below(2)] + below(sizeof(double)); break;
    }
    if (below(4) == 0)
        places[UPPER] = places[LOWER];
    one_span(balehasp_span, p, places);
}

static Span span_found(uint16_t p)
{
    Span s = {0, 0, 0};
    expect(balehasp_span(p, &s.lower, &s.upper, &s.edges), "a span", p, 0);
    return s;
}

/* Whether x lies in the span s of p, which is whether it converts to p. */
static bool found_in(Span s, uint16_t p, double x)
{
    bool lies = lies_in(s, x);
    expect(lies == (balehasp_from_f64(x) == p), "what lies in a span converts to its pattern", p, lies);
    return lies;
}

/* Numbers with their pattern and its span written out, so that what P5 and the header say of the ends holds of the model too. */
static void spans_by_name(void)
{
    const uint8_t all = BALEHASP_LOWER_EXISTS | BALEHASP_LOWER_INCLUDED | BALEHASP_UPPER_EXISTS | BALEHASP_UPPER_INCLUDED;
    const uint8_t open = BALEHASP_LOWER_EXISTS | BALEHASP_UPPER_EXISTS;
    const struct {
        double x;
        uint16_t pattern;
        Span span;
    } cases[] = {
        {0.0, 0x0000, {0.0, 0.0, all}},
        {-0.0, 0x0000, {0.0, 0.0, all}},
        {ldexp(1, -40), 0x0001, {0.0, ldexp(1, -27), open}},
        {-ldexp(1, -40), 0xFFFF, {-ldexp(1, -27), 0.0, open}},
        {5e-324, 0x0001, {0.0, ldexp(1, -27), open}},
        {-5e-324, 0xFFFF, {-ldexp(1, -27), 0.0, open}},
        {ldexp(1, -27), 0x0002, {ldexp(1, -27), ldexp(3, -27), all}},
        {ldexp(1, 27), 0x7FFE, {ldexp(3, 24), ldexp(1, 27), all}},
        {ldexp(1, 40), 0x7FFF, {ldexp(1, 27), 0.0, BALEHASP_LOWER_EXISTS}},
        {1.7976931348623157e308, 0x7FFF, {ldexp(1, 27), 0.0, BALEHASP_LOWER_EXISTS}},
        {-1.7976931348623157e308, 0x8001, {0.0, -ldexp(1, 27), BALEHASP_UPPER_EXISTS}},
    };
    const double none[] = {INFINITY, -INFINITY, NAN, -NAN};
    for (size_t i = 0; i < sizeof cases / sizeof *cases; i++) {
        Span s = span_found(cases[i].pattern), wants = cases[i].span;
        expect(same_bits(s.lower, wants.lower) && same_bits(s.upper, wants.upper) && s.edges == wants.edges, "a span by name", i, s.edges);
        for (uint32_t p = 0; p < PATTERNS; p++)
            if (p != BALEHASP_NAR)
                expect(found_in(span_found((uint16_t)p), (uint16_t)p, cases[i].x) == (p == cases[i].pattern), "one span", i, p);
    }
    for (size_t i = 0; i < sizeof none / sizeof *none; i++)
        for (uint32_t p = 0; p < PATTERNS; p++)
            if (p != BALEHASP_NAR)
                expect(!found_in(span_found((uint16_t)p), (uint16_t)p, none[i]), "no span", i, p);
    printf("%zu numbers by name in one span of 65535 each, and %zu that are none in no span\n", sizeof cases / sizeof *cases, sizeof none / sizeof *none);
}

static void spans(void)
{
    unsigned inside = 0, outside = 0;
    for (int i = 0; i < SPAN_PLACES; i++)
        span_rooms[i] = guarded(1);
    for (uint32_t p = 0; p < PATTERNS; p++) {
        uint8_t *places[SPAN_PLACES];
        span_places(places);
        one_span(span_entry, (uint16_t)p, places);
        span_places(places);
        one_span(balehasp_span, (uint16_t)p, places);
        span_otherwise((uint16_t)p);
        if (p == BALEHASP_NAR)
            continue;
        Span s = span_found((uint16_t)p);
        double ends[] = {s.lower, s.upper};
        for (int i = 0; i < 2; i++) {
            double about[] = {ends[i], nextafter(ends[i], INFINITY), nextafter(ends[i], -INFINITY)};
            for (int k = 0; k < 3; k++) {
                one_real(about[k]);
                found_in(s, (uint16_t)p, about[k]) ? inside++ : outside++;
            }
        }
    }
    printf("65536 patterns' spans by entry and header, and by the header with any places: as the model's\n");
    printf("%u f64s that are an edge or next to one: %u inside and %u outside, as they convert\n", inside + outside, inside, outside);
    spans_by_name();
    for (unsigned i = 0; i < rounds; i++) {
        double x = some_real();
        uint16_t p = balehasp_from_f64(x), other = (uint16_t)noise();
        if (p != BALEHASP_NAR)
            expect(found_in(span_found(p), p, x), "a span of its own", p, 0);
        if (other != BALEHASP_NAR)
            found_in(span_found(other), other, x);
    }
    printf("%u random f64s: in the span of what they convert to, and in no other tried\n", rounds);
}

/* ---- the answers with their sides */

typedef uint16_t SidedCall(uint16_t, uint16_t, uint16_t *, int8_t *);

/* The archive's own entry, whose name the header gives to the function before it. */
#undef balehasp_sided
static SidedCall *const sided_entry = balehasp_sided;
#define balehasp_sided balehasp_sided_checked

static Guarded answer_room, side_room;

/* What a call writes at `at`, if that is a place, done to the copy of the buffer in which it lies. */
static void model_give(const uint8_t *at, const void *result, size_t size)
{
    Guarded *room = at && answer_room.bytes <= at && at < answer_room.bytes + answer_room.size ? &answer_room : &side_room;
    if (at)
        memcpy(room->before + (at - room->bytes), result, size);
}

/* One call into these places. The header's function takes none for either, and a side's that lies in the answer's. */
static Sided one_sided(SidedCall *call, uint16_t f, uint16_t p, uint8_t *answer, uint8_t *side)
{
    bool known = 1 <= f && f <= FUNCTIONS;
    Sided wants = known ? model_sided(f, p) : (Sided){0, 0};
    int8_t number = wants.side < 0 ? BALEHASP_BELOW : wants.side > 0 ? BALEHASP_ABOVE : BALEHASP_ON;
    keep(&answer_room);
    keep(&side_room);
    if (known) {
        model_give(answer, &wants.answer, sizeof wants.answer);
        model_give(side, &number, sizeof number);
    }
    uint16_t said = call(f, p, (uint16_t *)(void *)answer, (int8_t *)side);
    expect(said == (known ? 0 : BALEHASP_REFUSED_FUNCTION), "the refusal of an answer with its side", f, p);
    expect_same(&answer_room, "an answer with its side, at the answer", f, p);
    expect_same(&side_room, "an answer with its side, at the side", f, p);
    return wants;
}

/* The entry and the header's function, each into places of its own. */
static Sided sided_apart(uint16_t f, uint16_t p)
{
    uint8_t *answer = place(&answer_room, sizeof(uint16_t), below(2)), *side = place(&side_room, sizeof(int8_t), below(2));
    one_sided(sided_entry, f, p, answer, side);
    answer = place(&answer_room, sizeof(uint16_t), below(2)), side = place(&side_room, sizeof(int8_t), below(2));
    return one_sided(balehasp_sided, f, p, answer, side);
}

enum { NO_ANSWER, NO_SIDE, NO_PLACE, ODD, OVERLAP, WAYS };

/* The header's function with a place left out, an answer at an odd address, or the side in one of the answer's bytes. */
static void sided_otherwise(uint16_t f, uint16_t p, unsigned ways[WAYS])
{
    bool at_end = below(2);
    uint8_t *answer = place(&answer_room, sizeof(uint16_t), at_end), *side = place(&side_room, sizeof(int8_t), below(2));
    unsigned way = (unsigned)below(WAYS);
    switch (way) {
    case NO_ANSWER: answer = NULL; break;
    case NO_SIDE: side = NULL; break;
    case NO_PLACE: answer = side = NULL; break;
    case ODD: answer += at_end ? -1 : 1; break;
    case OVERLAP: side = answer + below(sizeof(uint16_t)); break;
    }
    one_sided(balehasp_sided, f, p, answer, side);
    ways[way]++;
}

/* Cases with their outcome written out, so that what P4 and the header say of them holds of the model as well. */
static void sides_by_name(void)
{
    static const struct {
        uint16_t function, p, answer;
        int side;
    } cases[] = {
        /* on the kernel's fraction, and above the exact logarithm */
        {BALEHASP_LN, 0x2F0B, 0xC8D9, BALEHASP_ON},
        /* a kernel that gives 0 */
        {BALEHASP_LN, 0x4000, 0x0000, BALEHASP_ON},
        {BALEHASP_LOG2, 0x4000, 0x0000, BALEHASP_ON},
        {BALEHASP_ACOS_PI, 0x4000, 0x0000, BALEHASP_ON},
        /* named outright, or the argument itself */
        {BALEHASP_EXP, 0x7FFF, 0x7FFF, BALEHASP_ON},
        {BALEHASP_EXP, 0x8001, 0x0001, BALEHASP_ON},
        {BALEHASP_EXP, 0x0001, 0x4000, BALEHASP_ON},
        {BALEHASP_EXP2, 0xFFFF, 0x4000, BALEHASP_ON},
        {BALEHASP_ASIN_PI, 0x4001, 0x8000, BALEHASP_ON},
        {BALEHASP_ACOS_PI, 0x0001, 0x3000, BALEHASP_ON},
        {BALEHASP_ATAN_PI, 0x8000, 0x8000, BALEHASP_ON},
        /* -1, 0, NaR and 1 without P, and 1 rounded from P */
        {BALEHASP_SIN_PI, 0xD000, 0xC000, BALEHASP_ON},
        {BALEHASP_COS_PI, 0x3000, 0x0000, BALEHASP_ON},
        {BALEHASP_TAN_PI, 0xD000, 0x8000, BALEHASP_ON},
        {BALEHASP_TAN_PI, 0x2000, 0x4000, BALEHASP_ON},
        {BALEHASP_COS_PI, 0x0001, 0x4000, BALEHASP_ABOVE},
        /* 2^27 and 2^-27, and tiny numbers of both signs */
        {BALEHASP_EXP2, 0x72C0, 0x7FFE, BALEHASP_BELOW},
        {BALEHASP_EXP2, 0x8D40, 0x0002, BALEHASP_ABOVE},
        {BALEHASP_ATAN_PI, 0x0001, 0x0001, BALEHASP_ABOVE},
        {BALEHASP_ATAN_PI, 0xFFFF, 0xFFFF, BALEHASP_BELOW}};
    for (size_t i = 0; i < sizeof cases / sizeof *cases; i++) {
        Sided found = sided_apart(cases[i].function, cases[i].p);
        expect(found.answer == cases[i].answer && found.side == cases[i].side, "a side by name", cases[i].function, cases[i].p);
    }
}

static void sides(void)
{
    static const char *const names[FUNCTIONS + 1] = {
        [BALEHASP_EXP] = "exp", [BALEHASP_EXP2] = "exp2", [BALEHASP_LN] = "ln", [BALEHASP_LOG2] = "log2",
        [BALEHASP_SIN_PI] = "sin_pi", [BALEHASP_COS_PI] = "cos_pi", [BALEHASP_TAN_PI] = "tan_pi",
        [BALEHASP_ATAN_PI] = "atan_pi", [BALEHASP_ASIN_PI] = "asin_pi", [BALEHASP_ACOS_PI] = "acos_pi"};
    unsigned ways[WAYS] = {0}, tiny = 0, large = 0;
    answer_room = guarded(1);
    side_room = guarded(1);
    sides_by_name();
    for (uint16_t f = 1; f <= FUNCTIONS; f++) {
        unsigned lie[3] = {0, 0, 0}, outright = 0;
        for (unsigned p = 0; p < PATTERNS; p++) {
            Sided right = sided_apart(f, (uint16_t)p);
            expect(right.answer == answers[f - 1][p], "the model of the rows differs from the Rust", f, p);
            expect(right.answer == entries[f]((uint16_t)p), "an answer with its side differs from the one without", f, p);
            lie[right.side + 1]++;
            outright += model_row(f, (uint16_t)p).outright;
            tiny += (right.answer == 0x0001 && right.side > 0) || (right.answer == 0xFFFF && right.side < 0);
            large += (right.answer == 0x7FFF && right.side < 0) || (right.answer == 0x8001 && right.side > 0);
            sided_otherwise(f, (uint16_t)p, ways);
        }
        printf("%s: %u answers below the number that was rounded, %u on it, %u above it; of those on it %u given outright, %u rounded\n",
               names[f], lie[0], lie[1], lie[2], outright, lie[1] - outright);
    }
    for (unsigned f = 0; f < 65536; f++)
        if (f < 1 || f > FUNCTIONS) {
            sided_apart((uint16_t)f, (uint16_t)noise());
            sided_otherwise((uint16_t)f, (uint16_t)noise(), ways);
        }
    printf("of the numbers that were rounded %u lie nearer to zero than 2^-28, and %u farther from it than 2^28\n", tiny, large);
    puts("655360 answers with their sides, by the entry and by the header: all as the exact model's, the answers as the Rust's");
    puts("65526 unknown function numbers, by both: refused, neither place written");
    printf("all of these again without the answer's place, the side's, both, at an odd address, one in the other: "
           "%u, %u, %u, %u, %u\n", ways[NO_ANSWER], ways[NO_SIDE], ways[NO_PLACE], ways[ODD], ways[OVERLAP]);
}

#include "pieces.h"

static void read_answers(const char *path)
{
    FILE *file = fopen(path, "rb");
    if (!file)
        fail("cannot open the answers", 0, 0);
    for (int f = 0; f < FUNCTIONS; f++)
        for (int p = 0; p < PATTERNS; p++) {
            uint8_t two[2];
            expect(fread(two, 1, 2, file) == 2, "the answers are cut short", (uint64_t)f, (uint64_t)p);
            answers[f][p] = number_at(two, 0);
        }
    fclose(file);
}

int main(int words, char **word)
{
    if (words != 4) {
        fputs("usage: outside ANSWERS ROUNDS SEED\n", stderr);
        return 2;
    }
    setvbuf(stdout, NULL, _IOLBF, BUFSIZ); /* a run through an emulator takes its time and shows how far it is */
    rounds = (unsigned)strtoul(word[2], NULL, 10);
    state = strtoull(word[3], NULL, 0);
    printf("version %s, %u rounds, seed %" PRIu64 "\n", BALEHASP_VERSION, rounds, state);
    read_answers(word[1]);
    model_start();
    each_function();
    operations();
    turns();
    batches();
    listings();
    differences();
    reals();
    spans();
    sides();
    pieces();
    puts("outside: all passed");
    return 0;
}
