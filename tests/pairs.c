/* Every pair of patterns: the compiled sums, differences and products against the exact ones, in whole numbers.
 *
 *   pairs THREADS
 *
 * For each first pattern the second goes through all numbers in the order in which the exact result grows, so the posit that
 * the rounding rule picks only ever goes up: it is stepped up past each dividing number that the result passes. tests/model.h
 * has the numbers; nothing here is the library's but the calls that are tested. */
#include <inttypes.h>
#include <pthread.h>
#include <stdio.h>
#include <stdlib.h>

#include "balehasp.h"
#include "model.h"

#define REALS 65535 /* all patterns but NaR, as -32767 to 32767 in the order of their numbers */
#define LAST 32767

typedef struct {
    unsigned first;                          /* the least of the thread's first patterns */
    uint64_t pairs, nars, zeros, ties, ends; /* how many of the model's answers are so */
} Share;

typedef struct {
    const char *name;
    uint16_t (*entry)(uint16_t, uint16_t);
    int shift; /* of the dividing numbers, which are whole numbers of 2^-30: so many bits more has the exact result */
    bool multiplies, subtracts;
} Operation;

static unsigned threads;
static Operation operation;
static int64_t units[REALS];   /* of the number i - 32767 */
static Wide passes[REALS + 1]; /* what a result has to reach for the number i - 32767 */

static void fail(uint16_t a, uint16_t b, uint16_t says, uint16_t wants)
{
    fprintf(stderr, "pairs: %s of 0x%04X and 0x%04X is 0x%04X and not 0x%04X\n", operation.name, a, b, says, wants);
    exit(1);
}

/* Whether x reaches the number i: past the dividing number below it, or on it where i is even. */
static bool reaches(Wide x, int i)
{
    Wide least = passes[i + LAST];
    return x > least || (x == least && i % 2 == 0);
}

static void one_row(int a, Share *share)
{
    uint16_t first = (uint16_t)a;
    Wide number = units[a + LAST];
    bool falls = operation.subtracts || (operation.multiplies && a < 0);
    int answer = -LAST;
    for (int k = -LAST; k <= LAST; k++) {
        int b = falls ? -k : k;
        Wide other = units[b + LAST];
        Wide x = operation.multiplies ? number * other : 4 * (operation.subtracts ? number - other : number + other);
        while (answer < LAST && reaches(x, answer + 1))
            answer++;
        uint16_t says = operation.entry(first, (uint16_t)b);
        if (says != (uint16_t)answer)
            fail(first, (uint16_t)b, says, (uint16_t)answer);
        share->zeros += answer == 0;
        share->ends += answer == LAST || answer == -LAST;
        share->ties += x != 0 && (x == passes[answer + LAST] || x == passes[answer + LAST + 1]);
    }
    share->pairs += REALS;
}

static void *work(void *place)
{
    Share *share = place;
    for (unsigned p = share->first; p < 65536; p += threads) {
        if (p == MODEL_NAR)
            continue;
        uint16_t says = operation.entry((uint16_t)p, MODEL_NAR), too = operation.entry(MODEL_NAR, (uint16_t)p);
        if (says != MODEL_NAR)
            fail((uint16_t)p, MODEL_NAR, says, MODEL_NAR);
        if (too != MODEL_NAR)
            fail(MODEL_NAR, (uint16_t)p, too, MODEL_NAR);
        share->pairs += 2;
        share->nars += 2;
        one_row(p < MODEL_NAR ? (int)p : (int)p - 65536, share);
    }
    return NULL;
}

static void every_pair(Operation o)
{
    Share all = {0, 1, 1, 0, 0, 0}, *shares = calloc(threads, sizeof *shares);
    pthread_t *started = calloc(threads, sizeof *started);
    if (!shares || !started)
        exit(1);
    operation = o;
    for (int i = -LAST + 1; i <= LAST; i++) { /* the dividing number below i; 0 itself divides it from 1 and from -1 */
        Wide least = i >= 2 ? model_dividing[i - 1] : i <= -1 ? -model_dividing[-i] : 0;
        passes[i + LAST] = least * ((Wide)1 << o.shift);
    }
    for (unsigned t = 0; t < threads; t++) {
        shares[t].first = t;
        if (pthread_create(&started[t], NULL, work, &shares[t]) != 0)
            exit(1);
    }
    if (o.entry(MODEL_NAR, MODEL_NAR) != MODEL_NAR)
        fail(MODEL_NAR, MODEL_NAR, o.entry(MODEL_NAR, MODEL_NAR), MODEL_NAR);
    for (unsigned t = 0; t < threads; t++) {
        pthread_join(started[t], NULL);
        all.pairs += shares[t].pairs;
        all.nars += shares[t].nars;
        all.zeros += shares[t].zeros;
        all.ties += shares[t].ties;
        all.ends += shares[t].ends;
    }
    printf("%" PRIu64 " %ss as the exact model's: %" PRIu64 " NaR, %" PRIu64 " zero, %" PRIu64 " on a dividing number, %" PRIu64
           " at the largest or minus that\n", all.pairs, o.name, all.nars, all.zeros, all.ties, all.ends);
    free(shares);
    free(started);
}

int main(int words, char **word)
{
    threads = words == 2 ? (unsigned)strtoul(word[1], NULL, 10) : 0;
    if (threads == 0) {
        fputs("usage: pairs THREADS\n", stderr);
        return 2;
    }
    setvbuf(stdout, NULL, _IOLBF, BUFSIZ);
    model_start();
    for (int i = -LAST; i <= LAST; i++)
        units[i + LAST] = model_units((uint16_t)i);
    for (unsigned p = 0; p < 65536; p++)
        if (p == MODEL_NAR ? balehasp_negate(MODEL_NAR) != MODEL_NAR
                           : model_units(balehasp_negate((uint16_t)p)) != -model_units((uint16_t)p)) {
            fprintf(stderr, "pairs: minus 0x%04X is not 0x%04X\n", p, balehasp_negate((uint16_t)p));
            return 1;
        }
    puts("65536 patterns negated as the model's");
    every_pair((Operation){"sum", balehasp_add, 0, false, false});
    every_pair((Operation){"difference", balehasp_subtract, 0, false, true});
    every_pair((Operation){"product", balehasp_multiply, 26, true, false});
    puts("pairs: all passed");
    return 0;
}
