/* How many bytes of stack the calls need: each is made on a stack of its own that was filled with one byte, and the deepest
 * byte that changed is looked for. What a call that does nothing leaves there is taken off. */
#define _XOPEN_SOURCE 700
#include <stdio.h>
#include <string.h>
#include <ucontext.h>

#include "balehasp.h"

#define ROOM 65536
#define FILL 0xA5

static unsigned char stack[ROOM];
static ucontext_t here, there;
static uint16_t input[1024], output[1024];
static uint8_t listing[BALEHASP_LONGEST_LISTING], answered[BALEHASP_LONGEST_ANSWERED], state[BALEHASP_PIECES];
static volatile uint16_t sink;
static bool refused;

static void nothing(void) {}

static void functions(void)
{
    static uint16_t (*const entries[])(uint16_t) = {
        balehasp_exp, balehasp_exp2, balehasp_ln, balehasp_log2, balehasp_sin_pi,
        balehasp_cos_pi, balehasp_tan_pi, balehasp_atan_pi, balehasp_asin_pi, balehasp_acos_pi};
    for (int f = 0; f < 10; f++)
        for (unsigned p = 0; p < 65536; p++)
            sink = entries[f]((uint16_t)p);
}

static void operations(void)
{
    uint16_t arm[3] = {0x4321, 0x5432, 0xB111};
    for (unsigned p = 0; p < 65536; p++) {
        sink = balehasp_add((uint16_t)p, 0x4321);
        sink = balehasp_subtract((uint16_t)p, 0x4321);
        sink = balehasp_multiply((uint16_t)p, 0x4321);
        balehasp_turn((uint16_t)p, 0x2345, 0xD234, arm, arm);
    }
}

static void by_number(void)
{
    uint16_t answer;
    int8_t side;
    for (uint16_t f = 0; f <= 11; f++)
        for (unsigned p = 0; p < 65536; p++) {
            sink = balehasp_answer(f, (uint16_t)p, &answer);
            sink = balehasp_sided(f, (uint16_t)p, &answer, &side);
        }
}

static void batch(void)
{
    size_t next, nars;
    for (uint16_t f = 1; f <= 10; f++)
        refused |= balehasp_batch(f, input, 1024, output, 1024, 0, 1024, &next, &nars) != 0;
}

static void answer_listing(void)
{
    size_t written;
    refused |= balehasp_listing(listing, sizeof listing, answered, sizeof answered, &written) != 0;
}

static void in_pieces(void)
{
    size_t written;
    for (size_t at = 0; at < sizeof listing; at += 148)
        refused |= balehasp_piece(state, listing + at, 148) != 0;
    refused |= balehasp_end(state, answered, sizeof answered, &written) != 0;
}

static void reals(void)
{
    double lower, upper;
    uint8_t edges;
    for (unsigned p = 0; p < 65536; p++) {
        sink = balehasp_to_f64((uint16_t)p, &lower);
        sink = balehasp_span((uint16_t)p, &lower, &upper, &edges);
        sink = balehasp_from_f64(upper);
    }
}

static size_t used(void (*call)(void))
{
    memset(stack, FILL, ROOM);
    getcontext(&there);
    there.uc_stack.ss_sp = stack;
    there.uc_stack.ss_size = ROOM;
    there.uc_link = &here;
    makecontext(&there, call, 0);
    swapcontext(&here, &there);
    size_t untouched = 0;
    while (untouched < ROOM && stack[untouched] == FILL)
        untouched++;
    return ROOM - untouched;
}

int main(void)
{
    listing[0] = 10;
    for (int i = 1; i <= 10; i++)
        listing[2 * i] = (uint8_t)i;
    listing[23] = 1024 >> 8;
    for (int i = 0; i < 1024; i++) {
        input[i] = (uint16_t)(64 * i + 7);
        listing[24 + 2 * i] = (uint8_t)input[i];
        listing[25 + 2 * i] = (uint8_t)(input[i] >> 8);
    }
    size_t none = used(nothing);
    printf("stack, at most, with the caller's own frame: the ten functions %zu, the operations and the turn %zu, answer and sided %zu, "
           "batch %zu, listing %zu, pieces and end %zu, reals %zu bytes\n", used(functions) - none, used(operations) - none, used(by_number) - none,
           used(batch) - none, used(answer_listing) - none, used(in_pieces) - none, used(reals) - none);
    if (refused)
        fputs("stack: a batch or a listing was refused, so its bytes are not those of the work\n", stderr);
    return refused;
}
