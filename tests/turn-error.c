/* How far the turn is from the exact one, for arms of four metres.
 *
 *   turn-error ROUNDS SEED
 *
 * Each round takes three angles, each as likely as any other in its range, and an arm of four metres in a direction that is as
 * likely as any other, rounds them to posits and turns. The distance in millimetres of what comes out is taken from the exact
 * turn of what the posits stand for, which is the turn's own error, and from that of the numbers before they were rounded.
 * The exact turns are worked out in doubles, whose error is some 10^-12 mm. */
#define _DEFAULT_SOURCE
#include <inttypes.h>
#include <math.h>
#include <stdio.h>
#include <stdlib.h>

#include "balehasp.h"

static uint64_t state;

/* from 0 up, below 1 */
static double noise(void)
{
    uint64_t z = state += 0x9E3779B97F4A7C15u;
    z = (z ^ (z >> 30)) * 0xBF58476D1CE4E5B9u;
    z = (z ^ (z >> 27)) * 0x94D049BB133111EBu;
    return ldexp((double)((z ^ (z >> 31)) >> 11), -53);
}

/* turns v from the axis i towards the axis k */
static void turn_in_plane(double *v, int i, int k, double half_turns)
{
    double s = sin(M_PI * half_turns), c = cos(M_PI * half_turns), a = v[i], b = v[k];
    v[i] = c * a - s * b;
    v[k] = s * a + c * b;
}

/* angles: heading, pitch, roll */
static void turn_exactly(const double *angles, double *arm)
{
    turn_in_plane(arm, 1, 2, angles[2]);
    turn_in_plane(arm, 2, 0, angles[1]);
    turn_in_plane(arm, 0, 1, angles[0]);
}

static double number(uint16_t p)
{
    double real = 0;
    if (!balehasp_to_f64(p, &real)) {
        fputs("turn-error: a part is NaR\n", stderr);
        exit(1);
    }
    return real;
}

typedef struct {
    double worst, sum;
} Error;

static void add(Error *e, const double *a, const double *b)
{
    double x = a[0] - b[0], y = a[1] - b[1], z = a[2] - b[2], mm = 1000 * sqrt(x * x + y * y + z * z);
    e->worst = mm > e->worst ? mm : e->worst;
    e->sum += mm;
}

static void measure(const char *name, unsigned rounds, double slope)
{
    Error own = {0, 0}, all = {0, 0};
    for (unsigned i = 0; i < rounds; i++) {
        double angles[3], arm[3], read_angles[3], read_arm[3], turned[3];
        uint16_t patterns[3], from[3], to[3];
        double up = 2 * noise() - 1, around = 2 * noise(), flat = sqrt(1 - up * up);
        arm[0] = 4 * flat * cos(M_PI * around);
        arm[1] = 4 * flat * sin(M_PI * around);
        arm[2] = 4 * up;
        for (int k = 0; k < 3; k++) {
            angles[k] = (k == 0 ? 1 : slope) * (2 * noise() - 1);
            read_angles[k] = number(patterns[k] = balehasp_from_f64(angles[k]));
            read_arm[k] = number(from[k] = balehasp_from_f64(arm[k]));
        }
        balehasp_turn(patterns[0], patterns[1], patterns[2], from, to);
        for (int k = 0; k < 3; k++)
            turned[k] = number(to[k]);
        turn_exactly(read_angles, read_arm);
        add(&own, turned, read_arm);
        turn_exactly(angles, arm);
        add(&all, turned, arm);
    }
    printf("| %s | %.1f | %.2f | %.1f | %.2f |\n", name, own.worst, own.sum / rounds, all.worst, all.sum / rounds);
}

int main(int words, char **word)
{
    if (words != 3) {
        fputs("usage: turn-error ROUNDS SEED\n", stderr);
        return 2;
    }
    unsigned rounds = (unsigned)strtoul(word[1], NULL, 10);
    state = strtoull(word[2], NULL, 10);
    measure("any", rounds, 1);
    measure("pitch and roll within 18 degrees", rounds, 0.1);
    return 0;
}
