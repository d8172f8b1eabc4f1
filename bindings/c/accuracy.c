/* Reads readings, one to a line, and shows after each how accurate the position is, in metres.
 *
 * A reading is the base-2 logarithm of the accuracy as a pattern: four hexadecimal digits and nothing else on the line, which
 * ends with a line feed, with a carriage return and a line feed, or with the input. Whatever else is on a line, if only a
 * blank or nothing at all, makes it a malformed reading. The number of a reading is its line's.
 *
 * After a reading that is malformed or answers NaR the display says since which reading the accuracy is unknown, and shows no
 * number until the next good one. bindings/rust/examples/accuracy.rs prints the same. */
#include <signal.h>
#include <stdio.h>
#include <stdlib.h>

#include "balehasp.h"

typedef unsigned long long Count;

/* What has come of a line so far: its digits, a carriage return that may belong to its end, and whether it can still be a
 * reading. No line is too long for it. */
typedef struct {
    bool begun, returned, malformed;
    int digits;
    uint16_t pattern;
} Line;

typedef struct {
    Count readings, good, malformed, nars;
    Count unknown_since; /* 0 while the accuracy is known */
} Display;

static void fail(const char *what)
{
    fprintf(stderr, "failed: %s\n", what);
    exit(1);
}

static int digit(int byte)
{
    if ('0' <= byte && byte <= '9')
        return byte - '0';
    if ('A' <= byte && byte <= 'F')
        return byte - 'A' + 10;
    if ('a' <= byte && byte <= 'f')
        return byte - 'a' + 10;
    return -1;
}

static void take(Line *line, int byte)
{
    int d = digit(byte);
    line->begun = true;
    if (line->returned || (byte != '\r' && (d < 0 || line->digits == 4))) {
        line->malformed = true;
    } else if (byte == '\r') {
        line->returned = true;
    } else {
        line->pattern = (uint16_t)(line->pattern << 4 | d);
        line->digits++;
    }
}

static void show(Display *display, const Line *line)
{
    double metres;
    display->readings++;
    printf("reading %llu: ", display->readings);
    if (line->malformed || line->digits < 4) {
        display->malformed++;
        printf("malformed, ");
    } else if (!balehasp_to_f64(balehasp_exp2(line->pattern), &metres)) {
        display->nars++;
        printf("NaR, ");
    } else {
        display->good++;
        display->unknown_since = 0;
        /* nine decimals, so that no accuracy shows as 0: the smallest answer is 2^-28 */
        printf("accuracy %.9f m\n", metres);
        return;
    }
    if (display->unknown_since == 0)
        display->unknown_since = display->readings;
    printf("accuracy unknown since reading %llu\n", display->unknown_since);
}

/* Whatever was printed is on its way before the next reading is waited for. */
static void flush(void)
{
    if (fflush(stdout) != 0 || ferror(stdout))
        fail("writing the display");
}

int main(void)
{
    signal(SIGPIPE, SIG_IGN); /* so that a display that went away is told as well */
    Display display = {0, 0, 0, 0, 0};
    Line line = {false, false, false, 0, 0};
    int byte;
    do {
        byte = getchar();
        if (byte != EOF && byte != '\n') {
            take(&line, byte);
        } else if (byte == '\n' || line.begun) {
            line.malformed |= ferror(stdin) != 0; /* who knows what was to come */
            show(&display, &line);
            flush();
            line = (Line){false, false, false, 0, 0};
        }
    } while (byte != EOF);
    if (ferror(stdin))
        fail("reading the readings");
    printf("%llu readings: %llu good, %llu malformed, %llu NaR\n", display.readings, display.good, display.malformed, display.nars);
    flush();
    return 0;
}
