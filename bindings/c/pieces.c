/* Answers a listing that comes in pieces, as a radio delivers it.
 *
 *   pieces [SIZE]
 *
 * Reads standard input, at most SIZE bytes at a time (1 to 4096, by default 16), hands on what has come, and at the end of the
 * input writes the answered listing to standard output. A listing that is refused gets FF FF and the refusal's number as two
 * bytes, low first, and its number and after how many bytes it came are told on standard error; what would come after that is
 * not waited for. bindings/rust/examples/pieces.rs does the same. */
#include <errno.h>
#include <signal.h>
#include <stdio.h>
#include <stdlib.h>
#include <unistd.h>

#include "balehasp.h"

static void fail(const char *what)
{
    fprintf(stderr, "failed: %s\n", what);
    exit(1);
}

static size_t size_of(int words, char **word)
{
    char *rest = NULL;
    long size = words < 2 ? 16 : '0' <= word[1][0] && word[1][0] <= '9' ? strtol(word[1], &rest, 10) : 0;
    if (words > 2 || (rest && *rest) || size < 1 || size > 4096)
        fail("the words: one at most, a number from 1 to 4096");
    return (size_t)size;
}

static void reply(const uint8_t *bytes, size_t length)
{
    if (fwrite(bytes, 1, length, stdout) != length || fflush(stdout) != 0)
        fail("writing the reply");
}

int main(int words, char **word)
{
    static uint8_t output[BALEHASP_LONGEST_ANSWERED];
    uint8_t state[BALEHASP_PIECES] = {0}, piece[4096];
    size_t size = size_of(words, word), came = 0, written = 0;
    uint16_t refusal = 0;
    signal(SIGPIPE, SIG_IGN); /* so that a reader who went away is told as well */
    while (refusal == 0) {
        ssize_t n = read(STDIN_FILENO, piece, size);
        if (n < 0 && errno == EINTR)
            continue;
        if (n < 0)
            fail("reading the listing");
        if (n == 0) {
            refusal = balehasp_end(state, output, sizeof output, &written);
            break;
        }
        came += (size_t)n;
        refusal = balehasp_piece(state, piece, (size_t)n);
    }
    if (refusal == 0) {
        reply(output, written);
    } else {
        const uint8_t refused[4] = {0xFF, 0xFF, (uint8_t)refusal, (uint8_t)(refusal >> 8)};
        fprintf(stderr, "refused: %u after %zu bytes\n", (unsigned)refusal, came);
        reply(refused, sizeof refused);
    }
    return 0;
}
