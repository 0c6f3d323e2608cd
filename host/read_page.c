/*
 * Reads one page: takes the kinds, q and the levels as arguments, and prints
 * the message or why the read was refused.
 *
 * Exit status: 0 read, 1 refused, 2 bad usage.
 */
#include "handset.h"

#include <errno.h>
#include <stdbool.h>
#include <stdio.h>
#include <stdlib.h>

static int usage(const char *program)
{
    fprintf(stderr,
            "usage: %s ALPHABET CODE Q LEVEL...\n"
            "  ALPHABET  0 residues, 1 binary field\n"
            "  CODE      0 Bare, 1 Plane\n"
            "  Q         the number of symbols\n"
            "  LEVEL...  the level of each cell, 0 to 255 (Q - 1 and less can be read)\n"
            "example: %s 0 1 3  1 2 0 2 1 1 0 0 0\n",
            program, program);
    return 2;
}

/* Takes a number in base ten, digits alone, that is at most `most`. */
static bool parse_number(const char *text, uint32_t most, uint32_t *number)
{
    char *end;
    unsigned long long value;

    if (text[0] < '0' || text[0] > '9')
        return false;
    errno = 0;
    value = strtoull(text, &end, 10);
    if (errno != 0 || *end != '\0' || value > most)
        return false;
    *number = (uint32_t)value;
    return true;
}

/* How long the message is that a page of n levels carries; 0 where there is no such page. */
static size_t message_length(uint32_t code, uint32_t q, size_t n)
{
    if (code == HANDSET_BARE && n >= 2 && n <= HANDSET_MOST_CELLS)
        return n - 1;
    if (code == HANDSET_PLANE && q >= 3 && q <= 16)
        return q * q - 4;
    return 0;
}

static const char *reason(uint32_t answer)
{
    switch (answer) {
    case HANDSET_BARE_LENGTH:
        return "a Bare page has 2 to 256 levels";
    case HANDSET_MESSAGE_LENGTH:
        return "the message buffer has another length than the message";
    case HANDSET_TOO_FAR:
        return "more cells are wrong than the code can correct";
    case HANDSET_NOT_A_LEVEL:
        return "a level is Q or more";
    case HANDSET_NOT_OFFERED:
        return "no such alphabet, code, Q or number of levels is offered";
    default:
        return "for a reason that this program does not know";
    }
}

int main(int argc, char **argv)
{
    uint32_t alphabet, code, q, answer;
    uint8_t message[HANDSET_MOST_SYMBOLS];
    uint8_t *levels;
    size_t n, length;

    if (argc < 4)
        return usage(argv[0]);
    if (!parse_number(argv[1], UINT32_MAX, &alphabet) || !parse_number(argv[2], UINT32_MAX, &code) ||
        !parse_number(argv[3], UINT32_MAX, &q)) {
        fprintf(stderr, "ALPHABET, CODE and Q are numbers from 0 to %lu\n", (unsigned long)UINT32_MAX);
        return usage(argv[0]);
    }

    n = (size_t)argc - 4;
    levels = malloc(n + 1);
    if (levels == NULL) {
        fprintf(stderr, "no memory for %zu levels\n", n);
        return 2;
    }
    for (size_t i = 0; i < n; i++) {
        uint32_t level;
        if (!parse_number(argv[4 + i], 255, &level)) {
            fprintf(stderr, "level %zu is no number from 0 to 255: %s\n", i, argv[4 + i]);
            free(levels);
            return usage(argv[0]);
        }
        levels[i] = (uint8_t)level;
    }

    length = message_length(code, q, n);
    answer = handset_read(alphabet, code, q, levels, n, message, length);
    free(levels);
    if (answer >= 100) {
        printf("refused %lu: %s\n", (unsigned long)answer - 100, reason(answer));
        return 1;
    }
    printf("corrected %lu\nmessage", (unsigned long)answer);
    for (size_t i = 0; i < length; i++)
        printf(" %u", message[i]);
    printf("\n");
    return 0;
}
