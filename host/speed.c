/*
 * Times the proved reader and the plain one on pages of 256 cells of 16
 * symbols. The two take turns, round by round, on the same pages, and the best
 * round of each counts, since what else the machine does can only slow one down.
 *
 * Exit status: 0, or 1 if the two read different messages.
 */
#define _POSIX_C_SOURCE 200809L

#include "handset.h"
#include "pages.h"
#include "plain_reader.h"

#include <stdbool.h>
#include <stdio.h>
#include <time.h>

enum {
    SYMBOLS = 16,
    CELLS = 256,
    PAGES = 64,
    ROUNDS = 40,
    READS = 64 * PAGES /* in a round */
};

typedef uint32_t reader(uint32_t alphabet, uint32_t code, uint32_t q,
                        const uint8_t *levels, size_t levels_len,
                        uint8_t *message, size_t message_len);

struct trial {
    const char *name;
    uint32_t alphabet;
    uint32_t code;
    size_t damaged;
};

struct timing {
    double best;       /* nanoseconds for one read */
    uint32_t checksum; /* of all messages and answers */
};

static const struct trial trials[] = {
    {"Bare, residues of 16", HANDSET_RESIDUES, HANDSET_BARE, 0},
    {"Bare, binary field of 16", HANDSET_BINARY_FIELD, HANDSET_BARE, 0},
    {"Plane, binary field of 16, sound", HANDSET_BINARY_FIELD, HANDSET_PLANE, 0},
    {"Plane, binary field of 16, one damaged cell", HANDSET_BINARY_FIELD, HANDSET_PLANE, 1},
};

static uint8_t pages[PAGES][CELLS];

static size_t message_length(const struct trial *trial)
{
    return trial->code == HANDSET_BARE ? CELLS - 1 : CELLS - 4;
}

static void make_pages(const struct trial *trial)
{
    uint8_t message[HANDSET_MOST_SYMBOLS];

    for (size_t i = 0; i < PAGES; i++) {
        pages_message(SYMBOLS, message, message_length(trial));
        pages_write(trial->alphabet, trial->code, SYMBOLS, message, (uint8_t)pages_random(SYMBOLS), pages[i], CELLS);
        pages_damage(SYMBOLS, pages[i], CELLS, trial->damaged);
    }
}

static double now(void)
{
    struct timespec time;

    clock_gettime(CLOCK_MONOTONIC, &time);
    return (double)time.tv_sec * 1e9 + (double)time.tv_nsec;
}

/* Reads all pages over and over, and keeps the time if it is the best so far. */
static void run_round(reader *read, const struct trial *trial, struct timing *timing)
{
    uint8_t message[HANDSET_MOST_SYMBOLS];
    const size_t length = message_length(trial);
    const double began = now();
    double took;

    for (size_t i = 0; i < READS; i++) {
        const uint32_t answer = read(trial->alphabet, trial->code, SYMBOLS, pages[i % PAGES], CELLS, message, length);
        timing->checksum = timing->checksum * 31 + answer * 16 + message[i % length];
    }
    took = (now() - began) / READS;
    if (timing->best == 0 || took < timing->best)
        timing->best = took;
}

/* Whether both read every page alike, symbol by symbol. */
static bool is_alike(const struct trial *trial)
{
    const size_t length = message_length(trial);
    uint8_t proved[HANDSET_MOST_SYMBOLS], plain[HANDSET_MOST_SYMBOLS];

    for (size_t i = 0; i < PAGES; i++) {
        if (handset_read(trial->alphabet, trial->code, SYMBOLS, pages[i], CELLS, proved, length) != trial->damaged ||
            plain_read(trial->alphabet, trial->code, SYMBOLS, pages[i], CELLS, plain, length) != trial->damaged)
            return false;
        for (size_t j = 0; j < length; j++) {
            if (proved[j] != plain[j])
                return false;
        }
    }
    return true;
}

int main(void)
{
    bool is_well = true;

    for (size_t i = 0; i < sizeof trials / sizeof trials[0]; i++) {
        struct timing proved = {0, 0}, plain = {0, 0};

        make_pages(&trials[i]);
        for (int round = 0; round < ROUNDS; round++) {
            run_round(handset_read, &trials[i], &proved);
            run_round(plain_read, &trials[i], &plain);
        }
        printf("%-44s proved %7.1f ns, plain C %7.1f ns, proved / plain C %.2f\n", trials[i].name,
               proved.best, plain.best, proved.best / plain.best);
        if (proved.checksum != plain.checksum || !is_alike(&trials[i])) {
            printf("the two read different messages\n");
            is_well = false;
        }
    }
    return is_well ? 0 : 1;
}
