/*
 * Times two programs that run sheets, the proved cardrun and the plain C one,
 * on sheets of about the longest length. Each run is a process of its own,
 * from its start to its end, that reads the sheet from a file and writes to
 * nowhere. The two take turns, and the best run of each counts. A sheet of one
 * refused line comes first: it shows what of a run is the start of a process,
 * and is taken off both times for the last ratio of the other rows.
 *
 * usage: speed_listings PROVED PLAIN
 *
 * Exit status: 0, or 1 if a program fails.
 */
#define _POSIX_C_SOURCE 200809L

#include "pages.h"
#include "programs.h"
#include "sheets.h"

#include <fcntl.h>
#include <stdbool.h>
#include <stdio.h>
#include <time.h>

enum { RUNS = 60 };

struct trial {
    const char *name;
    void (*make)(struct sheet *sheet);
};

static const struct sheets_card large = {1, 1, 16, 256, 1, 1};

/* Whether a line of so many bytes still fits. */
static bool has_room(const struct sheet *sheet, size_t bytes)
{
    return sheet->length + bytes <= SHEETS_LONGEST;
}

static void make_start(struct sheet *sheet)
{
    sheets_text(sheet, "OPEN\n");
}

static void make_reads(struct sheet *sheet)
{
    sheets_card_line(sheet, &large);
    sheets_text(sheet, "OPEN\n");
    sheets_save_line(sheet, &large, 0, 1);
    while (has_room(sheet, sizeof "READ   0\n"))
        sheets_text(sheet, "READ   0\n");
}

static void make_saves(struct sheet *sheet)
{
    sheets_card_line(sheet, &large);
    sheets_text(sheet, "FLOR   0   7   3\nFLOR   0  99  12\nOPEN\n");
    for (uint32_t variant = 0; has_room(sheet, SHEETS_LONGEST_LINE); variant++)
        sheets_save_line(sheet, &large, 0, variant);
}

/* Saves, reads and notes on the pages of one card. */
static void fill_small(struct sheet *sheet, const struct sheets_card *card)
{
    sheets_card_line(sheet, card);
    sheets_text(sheet, "FLOR   0   1   1\nOPEN\n");
    for (uint32_t variant = 0; has_room(sheet, SHEETS_LONGEST_LINE); variant++) {
        const uint32_t fields[] = {variant % card->pages, pages_random(card->n), pages_random(card->q)};

        sheets_save_line(sheet, card, fields[0], variant);
        sheets_line(sheet, "READ", fields, 1);
        sheets_line(sheet, "MOVE", fields, 3);
        sheets_line(sheet, "SAME", fields, 2);
    }
}

static void make_smallest(struct sheet *sheet)
{
    static const struct sheets_card card = {0, 0, 5, 2, 0, 8};

    fill_small(sheet, &card);
}

static void make_small(struct sheet *sheet)
{
    static const struct sheets_card card = {0, 1, 3, 9, 1, 8};

    fill_small(sheet, &card);
}

/* One of each refusal of a line's form, over and over. */
static void make_ill_formed(struct sheet *sheet)
{
    static const char lines[] = "READS   0\nSAVE   0   1  01   2\nSAME   0\nread   0\n\nMOVE   0   0\r\n";

    sheets_card_line(sheet, &large);
    while (has_room(sheet, sizeof lines))
        sheets_text(sheet, lines);
}

/* The first is the start. */
static const struct trial trials[] = {
    {"one refused line", make_start},
    {"reads of 256 cells of 16 symbols", make_reads},
    {"saves on 256 cells of 16 symbols", make_saves},
    {"calls on Bare pages of 2 cells", make_smallest},
    {"calls on Plane pages of 9 cells", make_small},
    {"ill-formed lines", make_ill_formed},
};

static double now(void)
{
    struct timespec time;

    clock_gettime(CLOCK_MONOTONIC, &time);
    return (double)time.tv_sec * 1e3 + (double)time.tv_nsec / 1e6;
}

/* Runs a program once, and keeps the milliseconds that it took if they are the best so far. */
static bool run_once(const char *path, int input, int output, double *best)
{
    const double began = now();
    const int status = programs_run(path, input, output);
    const double took = now() - began;

    if (*best == 0 || took < *best)
        *best = took;
    return status == 0;
}

/* The best milliseconds of the two programs on a sheet. */
struct timing {
    double proved;
    double plain;
};

static bool time_both(char *const *paths, int input, int output, struct timing *timing)
{
    for (int run = 0; run < RUNS; run++) {
        if (!run_once(paths[0], input, output, &timing->proved) || !run_once(paths[1], input, output, &timing->plain))
            return false;
    }
    return true;
}

static void print_row(const char *name, const struct timing *timing, const struct timing *start)
{
    printf("%-34s proved %7.3f ms, plain C %7.3f ms, proved / plain C %.2f", name, timing->proved, timing->plain,
           timing->proved / timing->plain);
    if (timing != start)
        printf(", without the start %.2f", (timing->proved - start->proved) / (timing->plain - start->plain));
    printf("\n");
}

int main(int argc, char **argv)
{
    static struct sheet sheet;
    struct timing timings[sizeof trials / sizeof trials[0]] = {{0, 0}};
    int input, output;

    if (argc != 3) {
        fprintf(stderr, "usage: %s PROVED PLAIN\n", argv[0]);
        return 1;
    }
    input = programs_file();
    output = open("/dev/null", O_WRONLY);
    for (size_t i = 0; i < sizeof trials / sizeof trials[0]; i++) {
        sheet.length = 0;
        trials[i].make(&sheet);
        programs_fill(input, sheet.bytes, sheet.length);
        if (!time_both(argv + 1, input, output, &timings[i])) {
            printf("%s: a program fails\n", trials[i].name);
            return 1;
        }
        print_row(trials[i].name, &timings[i], &timings[0]);
    }
    return 0;
}
