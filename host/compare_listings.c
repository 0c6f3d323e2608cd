/*
 * Compares two programs that run sheets, the proved cardrun and the plain C
 * one, on many sheets: what they write, byte by byte, and that both end with
 * status 0.
 *
 * usage: compare_listings PROVED PLAIN FOLDER
 *
 * Sheets on which they differ are kept in FOLDER.
 *
 * Exit status: 0 they agree and each refusal of a sheet's run occurred, 1
 * otherwise.
 */
#define _POSIX_C_SOURCE 200809L

#include "pages.h"
#include "programs.h"
#include "sheets.h"

#include <stdbool.h>
#include <stdio.h>
#include <stdlib.h>
#include <string.h>
#include <sys/stat.h>
#include <unistd.h>

enum {
    ROUNDS = 500,
    MOVES_TO_A_SAVE = 8,
    KEPT_DIFFERENCES = 10,
    NUMBER_COLUMNS = 6, /* of a line's number in a listing */
    FIELD = 4,          /* columns of a field */
    LAST_OF_CARDS = 12, /* the refusals of cards are 1 to this, */
    FIRST_OF_SHEETS = 20,
    MOST_ANSWER = 26 /* and those of sheets and makers from there to this */
};

/* What a program wrote. */
struct listing {
    int status;
    size_t length;
    uint8_t *bytes;
};

static const char *proved_path, *plain_path, *folder;
static int sheet_file, listing_file;
static unsigned long sheets, lines, differences;
static unsigned long counts[MOST_ANSWER + 2]; /* of lines by their first field; the last: any other */

static struct listing run(const char *path)
{
    struct listing listing;
    struct stat file;

    programs_fill(listing_file, NULL, 0);
    listing.status = programs_run(path, sheet_file, listing_file);
    if (fstat(listing_file, &file) != 0)
        file.st_size = 0;
    listing.length = (size_t)file.st_size;
    listing.bytes = malloc(listing.length + 1);
    if (listing.bytes == NULL || pread(listing_file, listing.bytes, listing.length, 0) != file.st_size) {
        perror("a listing cannot be read");
        exit(EXIT_FAILURE);
    }
    return listing;
}

/* Counts the listing's lines by what they answer. */
static void count_lines(const struct listing *listing)
{
    const uint8_t *at = listing->bytes, *const end = at + listing->length;

    while (at < end) {
        const uint8_t *feed = memchr(at, '\n', (size_t)(end - at));
        char field[FIELD + 1] = "";
        unsigned long answer;

        if (feed == NULL || feed - at < NUMBER_COLUMNS + FIELD)
            feed = end;
        else
            memcpy(field, at + NUMBER_COLUMNS, FIELD);
        answer = field[0] == '\0' ? MOST_ANSWER + 1 : strtoul(field, NULL, 10);
        counts[answer <= MOST_ANSWER ? answer : MOST_ANSWER + 1]++;
        lines++;
        at = feed + 1;
    }
}

static void print_line(const char *name, const struct listing *listing, size_t begin)
{
    size_t length = 0;

    while (begin + length < listing->length && listing->bytes[begin + length] != '\n')
        length++;
    printf("  %s, status %d, %zu bytes: '%.*s'\n", name, listing->status, listing->length, (int)length,
           (const char *)listing->bytes + begin);
}

/* Prints the first line that differs, and keeps the sheet. */
static void note_difference(const struct sheet *sheet, const struct listing *proved, const struct listing *plain)
{
    char path[4096];
    FILE *kept;
    size_t begin = 0;

    differences++;
    if (differences > KEPT_DIFFERENCES)
        return;
    for (size_t i = 0; i < proved->length && i < plain->length && proved->bytes[i] == plain->bytes[i]; i++) {
        if (proved->bytes[i] == '\n')
            begin = i + 1;
    }
    snprintf(path, sizeof path, "%s/differing_%lu.sheet", folder, differences);
    printf("difference on sheet %lu, kept as %s\n", sheets, path);
    print_line("proved", proved, begin);
    print_line("plain", plain, begin);
    kept = fopen(path, "wb");
    if (kept == NULL || fwrite(sheet->bytes, 1, sheet->length, kept) != sheet->length || fclose(kept) != 0)
        perror(path);
}

static void compare(const struct sheet *sheet)
{
    struct listing proved, plain;

    programs_fill(sheet_file, sheet->bytes, sheet->length);
    proved = run(proved_path);
    plain = run(plain_path);
    sheets++;
    count_lines(&plain);
    if (proved.status != 0 || plain.status != 0 || proved.length != plain.length ||
        memcmp(proved.bytes, plain.bytes, plain.length) != 0)
        note_difference(sheet, &proved, &plain);
    free(proved.bytes);
    free(plain.bytes);
}

static void compare_by_chance(void)
{
    static void (*const makers[])(struct sheet *) = {
        sheets_life,  sheets_life,  sheets_life,   sheets_damaged_life, sheets_damaged_life,
        sheets_turns, sheets_forms, sheets_makers, sheets_noise,
    };
    static struct sheet sheet;

    for (size_t i = 0; i < ROUNDS * sizeof makers / sizeof makers[0]; i++) {
        sheet.length = 0;
        makers[i % (sizeof makers / sizeof makers[0])](&sheet);
        compare(&sheet);
    }
}

/* The empty sheet, and each sheet of one byte. */
static void compare_smallest(void)
{
    static struct sheet sheet;

    compare(&sheet);
    for (unsigned byte = 0; byte <= UINT8_MAX; byte++) {
        sheet.length = 0;
        sheets_byte(&sheet, (uint8_t)byte);
        compare(&sheet);
    }
}

/* A beginning, and then one byte over and over up to a length. */
static void compare_filled(const char *beginning, uint8_t byte, size_t length)
{
    static struct sheet sheet;

    sheet.length = 0;
    sheets_text(&sheet, beginning);
    if (sheet.length <= length) {
        sheets_bytes(&sheet, byte, length - sheet.length);
        compare(&sheet);
    }
}

/* Sheets about as long as can be, and longer. */
static void compare_sheet_lengths(void)
{
    static const char *const beginnings[] = {
        "", "CARD   0   0  16 256   0   1\n", "CARD   0   0  16 256   0   1\nOPEN\n",
    };
    static const size_t lengths[] = {SHEETS_LONGEST - 1, SHEETS_LONGEST, SHEETS_LONGEST + 1, SHEETS_ROOM};
    static const char bytes[] = {'\n', ' ', '\0', 'A', '\xff'};

    for (size_t i = 0; i < sizeof lengths / sizeof lengths[0]; i++) {
        for (size_t j = 0; j < sizeof beginnings / sizeof beginnings[0]; j++) {
            for (size_t k = 0; k < sizeof bytes; k++)
                compare_filled(beginnings[j], (uint8_t)bytes[k], lengths[i]);
        }
    }
}

/* First and second lines of all lengths, up to one field more than the longest. */
static void compare_line_lengths(void)
{
    static const char card[] = "CARD   0   0  16 256   0   1";
    static const char card_line[] = "CARD   0   0  16 256   0   1\n";

    for (size_t length = 0; length <= SHEETS_LONGEST_LINE + FIELD; length++) {
        if (length > 2 * strlen(card) && length < SHEETS_LONGEST_LINE - FIELD)
            continue; /* much the same as their neighbours */
        compare_filled("", ' ', length);
        compare_filled(card, ' ', length);
        compare_filled(card_line, ' ', strlen(card_line) + length);
    }
}

/* Saves of a whole page's message, up to a field and a byte too short or too long, ended and not. */
static void compare_longest_saves(void)
{
    static const struct sheets_card card = {0, 0, 16, 256, 0, 2};
    static struct sheet sheet;

    for (size_t length = SHEETS_LONGEST_LINE - FIELD - 1; length <= SHEETS_LONGEST_LINE + FIELD + 1; length++) {
        size_t begin;

        sheet.length = 0;
        sheets_card_line(&sheet, &card);
        sheets_text(&sheet, "OPEN\n");
        begin = sheet.length;
        sheets_save_line(&sheet, &card, 1, 1);
        sheet.length--; /* without its line feed, it is as long as a line can be */
        sheets_bytes(&sheet, '0', FIELD + 1);
        sheet.length = begin + length;
        compare(&sheet);
        sheets_text(&sheet, "\nREAD   1");
        compare(&sheet);
    }
}

/* Fills a sheet with saves, drift and reads up to the longest length, whatever line that cuts, and a byte further. */
static void compare_full(const struct sheets_card *card)
{
    static struct sheet sheet;
    uint32_t variant = 0;

    sheet.length = 0;
    sheets_card_line(&sheet, card);
    sheets_text(&sheet, "FLOR   0   1   1\nOPEN\n");
    while (sheet.length < SHEETS_LONGEST) {
        const uint32_t fields[] = {variant % card->pages, pages_random(card->n), pages_random(card->q)};

        if (variant % MOVES_TO_A_SAVE == 0)
            sheets_save_line(&sheet, card, fields[0], variant);
        sheets_line(&sheet, "MOVE", fields, 3);
        sheets_line(&sheet, "READ", fields, 1);
        variant++;
    }
    sheet.length = SHEETS_LONGEST;
    compare(&sheet);
    sheet.length = SHEETS_LONGEST + 1;
    compare(&sheet);
}

static void compare_all_full(void)
{
    static const struct sheets_card cards[] = {
        {0, 0, 2, 2, 0, 16}, {0, 0, 16, 256, 0, 16}, {1, 0, 16, 256, 0, 2},
        {0, 1, 3, 9, 1, 3},  {0, 1, 13, 169, 1, 2},  {1, 1, 16, 256, 1, 16},
    };

    for (size_t i = 0; i < sizeof cards / sizeof cards[0]; i++)
        compare_full(&cards[i]);
}

/* Prints how often each number was listed, and says whether each that a run can meet was. */
static bool print_counts(void)
{
    bool has_all = true;

    printf("lines by number:");
    for (int number = 0; number <= MOST_ANSWER; number++) {
        const bool is_met = number <= LAST_OF_CARDS || number >= FIRST_OF_SHEETS;

        if (is_met)
            printf(" %d: %lu%s", number, counts[number], number < MOST_ANSWER ? "," : "\n");
        if (is_met != (counts[number] > 0))
            has_all = false;
    }
    if (!has_all || counts[MOST_ANSWER + 1] > 0)
        printf("a number was never listed, or one that no run can meet\n");
    return has_all && counts[MOST_ANSWER + 1] == 0;
}

int main(int argc, char **argv)
{
    bool has_all;

    if (argc != 4) {
        fprintf(stderr, "usage: %s PROVED PLAIN FOLDER\n", argv[0]);
        return 1;
    }
    proved_path = argv[1];
    plain_path = argv[2];
    folder = argv[3];
    if (access(proved_path, X_OK) != 0 || access(plain_path, X_OK) != 0) {
        perror("a program cannot be run");
        return 1;
    }
    sheet_file = programs_file();
    listing_file = programs_file();
    compare_smallest();
    compare_sheet_lengths();
    compare_line_lengths();
    compare_longest_saves();
    compare_all_full();
    compare_by_chance();
    has_all = print_counts();
    printf("sheets compared: %lu, listing lines: %lu, differences: %lu\n", sheets, lines, differences);
    return differences == 0 && has_all ? 0 : 1;
}
