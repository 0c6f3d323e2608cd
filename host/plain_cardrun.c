/*
 * Runs a sheet: reads it from standard input and writes its listing to
 * standard output, as docs/RULES.md says. It is not proved: the proved program
 * cardrun is compared with it, in what it writes and in speed.
 *
 * Exit status: 0, or 1 if the sheet cannot be read or the listing not written.
 */
#define _POSIX_C_SOURCE 200809L

#include "plain_card.h"

#include <errno.h>
#include <stdio.h>
#include <stdlib.h>
#include <string.h>
#include <unistd.h>

enum {
    LONGEST_SHEET = 65536,
    LONGEST_LINE = 1028,
    VERB = 4,  /* columns of a verb */
    FIELD = 4, /* columns of a field */
    MOST_FIELDS = (LONGEST_LINE - VERB) / FIELD,
    NUMBER_COLUMNS = 6, /* of a line's number in the listing */
    LONGEST_LISTING_LINE = NUMBER_COLUMNS + FIELD * (2 + HANDSET_MOST_SYMBOLS) + 1
};

/* The numbers of a sheet's refusals, and their layer. */
enum {
    UNKNOWN_VERB = 20,
    ILL_FORMED_FIELD = 21,
    FIELD_COUNT = 22,
    OUT_OF_TURN = 23,
    LINE_LENGTH = 25,
    SHEET_LENGTH = 26,
    SHEET_LAYER = 3
};

enum verb { CARD, FLOR, WORN, MOVE, OPEN, READ, SAME, SAVE, VERBS };

/* The names of the verbs, and how many fields follow each. A SAVE may have more. */
static const struct {
    char name[VERB + 1];
    size_t fields;
} verbs[VERBS] = {
    [CARD] = {"CARD", 6}, [FLOR] = {"FLOR", 3}, [WORN] = {"WORN", 3}, [MOVE] = {"MOVE", 3},
    [OPEN] = {"OPEN", 0}, [READ] = {"READ", 1}, [SAME] = {"SAME", 2}, [SAVE] = {"SAVE", 1},
};

/* A parsed line. */
struct line {
    enum verb verb;
    size_t count;
    uint32_t fields[MOST_FIELDS];
};

/* A sheet's run: the card as it stands, and the listing up to here, which has room for all that comes. */
struct run {
    enum { NO_CARD, AT_BENCH, IN_SERVICE } stage;
    struct plain_card card;
    uint8_t *listing;
    size_t length;
};

static const struct plain_refusal granted = {PLAIN_GRANTED, 0, 0};

static struct plain_refusal refuse(uint32_t number, size_t place)
{
    return (struct plain_refusal){number, SHEET_LAYER, (uint32_t)place};
}

/* Writes a number right-justified. It has no more digits than columns. */
static inline void put_number(struct run *run, uint32_t number, size_t columns)
{
    uint8_t *const begin = run->listing + run->length;
    uint8_t *at = begin + columns - 1;

    memset(begin, ' ', columns);
    *at = (uint8_t)('0' + number % 10);
    for (number /= 10; number != 0; number /= 10)
        *--at = (uint8_t)('0' + number % 10);
    run->length += columns;
}

static void put_field(struct run *run, uint32_t number)
{
    put_number(run, number, FIELD);
}

/* What a granted line begins with. */
static void put_granted(struct run *run)
{
    put_field(run, PLAIN_GRANTED);
}

static void put_refusal(struct run *run, struct plain_refusal refusal)
{
    put_field(run, refusal.number);
    put_field(run, refusal.layer);
    put_field(run, refusal.place);
}

static void end_line(struct run *run)
{
    run->listing[run->length++] = '\n';
}

static bool parse_verb(const uint8_t *bytes, size_t length, enum verb *verb)
{
    if (length < VERB)
        return false;
    for (int i = 0; i < VERBS; i++) {
        if (memcmp(bytes, verbs[i].name, VERB) == 0) {
            *verb = (enum verb)i;
            return true;
        }
    }
    return false;
}

/* Takes the number that four columns show. */
static bool parse_field(const uint8_t *columns, uint32_t *number)
{
    size_t i = 0;
    uint32_t value = 0;

    while (i < FIELD - 1 && columns[i] == ' ')
        i++;
    if (columns[i] == '0' && i < FIELD - 1)
        return false; /* a leading zero */
    for (; i < FIELD; i++) {
        if (columns[i] < '0' || columns[i] > '9')
            return false;
        value = 10 * value + (columns[i] - (uint32_t)'0');
    }
    *number = value;
    return true;
}

static bool is_right_count(enum verb verb, size_t count)
{
    return verb == SAVE ? count >= verbs[SAVE].fields : count == verbs[verb].fields;
}

static struct plain_refusal parse_line(const uint8_t *bytes, size_t length, struct line *line)
{
    if (length > LONGEST_LINE)
        return refuse(LINE_LENGTH, LONGEST_LINE + 1);
    if (!parse_verb(bytes, length, &line->verb))
        return refuse(UNKNOWN_VERB, 1);
    line->count = (length - VERB) / FIELD;
    if ((length - VERB) % FIELD != 0 || !is_right_count(line->verb, line->count))
        return refuse(FIELD_COUNT, length);
    for (size_t i = 0; i < line->count; i++) {
        const size_t column = VERB + FIELD * i;
        if (!parse_field(bytes + column, &line->fields[i]))
            return refuse(ILL_FORMED_FIELD, column + 1);
    }
    return granted;
}

static struct plain_refusal check_turn(const struct run *run, enum verb verb)
{
    bool is_in_turn;

    if (verb == CARD)
        is_in_turn = run->stage == NO_CARD;
    else if (verb == FLOR || verb == OPEN)
        is_in_turn = run->stage == AT_BENCH;
    else
        is_in_turn = run->stage == IN_SERVICE;
    return is_in_turn ? granted : refuse(OUT_OF_TURN, 1);
}

static struct plain_refusal make_card(struct run *run, const uint32_t *fields)
{
    const struct plain_order order = {fields[0], fields[1], fields[2], fields[3], fields[4], fields[5]};
    const struct plain_refusal refusal = plain_make_card(&run->card, &order);

    if (refusal.number == PLAIN_GRANTED) {
        run->stage = AT_BENCH;
        put_granted(run);
    }
    return refusal;
}

static struct plain_refusal set_spot(struct run *run, enum verb verb, const uint32_t *fields)
{
    const struct plain_spot spot = {fields[0], fields[1], fields[2]};
    struct plain_refusal refusal;

    if (verb == FLOR)
        refusal = plain_set_floor(&run->card, &spot);
    else if (verb == WORN)
        refusal = plain_wear(&run->card, &spot);
    else
        refusal = plain_drift(&run->card, &spot);
    if (refusal.number == PLAIN_GRANTED)
        put_granted(run);
    return refusal;
}

static struct plain_refusal read_page(struct run *run, const uint32_t *fields)
{
    uint8_t message[HANDSET_MOST_SYMBOLS];
    const size_t length = plain_message_length(&run->card.code);
    uint32_t corrected;
    const struct plain_refusal refusal = plain_read_page(&run->card, fields[0], message, &corrected);

    if (refusal.number != PLAIN_GRANTED)
        return refusal;
    put_granted(run);
    put_field(run, corrected);
    for (size_t i = 0; i < length; i++)
        put_field(run, message[i]);
    return granted;
}

static struct plain_refusal compare_pages(struct run *run, const uint32_t *fields)
{
    bool is_same;
    const struct plain_refusal refusal = plain_compare_pages(&run->card, fields[0], fields[1], &is_same);

    if (refusal.number == PLAIN_GRANTED) {
        put_granted(run);
        put_field(run, is_same);
    }
    return refusal;
}

static struct plain_refusal save_message(struct run *run, const struct line *line)
{
    struct plain_saved saved;
    const struct plain_refusal refusal =
        plain_save(&run->card, line->fields[0], line->fields + 1, line->count - 1, &saved);

    if (refusal.number == PLAIN_GRANTED) {
        put_granted(run);
        put_field(run, saved.mask);
        put_field(run, saved.forced);
    }
    return refusal;
}

/* Makes a line's call; what it answers is put into the listing if it is granted. */
static struct plain_refusal call(struct run *run, const struct line *line)
{
    switch (line->verb) {
    case CARD:
        return make_card(run, line->fields);
    case OPEN:
        run->stage = IN_SERVICE;
        put_granted(run);
        return granted;
    case READ:
        return read_page(run, line->fields);
    case SAME:
        return compare_pages(run, line->fields);
    case SAVE:
        return save_message(run, line);
    default:
        return set_spot(run, line->verb, line->fields);
    }
}

static void run_line(struct run *run, const uint8_t *bytes, size_t length)
{
    struct line line;
    struct plain_refusal refusal = parse_line(bytes, length, &line);

    if (refusal.number == PLAIN_GRANTED)
        refusal = check_turn(run, line.verb);
    if (refusal.number == PLAIN_GRANTED)
        refusal = call(run, &line);
    if (refusal.number != PLAIN_GRANTED)
        put_refusal(run, refusal);
}

/* The bytes before the next line feed, or all if there is none. */
static size_t line_length(const uint8_t *bytes, size_t length)
{
    const uint8_t *feed = memchr(bytes, '\n', length);

    return feed == NULL ? length : (size_t)(feed - bytes);
}

static size_t count_lines(const uint8_t *sheet, size_t length)
{
    size_t count = 0;

    for (size_t at = 0; at < length; at += line_length(sheet + at, length - at) + 1)
        count++;
    return count;
}

/* Runs the lines of a sheet. Without a card there is nothing to run the lines after the first on. */
static void run_sheet(struct run *run, const uint8_t *sheet, size_t length)
{
    uint32_t number = 0;

    if (length == 0 || length > LONGEST_SHEET) {
        put_number(run, number, NUMBER_COLUMNS);
        put_refusal(run, refuse(SHEET_LENGTH, 0));
        end_line(run);
        return;
    }
    for (size_t at = 0, bytes; at < length; at += bytes + 1) {
        bytes = line_length(sheet + at, length - at);
        put_number(run, ++number, NUMBER_COLUMNS);
        run_line(run, sheet + at, bytes);
        end_line(run);
        if (run->stage == NO_CARD)
            return;
    }
}

/* Reads up to so many bytes. */
static bool read_all(uint8_t *bytes, size_t most, size_t *length)
{
    *length = 0;
    while (*length < most) {
        const ssize_t got = read(STDIN_FILENO, bytes + *length, most - *length);
        if (got == 0)
            return true;
        if (got > 0)
            *length += (size_t)got;
        else if (errno != EINTR)
            return false;
    }
    return true;
}

static bool write_all(const uint8_t *bytes, size_t length)
{
    while (length > 0) {
        const ssize_t put = write(STDOUT_FILENO, bytes, length);
        if (put >= 0) {
            bytes += put;
            length -= (size_t)put;
        } else if (errno != EINTR) {
            return false;
        }
    }
    return true;
}

int main(void)
{
    static uint8_t sheet[LONGEST_SHEET + 1]; /* one byte more tells a sheet that is too long */
    static struct run run;
    size_t length;

    if (!read_all(sheet, sizeof sheet, &length)) {
        perror("the sheet cannot be read");
        return 1;
    }
    /* one line more than the sheet has: a sheet that is refused has a listing line too */
    run.listing = malloc((count_lines(sheet, length) + 1) * LONGEST_LISTING_LINE);
    if (run.listing == NULL) {
        perror("no room for the listing");
        return 1;
    }
    run_sheet(&run, sheet, length);
    if (!write_all(run.listing, run.length)) {
        perror("the listing cannot be written");
        return 1;
    }
    free(run.listing);
    return 0;
}
