/* Sheets to try programs on. */
#include "sheets.h"

#include "handset.h"
#include "pages.h"

#include <stdbool.h>
#include <stdio.h>
#include <string.h>

enum {
    MOST_FLOORS = 12,
    MOST_CALLS = 30,
    MOST_LINES = 20,
    MOST_CHANGES = 8,
    MOST_NOISE = 100,
    MESSAGES = 3,        /* variants of a message, few enough for pages to have the same one */
    BEYOND_FIELD = 10000 /* the first number that has no field */
};

#define COUNT(array) (sizeof(array) / sizeof((array)[0]))

/* Whether something that happens once in so many times happens now. */
static bool is_once_in(uint32_t times)
{
    return pages_random(times) == 0;
}

void sheets_byte(struct sheet *sheet, uint8_t byte)
{
    if (sheet->length < SHEETS_ROOM)
        sheet->bytes[sheet->length++] = byte;
}

void sheets_bytes(struct sheet *sheet, uint8_t byte, size_t count)
{
    while (count-- > 0)
        sheets_byte(sheet, byte);
}

void sheets_text(struct sheet *sheet, const char *text)
{
    while (*text != '\0')
        sheets_byte(sheet, (uint8_t)*text++);
}

void sheets_number(struct sheet *sheet, uint32_t number)
{
    char columns[16];

    snprintf(columns, sizeof columns, "%4lu", (unsigned long)number);
    sheets_text(sheet, columns);
}

void sheets_line(struct sheet *sheet, const char *verb, const uint32_t *fields, size_t count)
{
    sheets_text(sheet, verb);
    for (size_t i = 0; i < count; i++)
        sheets_number(sheet, fields[i]);
    sheets_byte(sheet, '\n');
}

void sheets_card_line(struct sheet *sheet, const struct sheets_card *card)
{
    const uint32_t fields[] = {card->alphabet, card->code, card->q, card->n, card->allowance, card->pages};

    sheets_line(sheet, "CARD", fields, COUNT(fields));
}

static size_t message_length(const struct sheets_card *card)
{
    return card->code == HANDSET_BARE ? card->n - 1 : card->n - 4;
}

/* Fills a message's fields with one of few messages. */
static void fill_message(uint32_t *symbols, const struct sheets_card *card, uint32_t variant)
{
    for (uint32_t i = 0; i < message_length(card); i++)
        symbols[i] = (variant * (i + 1) + i / 3) % card->q;
}

void sheets_save_line(struct sheet *sheet, const struct sheets_card *card, uint32_t page, uint32_t variant)
{
    uint32_t fields[1 + HANDSET_MOST_SYMBOLS] = {page};

    fill_message(fields + 1, card, variant);
    sheets_line(sheet, "SAVE", fields, 1 + message_length(card));
}

/* Any card that can be made. */
static struct sheets_card any_card(void)
{
    static const uint32_t primes[] = {3, 5, 7, 11, 13};
    static const uint32_t powers[] = {4, 8, 16};
    static const uint32_t lengths[] = {2, 3, 4, 5, 6, 9, 255, 256};
    struct sheets_card card = {pages_random(2), pages_random(2), 0, 0, 0, 1 + pages_random(is_once_in(4) ? 16 : 3)};

    if (card.alphabet == HANDSET_BINARY_FIELD)
        card.q = powers[pages_random(COUNT(powers))];
    else if (card.code == HANDSET_PLANE)
        card.q = primes[is_once_in(2) ? 0 : pages_random(COUNT(primes))]; /* small pages more often */
    else
        card.q = 2 + pages_random(15);

    if (card.code == HANDSET_PLANE) {
        card.n = card.q * card.q;
        card.allowance = pages_random(2);
    } else {
        card.n = is_once_in(4) ? 2 + pages_random(255) : lengths[pages_random(COUNT(lengths))];
    }
    return card;
}

/* A number below the bound, but now and then another, or one that is below it only if it is cut to a byte. */
static uint32_t any_below(uint32_t bound)
{
    const uint32_t others[] = {bound, bound + 1, 255, 256, 256 + pages_random(bound), 9999, pages_random(BEYOND_FIELD)};

    return is_once_in(24) ? others[pages_random(COUNT(others))] : pages_random(bound);
}

/* A line of page, cell and floor or level. Low floors leave most saves granted. */
static void put_spot(struct sheet *sheet, const char *verb, const struct sheets_card *card, bool is_low)
{
    const uint32_t level = any_below(is_low && card->q > 2 ? 2 + pages_random(2) : card->q);
    const uint32_t fields[] = {any_below(card->pages), any_below(card->n), level};

    sheets_line(sheet, verb, fields, COUNT(fields));
}

/* A save, now and then with a symbol too few or too many, or one out of range. */
static void put_save(struct sheet *sheet, const struct sheets_card *card)
{
    uint32_t fields[1 + HANDSET_MOST_SYMBOLS + 1] = {any_below(card->pages)};
    size_t length = message_length(card);

    fill_message(fields + 1, card, pages_random(MESSAGES));
    if (is_once_in(4)) {
        for (size_t i = 1; i <= length; i++)
            fields[i] = pages_random(card->q);
    }
    if (is_once_in(16))
        fields[1 + pages_random((uint32_t)length)] = any_below(1 + pages_random(2 * card->q));
    if (is_once_in(16))
        length = is_once_in(2) ? length - 1 : length + 1;
    sheets_line(sheet, "SAVE", fields, 1 + length);
}

/* A line for a card in service. */
static void put_call(struct sheet *sheet, const struct sheets_card *card)
{
    const uint32_t pages[] = {any_below(card->pages), any_below(card->pages)};

    switch (pages_random(8)) {
    case 0:
    case 1:
        put_save(sheet, card);
        break;
    case 2:
    case 3:
        sheets_line(sheet, "READ", pages, 1);
        break;
    case 4:
        sheets_line(sheet, "SAME", pages, 2);
        break;
    case 5:
        put_spot(sheet, "WORN", card, true);
        break;
    default:
        put_spot(sheet, "MOVE", card, is_once_in(2));
    }
}

/* Takes the last line feed off, every other time. */
static void end_sheet(struct sheet *sheet)
{
    if (sheet->length > 0 && is_once_in(2))
        sheet->length--;
}

void sheets_life(struct sheet *sheet)
{
    const struct sheets_card card = any_card();

    sheets_card_line(sheet, &card);
    for (uint32_t left = pages_random(MOST_FLOORS); left > 0; left--)
        put_spot(sheet, "FLOR", &card, true);
    sheets_text(sheet, "OPEN\n");
    for (uint32_t left = pages_random(MOST_CALLS); left > 0; left--)
        put_call(sheet, &card);
    end_sheet(sheet);
}

/* A byte that a sheet's reader might take for another. */
static uint8_t any_byte(void)
{
    static const uint8_t odd[] = {0, 255, '\r', '\t', '\v', '\n', ' ', '0', '1', '9', '/', ':', '-', '+', 'A', 'a'};

    return is_once_in(4) ? (uint8_t)pages_random(256) : odd[pages_random(COUNT(odd))];
}

void sheets_damaged_life(struct sheet *sheet)
{
    sheets_life(sheet);
    for (uint32_t left = 1 + pages_random(MOST_CHANGES); left > 0 && sheet->length > 0; left--) {
        const size_t at = pages_random((uint32_t)sheet->length);
        uint8_t *const byte = sheet->bytes + at;

        switch (pages_random(4)) {
        case 0: /* left out */
            memmove(byte, byte + 1, sheet->length - at - 1);
            sheet->length--;
            break;
        case 1: /* put in */
            memmove(byte + 1, byte, sheet->length - at);
            sheet->length++;
            *byte = any_byte();
            break;
        default:
            *byte = any_byte();
        }
    }
}

void sheets_turns(struct sheet *sheet)
{
    const struct sheets_card card = any_card();

    if (!is_once_in(8))
        sheets_card_line(sheet, &card);
    for (uint32_t left = pages_random(MOST_LINES); left > 0; left--) {
        switch (pages_random(6)) {
        case 0:
            sheets_card_line(sheet, &card);
            break;
        case 1:
            sheets_text(sheet, "OPEN\n");
            break;
        case 2:
            put_spot(sheet, "FLOR", &card, false);
            break;
        default:
            put_call(sheet, &card);
        }
    }
    end_sheet(sheet);
}

/* A field of four columns, every fourth time one that shows no number. */
static void put_field(struct sheet *sheet)
{
    static const char *const ill[] = {
        "    ", "   a", "0   ", "1   ", "  00", "  01", " 000", "0000", "0001", " 1 1", "1 11", "  -1",
        "  +1", "\t\t\t1", "   \r", " 1.0", "  0x", "12 3", "   /", "   :", "  1 ", "11 1", "   \xff",
    };
    static const uint32_t widths[] = {10, 100, 1000, BEYOND_FIELD};

    if (is_once_in(4))
        sheets_text(sheet, ill[pages_random(COUNT(ill))]);
    else
        sheets_number(sheet, pages_random(widths[pages_random(COUNT(widths))]));
}

void sheets_forms(struct sheet *sheet)
{
    static const char *const verbs[] = {
        "CARD", "FLOR", "WORN", "MOVE", "OPEN", "READ", "SAME", "SAVE", "SAVE",
        "card", "CAR", "CARDS", " OPEN", "SAvE", "SHOW", "", "R", "MOV\xff", "FL0R",
    };
    const struct sheets_card card = any_card();

    sheets_card_line(sheet, &card);
    if (is_once_in(2))
        sheets_text(sheet, "OPEN\n");
    for (uint32_t left = 1 + pages_random(MOST_LINES); left > 0; left--) {
        sheets_text(sheet, verbs[pages_random(COUNT(verbs))]);
        for (uint32_t fields = pages_random(is_once_in(8) ? 300 : 8); fields > 0; fields--)
            put_field(sheet);
        if (is_once_in(6))
            sheets_bytes(sheet, any_byte(), 1 + pages_random(3));
        sheets_byte(sheet, '\n');
    }
    end_sheet(sheet);
}

void sheets_makers(struct sheet *sheet)
{
    static const uint32_t kinds[] = {0, 0, 0, 1, 1, 1, 2, 256, 9999};
    static const uint32_t sizes[] = {0, 1, 2, 3, 4, 5, 6, 7, 8, 9, 11, 12, 13, 15, 16, 17, 64, 256, 259, 9999};
    static const uint32_t lengths[] = {0, 1, 2, 3, 255, 256, 257, 258, 9999};
    static const uint32_t allowances[] = {0, 0, 0, 1, 2, 256, 9999};
    static const uint32_t pages[] = {0, 1, 1, 2, 15, 16, 17, 256, 257, 9999};
    struct sheets_card card = {
        kinds[pages_random(COUNT(kinds))], kinds[pages_random(COUNT(kinds))], sizes[pages_random(COUNT(sizes))],
        lengths[pages_random(COUNT(lengths))], allowances[pages_random(COUNT(allowances))],
        pages[pages_random(COUNT(pages))],
    };

    if (card.code == HANDSET_PLANE && card.q < 100 && !is_once_in(4))
        card.n = card.q * card.q;
    sheets_card_line(sheet, &card);
    sheets_text(sheet, "FLOR   0   0   1\nOPEN\nREAD   0\nSAVE   0   1\nREAD   0\nMOVE   0   1   0\nREAD   0");
}

void sheets_noise(struct sheet *sheet)
{
    for (uint32_t left = pages_random(MOST_NOISE); left > 0; left--)
        sheets_byte(sheet, is_once_in(3) ? any_byte() : (uint8_t)pages_random(256));
}
