/*
 * Sheets to try programs on: written line by line, or made by chance from the
 * fixed sequence of pages.h, so that each run tries the same sheets.
 */
#ifndef SHEETS_H
#define SHEETS_H

#include <stddef.h>
#include <stdint.h>

enum {
    SHEETS_LONGEST = 65536,     /* the most bytes of a sheet that is run */
    SHEETS_LONGEST_LINE = 1028, /* the most bytes of a line that is run */
    SHEETS_ROOM = 70000         /* some more, so that sheets can be too long */
};

/* What is written past its room is lost. */
struct sheet {
    size_t length;
    uint8_t bytes[SHEETS_ROOM];
};

/* What a card is made from, in the order of a CARD line. */
struct sheets_card {
    uint32_t alphabet;
    uint32_t code;
    uint32_t q;
    uint32_t n;
    uint32_t allowance;
    uint32_t pages;
};

/* Writes to the end of a sheet. A number has at most four digits. */
void sheets_byte(struct sheet *sheet, uint8_t byte);
void sheets_bytes(struct sheet *sheet, uint8_t byte, size_t count);
void sheets_text(struct sheet *sheet, const char *text);
void sheets_number(struct sheet *sheet, uint32_t number);
void sheets_line(struct sheet *sheet, const char *verb, const uint32_t *fields, size_t count);
void sheets_card_line(struct sheet *sheet, const struct sheets_card *card);

/* Writes a SAVE of a message that the card takes; equal variants give equal messages. */
void sheets_save_line(struct sheet *sheet, const struct sheets_card *card, uint32_t page, uint32_t variant);

/* Make a sheet by chance, over all alphabets and codes, at the end of an empty one. */
void sheets_life(struct sheet *sheet);         /* a card's life, with a number out of range now and then */
void sheets_damaged_life(struct sheet *sheet); /* such a life with some bytes changed, put in or left out */
void sheets_turns(struct sheet *sheet);        /* verbs in any order */
void sheets_forms(struct sheet *sheet);        /* ill-formed verbs, fields and counts */
void sheets_makers(struct sheet *sheet);       /* a CARD line of any numbers, then others */
void sheets_noise(struct sheet *sheet);        /* any bytes */

#endif
