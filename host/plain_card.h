/*
 * A card in plain C, written from docs/RULES.md, on the plain codes. It is not
 * proved.
 */
#ifndef PLAIN_CARD_H
#define PLAIN_CARD_H

#include "handset.h"
#include "plain_code.h"

#include <stdbool.h>
#include <stddef.h>
#include <stdint.h>

enum { PLAIN_MOST_PAGES = 16 };

/* The number of what is no refusal. */
enum { PLAIN_GRANTED = 0 };

/* Why a call is refused, or PLAIN_GRANTED. */
struct plain_refusal {
    uint32_t number;
    uint32_t layer;
    uint32_t place;
};

/* What a card is made from. */
struct plain_order {
    uint32_t alphabet;
    uint32_t kind;
    uint32_t q;
    uint32_t n;
    uint32_t allowance;
    uint32_t pages;
};

struct plain_page {
    uint8_t floors[HANDSET_MOST_CELLS];
    uint8_t levels[HANDSET_MOST_CELLS];
    bool has_message;
};

struct plain_card {
    struct plain_code code;
    uint32_t allowance;
    uint32_t page_count;
    struct plain_page pages[PLAIN_MOST_PAGES];
};

/* One cell, and the floor or level that it shall have. */
struct plain_spot {
    uint32_t page;
    uint32_t cell;
    uint32_t level;
};

/* What a granted save answers. */
struct plain_saved {
    uint32_t mask;
    uint32_t forced;
};

/* Each call takes any numbers. A refused one leaves the card and what it answers into as they were. */
struct plain_refusal plain_make_card(struct plain_card *card, const struct plain_order *order);
struct plain_refusal plain_set_floor(struct plain_card *card, const struct plain_spot *spot);
struct plain_refusal plain_wear(struct plain_card *card, const struct plain_spot *spot);
struct plain_refusal plain_drift(struct plain_card *card, const struct plain_spot *spot);
struct plain_refusal plain_save(struct plain_card *card, uint32_t page, const uint32_t *symbols, size_t count,
                                struct plain_saved *saved);

/* The message has room for HANDSET_MOST_SYMBOLS. */
struct plain_refusal plain_read_page(const struct plain_card *card, uint32_t page, uint8_t *message,
                                     uint32_t *corrected);
struct plain_refusal plain_compare_pages(const struct plain_card *card, uint32_t first, uint32_t second,
                                         bool *is_same);

#endif
