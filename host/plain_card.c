/* A card in plain C, written from docs/RULES.md. */
#include "plain_card.h"

#include <string.h>

enum { CODE_LAYER = 1, CARD_LAYER = 2, LARGEST_ALPHABET = 16 };

/* The numbers of the refusals. */
enum {
    PAGE_COUNT = 1,
    ALLOWANCE = 2,
    BARE_LENGTH = 3,
    NO_PAGE = 4,
    NO_CELL = 5,
    NO_LEVEL = 6,
    MESSAGE_LENGTH = 7,
    NO_SYMBOL = 8,
    NO_MASK = 9,
    BLANK = 10,
    TOO_FAR = 11,
    BELOW_FLOOR = 12,
    NOT_OFFERED = 24
};

static const struct plain_refusal granted = {PLAIN_GRANTED, 0, 0};

static struct plain_refusal refuse(uint32_t number, uint32_t place)
{
    return (struct plain_refusal){number, CARD_LAYER, place};
}

static struct plain_refusal refuse_by_code(uint32_t number, uint32_t place)
{
    return (struct plain_refusal){number, CODE_LAYER, place};
}

struct plain_refusal plain_make_card(struct plain_card *card, const struct plain_order *order)
{
    const struct plain_code code = {order->alphabet, order->kind, order->q, order->n};
    const uint32_t not_offered = plain_not_offered(order->alphabet, order->kind, order->q, order->n);

    if (not_offered != 0)
        return refuse_by_code(NOT_OFFERED, not_offered);
    if (plain_is_bad_length(order->kind, order->n))
        return refuse_by_code(BARE_LENGTH, order->n);
    if (order->pages < 1 || order->pages > PLAIN_MOST_PAGES)
        return refuse(PAGE_COUNT, order->pages);
    if (order->allowance > plain_radius(&code))
        return refuse(ALLOWANCE, order->allowance);

    memset(card, 0, sizeof *card);
    card->code = code;
    card->allowance = order->allowance;
    card->page_count = order->pages;
    return granted;
}

static struct plain_refusal check_spot(const struct plain_card *card, const struct plain_spot *spot)
{
    if (spot->page >= card->page_count)
        return refuse(NO_PAGE, spot->page);
    if (spot->cell >= card->code.n)
        return refuse(NO_CELL, spot->cell);
    if (spot->level >= card->code.q)
        return refuse(NO_LEVEL, spot->level);
    return granted;
}

struct plain_refusal plain_set_floor(struct plain_card *card, const struct plain_spot *spot)
{
    const struct plain_refusal refusal = check_spot(card, spot);

    if (refusal.number == PLAIN_GRANTED) {
        card->pages[spot->page].floors[spot->cell] = (uint8_t)spot->level;
        card->pages[spot->page].levels[spot->cell] = (uint8_t)spot->level;
    }
    return refusal;
}

static void raise(uint8_t *level, uint32_t floor)
{
    if (*level < floor)
        *level = (uint8_t)floor;
}

struct plain_refusal plain_wear(struct plain_card *card, const struct plain_spot *spot)
{
    const struct plain_refusal refusal = check_spot(card, spot);

    if (refusal.number == PLAIN_GRANTED) {
        raise(&card->pages[spot->page].floors[spot->cell], spot->level);
        raise(&card->pages[spot->page].levels[spot->cell], spot->level);
    }
    return refusal;
}

struct plain_refusal plain_drift(struct plain_card *card, const struct plain_spot *spot)
{
    const struct plain_refusal refusal = check_spot(card, spot);

    if (refusal.number != PLAIN_GRANTED)
        return refusal;
    if (spot->level < card->pages[spot->page].floors[spot->cell])
        return refuse(BELOW_FLOOR, spot->cell);
    card->pages[spot->page].levels[spot->cell] = (uint8_t)spot->level;
    return granted;
}

/* The lowest of the masks that leave the fewest cells below their floors, and how many those are. */
static struct plain_saved search_mask(const struct plain_code *code, const uint8_t *word, const uint8_t *floors)
{
    uint32_t unmet[LARGEST_ALPHABET] = {0};
    uint32_t best = 0;

    for (size_t cell = 0; cell < code->n; cell++) {
        if (floors[cell] == 0)
            continue;
        for (uint32_t mask = 0; mask < code->q; mask++)
            unmet[mask] += plain_sum(code, word[cell], mask) < floors[cell];
    }
    for (uint32_t mask = 1; mask < code->q; mask++) {
        if (unmet[mask] < unmet[best])
            best = mask;
    }
    return (struct plain_saved){best, unmet[best]};
}

/* Takes a message of symbols below q, in bytes. */
static struct plain_refusal take_message(const struct plain_code *code, const uint32_t *symbols, size_t count,
                                         uint8_t *message)
{
    if (count != plain_message_length(code))
        return refuse(MESSAGE_LENGTH, (uint32_t)count);
    for (size_t i = 0; i < count; i++) {
        if (symbols[i] >= code->q)
            return refuse(NO_SYMBOL, (uint32_t)i);
        message[i] = (uint8_t)symbols[i];
    }
    return granted;
}

struct plain_refusal plain_save(struct plain_card *card, uint32_t page, const uint32_t *symbols, size_t count,
                                struct plain_saved *saved)
{
    const struct plain_code *code = &card->code;
    uint8_t message[HANDSET_MOST_SYMBOLS], word[HANDSET_MOST_CELLS];
    struct plain_refusal refusal;
    struct plain_saved found;
    struct plain_page *target;

    if (page >= card->page_count)
        return refuse(NO_PAGE, page);
    refusal = take_message(code, symbols, count, message);
    if (refusal.number != PLAIN_GRANTED)
        return refusal;

    target = &card->pages[page];
    plain_place(code, message, word);
    found = search_mask(code, word, target->floors);
    if (found.forced > card->allowance)
        return refuse(NO_MASK, found.forced);
    for (size_t cell = 0; cell < code->n; cell++) {
        target->levels[cell] = (uint8_t)plain_sum(code, word[cell], found.mask);
        raise(&target->levels[cell], target->floors[cell]);
    }
    target->has_message = true;
    *saved = found;
    return granted;
}

struct plain_refusal plain_read_page(const struct plain_card *card, uint32_t page, uint8_t *message,
                                     uint32_t *corrected)
{
    uint32_t answer;

    if (page >= card->page_count)
        return refuse(NO_PAGE, page);
    if (!card->pages[page].has_message)
        return refuse(BLANK, page);
    answer = plain_read_word(&card->code, card->pages[page].levels, message);
    if (answer == PLAIN_TOO_FAR)
        return refuse_by_code(TOO_FAR, 0);
    *corrected = answer;
    return granted;
}

struct plain_refusal plain_compare_pages(const struct plain_card *card, uint32_t first, uint32_t second,
                                         bool *is_same)
{
    uint8_t one[HANDSET_MOST_SYMBOLS], other[HANDSET_MOST_SYMBOLS];
    uint32_t corrected;
    struct plain_refusal refusal;

    refusal = plain_read_page(card, first, one, &corrected);
    if (refusal.number != PLAIN_GRANTED)
        return refusal;
    refusal = plain_read_page(card, second, other, &corrected);
    if (refusal.number != PLAIN_GRANTED)
        return refusal;
    *is_same = memcmp(one, other, plain_message_length(&card->code)) == 0;
    return granted;
}
