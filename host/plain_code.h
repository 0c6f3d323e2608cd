/*
 * Alphabets and codes in plain C, written from docs/RULES.md. They are not
 * proved: the plain programs that the proved ones are compared with use them.
 */
#ifndef PLAIN_CODE_H
#define PLAIN_CODE_H

#include <stdbool.h>
#include <stddef.h>
#include <stdint.h>

/* A code that is on offer, with a length that it can have. */
struct plain_code {
    uint32_t alphabet; /* enum handset_alphabet */
    uint32_t kind;     /* enum handset_code */
    uint32_t q;
    size_t n;
};

/* What plain_read_word answers where no code word is within the radius. */
enum { PLAIN_TOO_FAR = 2 };

/* The ordinal, from 1, of the first of the four numbers that is not offered; 0 if all are. */
uint32_t plain_not_offered(uint32_t alphabet, uint32_t kind, uint32_t q, size_t n);

/* Whether a length is none that Bare can have. */
bool plain_is_bad_length(uint32_t kind, size_t n);

/* In how many cells a word may be wrong and still be corrected. */
uint32_t plain_radius(const struct plain_code *code);

/* How many symbols a message has. */
size_t plain_message_length(const struct plain_code *code);

/* The sum of two symbols. */
uint32_t plain_sum(const struct plain_code *code, uint32_t a, uint32_t b);

/* Makes the code word that carries the message, with 0 in its first information cell. */
void plain_place(const struct plain_code *code, const uint8_t *message, uint8_t *word);

/*
 * Reads a word of n symbols: corrects a copy, takes the message out of it and
 * answers how many cells were corrected; or answers PLAIN_TOO_FAR, and the
 * message is as it was.
 */
uint32_t plain_read_word(const struct plain_code *code, const uint8_t *levels, uint8_t *message);

#endif
