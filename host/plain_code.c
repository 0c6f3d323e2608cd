/* Alphabets and codes in plain C, written from docs/RULES.md. */
#include "plain_code.h"

#include "handset.h"

#include <string.h>

/* The three sums of the Plane code, in its field. */
struct sums {
    uint32_t s0;
    uint32_t s1;
    uint32_t s2;
};

/* Which of the four numbers that choose a code is not offered. */
enum { ALL_OFFERED, NO_ALPHABET_KIND, NO_CODE_KIND, NO_SIZE, NO_LENGTH };

/* Cells 0, 1 and q are the check cells of Plane, and cell 2 is its first information cell. */
enum { PLANE_CHECK_CELLS = 3, PLANE_FIRST_CELL = 2 };

static bool is_alphabet(uint32_t alphabet, uint32_t q)
{
    if (alphabet == HANDSET_RESIDUES)
        return q >= 2 && q <= 16;
    return q == 4 || q == 8 || q == 16;
}

/* Whether an alphabet that is offered is a field. */
static bool is_field(uint32_t alphabet, uint32_t q)
{
    if (alphabet == HANDSET_RESIDUES)
        return q == 3 || q == 5 || q == 7 || q == 11 || q == 13;
    return true;
}

uint32_t plain_not_offered(uint32_t alphabet, uint32_t kind, uint32_t q, size_t n)
{
    if (alphabet != HANDSET_RESIDUES && alphabet != HANDSET_BINARY_FIELD)
        return NO_ALPHABET_KIND;
    if (kind != HANDSET_BARE && kind != HANDSET_PLANE)
        return NO_CODE_KIND;
    if (!is_alphabet(alphabet, q) || (kind == HANDSET_PLANE && !is_field(alphabet, q)))
        return NO_SIZE;
    if (kind == HANDSET_PLANE && n != q * q)
        return NO_LENGTH;
    return ALL_OFFERED;
}

bool plain_is_bad_length(uint32_t kind, size_t n)
{
    return kind == HANDSET_BARE && (n < 2 || n > HANDSET_MOST_CELLS);
}

uint32_t plain_radius(const struct plain_code *code)
{
    return code->kind == HANDSET_BARE ? 0 : 1;
}

size_t plain_message_length(const struct plain_code *code)
{
    const size_t check_cells = code->kind == HANDSET_BARE ? 0 : PLANE_CHECK_CELLS;

    return code->n - check_cells - 1;
}

uint32_t plain_sum(const struct plain_code *code, uint32_t a, uint32_t b)
{
    if (code->alphabet == HANDSET_BINARY_FIELD)
        return a ^ b;
    return a + b >= code->q ? a + b - code->q : a + b;
}

static uint32_t difference(uint32_t alphabet, uint32_t q, uint32_t a, uint32_t b)
{
    if (alphabet == HANDSET_BINARY_FIELD)
        return a ^ b;
    return a >= b ? a - b : a + q - b;
}

/* The product of two polynomials over two elements, by shift and xor. */
static uint32_t binary_product(uint32_t q, uint32_t a, uint32_t b)
{
    uint32_t polynomial = q + 3; /* x^m + x + 1, with q = 2^m */
    uint32_t product = 0;

    while (b != 0) {
        if (b & 1)
            product ^= a;
        a <<= 1;
        if (a >= q)
            a ^= polynomial;
        b >>= 1;
    }
    return product;
}

static uint32_t product(uint32_t alphabet, uint32_t q, uint32_t a, uint32_t b)
{
    if (alphabet == HANDSET_BINARY_FIELD)
        return binary_product(q, a, b);
    return a * b % q;
}

/* In a field of q symbols, a to the power q - 1 is 1 if a is not 0. */
static uint32_t inverse(uint32_t alphabet, uint32_t q, uint32_t a)
{
    uint32_t power = 1;

    for (uint32_t left = q - 2; left != 0; left >>= 1) {
        if (left & 1)
            power = product(alphabet, q, power, a);
        a = product(alphabet, q, a, a);
    }
    return power;
}

static struct sums residue_sums(uint32_t q, const uint8_t *levels)
{
    struct sums sums = {0, 0, 0};

    for (uint32_t a = 0; a < q; a++) {
        for (uint32_t b = 0; b < q; b++) {
            uint32_t level = levels[q * a + b];
            sums.s0 += level;
            sums.s1 += a * level;
            sums.s2 += b * level;
        }
    }
    sums.s0 %= q;
    sums.s1 %= q;
    sums.s2 %= q;
    return sums;
}

/* A row has one a and a column one b, so each is summed before it is multiplied. */
static struct sums binary_sums(uint32_t q, const uint8_t *levels)
{
    struct sums sums = {0, 0, 0};
    uint8_t columns[16] = {0};

    for (uint32_t a = 0; a < q; a++) {
        uint32_t row = 0;
        for (uint32_t b = 0; b < q; b++) {
            row ^= levels[q * a + b];
            columns[b] ^= levels[q * a + b];
        }
        sums.s0 ^= row;
        sums.s1 ^= binary_product(q, a, row);
    }
    for (uint32_t b = 0; b < q; b++)
        sums.s2 ^= binary_product(q, b, columns[b]);
    return sums;
}

static struct sums plane_sums(const struct plain_code *code, const uint8_t *word)
{
    if (code->alphabet == HANDSET_BINARY_FIELD)
        return binary_sums(code->q, word);
    return residue_sums(code->q, word);
}

/* Sets the check cells of a Plane word, which hold 0 before. */
static void complete_plane(const struct plain_code *code, uint8_t *word)
{
    const struct sums sums = plane_sums(code, word);
    const uint32_t both = plain_sum(code, sums.s1, sums.s2);

    word[code->q] = (uint8_t)difference(code->alphabet, code->q, 0, sums.s1);
    word[1] = (uint8_t)difference(code->alphabet, code->q, 0, sums.s2);
    word[0] = (uint8_t)difference(code->alphabet, code->q, both, sums.s0);
}

void plain_place(const struct plain_code *code, const uint8_t *message, uint8_t *word)
{
    const size_t q = code->q;
    const size_t in_row = q - PLANE_CHECK_CELLS; /* symbols of the message before cell q */

    if (code->kind == HANDSET_BARE) {
        word[0] = 0;
        memcpy(word + 1, message, code->n - 1);
        return;
    }
    word[0] = 0;
    word[1] = 0;
    word[PLANE_FIRST_CELL] = 0;
    memcpy(word + PLANE_FIRST_CELL + 1, message, in_row);
    word[q] = 0;
    memcpy(word + q + 1, message + in_row, code->n - q - 1);
    complete_plane(code, word);
}

/* Corrects a word of the Plane code and answers how many cells changed, or PLAIN_TOO_FAR. */
static uint32_t correct_plane(const struct plain_code *code, uint8_t *word)
{
    const uint32_t alphabet = code->alphabet, q = code->q;
    const struct sums sums = plane_sums(code, word);
    uint32_t inverse_s0, a, b, cell;

    if (sums.s0 == 0)
        return sums.s1 == 0 && sums.s2 == 0 ? 0 : PLAIN_TOO_FAR;

    inverse_s0 = inverse(alphabet, q, sums.s0);
    a = product(alphabet, q, sums.s1, inverse_s0);
    b = product(alphabet, q, sums.s2, inverse_s0);
    cell = q * a + b;
    word[cell] = (uint8_t)difference(alphabet, q, word[cell], sums.s0);
    return 1;
}

/* Takes the mask off a run of cells. */
static void unmask(uint32_t alphabet, uint32_t q, uint8_t mask,
                   const uint8_t *cells, size_t count, uint8_t *message)
{
    if (alphabet == HANDSET_BINARY_FIELD) {
        for (size_t i = 0; i < count; i++)
            message[i] = cells[i] ^ mask;
    } else {
        for (size_t i = 0; i < count; i++)
            message[i] = (uint8_t)difference(HANDSET_RESIDUES, q, cells[i], mask);
    }
}

uint32_t plain_read_word(const struct plain_code *code, const uint8_t *levels, uint8_t *message)
{
    const uint32_t alphabet = code->alphabet, q = code->q;
    const size_t n = code->n;
    uint8_t word[HANDSET_MOST_CELLS];
    uint32_t corrected;

    if (code->kind == HANDSET_BARE) {
        unmask(alphabet, q, levels[0], levels + 1, n - 1, message);
        return 0;
    }
    memcpy(word, levels, n);
    corrected = correct_plane(code, word);
    if (corrected == PLAIN_TOO_FAR)
        return PLAIN_TOO_FAR;
    unmask(alphabet, q, word[PLANE_FIRST_CELL], word + PLANE_FIRST_CELL + 1, q - PLANE_CHECK_CELLS, message);
    unmask(alphabet, q, word[PLANE_FIRST_CELL], word + q + 1, n - q - 1, message + q - PLANE_CHECK_CELLS);
    return corrected;
}
