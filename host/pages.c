/* Pages to try readers on. */
#include "pages.h"

#include "handset.h"

#include <stdbool.h>

/* The xorshift sequence of 64 bits; the seed is fixed, so that each run tries the same pages. */
static uint64_t state = 0x9e3779b97f4a7c15u;

uint32_t pages_random(uint32_t bound)
{
    state ^= state << 13;
    state ^= state >> 7;
    state ^= state << 17;
    return (uint32_t)(state >> 32) % bound;
}

static uint32_t sum(uint32_t alphabet, uint32_t q, uint32_t a, uint32_t b)
{
    return alphabet == HANDSET_BINARY_FIELD ? a ^ b : (a + b) % q;
}

static uint32_t negative(uint32_t alphabet, uint32_t q, uint32_t a)
{
    return alphabet == HANDSET_BINARY_FIELD ? a : (q - a) % q;
}

/* x times a polynomial. What the product is reduced by is x^m + x + 1, with q = 2^m. */
static uint32_t times_x(uint32_t q, uint32_t a)
{
    return 2 * a < q ? 2 * a : (2 * a - q) ^ 3;
}

/*
 * The symbols but 0 of a binary field are the powers of x, so a product is
 * found by walking the powers up to a while walking from b.
 */
static uint32_t product(uint32_t alphabet, uint32_t q, uint32_t a, uint32_t b)
{
    if (alphabet != HANDSET_BINARY_FIELD)
        return a * b % q;
    if (a == 0 || b == 0)
        return 0;
    for (uint32_t power = 1; power != a; power = times_x(q, power))
        b = times_x(q, b);
    return b;
}

static bool is_check_cell(uint32_t code, uint32_t q, size_t cell)
{
    return code == HANDSET_PLANE && (cell == 0 || cell == 1 || cell == q);
}

/* Sets the check cells of a Plane word, which hold 0 before. */
static void complete_plane(uint32_t alphabet, uint32_t q, uint8_t *word)
{
    uint32_t s0 = 0, s1 = 0, s2 = 0;

    for (uint32_t cell = 0; cell < q * q; cell++) {
        s0 = sum(alphabet, q, s0, word[cell]);
        s1 = sum(alphabet, q, s1, product(alphabet, q, cell / q, word[cell]));
        s2 = sum(alphabet, q, s2, product(alphabet, q, cell % q, word[cell]));
    }
    word[q] = (uint8_t)negative(alphabet, q, s1);
    word[1] = (uint8_t)negative(alphabet, q, s2);
    word[0] = (uint8_t)sum(alphabet, q, sum(alphabet, q, s1, s2), negative(alphabet, q, s0));
}

void pages_message(uint32_t q, uint8_t *message, size_t length)
{
    for (size_t i = 0; i < length; i++)
        message[i] = (uint8_t)pages_random(q);
}

void pages_write(uint32_t alphabet, uint32_t code, uint32_t q, const uint8_t *message,
                 uint8_t mask, uint8_t *levels, size_t n)
{
    bool is_first = true;

    for (size_t cell = 0; cell < n; cell++) {
        levels[cell] = 0;
        if (is_check_cell(code, q, cell))
            continue;
        if (!is_first)
            levels[cell] = *message++;
        is_first = false;
    }
    if (code == HANDSET_PLANE)
        complete_plane(alphabet, q, levels);
    for (size_t cell = 0; cell < n; cell++)
        levels[cell] = (uint8_t)sum(alphabet, q, levels[cell], mask);
}

void pages_damage(uint32_t q, uint8_t *levels, size_t n, size_t cells)
{
    bool is_damaged[HANDSET_MOST_CELLS] = {false};

    while (cells > 0) {
        size_t cell = pages_random((uint32_t)n);
        if (is_damaged[cell])
            continue;
        is_damaged[cell] = true;
        levels[cell] = (uint8_t)((levels[cell] + 1 + pages_random(q - 1)) % q);
        cells--;
    }
}
