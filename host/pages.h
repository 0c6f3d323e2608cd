/*
 * Pages to try readers on: code words with a message and a mask in them.
 * Its arithmetic is its own, so that a mistake in a reader is not made here too.
 */
#ifndef PAGES_H
#define PAGES_H

#include <stddef.h>
#include <stdint.h>

/* The next number of a fixed sequence, below `bound`, which is not 0. */
uint32_t pages_random(uint32_t bound);

/* Fills a message with symbols of the sequence. */
void pages_message(uint32_t q, uint8_t *message, size_t length);

/*
 * Writes the code word of n cells that carries the message under the mask.
 * The alphabet and the code are on offer, n is the code's length, and the
 * message has n - 1 symbols for Bare, n - 4 for Plane.
 */
void pages_write(uint32_t alphabet, uint32_t code, uint32_t q, const uint8_t *message,
                 uint8_t mask, uint8_t *levels, size_t n);

/* Gives so many different cells another symbol. There are at least as many cells. */
void pages_damage(uint32_t q, uint8_t *levels, size_t n, size_t cells);

#endif
