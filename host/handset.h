/*
 * Reading a page of multi-level cells on a handset.
 *
 * One call takes the levels of a page, corrects them, removes the mask and
 * gives the message. It is proved in the Rattle crates `handset` and
 * `handset_c`; link target/staticlib/libhandset.a, which `make host` builds.
 * docs/RULES.md has all rules.
 */
#ifndef HANDSET_H
#define HANDSET_H

#include <stddef.h>
#include <stdint.h>

#ifdef __cplusplus
extern "C" {
#endif

/* Kinds of alphabets. A level, like a symbol, is a number from 0 to q - 1. */
enum handset_alphabet {
    HANDSET_RESIDUES = 0,    /* q is 2 to 16; Plane takes q = 3, 5, 7, 11, 13 */
    HANDSET_BINARY_FIELD = 1 /* q is 4, 8 or 16 */
};

/* Kinds of codes. */
enum handset_code {
    HANDSET_BARE = 0, /* 2 to 256 cells, corrects nothing */
    HANDSET_PLANE = 1 /* q * q cells, corrects one cell */
};

/* What is answered to a refused read: 100 plus the refusal's number. */
enum handset_refusal {
    HANDSET_BARE_LENGTH = 103,    /* Bare, and not 2 to 256 levels */
    HANDSET_MESSAGE_LENGTH = 107, /* message_len is not the message's length */
    HANDSET_TOO_FAR = 111,        /* more cells are wrong than can be corrected */
    HANDSET_NOT_A_LEVEL = 114,    /* a level of q or more */
    HANDSET_NOT_OFFERED = 124     /* no such alphabet, code, q, or number of Plane levels */
};

/* The most cells that a page has, and the most symbols of a message. */
enum { HANDSET_MOST_CELLS = 256, HANDSET_MOST_SYMBOLS = 255 };

/*
 * Reads a page.
 *
 * message_len must be the message's length: levels_len - 1 for Bare, and
 * q * q - 4 for Plane.
 *
 * Answers how many cells were corrected (0 or 1), and the message is in
 * message[0] to message[message_len - 1]; or answers a refusal, 100 or more,
 * and the message buffer is as it was. Checks are made in this order: 124,
 * 103, 114, 107, 111.
 *
 * Every number and length is taken. A pointer may be null if its length is 0;
 * else it points to as many bytes as its length says. The two buffers must
 * not overlap. The levels are not changed, nothing is allocated, nothing is
 * kept from call to call.
 */
uint32_t handset_read(uint32_t alphabet, uint32_t code, uint32_t q,
                      const uint8_t *levels, size_t levels_len,
                      uint8_t *message, size_t message_len);

#ifdef __cplusplus
}
#endif

#endif
