/*
 * A reader in plain C, written from docs/RULES.md. It is not proved: the
 * proved reader is compared with it, in what it answers and in speed.
 */
#ifndef PLAIN_READER_H
#define PLAIN_READER_H

#include <stddef.h>
#include <stdint.h>

/* Takes and answers what handset_read does. */
uint32_t plain_read(uint32_t alphabet, uint32_t code, uint32_t q,
                    const uint8_t *levels, size_t levels_len,
                    uint8_t *message, size_t message_len);

#endif
