/* A reader in plain C, written from docs/RULES.md. */
#include "plain_reader.h"

#include "handset.h"
#include "plain_code.h"

uint32_t plain_read(uint32_t alphabet, uint32_t code, uint32_t q,
                    const uint8_t *levels, size_t levels_len,
                    uint8_t *message, size_t message_len)
{
    const struct plain_code chosen = {alphabet, code, q, levels_len};
    uint32_t corrected;

    if (plain_not_offered(alphabet, code, q, levels_len) != 0)
        return HANDSET_NOT_OFFERED;
    if (plain_is_bad_length(code, levels_len))
        return HANDSET_BARE_LENGTH;
    for (size_t i = 0; i < levels_len; i++) {
        if (levels[i] >= q)
            return HANDSET_NOT_A_LEVEL;
    }
    if (message_len != plain_message_length(&chosen))
        return HANDSET_MESSAGE_LENGTH;
    corrected = plain_read_word(&chosen, levels, message);
    return corrected == PLAIN_TOO_FAR ? HANDSET_TOO_FAR : corrected;
}
