/*
 * Compares the proved reader with the plain one, on sound, damaged, random and
 * senseless pages: what they answer, and what they leave in the message buffer
 * and around it. Where the page was written here, both are also compared with
 * the message that went in.
 *
 * Exit status: 0 they agree and each answer occurred, 1 otherwise.
 */
#include "handset.h"
#include "pages.h"
#include "plain_reader.h"

#include <stdbool.h>
#include <stdio.h>
#include <string.h>

enum {
    MOST_LEVELS = 70000, /* more than 65536, so that no cut length goes unseen */
    MOST_MESSAGE = 1000,
    GUARD = 64, /* bytes before and after the message buffer that nobody may touch */
    AREA = GUARD + MOST_MESSAGE + GUARD,
    SHOWN_DIFFERENCES = 10
};

typedef uint32_t reader(uint32_t alphabet, uint32_t code, uint32_t q,
                        const uint8_t *levels, size_t levels_len,
                        uint8_t *message, size_t message_len);

/* One read to try. */
struct request {
    uint32_t alphabet;
    uint32_t code;
    uint32_t q;
    const uint8_t *levels;
    size_t levels_len;
    size_t message_len;
};

/* What a page that was written here must read to. */
struct expected {
    uint32_t answer;
    const uint8_t *message; /* as long as the request says */
};

static const uint32_t answers[] = {0, 1, 103, 107, 111, 114, 124};
enum { ANSWERS = sizeof answers / sizeof answers[0] };

static const char *const kinds[] = {
    "residues, Bare", "residues, Plane", "binary field, Bare", "binary field, Plane", "other kinds",
};
enum { KINDS = sizeof kinds / sizeof kinds[0] };

static unsigned long counts[KINDS][ANSWERS + 1]; /* the last column: any other answer */
static unsigned long differences;

static int kind_of(const struct request *request)
{
    if (request->alphabet > 1 || request->code > 1)
        return KINDS - 1;
    return (int)(2 * request->alphabet + request->code);
}

static int column_of(uint32_t answer)
{
    int column = 0;

    while (column < ANSWERS && answers[column] != answer)
        column++;
    return column;
}

static void fill_area(uint8_t *area)
{
    for (size_t i = 0; i < AREA; i++)
        area[i] = (uint8_t)(0xa5 ^ (i * 7));
}

/* Whether the bytes of an area outside the first `used` of its message buffer are as they were filled. */
static bool is_untouched_past(const uint8_t *area, size_t used)
{
    uint8_t filled[AREA];

    fill_area(filled);
    return memcmp(area, filled, GUARD) == 0 &&
           memcmp(area + GUARD + used, filled + GUARD + used, AREA - GUARD - used) == 0;
}

/* Reads into an area. A length of 0 goes with a null pointer every second time. */
static uint32_t read_into(uint8_t *area, reader *read, const struct request *request, bool has_nulls)
{
    const uint8_t *levels = request->levels_len == 0 && has_nulls ? NULL : request->levels;
    uint8_t *message = request->message_len == 0 && has_nulls ? NULL : area + GUARD;

    fill_area(area);
    return read(request->alphabet, request->code, request->q, levels, request->levels_len,
                message, request->message_len);
}

/* Whether an answer and its area are well formed in themselves, and as expected. */
static bool is_right(uint32_t answer, const uint8_t *area, const struct request *request,
                     const struct expected *expected)
{
    size_t used = answer >= 100 ? 0 : request->message_len;

    if (!is_untouched_past(area, used))
        return false;
    if (expected == NULL)
        return true;
    if (answer != expected->answer)
        return false;
    return answer >= 100 || memcmp(area + GUARD, expected->message, request->message_len) == 0;
}

static void note_difference(const struct request *request, uint32_t proved, uint32_t plain, const char *what)
{
    differences++;
    if (differences > SHOWN_DIFFERENCES)
        return;
    printf("difference (%s): alphabet %lu, code %lu, q %lu, %zu levels, message of %zu: proved %lu, plain C %lu; levels",
           what, (unsigned long)request->alphabet, (unsigned long)request->code, (unsigned long)request->q,
           request->levels_len, request->message_len, (unsigned long)proved, (unsigned long)plain);
    for (size_t i = 0; i < request->levels_len && i < 16; i++)
        printf(" %u", request->levels[i]);
    printf("%s\n", request->levels_len > 16 ? " .." : "");
}

/* Reads once with each reader and compares. */
static void compare(const struct request *request, const struct expected *expected)
{
    static uint8_t proved_area[AREA], plain_area[AREA], levels_before[MOST_LEVELS];
    static bool has_nulls;
    uint32_t proved, plain;

    has_nulls = !has_nulls;
    memcpy(levels_before, request->levels, request->levels_len);
    proved = read_into(proved_area, handset_read, request, has_nulls);
    plain = read_into(plain_area, plain_read, request, has_nulls);
    counts[kind_of(request)][column_of(proved)]++;

    if (proved != plain)
        note_difference(request, proved, plain, "answers");
    else if (memcmp(proved_area, plain_area, AREA) != 0)
        note_difference(request, proved, plain, "message buffers");
    else if (!is_right(proved, proved_area, request, expected))
        note_difference(request, proved, plain, "both wrong");
    else if (memcmp(levels_before, request->levels, request->levels_len) != 0)
        note_difference(request, proved, plain, "levels changed");
}

/* The worked examples of docs/RULES.md, read back: their levels and messages stand here as they stand there. */
static void compare_examples(void)
{
    static const struct {
        uint32_t alphabet, code, q;
        size_t levels_len;
        uint8_t levels[9];
        uint32_t answer;
        uint8_t message[8];
    } examples[] = {
        {0, 0, 3, 5, {2, 1, 2, 0, 2}, 0, {2, 0, 1, 0}},
        {0, 0, 3, 8, {1, 0, 1, 2, 0, 1, 2, 1}, 0, {2, 0, 1, 2, 0, 1, 0}},
        {0, 0, 3, 5, {1, 2, 2, 1, 1}, 0, {1, 1, 0, 0}},
        {0, 0, 3, 2, {2, 2}, 0, {0}},
        {0, 0, 4, 4, {1, 2, 3, 0}, 0, {1, 2, 3}},
        {1, 0, 4, 4, {3, 2, 1, 0}, 0, {1, 2, 3}},
        {0, 1, 3, 9, {1, 2, 0, 2, 1, 0, 0, 0, 0}, 0, {1, 0, 0, 0, 0}},
        {0, 1, 3, 9, {1, 2, 0, 2, 1, 1, 0, 0, 0}, 1, {1, 0, 0, 0, 0}},
        {0, 1, 3, 9, {1, 2, 0, 0, 0, 0, 0, 0, 0}, 111, {0}},
        {0, 0, 3, 1, {0}, 103, {0}},
    };

    for (size_t i = 0; i < sizeof examples / sizeof examples[0]; i++) {
        const size_t n = examples[i].levels_len;
        const struct request request = {examples[i].alphabet, examples[i].code, examples[i].q,
                                        examples[i].levels, n, examples[i].code == HANDSET_BARE ? n - 1 : n - 4};
        const struct expected expected = {examples[i].answer, examples[i].message};
        compare(&request, &expected);
    }
}

/* The same page with message buffers of wrong lengths. */
static void compare_lengths(struct request request)
{
    const size_t right = request.message_len;
    const size_t wrong[] = {0, right - 1, right + 1, right + 256, 300, pages_random(MOST_MESSAGE)};

    for (size_t i = 0; i < sizeof wrong / sizeof wrong[0]; i++) {
        request.message_len = wrong[i];
        compare(&request, NULL);
    }
}

/* The same page with levels that are no symbols: just too high, far too high, at either end, in two cells. */
static void compare_out_of_range(struct request request, uint8_t *levels)
{
    const size_t n = request.levels_len;
    const size_t cells[] = {0, n - 1, pages_random((uint32_t)n), pages_random((uint32_t)n)};
    const uint8_t too_high[] = {(uint8_t)request.q, 255, (uint8_t)(request.q + pages_random(256 - request.q))};

    for (size_t i = 0; i < sizeof cells / sizeof cells[0]; i++) {
        for (size_t j = 0; j < sizeof too_high / sizeof too_high[0]; j++) {
            const uint8_t before = levels[cells[i]];
            levels[cells[i]] = too_high[j];
            compare(&request, NULL);
            request.message_len ^= 1; /* the level is checked before the length */
            compare(&request, NULL);
            request.message_len ^= 1;
            levels[cells[i]] = before;
        }
    }
    levels[0] = 255;
    levels[n - 1] = 255;
    compare(&request, NULL);
}

/* A page of n cells of a code that is offered: sound, damaged, with wrong lengths, with levels out of range. */
static void compare_page(uint32_t alphabet, uint32_t code, uint32_t q, size_t n)
{
    uint8_t message[HANDSET_MOST_SYMBOLS], sound[HANDSET_MOST_CELLS], levels[HANDSET_MOST_CELLS];
    struct request request = {alphabet, code, q, levels, n, code == HANDSET_BARE ? n - 1 : n - 4};
    struct expected expected = {0, message};

    pages_message(q, message, request.message_len);
    pages_write(alphabet, code, q, message, (uint8_t)pages_random(q), sound, n);
    for (size_t damaged = 0; damaged <= 3 && damaged <= n; damaged++) {
        memcpy(levels, sound, n);
        pages_damage(q, levels, n, damaged);
        expected.answer = (uint32_t)damaged;
        /* a message comes back while no more cells are damaged than the radius */
        compare(&request, damaged <= code ? &expected : NULL);
        compare_lengths(request);
    }
    pages_message(q, levels, n); /* any word at all */
    compare(&request, NULL);
    memcpy(levels, sound, n);
    compare_out_of_range(request, levels);
}

/* Pages of all codes that are offered, of many lengths for Bare. */
static void compare_offered(void)
{
    static const uint32_t prime[] = {3, 5, 7, 11, 13};
    static const uint32_t binary[] = {4, 8, 16};

    for (int round = 0; round < 60; round++) {
        for (uint32_t q = 2; q <= 16; q++) {
            const size_t lengths[] = {2, 3, q * q, 255, 256, 2 + pages_random(255)};
            for (size_t i = 0; i < sizeof lengths / sizeof lengths[0]; i++) {
                compare_page(HANDSET_RESIDUES, HANDSET_BARE, q, lengths[i]);
                if (q == 4 || q == 8 || q == 16)
                    compare_page(HANDSET_BINARY_FIELD, HANDSET_BARE, q, lengths[i]);
            }
        }
        for (int page = 0; page < 4; page++) {
            for (size_t i = 0; i < sizeof prime / sizeof prime[0]; i++)
                compare_page(HANDSET_RESIDUES, HANDSET_PLANE, prime[i], prime[i] * prime[i]);
            for (size_t i = 0; i < sizeof binary / sizeof binary[0]; i++)
                compare_page(HANDSET_BINARY_FIELD, HANDSET_PLANE, binary[i], binary[i] * binary[i]);
        }
    }
}

/* Every word of the Plane code over residues of 3 that there is: 3 to the ninth of them. */
static void compare_all_small_planes(void)
{
    uint8_t levels[9] = {0};
    struct request request = {HANDSET_RESIDUES, HANDSET_PLANE, 3, levels, 9, 5};
    size_t cell;

    do {
        compare(&request, NULL);
        for (cell = 0; cell < 9 && levels[cell] == 2; cell++)
            levels[cell] = 0;
        if (cell < 9)
            levels[cell]++;
    } while (cell < 9);
}

/* Numbers that choose nothing, or only if they are cut to fewer bits, beside those that do. */
static void compare_senseless(void)
{
    static const uint32_t kind[] = {0, 1, 2, 3, 255, 256, 257, 65536, 65537, 0x80000000u, UINT32_MAX};
    static const uint32_t size[] = {
        0, 1, 2, 3, 4, 5, 6, 7, 8, 9, 10, 11, 12, 13, 14, 15, 16, 17, 18, 19, 25, 27, 32, 64,
        255, 256, 257, 259, 260, 272, 65536, 65539, 65552, 0x80000000u, 0xfffffffdu, UINT32_MAX,
    };
    static const size_t kind_count = sizeof kind / sizeof kind[0];
    static const size_t size_count = sizeof size / sizeof size[0];
    static uint8_t levels[MOST_LEVELS];
    struct request request = {0, 0, 0, levels, 0, 0};

    for (size_t choice = 0; choice < kind_count * kind_count * size_count; choice++) {
        request.alphabet = kind[choice % kind_count];
        request.code = kind[choice / kind_count % kind_count];
        request.q = size[choice / kind_count / kind_count];

        const size_t square = request.q <= 256 ? request.q * request.q : 0;
        const size_t lengths[] = {0, 1, 2, 3, square, square + 1, 255, 256, 257, 258,
                                  pages_random(600), 65536 + 9, 65536 + 256};
        for (size_t i = 0; i < sizeof lengths / sizeof lengths[0]; i++) {
            const size_t n = lengths[i];
            request.levels_len = n;
            if (n <= 600)
                pages_message(1 + pages_random(choice % 5 == 0 ? 256 : 3), levels, n);
            const size_t messages[] = {n - 1, n - 4, 0, pages_random(MOST_MESSAGE)};
            for (size_t j = 0; j < sizeof messages / sizeof messages[0]; j++) {
                request.message_len = messages[j] <= MOST_MESSAGE ? messages[j] : 0;
                compare(&request, NULL);
            }
        }
    }
}

/* Prints how often each answer was given, and says whether each was given at all. */
static bool print_counts(void)
{
    unsigned long totals[ANSWERS + 1] = {0};
    unsigned long pages = 0;
    bool has_all = true;

    printf("%-22s", "answers");
    for (int column = 0; column < ANSWERS; column++)
        printf("%9lu", (unsigned long)answers[column]);
    printf("%9s\n", "other");
    for (int kind = 0; kind < KINDS; kind++) {
        printf("%-22s", kinds[kind]);
        for (int column = 0; column <= ANSWERS; column++) {
            printf("%9lu", counts[kind][column]);
            totals[column] += counts[kind][column];
            pages += counts[kind][column];
        }
        printf("\n");
    }
    printf("%-22s", "all");
    for (int column = 0; column <= ANSWERS; column++)
        printf("%9lu", totals[column]);
    printf("\n");
    for (int column = 0; column < ANSWERS; column++) {
        if (totals[column] == 0) {
            printf("never answered: %lu\n", (unsigned long)answers[column]);
            has_all = false;
        }
    }
    printf("reads compared: %lu\n", pages);
    return has_all;
}

int main(void)
{
    bool has_all;

    compare_examples();
    compare_offered();
    compare_all_small_planes();
    compare_senseless();
    has_all = print_counts();
    printf("differences: %lu\n", differences);
    return differences == 0 && has_all ? 0 : 1;
}
