/* Counts of checks, and a lent book beside what its bytes are to be. */
#ifndef CHECK_H
#define CHECK_H

#include <stdio.h>
#include <string.h>

static unsigned passed, failed;
static char where[64]; /* the way of the calls and their address */

static void check(int held, const char *what, int line)
{
    if (held) {
        passed++;
        return;
    }
    failed++;
    printf("FAIL line %d%s: %s\n", line, where, what);
}

#define CHECK(condition) check((condition) ? 1 : 0, #condition, __LINE__)

/* The book stands in the memory at any offset, with bytes before and after it that are not lent. The memory is words:
 * at offset 0 the address is a multiple of 4. */
enum { BEFORE = 64, BEYOND = 256, MEMORY = BEFORE + FANZSOREB_BOOK_BYTES + BEYOND };
static uint32_t memory_words[MEMORY / 4];
static uint8_t *const memory = (uint8_t *)memory_words;
static uint8_t expected[MEMORY];
static uint8_t *book;
static size_t lent;

/* A book at an offset, its memory filled with a byte. */
static void lend(size_t offset, size_t length, int fill)
{
    memset(memory, fill, MEMORY);
    book = memory + BEFORE + offset;
    lent = length;
}

/* The bytes are to be as they are now, but for the words then put. */
static void keep(void)
{
    memcpy(expected, memory, MEMORY);
}

static void store(uint8_t *bytes, size_t i, uint32_t word)
{
    bytes[4 * i] = (uint8_t)(word & 255);
    bytes[4 * i + 1] = (uint8_t)(word >> 8 & 255);
    bytes[4 * i + 2] = (uint8_t)(word >> 16 & 255);
    bytes[4 * i + 3] = (uint8_t)(word >> 24);
}

static void put(size_t i, uint32_t word)
{
    store(expected + (book - memory), i, word);
}

static int as_expected(void)
{
    return memcmp(memory, expected, MEMORY) == 0;
}

/* A refused call: its cause, and every byte as it was. */
#define REFUSED(call, cause)          \
    do {                              \
        keep();                       \
        CHECK((call) == (cause));     \
        CHECK(as_expected());         \
    } while (0)

#endif
