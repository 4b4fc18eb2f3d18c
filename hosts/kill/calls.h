/* The calls that change a book: what each is given, how it is made, and which book it leaves, worked out here. */
#include <stdint.h>
#include <string.h>

enum { WORDS = FANZSOREB_BOOK_BYTES / 4, LINES = 400 };

enum kind { OPEN, OPEN_DEFAULT, POST, WITHDRAW, READ_FILE, BAD_FILE, CONTROL };
static const char *const kinds[] = {
    "opening", "opening without figures", "post", "withdrawal", "day file", "day file with a fault in its last line",
    "control"
};

/* `first` draws the entries of a post or a file, `lines` of them, or is the number of the entry withdrawn. */
typedef struct { enum kind kind; uint32_t first, lines, day; } task;

/* R and TM of the earlier book, of an opening and of one without figures: each differs from the earlier one in its two
 * low bytes, so that half a word shows. */
enum { EARLIER_R = 0x01FF, NEW_R = 0x03E8, DEFAULT_R = 0x0069 };
enum { EARLIER_TM = 0x0927C0, NEW_TM = 0x0101D0, DEFAULT_TM = 0x07A120 };
enum { DAY = 9000, EARLIER_DAY = 8000 };

static uint32_t entries_of(const uint32_t *words)
{
    return words[0] & 0xFFFFFFF;
}

static size_t used(const uint32_t *words)
{
    return 3 + 5 * (size_t)entries_of(words);
}

/* Entry i of a day. Odd parties sell to the even one above them more than TM and have no cover, so that each is
 * detected; an even one sells less than TM. */
static void entry_of(uint32_t i, uint32_t day, uint32_t *entry)
{
    uint32_t odd = 1 + 2 * (i % 499), bilateral = i % 2 == 0;
    entry[0] = 0x10000000 + (bilateral ? odd : odd + 1);
    entry[1] = 0x20000000 + day;
    entry[2] = 0x30000000 + (bilateral ? FANZSOREB_BILATERAL_SALE + (odd + 1) * 256 : FANZSOREB_DAY_AHEAD_SALE);
    entry[3] = 0x40000000 + (bilateral ? 700000 + i : i % 256);
    entry[4] = 0x50000000;
}

/* A line of a file: three in a row are of one party, in one block. */
static void line_of(uint32_t first, uint32_t i, uint32_t day, uint32_t *entry)
{
    entry_of(first + i - i % 3, day, entry);
    entry[3] += i % 3;
}

/* A file begins with a block without lines. In a faulty one the last line is of type 0. Its length in bytes. */
static size_t file_of(const task *t, uint32_t *file)
{
    size_t at = 2;
    uint32_t i, entry[5];
    file[0] = 0x10000005;
    file[1] = 0x20000000 + t->day;
    for (i = 0; i < t->lines; i++) {
        line_of(t->first, i, t->day, entry);
        if (i % 3 == 0) {
            file[at++] = entry[0] + (t->lines - i < 3 ? t->lines - i : 3) * 65536;
            file[at++] = entry[1];
        }
        file[at++] = t->kind == BAD_FILE && i == t->lines - 1 ? 0x30000000 : entry[2];
        file[at++] = entry[3];
        file[at++] = entry[4];
    }
    return 4 * at;
}

static void append(uint32_t *words, const uint32_t *entry)
{
    memcpy(words + used(words), entry, 20);
    words[0]++;
}

/* The status of every standing bilateral sale of the day, and its mark. */
static void close_day(uint32_t *words, uint32_t day)
{
    uint32_t mark[5] = { 0x10000000, 0, 0x30000000 + FANZSOREB_MARK, 0x40000000, 0x50000000 };
    uint32_t i;
    for (i = 0; i < entries_of(words); i++)
        if (words[4 + 5 * i] == 0x20000000 + day && (words[5 + 5 * i] & 0xF0000FF) == FANZSOREB_BILATERAL_SALE)
            words[5 + 5 * i] += FANZSOREB_CANCELLED << 24;
    mark[1] = 0x20000000 + day;
    append(words, mark);
}

/* The book that a call leaves, out of the one that it is lent. */
static void work_out(const task *t, uint32_t *words)
{
    uint32_t i, entry[5];
    switch (t->kind) {
    case OPEN:
    case OPEN_DEFAULT:
        words[0] = 0x60000000;
        words[1] = 0x70000000 + (t->kind == OPEN ? NEW_R : DEFAULT_R);
        words[2] = 0x80000000 + (t->kind == OPEN ? NEW_TM : DEFAULT_TM);
        break;
    case POST:
        entry_of(t->first, t->day, entry);
        append(words, entry);
        break;
    case WITHDRAW:
        words[5 + 5 * t->first] += FANZSOREB_WITHDRAWN << 24;
        break;
    case READ_FILE:
        for (i = 0; i < t->lines; i++) {
            line_of(t->first, i, t->day, entry);
            append(words, entry);
        }
        break;
    case BAD_FILE:
        break;
    case CONTROL:
        close_day(words, t->day);
        break;
    }
}

static uint32_t cause_of(const task *t)
{
    return t->kind == BAD_FILE ? FANZSOREB_BAD_TYPE : FANZSOREB_DONE;
}

/* How a call is made: its cause comes back. */
typedef uint32_t caller(const task *t, uint8_t *lent, size_t length);

#define CALLER(name, call, at, unit)                                                                                  \
    static uint32_t name(const task *t, uint8_t *lent, size_t length)                                                 \
    {                                                                                                                 \
        static uint32_t file[2 + 4 * LINES];                                                                          \
        size_t lines = file_of(t, file), n = length / (unit);                                                         \
        uint32_t e[5];                                                                                                \
        entry_of(t->first, t->day, e);                                                                                \
        switch (t->kind) {                                                                                            \
        case OPEN: return call(open)(at(lent), n, NEW_R, NEW_TM);                                                     \
        case OPEN_DEFAULT: return call(open_default)(at(lent), n);                                                    \
        case POST:                                                                                                    \
            return call(post)(at(lent), n, FIGURE(e[0]), t->day, e[2] & 255, FIGURE(e[2]) >> 8, FIGURE(e[3])).answer; \
        case WITHDRAW: return call(withdraw)(at(lent), n, t->first);                                                  \
        case CONTROL: return call(control)(at(lent), n, t->day).answer;                                               \
        default: return call(read_file)(at(lent), n, (const uint8_t *)file, lines).answer;                            \
        }                                                                                                             \
    }

#define FIGURE(word) ((word) & 0xFFFFFFF)
#define ON_BYTES(name) fanzsoreb_##name
#define ON_WORDS(name) fanzsoreb_##name##_words
#define AS_BYTES(lent) (lent)
#define AS_WORDS(lent) ((uint32_t *)(void *)(lent))
CALLER(in_bytes, ON_BYTES, AS_BYTES, 1)
CALLER(in_words, ON_WORDS, AS_WORDS, 4)
