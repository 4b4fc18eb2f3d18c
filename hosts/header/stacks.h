/* The stack that each call needs, on full books and the largest tables, and on bytes of smaller books: measured on a
 * painted stack, and held to the stated sizes by threads that have no more. */
#include <limits.h>
#include <stdlib.h>
#include <sys/mman.h>
#include <sys/wait.h>
#include <unistd.h>

static uint32_t book_words[FANZSOREB_BOOK_WORDS] __attribute__((aligned(4096))); /* for stores.h */
static uint32_t price_words[745];
static int32_t imbalance_words[745 * 64], dm_words[745];
static uint8_t long_file[FANZSOREB_MOST_FILE_BYTES];
enum { FULL_WORDS = FANZSOREB_BOOK_WORDS, FULL = 3071, LONG_FILE = 8 + 12 * 3072, ONE_LINE = 8 + 12 };
static uint32_t last;

/* Words of 3,071 entries, and in word 0 the number asked, so that just these are the book's. Party 1 sells to 2 and
 * 2 to 3 on day 9,001, and 1 sold to 2 on 9,000, which was cancelled: a control of 9,001 cancels both sales, the second
 * one in its second pass. The same at an odd address. */
static void book_of(uint32_t entries, size_t length)
{
    static const uint32_t first[] = {
        0x60000000, 0x70000069, 0x8007A120,
        0x10000001, 0x20002328, 0x32000206, 0x400AAE60, 0x50000000,
        0x10000001, 0x20002329, 0x30000206, 0x400AAE60, 0x50000000,
        0x10000002, 0x20002329, 0x30000306, 0x400AAE60, 0x50000000,
        0x10000000, 0x20002327, 0x30000015, 0x40000000, 0x50000000
    };
    size_t i;
    last = entries - 1;
    memcpy(book_words, first, sizeof first);
    book_words[0] += entries;
    for (i = 4; i < FANZSOREB_MOST_ENTRIES; i++) {
        book_words[3 + 5 * i] = 0x10000004 + (uint32_t)i % 900;
        book_words[4 + 5 * i] = 0x20002329;
        book_words[5 + 5 * i] = 0x30000000 + FANZSOREB_GENERATION_PROGRAM;
        book_words[6 + 5 * i] = 0x40000001;
        book_words[7 + 5 * i] = 0x50000000;
    }
    lend(1, length, 0xEE);
    for (i = 0; i < FULL_WORDS; i++)
        store(book, i, book_words[i]);
}

/* The longest month, and a file of 3,072 lines of party 1. */
static void full_tables(void)
{
    size_t i;
    two_groups(1);
    for (i = 0; i < 745 * 64; i++) {
        imbalance_words[i] = -10000000;
        store(imbalance, i, (uint32_t)-10000000);
    }
    for (i = 0; i < 745; i++) {
        price_words[i] = 1000000;
        dm_words[i] = 10000000;
        store(prices, i, 1000000);
        store(dm, i, 10000000);
    }
    store(long_file, 1, 0x20002329);
    for (i = 0; i < 3072; i++) {
        store(long_file, 2 + 3 * i, 0x30000001);
        store(long_file, 3 + 3 * i, 0x40000001);
        store(long_file, 4 + 3 * i, 0x50000000);
    }
}

/* The file's block of so many lines, for a book as it is or, if they are more than one, for one of no entries. */
static const uint8_t *file_of(uint32_t lines)
{
    store(long_file, 0, 0x10000001 + lines * 65536);
    if (lines > 1) {
        book_words[0] = 0x60000000;
        store(book, 0, 0x60000000);
    }
    return long_file;
}

static fanzsoreb_case asked;
static uint32_t answered;

/* Each answers its cause, or 0 if it has none and the figure is right. */
#define CALL(name, cause)               \
    static void *name(void *unused)     \
    {                                   \
        answered = (uint32_t)(cause);   \
        return unused;                  \
    }
CALL(on_nothing, 0)
CALL(on_version, fanzsoreb_version() != FANZSOREB_VERSION)
CALL(on_detected, fanzsoreb_detected(1) != 1)
CALL(on_ceiling, fanzsoreb_ceiling(1, 2, 3, 4).answer)
CALL(on_first_day, fanzsoreb_first_day(4799).answer)
CALL(on_is_book, fanzsoreb_is_book(book, lent) != 1)
CALL(on_open, fanzsoreb_open(book, lent, 110, 0))
CALL(on_open_default, fanzsoreb_open_default(book, lent))
CALL(on_post, fanzsoreb_post(book, lent, 1, 9001, 6, 2, 1).answer)
CALL(on_withdraw, fanzsoreb_withdraw(book, lent, 1))
CALL(on_count, fanzsoreb_count(book, lent).answer)
CALL(on_entry, fanzsoreb_entry(book, lent, last).answer)
CALL(on_tally, fanzsoreb_tally(book, lent, 1, 9001).answer)
CALL(on_day_ahead, fanzsoreb_day_ahead(book, lent, 1, 9001).answer)
CALL(on_delivery, fanzsoreb_delivery(book, lent, 1, 9001).answer)
CALL(on_collateral, fanzsoreb_collateral_of(book, lent, &asked).answer)
CALL(on_month_report, fanzsoreb_month_report(book, lent, 295).answer)
CALL(on_one_line, fanzsoreb_read_file(book, lent, file_of(1), ONE_LINE).answer)
CALL(on_long_file, fanzsoreb_read_file(book, lent, file_of(3072), LONG_FILE).answer)
CALL(on_control, fanzsoreb_control(book, lent, 9001).second != 1)
CALL(on_month, fanzsoreb_month(prices, 4 * 745, imbalance, 4 * 745 * 64, 64, dm, 4 * 745, 63).answer)
CALL(is_book_words, fanzsoreb_is_book_words(book_words, FULL_WORDS) != 1)
CALL(open_words, fanzsoreb_open_words(book_words, FULL_WORDS, 110, 0))
CALL(open_default_words, fanzsoreb_open_default_words(book_words, FULL_WORDS))
CALL(post_words, fanzsoreb_post_words(book_words, FULL_WORDS, 1, 9001, 6, 2, 1).answer)
CALL(withdraw_words, fanzsoreb_withdraw_words(book_words, FULL_WORDS, 1))
CALL(count_words, fanzsoreb_count_words(book_words, FULL_WORDS).answer)
CALL(entry_words, fanzsoreb_entry_words(book_words, FULL_WORDS, last).answer)
CALL(tally_words, fanzsoreb_tally_words(book_words, FULL_WORDS, 1, 9001).answer)
CALL(day_ahead_words, fanzsoreb_day_ahead_words(book_words, FULL_WORDS, 1, 9001).answer)
CALL(delivery_words, fanzsoreb_delivery_words(book_words, FULL_WORDS, 1, 9001).answer)
CALL(collateral_words, fanzsoreb_collateral_of_words(book_words, FULL_WORDS, &asked).answer)
CALL(month_report_words, fanzsoreb_month_report_words(book_words, FULL_WORDS, 295).answer)
CALL(one_line_words, fanzsoreb_read_file_words(book_words, FULL_WORDS, file_of(1), ONE_LINE).answer)
CALL(long_file_words, fanzsoreb_read_file_words(book_words, FULL_WORDS, file_of(3072), LONG_FILE).answer)
CALL(control_words, fanzsoreb_control_words(book_words, FULL_WORDS, 9001).second != 1)
CALL(month_words, fanzsoreb_month_words(price_words, 745, imbalance_words, 745 * 64, 64, dm_words, 745, 63).answer)

/* The header's choice on words takes no more stack than words do: it goes by words. */
CALL(is_book_any, fanzsoreb_is_book_any(book_words, FANZSOREB_BOOK_BYTES) != 1)
CALL(open_any, fanzsoreb_open_any(book_words, FANZSOREB_BOOK_BYTES, 110, 0))
CALL(open_default_any, fanzsoreb_open_default_any(book_words, FANZSOREB_BOOK_BYTES))
CALL(post_any, fanzsoreb_post_any(book_words, FANZSOREB_BOOK_BYTES, 1, 9001, 6, 2, 1).answer)
CALL(withdraw_any, fanzsoreb_withdraw_any(book_words, FANZSOREB_BOOK_BYTES, 1))
CALL(count_any, fanzsoreb_count_any(book_words, FANZSOREB_BOOK_BYTES).answer)
CALL(entry_any, fanzsoreb_entry_any(book_words, FANZSOREB_BOOK_BYTES, last).answer)
CALL(tally_any, fanzsoreb_tally_any(book_words, FANZSOREB_BOOK_BYTES, 1, 9001).answer)
CALL(day_ahead_any, fanzsoreb_day_ahead_any(book_words, FANZSOREB_BOOK_BYTES, 1, 9001).answer)
CALL(delivery_any, fanzsoreb_delivery_any(book_words, FANZSOREB_BOOK_BYTES, 1, 9001).answer)
CALL(collateral_any, fanzsoreb_collateral_of_any(book_words, FANZSOREB_BOOK_BYTES, &asked).answer)
CALL(month_report_any, fanzsoreb_month_report_any(book_words, FANZSOREB_BOOK_BYTES, 295).answer)
CALL(long_file_any, fanzsoreb_read_file_any(book_words, FANZSOREB_BOOK_BYTES, file_of(3072), LONG_FILE).answer)
CALL(control_any, fanzsoreb_control_any(book_words, FANZSOREB_BOOK_BYTES, 9001).second != 1)
CALL(month_any,
     fanzsoreb_month_any(price_words, 4 * 745, imbalance_words, 4 * 745 * 64, 64, dm_words, 4 * 745, 63).answer)

/* Refused before any sum: no book, or no such day. */
CALL(no_book_to_control, fanzsoreb_control(book + 4, lent - 4, 9001).answer)
CALL(no_day_to_control, fanzsoreb_control(book, lent, 36525).answer)
CALL(no_book_for_a_file, fanzsoreb_read_file(book + 4, lent - 4, file_of(1), ONE_LINE).answer)
CALL(no_words_to_control, fanzsoreb_control_words(book_words + 1, FULL_WORDS - 1, 9001).answer)
CALL(no_day_to_control_words, fanzsoreb_control_words(book_words, FULL_WORDS, 36525).answer)
CALL(no_words_for_a_file, fanzsoreb_read_file_words(book_words + 1, FULL_WORDS - 1, file_of(1), ONE_LINE).answer)

/* A call, the stack stated for it, what it answers, and the book that it is made on. */
typedef struct { const char *name; void *(*call)(void *); size_t stated; uint32_t cause, entries; size_t length; } need;
#define NEED(call, stated, cause) \
    { #call, call, FANZSOREB_STACK_##stated, FANZSOREB_##cause, FULL, FANZSOREB_BOOK_BYTES }
static const need calls[] = {
    NEED(on_version, FIGURES, DONE),
    NEED(on_detected, FIGURES, DONE),
    NEED(on_ceiling, FIGURES, DONE),
    NEED(on_first_day, FIGURES, DONE),
    NEED(is_book_words, WORDS, DONE),
    NEED(open_words, WORDS, DONE),
    NEED(open_default_words, WORDS, DONE),
    NEED(post_words, WORDS, DONE),
    NEED(withdraw_words, WORDS, DONE),
    NEED(count_words, WORDS, DONE),
    NEED(entry_words, WORDS, DONE),
    NEED(tally_words, WORDS, DONE),
    NEED(day_ahead_words, WORDS, DONE),
    NEED(delivery_words, WORDS, DONE),
    NEED(collateral_words, WORDS, DONE),
    NEED(month_report_words, REPORT_WORDS, DONE),
    NEED(month_words, WORDS, DONE),
    NEED(no_words_for_a_file, WORDS, NOT_A_BOOK),
    NEED(no_words_to_control, WORDS, NOT_A_BOOK),
    NEED(no_day_to_control_words, WORDS, BAD_DAY),
    NEED(one_line_words, FILE_WORDS, DONE),
    NEED(long_file_words, FILE_WORDS, DONE),
    NEED(control_words, CONTROL_WORDS, DONE),
    NEED(is_book_any, WORDS, DONE),
    NEED(open_any, WORDS, DONE),
    NEED(open_default_any, WORDS, DONE),
    NEED(post_any, WORDS, DONE),
    NEED(withdraw_any, WORDS, DONE),
    NEED(count_any, WORDS, DONE),
    NEED(entry_any, WORDS, DONE),
    NEED(tally_any, WORDS, DONE),
    NEED(day_ahead_any, WORDS, DONE),
    NEED(delivery_any, WORDS, DONE),
    NEED(collateral_any, WORDS, DONE),
    NEED(month_report_any, REPORT_WORDS, DONE),
    NEED(long_file_any, FILE_WORDS, DONE),
    NEED(control_any, CONTROL_WORDS, DONE),
    NEED(month_any, WORDS, DONE),
    NEED(on_is_book, BOOK, DONE),
    NEED(on_open, BOOK, DONE),
    NEED(on_open_default, BOOK, DONE),
    NEED(on_post, BOOK, DONE),
    NEED(on_withdraw, BOOK, DONE),
    NEED(on_count, BOOK, DONE),
    NEED(on_entry, BOOK, DONE),
    NEED(on_tally, BOOK, DONE),
    NEED(on_day_ahead, BOOK, DONE),
    NEED(on_delivery, BOOK, DONE),
    NEED(on_collateral, BOOK, DONE),
    NEED(on_month_report, REPORT, DONE),
    NEED(no_book_for_a_file, FILE, NOT_A_BOOK),
    NEED(no_book_to_control, CONTROL, NOT_A_BOOK),
    NEED(no_day_to_control, CONTROL, BAD_DAY),
    NEED(on_one_line, FILE, DONE),
    NEED(on_long_file, FILE, DONE),
    NEED(on_control, CONTROL, DONE),
    NEED(on_month, MONTH, DONE)
};
enum { CALLS = sizeof calls / sizeof calls[0] };

/* The calls on a book's bytes again: what is stated for words, and what the copy of a smaller book adds. */
static const need byte_calls[] = {
    NEED(on_is_book, WORDS, DONE),
    NEED(on_open, WORDS, DONE),
    NEED(on_open_default, WORDS, DONE),
    NEED(on_post, WORDS, DONE),
    NEED(on_withdraw, WORDS, DONE),
    NEED(on_count, WORDS, DONE),
    NEED(on_entry, WORDS, DONE),
    NEED(on_tally, WORDS, DONE),
    NEED(on_day_ahead, WORDS, DONE),
    NEED(on_delivery, WORDS, DONE),
    NEED(on_collateral, WORDS, DONE),
    NEED(on_month_report, REPORT_WORDS, DONE),
    NEED(on_one_line, FILE_WORDS, DONE),
    NEED(on_control, CONTROL_WORDS, DONE)
};
enum { BYTE_CALLS = sizeof byte_calls / sizeof byte_calls[0], BUT_FILE_AND_CONTROL = BYTE_CALLS - 2 };

/* Books, the stack that their copy adds to the thread's, and the most that a call takes with its caller, in whole KiB,
 * but for a file or control; a month report takes more, its answer among it. The second is no book: 500 bytes have place
 * for 24 entries, and its word 0 says more. */
static const struct { uint32_t entries; size_t length, added, taken; } sizes[] = {
    { 25, FANZSOREB_BOOK_BYTES, 4 * 1024, 6 * 1024 },
    { 0x0FFFFFFF, 500, 4 * 1024, 6 * 1024 },
    { 127, FANZSOREB_BOOK_BYTES, 8 * 1024, 9 * 1024 },
    { 768, FANZSOREB_BOOK_BYTES, 20 * 1024, 21 * 1024 }
};
enum { SIZES = sizeof sizes / sizeof sizes[0], TAKEN_BY_A_FULL_BOOK = 66 * 1024, MORE_BY_A_REPORT = 9 * 1024 };

static size_t with_more(const need *n, size_t taken)
{
    return n->call == on_month_report ? taken + MORE_BY_A_REPORT : taken;
}

static need sized(size_t size, size_t call)
{
    need n = byte_calls[call];
    n.stated += sizes[size].added;
    n.entries = sizes[size].entries;
    n.length = sizes[size].length;
    if (n.entries > FULL && n.call != on_open && n.call != on_open_default)
        n.cause = FANZSOREB_NOT_A_BOOK; /* 1 is what the calls without a cause answer then */
    return n;
}

static const char *label(const need *n)
{
    static char text[80];
    snprintf(text, sizeof text, "%s on %u entries in %lu bytes", n->name, n->entries, (unsigned long)n->length);
    return n->entries == FULL ? n->name : text;
}

/* A call in a thread with this stack; whether there was such a thread, and the call answered as it is to. */
static int in_thread(const need *n, uint8_t *stack, size_t size)
{
    pthread_attr_t attributes;
    pthread_t thread;
    int made;
    answered = 99;
    made = pthread_attr_init(&attributes) == 0 && pthread_attr_setstack(&attributes, stack, size) == 0
        && pthread_create(&thread, &attributes, n->call, NULL) == 0 && pthread_join(thread, NULL) == 0;
    pthread_attr_destroy(&attributes);
    return made && answered == n->cause;
}

/* What a thread used of a stack that was filled with a byte before. The call was made before: the first time the
 * system's linker may use the stack too. */
enum { STACK = 1 << 20, GUARD = 1 << 20 };

static size_t used_by(const need *n, uint8_t *stack)
{
    size_t free_bytes = 0;
    book_of(n->entries, n->length);
    n->call(NULL);
    book_of(n->entries, n->length);
    memset(stack, 0xA5, STACK);
    CHECK(in_thread(n, stack, STACK));
    while (free_bytes < STACK && stack[free_bytes] == 0xA5)
        free_bytes++;
    return STACK - free_bytes;
}

/* A stack of just this size, and below it memory that may not be touched, more than a call's largest frame. The thread is
 * in a process of its own, which a call that needs more ends. */
static int fits(const need *n, size_t size)
{
    int status = 1;
    pid_t child;
    book_of(n->entries, n->length);
    fflush(stdout);
    child = fork();
    if (child == 0) {
        uint8_t *memory = (uint8_t *)mmap(NULL, GUARD + size, PROT_NONE, MAP_PRIVATE | MAP_ANONYMOUS, -1, 0);
        if (memory == MAP_FAILED || mprotect(memory + GUARD, size, PROT_READ | PROT_WRITE) != 0)
            _exit(2);
        _exit(in_thread(n, memory + GUARD, size) ? 0 : 1);
    }
    return child > 0 && waitpid(child, &status, 0) == child && WIFEXITED(status) && WEXITSTATUS(status) == 0;
}

/* More than the smallest stack, for the test itself. */
static void *too_deep(void *unused)
{
    volatile uint8_t room[4 * FANZSOREB_STACK_FIGURES];
    size_t i;
    for (i = 0; i < sizeof room; i++)
        room[i] = 1;
    answered = room[0] == 1 ? 0 : 1;
    return unused;
}

/* Made before any other call, so that what the system's linker uses at a first one is in it. */
static void stacks_stated(void)
{
    static const need deep = NEED(too_deep, FIGURES, DONE);
    size_t i, k;
    need n;
    CHECK(FANZSOREB_STACK_FIGURES >= PTHREAD_STACK_MIN && !fits(&deep, deep.stated) && fits(&deep, 8 * deep.stated));
    for (i = 0; i < CALLS; i++)
        check(fits(&calls[i], calls[i].stated), calls[i].name, __LINE__);
    for (k = 0; k < SIZES; k++)
        for (i = 0; i < BYTE_CALLS; i++) {
            n = sized(k, i);
            check(fits(&n, n.stated), label(&n), __LINE__);
        }
}

/* With `print` a line a call: what it used beyond a thread that makes none, the whole thread, and the stated size. */
static size_t measured(const need *n, uint8_t *stack, size_t without, int print)
{
    size_t with = used_by(n, stack);
    check(with <= n->stated, label(n), __LINE__);
    if (print || with > n->stated)
        printf("%s: %lu bytes of stack, %lu with the thread's own, %lu stated\n", label(n),
               (unsigned long)(with > without ? with - without : 0), (unsigned long)with, (unsigned long)n->stated);
    return with;
}

static void stacks_used(int print)
{
    static const need idle = NEED(on_nothing, FIGURES, DONE);
    uint8_t *stack = (uint8_t *)mmap(NULL, STACK, PROT_READ | PROT_WRITE, MAP_PRIVATE | MAP_ANONYMOUS, -1, 0);
    size_t i, k, without, with;
    need n;
    CHECK(stack != MAP_FAILED);
    without = used_by(&idle, stack);
    for (i = 0; i < CALLS; i++) {
        with = measured(&calls[i], stack, without, print);
        if (calls[i].stated == FANZSOREB_STACK_BOOK || calls[i].call == on_month_report)
            check(with <= without + with_more(&calls[i], TAKEN_BY_A_FULL_BOOK), calls[i].name, __LINE__);
    }
    for (k = 0; k < SIZES; k++)
        for (i = 0; i < BYTE_CALLS; i++) {
            n = sized(k, i);
            with = measured(&n, stack, without, print);
            if (i < BUT_FILE_AND_CONTROL)
                check(with <= without + with_more(&n, sizes[k].taken), label(&n), __LINE__);
        }
    munmap(stack, STACK);
}

static void stacks(int print)
{
    asked = generator();
    full_tables();
    stacks_stated();
    stacks_used(print);
}
