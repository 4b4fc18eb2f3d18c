/* A book in a mapped file, and the end of the process that changes it: in the middle of any call the file has the book
 * before the call or the book after it (may_be_seen says what else, of an opening and of control). Stepped by the
 * stores of one call after the other, and by SIGKILL at any time. The file was used before: valid entries of an
 * earlier day lie beyond the number of entries.
 * Prints 'N passed, M failed'; the exit status is 1 if M is above 0. */
#define _GNU_SOURCE
#include "fanzsoreb.h"

#include <stdio.h>
#include <stdlib.h>

#include "calls.h"
#include "reader.h"
#include "steps.h"
#include "orders.h"
#include "mapped.h"
#include "ends.h"

static unsigned passed, failed, calls_stepped;
static unsigned long stores_stepped;
static plan now;

static void check(int held, const char *what)
{
    if (held) {
        passed++;
        return;
    }
    failed++;
    printf("FAIL %s\n", what);
}

/* A way to make calls: on words or on bytes, at an address. */
typedef struct { const char *name; caller *make; size_t offset; } way;
static const way ways[] = {
    { "in words", in_words, 0 }, { "in words 4 bytes on", in_words, 4 },
    { "in bytes", in_bytes, 0 }, { "in bytes at an odd address", in_bytes, 1 }
};
enum { WAYS = 4 };

/* One call, looked at after each of its stores. */
static void step(const way *w, task t)
{
    uint32_t entries, cause;
    char what[256];
    to_do(&now, t);
    entries = now.was_book ? entries_of(now.before) : 0;
    cause = stepped(w->make, &now);
    snprintf(what, sizeof what,
             "%s %s, %u entries in %lu bytes: cause %u, %lu of %lu stores leave neither book, the first is store %lu",
             kinds[t.kind], w->name, entries, (unsigned long)now.length, cause, faults, stores, first_fault);
    check(cause == cause_of(&t) && faults == 0 && sees(lent, now.after), what);
    calls_stepped++;
    stores_stepped += stores;
}

static void prepare(const way *w, uint32_t entries, size_t length)
{
    lent = mapped + w->offset;
    lay_out(lent, entries);
    found(&now, lent, length, 1);
}

/* A call on a book of so many entries. */
static void step_on(const way *w, uint32_t entries, size_t length, enum kind kind, uint32_t first, uint32_t lines)
{
    task t = { OPEN, 0, 0, DAY };
    t.kind = kind;
    t.first = first;
    t.lines = lines;
    prepare(w, entries, length);
    step(w, t);
}

/* Each call on a book of so many entries, in a slice with room for at least some more. */
static void step_all(const way *w, uint32_t entries, size_t length, uint32_t lines)
{
    step_on(w, entries, length, OPEN, 0, 0);
    step_on(w, entries, length, OPEN_DEFAULT, 0, 0);
    step_on(w, entries, length, POST, 5000, 0);
    step_on(w, entries, length, READ_FILE, 7000, lines);
    step_on(w, entries, length, BAD_FILE, 7000, lines);
    step_on(w, entries, length, CONTROL, 0, 0);
    if (entries > 0) {
        step_on(w, entries, length, WITHDRAW, 0, 0);
        step_on(w, entries, length, WITHDRAW, entries - 1 - is_withdrawn(entries - 1), 0);
    }
}

/* An opening in memory that is no book. */
static void step_fresh(const way *w, int fill)
{
    task t = { OPEN, 0, 0, DAY };
    prepare(w, 0, FANZSOREB_BOOK_BYTES);
    memset(lent, fill, now.length);
    found(&now, lent, now.length, 0);
    step(w, t);
}

/* From 255 to 256 entries two bytes of their number change. A call on the bytes of a large book may store thousands of
 * words, which takes long: one size of them at each address. */
static void step_ways(void)
{
    static const uint32_t sizes[] = { 0, 1, 25, 100, 255 };
    size_t i, k;
    for (k = 0; k < WAYS; k++) {
        for (i = 0; i < 5; i++) {
            step_all(&ways[k], sizes[i], 12 + 20 * (sizes[i] + 9), 9);
            step_all(&ways[k], sizes[i], FANZSOREB_BOOK_BYTES, 4);
        }
        step_all(&ways[k], 200, FANZSOREB_BOOK_BYTES, LINES);
        if (ways[k].offset != 0)
            step_all(&ways[k], 768, FANZSOREB_BOOK_BYTES, 4);
        else
            step_all(&ways[k], FANZSOREB_MOST_ENTRIES - 1, FANZSOREB_BOOK_BYTES, 1);
        step_fresh(&ways[k], 0);
        step_fresh(&ways[k], 0xEE);
    }
}

/* Whether a call that stores in an order of its own is found: 255 entries, 9 lines. */
static int finds(caller *make, enum kind kind)
{
    task t = { OPEN, 0, 9, DAY };
    t.kind = kind;
    prepare(&ways[0], 255, 12 + 20 * 300);
    to_do(&now, t);
    stepped(make, &now);
    return faults > 0;
}

/* The test itself: it finds each wrong order, and no right one. */
static void known_orders(void)
{
    static const enum kind every[] = { OPEN, OPEN_DEFAULT, POST, WITHDRAW, READ_FILE, CONTROL };
    size_t i;
    for (i = 0; i < 6; i++)
        check(!finds(count_last, every[i]), "the right order is taken for a wrong one");
    check(finds(count_first, OPEN), "an opening that stores the number of entries first is not found");
    check(finds(count_first, POST), "a post that stores the number of entries first is not found");
    check(finds(count_first, READ_FILE), "a file that stores the number of entries first is not found");
    check(finds(count_first, CONTROL), "a control that stores the number of entries first is not found");
    check(finds(count_in_bytes, POST), "a number of entries stored byte by byte is not found");
    check(finds(line_by_line, READ_FILE), "a file posted line by line is not found");
    check(finds(cleared_first, WITHDRAW), "a withdrawal that clears a word first is not found");
}

/* Whether the stores of a post trap. */
static int can_be_stepped(void)
{
    finds(count_last, POST);
    return stores > 0;
}

/* SIGKILL at any time, so many times. */
static void ends(int file, unsigned times, caller *const by[2], size_t offset)
{
    unsigned within, bad = ended_badly(file, times, by, offset, &within);
    char what[100];
    snprintf(what, sizeof what, "%u of %u ends leave neither book", bad, times);
    check(bad == 0, what);
    printf("ended %u times %lu bytes into the file, %u of them within a call\n", times, (unsigned long)offset, within);
}

static void every_end(int file)
{
    static caller *const by_turns[2] = { in_words, in_bytes }, *const bytes[2] = { in_bytes, in_bytes },
                        *const wrong[2] = { count_long_before, count_long_before };
    unsigned within;
    check(ended_badly(file, 30, wrong, 0, &within) > 0, "no end finds the number of entries long before the entries");
    ends(file, 400, by_turns, 0);
    ends(file, 400, bytes, 1);
}

int main(void)
{
    int file = new_file();
    mapped_length = FILE_BYTES;
    mapped = map_file(file);
    if (can_be_stepped()) {
        known_orders();
        step_ways();
        printf("stepped through %u calls, %lu stores\n", calls_stepped, stores_stepped);
    } else
        printf("calls cannot be stepped here: a store does not trap\n");
    munmap(mapped, mapped_length);
    every_end(file);
    printf("%u passed, %u failed\n", passed, failed);
    return failed == 0 ? 0 : 1;
}
