/* Every prototype, struct and constant of fanzsoreb.h, compiled as C99 and as C++17, and every call made on inputs
 * worked out by hand from document 01: done and refused, on words, on bytes at any address and by the header's choice,
 * with null pointers, and by two threads.
 * Prints 'N passed, M failed'; the exit status is 1 if M is above 0. The argument `stacks` prints the stack that each
 * call used; any other one leaves out the stack, which valgrind does not let a program look at, and the pages that may
 * not be written. */
#define _DEFAULT_SOURCE
#include "fanzsoreb.h"
#include "fanzsoreb.h" /* twice does no harm */

#include "layout.h"
#include "check.h"
#include "ways.h"
#include "books.h"
#include "positions.h"
#include "collaterals.h"
#include "days.h"
#include "reports.h"
#include "lengths.h"
#include "threads.h"
#include "stacks.h"
#include "stores.h"

static void cause_names(void)
{
    static const char *const names[] = {
        "done", "not a book", "not a day file", "party outside 1 to 999", "day above 36,524",
        "type outside 1 to 20 and not 22", "counterparty", "amount", "day closed", "no entry free",
        "no such entry, a mark, or not standing", "length", "figure outside its range"
    };
    uint32_t cause;
    for (cause = 0; cause <= 12; cause++)
        CHECK(strcmp(fanzsoreb_cause_name(cause), names[cause]) == 0);
    CHECK(strcmp(fanzsoreb_cause_name(13), "unknown") == 0);
    CHECK(strcmp(fanzsoreb_cause_name(4294967295u), "unknown") == 0);
}

/* Every call on lent memory, in one way and at one address. */
static void at_offset(size_t offset)
{
    is_book(offset);
    opens(offset);
    posts(offset);
    larger_money(offset);
    updates(offset);
    posts_refused(offset);
    withdraws(offset);
    reads(offset);
    longer(offset);
    tallies(offset);
    balances(offset);
    updated_programs(offset);
    months(offset);
    months_weighed(offset);
    months_refused(offset);
    longest_month(offset);
    plain_supplier(offset);
    items(offset);
    update_beside_money(offset);
    figures_of_a_case(offset);
    cases_refused(offset);
    repeated_pair(offset);
    closed_day(offset);
    updated_day(offset);
    updated_buyer(offset);
    reads_a_file(offset);
    files_of_larger_money(offset);
    files_of_updates(offset);
    files_refused(offset);
    reports(offset);
    reported_months(offset);
    reported_types(offset);
    reports_refused(offset);
    largest_report(offset);
    shortest(offset);
    if (by != WORDS) {
        odd_lengths(offset);
        odd_months(offset);
    }
}

/* Words stand at multiples of 4, of which one is no multiple of 8. */
static void in_each_way(void)
{
    static const char *const names[WAYS] = { "words", "bytes", "the header's choice" };
    size_t offset;
    for (by = WORDS; by < WAYS; by++) {
        for (offset = 0; offset <= (by == WORDS ? 4 : 3); offset += by == WORDS ? 4 : 1) {
            snprintf(where, sizeof where, " (%s at offset %lu)", names[by], (unsigned long)offset);
            at_offset(offset);
        }
        null_pointers();
        if (by != WORDS)
            tables_apart();
        sample(1);
        money(by == BYTES ? 1 : 0);
        two_threads(read_often);
        two_threads(write_often);
    }
}

int main(int count, char **arguments)
{
    int print = count == 2 && strcmp(arguments[1], "stacks") == 0;
    if (count < 2 || print) {
        stacks(print);
        stores();
    }
    CHECK(fanzsoreb_version() == FANZSOREB_VERSION);
    detection();
    ceilings();
    first_days();
    aligned();
    cause_names();
    in_each_way();
    printf("%u passed, %u failed\n", passed, failed);
    return failed == 0 ? 0 : 1;
}
