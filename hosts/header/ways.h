/* The three ways to make a call on a book, or the month step: on words, on bytes, or whichever the header chooses. The
 * checks call these functions and are run once for each way. */
#ifndef WAYS_H
#define WAYS_H

enum { WORDS, BYTES, ANY, WAYS };
static int by;

#define CHOSEN(words, bytes, any) (by == WORDS ? (words) : by == BYTES ? (bytes) : (any))

/* Memory as words, and a length in words: the test asks for words of aligned memory alone. */
static uint32_t *in_words(void *at)
{
    if ((uintptr_t)at % 4 != 0)
        check(0, "words at an address that is no multiple of 4", __LINE__);
    return (uint32_t *)at;
}

static const uint32_t *of_words(const void *at)
{
    if ((uintptr_t)at % 4 != 0)
        check(0, "words at an address that is no multiple of 4", __LINE__);
    return (const uint32_t *)at;
}

static size_t words_of(size_t length)
{
    if (length % 4 != 0)
        check(0, "words of a length that is no multiple of 4", __LINE__);
    return length / 4;
}

static uint32_t way_is_book(const uint8_t *at, size_t length)
{
    return CHOSEN(fanzsoreb_is_book_words(of_words(at), words_of(length)), fanzsoreb_is_book(at, length),
                  fanzsoreb_is_book_any(at, length));
}

static uint32_t way_open(uint8_t *at, size_t length, uint32_t coefficient, uint32_t tolerance)
{
    return CHOSEN(fanzsoreb_open_words(in_words(at), words_of(length), coefficient, tolerance),
                  fanzsoreb_open(at, length, coefficient, tolerance),
                  fanzsoreb_open_any(at, length, coefficient, tolerance));
}

static uint32_t way_open_default(uint8_t *at, size_t length)
{
    return CHOSEN(fanzsoreb_open_default_words(in_words(at), words_of(length)), fanzsoreb_open_default(at, length),
                  fanzsoreb_open_default_any(at, length));
}

static fanzsoreb_posted way_post(uint8_t *at, size_t length, uint32_t party, uint32_t day, uint32_t type,
                                 uint32_t counterparty, uint64_t amount)
{
    return CHOSEN(fanzsoreb_post_words(in_words(at), words_of(length), party, day, type, counterparty, amount),
                  fanzsoreb_post(at, length, party, day, type, counterparty, amount),
                  fanzsoreb_post_any(at, length, party, day, type, counterparty, amount));
}

static uint32_t way_withdraw(uint8_t *at, size_t length, uint32_t number)
{
    return CHOSEN(fanzsoreb_withdraw_words(in_words(at), words_of(length), number),
                  fanzsoreb_withdraw(at, length, number), fanzsoreb_withdraw_any(at, length, number));
}

static fanzsoreb_counted way_count(const uint8_t *at, size_t length)
{
    return CHOSEN(fanzsoreb_count_words(of_words(at), words_of(length)), fanzsoreb_count(at, length),
                  fanzsoreb_count_any(at, length));
}

static fanzsoreb_entry_read way_entry(const uint8_t *at, size_t length, uint32_t number)
{
    return CHOSEN(fanzsoreb_entry_words(of_words(at), words_of(length), number), fanzsoreb_entry(at, length, number),
                  fanzsoreb_entry_any(at, length, number));
}

static fanzsoreb_tally_answer way_tally(const uint8_t *at, size_t length, uint32_t party, uint32_t day)
{
    return CHOSEN(fanzsoreb_tally_words(of_words(at), words_of(length), party, day),
                  fanzsoreb_tally(at, length, party, day), fanzsoreb_tally_any(at, length, party, day));
}

static fanzsoreb_balance way_day_ahead(const uint8_t *at, size_t length, uint32_t party, uint32_t day)
{
    return CHOSEN(fanzsoreb_day_ahead_words(of_words(at), words_of(length), party, day),
                  fanzsoreb_day_ahead(at, length, party, day), fanzsoreb_day_ahead_any(at, length, party, day));
}

static fanzsoreb_balance way_delivery(const uint8_t *at, size_t length, uint32_t party, uint32_t day)
{
    return CHOSEN(fanzsoreb_delivery_words(of_words(at), words_of(length), party, day),
                  fanzsoreb_delivery(at, length, party, day), fanzsoreb_delivery_any(at, length, party, day));
}

static fanzsoreb_report way_month_report(const uint8_t *at, size_t length, uint32_t month)
{
    return CHOSEN(fanzsoreb_month_report_words(of_words(at), words_of(length), month),
                  fanzsoreb_month_report(at, length, month), fanzsoreb_month_report_any(at, length, month));
}

/* Lengths in bytes, of which words are four each. */
static fanzsoreb_month_answer way_month(const uint8_t *prices, size_t prices_length, const uint8_t *imbalance,
                                        size_t imbalance_length, uint32_t rows, const uint8_t *dm, size_t dm_length,
                                        uint32_t group)
{
    return CHOSEN(fanzsoreb_month_words(of_words(prices), words_of(prices_length),
                                        (const int32_t *)of_words(imbalance), words_of(imbalance_length), rows,
                                        (const int32_t *)of_words(dm), words_of(dm_length), group),
                  fanzsoreb_month(prices, prices_length, imbalance, imbalance_length, rows, dm, dm_length, group),
                  fanzsoreb_month_any(prices, prices_length, imbalance, imbalance_length, rows, dm, dm_length, group));
}

static fanzsoreb_collateral_answer way_collateral(const uint8_t *at, size_t length, const fanzsoreb_case *c)
{
    return CHOSEN(fanzsoreb_collateral_of_words(of_words(at), words_of(length), c),
                  fanzsoreb_collateral_of(at, length, c), fanzsoreb_collateral_of_any(at, length, c));
}

static fanzsoreb_controlled way_control(uint8_t *at, size_t length, uint32_t day)
{
    return CHOSEN(fanzsoreb_control_words(in_words(at), words_of(length), day), fanzsoreb_control(at, length, day),
                  fanzsoreb_control_any(at, length, day));
}

/* The file is in bytes, at any address, in each way. */
static fanzsoreb_file_read way_read_file(uint8_t *at, size_t length, const uint8_t *file, size_t file_length)
{
    return CHOSEN(fanzsoreb_read_file_words(in_words(at), words_of(length), file, file_length),
                  fanzsoreb_read_file(at, length, file, file_length),
                  fanzsoreb_read_file_any(at, length, file, file_length));
}

#endif
