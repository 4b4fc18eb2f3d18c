/* A C host: opens a book, posts, asks both balances and the collateral, and meets a refusal. */
#include <stdio.h>

#include "fanzsoreb.h"

static uint32_t book[FANZSOREB_BOOK_WORDS];

static fanzsoreb_posted post(uint32_t party, uint32_t type, uint32_t counterparty, uint64_t amount)
{
    return fanzsoreb_post_words(book, FANZSOREB_BOOK_WORDS, party, 9000, type, counterparty, amount);
}

static void show(uint32_t party)
{
    fanzsoreb_balance ahead = fanzsoreb_day_ahead_words(book, FANZSOREB_BOOK_WORDS, party, 9000);
    fanzsoreb_balance delivery = fanzsoreb_delivery_words(book, FANZSOREB_BOOK_WORDS, party, 9000);
    printf("party %u: day-ahead %lld, delivery %lld, %s\n", party, (long long)ahead.balance,
           (long long)delivery.balance, fanzsoreb_detected(ahead.balance) ? "detected" : "clear");
}

int main(void)
{
    printf("version %u, open %u\n", fanzsoreb_version(), fanzsoreb_open_default_words(book, FANZSOREB_BOOK_WORDS));
    fanzsoreb_posted sale = post(1, FANZSOREB_BILATERAL_SALE, 2, 700000);
    fanzsoreb_posted program = post(1, FANZSOREB_GENERATION_PROGRAM, 0, 500000);
    printf("entries %u and %u of %u\n", sale.number, program.number,
           fanzsoreb_count_words(book, FANZSOREB_BOOK_WORDS).count);
    show(1);
    show(2);

    fanzsoreb_case supplier = FANZSOREB_SUPPLIER;
    supplier.party = 1;
    supplier.day = 9001;
    supplier.yt = 1000;
    supplier.best = 3;
    supplier.score = 1;
    fanzsoreb_collateral_answer c = fanzsoreb_collateral_of_words(book, FANZSOREB_BOOK_WORDS, &supplier);
    printf("margin %llu, YEK %llu, total %llu\n", (unsigned long long)c.margin, (unsigned long long)c.yek,
           (unsigned long long)c.total);

    fanzsoreb_posted refused = post(1000, FANZSOREB_DAY_AHEAD_SALE, 0, 1);
    printf("refused %u: %s\n", refused.answer, fanzsoreb_cause_name(refused.answer));
    return 0;
}
