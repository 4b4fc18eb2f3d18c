/* Several threads at once, in the way chosen. */
#include <pthread.h>

/* One book read by two threads: faults counted by each. */
static void *read_often(void *faults)
{
    unsigned *wrong = (unsigned *)faults;
    fanzsoreb_case c = generator();
    int i;
    for (i = 0; i < 300; i++) {
        *wrong += way_is_book(book, lent) != 1;
        *wrong += way_count(book, lent).count != 7;
        *wrong += way_entry(book, lent, 3).amount != 5000;
        *wrong += way_tally(book, lent, 5, 90).tally.party != 5;
        *wrong += way_day_ahead(book, lent, 5, 99).balance != -50000000;
        *wrong += way_delivery(book, lent, 5, 99).balance != -50000000;
        *wrong += way_collateral(book, lent, &c).total != 1385887;
        *wrong += way_month_report(book, lent, 3).lines[30][16] != 1000000006000; /* days 91 to 120 */
    }
    return NULL;
}

/* A book of each thread's own, and one file for both: the sample's two lines, of another day. */
static void *write_often(void *faults)
{
    unsigned *wrong = (unsigned *)faults;
    uint32_t words[3 + 5 * 102];
    uint8_t *own = (uint8_t *)words;
    uint32_t i;
    memset(own, 0, sizeof words);
    *wrong += way_open_default(own, sizeof words) != FANZSOREB_DONE;
    *wrong += way_open(own, sizeof words, 105, 500000) != FANZSOREB_DONE;
    for (i = 0; i < 99; i++)
        *wrong += way_post(own, sizeof words, 1 + i, 9001, FANZSOREB_DAY_AHEAD_SALE, 0, 500001).number != i;
    *wrong += way_withdraw(own, sizeof words, 98) != FANZSOREB_DONE;
    *wrong += way_read_file(own, sizeof words, file, 40).posted != 2;
    *wrong += way_control(own, sizeof words, 9001).first != 98;
    *wrong += way_count(own, sizeof words).count != 102;
    return NULL;
}

static void two_threads(void *(*work)(void *))
{
    pthread_t threads[2];
    unsigned faults[2] = { 0, 0 };
    int i;
    for (i = 0; i < 2; i++)
        CHECK(pthread_create(&threads[i], NULL, work, &faults[i]) == 0);
    for (i = 0; i < 2; i++)
        CHECK(pthread_join(threads[i], NULL) == 0);
    CHECK(faults[0] == 0 && faults[1] == 0);
}
