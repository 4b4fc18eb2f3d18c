/* Tally, both balances, detection, sales ceiling, month step (document 01, 'The two balances', 'Sales ceiling',
 * 'Month step'), first days (document 02, T-08). */

/* The cause of a tally; a refused one has no figure. */
static uint32_t tally_cause(uint32_t party, uint32_t day)
{
    fanzsoreb_tally_answer t = way_tally(book, lent, party, day);
    uint64_t any = t.bought | t.tally.party;
    int k;
    for (k = 0; k < 17; k++)
        any |= t.tally.sums[k];
    CHECK(t.answer == FANZSOREB_DONE || any == 0);
    return t.answer;
}

/* The cause of both balances, which have the same ones; a refused balance is 0. */
static uint32_t balance_cause(uint32_t party, uint32_t day)
{
    fanzsoreb_balance ahead = way_day_ahead(book, lent, party, day);
    fanzsoreb_balance delivery = way_delivery(book, lent, party, day);
    CHECK(ahead.answer == delivery.answer);
    CHECK(ahead.answer == FANZSOREB_DONE || (ahead.balance == 0 && delivery.balance == 0));
    return ahead.answer;
}

static int64_t day_ahead(uint32_t party, uint32_t day)
{
    return way_day_ahead(book, lent, party, day).balance;
}

static int64_t delivery(uint32_t party, uint32_t day)
{
    return way_delivery(book, lent, party, day).balance;
}

/* Party 1 has k x 1,000 of each volume type k, an export and another day's sale; party 3 sells it 77. R 110, TM 0. */
static void seventeen_types(size_t offset)
{
    uint32_t k;
    lend(offset, FANZSOREB_BOOK_BYTES, 0xEE);
    CHECK(way_open(book, lent, 110, 0) == FANZSOREB_DONE);
    for (k = 1; k <= 16; k++)
        CHECK(post(1, 9000, k, k == FANZSOREB_BILATERAL_SALE ? 2 : 0, 1000 * k) == FANZSOREB_DONE);
    CHECK(post(1, 9000, FANZSOREB_UPDATED_GENERATION_PROGRAM, 0, 22000) == FANZSOREB_DONE);
    CHECK(post(1, 9000, FANZSOREB_BILATERAL_SALE, 0, 5) == FANZSOREB_DONE);
    CHECK(post(1, 9001, FANZSOREB_DAY_AHEAD_SALE, 0, 5) == FANZSOREB_DONE);
    CHECK(post(3, 9000, FANZSOREB_BILATERAL_SALE, 1, 77) == FANZSOREB_DONE);
}

static void tallies(size_t offset)
{
    fanzsoreb_tally_answer t;
    unsigned k;
    seventeen_types(offset);
    keep();
    t = way_tally(book, lent, 1, 9000);
    CHECK(t.answer == FANZSOREB_DONE && t.tally.party == 1 && t.bought == 77);
    for (k = 1; k <= 16; k++)
        CHECK(t.tally.sums[k - 1] == 1000 * k);
    CHECK(t.tally.sums[16] == 22000);
    CHECK(tally_cause(0, 36525) == FANZSOREB_BAD_PARTY);
    CHECK(tally_cause(1, 36525) == FANZSOREB_BAD_DAY);
    CHECK(as_expected());
    lent = 8;
    CHECK(tally_cause(1, 9000) == FANZSOREB_NOT_A_BOOK);
}

/* Without cover a sale of the tolerance amount is clear, one kWh more is detected. */
static void clear_up_to(uint32_t tolerance)
{
    CHECK(day_ahead(1, 9000) == -100 * (int64_t)tolerance && delivery(1, 9000) == -100 * (int64_t)tolerance);
    CHECK(post(1, 9000, FANZSOREB_DAY_AHEAD_SALE, 0, tolerance) == FANZSOREB_DONE);
    CHECK(day_ahead(1, 9000) == 0 && fanzsoreb_detected(day_ahead(1, 9000)) == 0);
    CHECK(post(1, 9000, FANZSOREB_DAY_AHEAD_SALE, 0, 1) == FANZSOREB_DONE);
    CHECK(day_ahead(1, 9000) == 100 && fanzsoreb_detected(day_ahead(1, 9000)) == 1);
}

static void balances(size_t offset)
{
    seventeen_types(offset);
    keep();
    CHECK(day_ahead(1, 9000) == -7518470); /* 100 x 14,000 - 110 x (65,000 + 77 + 16,000) */
    CHECK(delivery(1, 9000) == -10008470); /* 100 x 21,000 - 110 x (84,000 - 12,000 + 22,000 + 77 + 16,000) */
    CHECK(day_ahead(2, 9000) == -660000 && delivery(2, 9000) == -660000);
    CHECK(day_ahead(3, 9000) == 7700 && delivery(3, 9000) == 7700);
    CHECK(balance_cause(3, 9000) == FANZSOREB_DONE);
    CHECK(balance_cause(1000, 36525) == FANZSOREB_BAD_PARTY);
    CHECK(balance_cause(1, 36525) == FANZSOREB_BAD_DAY);
    CHECK(as_expected());
    lent = 8;
    CHECK(balance_cause(1, 9000) == FANZSOREB_NOT_A_BOOK);

    fresh(offset);
    clear_up_to(500000);
    CHECK(way_open(book, lent, 110, 600000) == FANZSOREB_DONE);
    clear_up_to(600000);
}

/* Sums 12 and 22 of a tally. */
static int programs(uint64_t program, uint64_t update)
{
    fanzsoreb_tally_answer t = way_tally(book, lent, 1, 9000);
    return t.answer == FANZSOREB_DONE && t.tally.sums[11] == program && t.tally.sums[16] == update;
}

static void update(uint32_t party, uint32_t day, uint64_t amount)
{
    CHECK(post(party, day, FANZSOREB_UPDATED_GENERATION_PROGRAM, 0, amount) == FANZSOREB_DONE);
}

/* Delivery uses the larger of sums 12 and 22, day-ahead sum 12 (document 02, T-02). R 100, TM 0: a balance is -100 x the
 * program that it uses. */
static void updated_programs(size_t offset)
{
    lend(offset, FANZSOREB_BOOK_BYTES, 0xEE);
    CHECK(way_open(book, lent, 100, 0) == FANZSOREB_DONE);
    CHECK(post(1, 9000, FANZSOREB_GENERATION_PROGRAM, 0, 300) == FANZSOREB_DONE);
    CHECK(programs(300, 0) && day_ahead(1, 9000) == -30000 && delivery(1, 9000) == -30000);
    update(1, 9000, 200); /* below */
    CHECK(programs(300, 200) && day_ahead(1, 9000) == -30000 && delivery(1, 9000) == -30000);
    update(1, 9000, 100); /* equal, both together */
    CHECK(programs(300, 300) && day_ahead(1, 9000) == -30000 && delivery(1, 9000) == -30000);
    update(1, 9000, 1); /* above */
    CHECK(programs(300, 301) && day_ahead(1, 9000) == -30000 && delivery(1, 9000) == -30100);
    update(2, 9000, 5000); /* another party's, another day's */
    update(1, 9001, 7000);
    CHECK(programs(300, 301) && day_ahead(1, 9000) == -30000 && delivery(1, 9000) == -30100);
    CHECK(day_ahead(2, 9000) == 0 && delivery(2, 9000) == -500000);
    CHECK(day_ahead(1, 9001) == 0 && delivery(1, 9001) == -700000);
    CHECK(way_withdraw(book, lent, 0) == FANZSOREB_DONE); /* updates without a program */
    CHECK(programs(0, 301) && day_ahead(1, 9000) == 0 && delivery(1, 9000) == -30100);
    CHECK(way_withdraw(book, lent, 1) == FANZSOREB_DONE);
    CHECK(programs(0, 101) && day_ahead(1, 9000) == 0 && delivery(1, 9000) == -10100);

    fresh(offset);
    update(1, 9000, 476190); /* 105 x 476,190 is below 100 x 500,000, 105 x 476,191 is 50,000,055 */
    CHECK(day_ahead(1, 9000) == -50000000 && delivery(1, 9000) == -50000000);
    update(1, 9000, 1);
    CHECK(day_ahead(1, 9000) == -50000000 && delivery(1, 9000) == -50000055);
}

static void detection(void)
{
    CHECK(fanzsoreb_detected(1) == 1 && fanzsoreb_detected(INT64_MAX) == 1);
    CHECK(fanzsoreb_detected(0) == 0 && fanzsoreb_detected(-1) == 0 && fanzsoreb_detected(INT64_MIN) == 0);
}

/* The cause of a ceiling; a refused one is not recordable. */
static uint32_t ceiling_cause(uint32_t offer, uint32_t bilateral, uint32_t futures, uint32_t capacity)
{
    fanzsoreb_ceiling_answer c = fanzsoreb_ceiling(offer, bilateral, futures, capacity);
    CHECK(c.answer == FANZSOREB_DONE || c.recordable == 0);
    return c.answer;
}

static uint32_t recordable(uint32_t offer, uint32_t bilateral, uint32_t futures, uint32_t capacity)
{
    return fanzsoreb_ceiling(offer, bilateral, futures, capacity).recordable;
}

static void ceilings(void)
{
    const uint32_t most = 1000000000;
    CHECK(recordable(26000, 10000, 6666, 1000) == 1 && recordable(26001, 10000, 6666, 1000) == 0);
    CHECK(recordable(30000, 20000, 0, 0) == 1 && recordable(30001, 20000, 0, 0) == 0);
    CHECK(recordable(30000, 0, 20000, 0) == 1 && recordable(30001, 0, 20000, 0) == 0);
    CHECK(recordable(25007, 0, 0, 7) == 1 && recordable(25008, 0, 0, 7) == 0);
    CHECK(recordable(most, most, most, most) == 1 && ceiling_cause(most, most, most, most) == FANZSOREB_DONE);
    CHECK(ceiling_cause(most + 1, 0, 0, 0) == FANZSOREB_BAD_FIGURE);
    CHECK(ceiling_cause(0, most + 1, 0, 0) == FANZSOREB_BAD_FIGURE);
    CHECK(ceiling_cause(0, 0, most + 1, 0) == FANZSOREB_BAD_FIGURE);
    CHECK(ceiling_cause(0, 0, 0, most + 1) == FANZSOREB_BAD_FIGURE);
}

/* The cause of a first day; a refused one is 0. */
static uint32_t first_day_cause(uint32_t month)
{
    fanzsoreb_first_day_answer f = fanzsoreb_first_day(month);
    CHECK(f.answer == FANZSOREB_DONE || f.day == 0);
    return f.answer;
}

static uint32_t begins(uint32_t month)
{
    return fanzsoreb_first_day(month).day;
}

/* The days of a month, 0 to 11, of a year. */
static uint32_t days_of(uint32_t year, uint32_t month)
{
    static const uint32_t days[] = { 31, 28, 31, 30, 31, 30, 31, 31, 30, 31, 30, 31 };
    int leap = year % 4 == 0 && (year % 100 != 0 || year % 400 == 0);
    return days[month] + (month == 1 && leap);
}

/* Each month begins where the one before ends, to the end of 2399. */
static void every_month(void)
{
    uint32_t month, day = 0, wrong = 0;
    for (month = 0; month < FANZSOREB_HORIZON_MONTHS; month++) {
        wrong += fanzsoreb_first_day(month).day != day;
        day += days_of(2000 + month / 12, month % 12);
    }
    CHECK(wrong == 0 && day == 146097);
}

/* Month 12 x (year - 2000) + n - 1 is the nth of a year (document 02, T-08). */
static void first_days(void)
{
    CHECK(begins(0) == 0 && begins(1) == 31 && begins(2) == 60 && begins(11) == 335 && begins(12) == 366);
    CHECK(begins(1199) == 36494 && begins(1200) == 36525 && first_day_cause(1200) == FANZSOREB_DONE);
    CHECK(begins(1201) == 36556 && begins(1202) == 36584 && begins(1211) == 36859 && begins(1212) == 36890);
    CHECK(begins(1250) == 38045 && begins(2402) == 73108 && begins(3602) == 109632);
    CHECK(begins(4788) == 145732 && begins(FANZSOREB_HORIZON_MONTHS - 1) == 146066);
    CHECK(first_day_cause(4799) == FANZSOREB_DONE && first_day_cause(4800) == FANZSOREB_BAD_FIGURE);
    CHECK(first_day_cause(4294967295u) == FANZSOREB_BAD_FIGURE);
    every_month();
}

/* Month tables at any address: offset 0 is a multiple of 4. */
static uint32_t price_memory[746 + 2], imbalance_memory[745 * 64 + 2], dm_memory[746 + 2];
static uint8_t *prices, *imbalance, *dm;

static void tables_at(size_t of_prices, size_t of_imbalance, size_t of_dm)
{
    prices = (uint8_t *)price_memory + of_prices;
    imbalance = (uint8_t *)imbalance_memory + of_imbalance;
    dm = (uint8_t *)dm_memory + of_dm;
}

static fanzsoreb_month_answer month(size_t hours, size_t figures, uint32_t rows, uint32_t group)
{
    return way_month(prices, 4 * hours, imbalance, 4 * figures, rows, dm, 4 * hours, group);
}

/* The cause of a month step; a refused one has no figure. */
static uint32_t month_cause(size_t hours, size_t figures, uint32_t rows, uint32_t group)
{
    fanzsoreb_month_answer m = month(hours, figures, rows, group);
    CHECK(m.answer == FANZSOREB_DONE || (m.month.aosmf == 0 && m.month.aedm == 0));
    return m.answer;
}

/* Two hours of two groups. Prices 1,000 and 4,000; -10, 20 and 30, -40; DM 5, -6. */
static void fill_two_groups(void)
{
    store(prices, 0, 1000);
    store(prices, 1, 4000);
    store(imbalance, 0, (uint32_t)-10);
    store(imbalance, 1, 20);
    store(imbalance, 2, 30);
    store(imbalance, 3, (uint32_t)-40);
    store(dm, 0, 5);
    store(dm, 1, (uint32_t)-6);
}

static void two_groups(size_t offset)
{
    tables_at(offset, offset, offset);
    fill_two_groups();
}

static void months(size_t offset)
{
    fanzsoreb_month_answer m;
    two_groups(offset);
    m = month(2, 4, 2, 0); /* (40 x 1,000 + 60 x 4,000) / 100; -10 - 5 + 20 + 6 */
    CHECK(m.answer == FANZSOREB_DONE && m.month.aosmf == 2800 && m.month.aedm == 11);
    m = month(2, 4, 2, 1); /* 30 - 5 - 40 + 6 */
    CHECK(m.answer == FANZSOREB_DONE && m.month.aosmf == 2800 && m.month.aedm == -9);
    m = way_month(prices, 8, prices, 8, 1, prices, 8, 0); /* one slice thrice: (1,000^2 + 4,000^2) / 5,000 */
    CHECK(m.answer == FANZSOREB_DONE && m.month.aosmf == 3400 && m.month.aedm == 0);
    m = month(0, 0, 64, 63);
    CHECK(m.answer == FANZSOREB_DONE && m.month.aosmf == 0 && m.month.aedm == 0);
    store(prices, 0, 100);
    store(prices, 1, 101);
    store(imbalance, 0, (uint32_t)-1);
    store(imbalance, 1, (uint32_t)-1);
    m = month(2, 2, 1, 0); /* 100.5, halves up; -1 - 5 - 1 + 6 */
    CHECK(m.answer == FANZSOREB_DONE && m.month.aosmf == 101 && m.month.aedm == -1);
}

/* The average of two hours at prices 1 and 0, by their imbalances. */
static fanzsoreb_month_answer weighed(size_t offset, int32_t first, int32_t second)
{
    two_groups(offset);
    store(prices, 0, 1);
    store(prices, 1, 0);
    store(imbalance, 0, (uint32_t)first);
    store(imbalance, 1, (uint32_t)second);
    store(dm, 0, 0);
    store(dm, 1, 0);
    return month(2, 2, 1, 0);
}

/* Each of -10^7, -1, 0, 1 and 10^7 beside each: equal weights are 0.5, up, and a first one that weighs less is below it.
   In a whole table, 9,536 hours of each, the hours 298 to 446 have 13/64 of all weights, at price 32 just 6.5, and the
   149 hours before or after them less. */
static void months_weighed(size_t offset)
{
    static const int32_t edges[5] = {-10000000, -1, 0, 1, 10000000};
    static const uint32_t sizes[5] = {10000000, 1, 0, 1, 10000000};
    fanzsoreb_month_answer m;
    size_t i, k;
    for (i = 0; i < 25; i++) {
        m = weighed(offset, edges[i / 5], edges[i % 5]);
        CHECK(m.answer == FANZSOREB_DONE && m.month.aedm == edges[i / 5] + edges[i % 5]);
        CHECK(m.month.aosmf == (sizes[i / 5] > 0 && sizes[i / 5] >= sizes[i % 5]));
    }
    CHECK(weighed(offset, -9999999, 10000000).month.aosmf == 0);
    CHECK(weighed(offset, 9999999, -10000000).month.aosmf == 0);
    m = weighed(offset, INT32_MIN, 1);
    CHECK(m.answer == FANZSOREB_BAD_FIGURE && m.month.aosmf == 0 && m.month.aedm == 0);
    for (i = 0; i < 745 * 64; i++)
        store(imbalance, i, (uint32_t)edges[i / 9536]);
    for (k = 1; k < 4; k++) {
        for (i = 0; i < 745; i++) {
            store(prices, i, i / 149 == k ? 32 : 0);
            store(dm, i, 0);
        }
        m = month(745, 745 * 64, 64, 12); /* 596 hours of -10^7 and 149 of -1 */
        CHECK(m.answer == FANZSOREB_DONE && m.month.aosmf == (k == 2 ? 7 : 6) && m.month.aedm == -5960000149);
    }
}

static void months_refused(size_t offset)
{
    two_groups(offset);
    CHECK(way_month(prices, 4, imbalance, 16, 2, dm, 8, 0).answer == FANZSOREB_BAD_LENGTH);
    CHECK(way_month(prices, 8, imbalance, 12, 2, dm, 8, 0).answer == FANZSOREB_BAD_LENGTH);
    CHECK(way_month(prices, 8, imbalance, 16, 2, dm, 12, 0).answer == FANZSOREB_BAD_LENGTH);
    CHECK(way_month(prices, 8, imbalance, 16, 2, dm, 4, 0).answer == FANZSOREB_BAD_LENGTH);
    CHECK(month_cause(2, 4, 3, 0) == FANZSOREB_BAD_LENGTH);
    CHECK(month_cause(746, 746, 1, 0) == FANZSOREB_BAD_LENGTH);
    CHECK(month_cause(2, 0, 0, 0) == FANZSOREB_BAD_FIGURE);
    CHECK(month_cause(0, 0, 65, 0) == FANZSOREB_BAD_FIGURE);
    CHECK(month_cause(2, 4, 2, 2) == FANZSOREB_BAD_FIGURE);
    store(prices, 1, 1000001);
    CHECK(month_cause(2, 4, 2, 0) == FANZSOREB_BAD_FIGURE);
    two_groups(offset);
    store(imbalance, 3, (uint32_t)-10000001);
    CHECK(month_cause(2, 4, 2, 0) == FANZSOREB_BAD_FIGURE);
    two_groups(offset);
    store(dm, 0, 10000001);
    CHECK(month_cause(2, 4, 2, 0) == FANZSOREB_BAD_FIGURE);
}

/* The largest tables: 745 hours of 64 groups, each price 10^6, each imbalance -10^7, each DM 10^7. */
static void longest_month(size_t offset)
{
    fanzsoreb_month_answer m;
    size_t i;
    two_groups(offset);
    for (i = 0; i < 745 * 64; i++)
        store(imbalance, i, (uint32_t)-10000000);
    for (i = 0; i < 745; i++) {
        store(prices, i, 1000000);
        store(dm, i, 10000000);
    }
    m = month(745, 745 * 64, 64, 63);
    CHECK(m.answer == FANZSOREB_DONE && m.month.aosmf == 1000000 && m.month.aedm == -14900000000);
}
