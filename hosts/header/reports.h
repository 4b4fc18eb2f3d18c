/* The month report (document 02, T-01). */

/* A report as it is to be, all figures 0 but for those then set. */
static fanzsoreb_report stated;

static void state(uint32_t month, uint32_t first_day, uint32_t days)
{
    memset(&stated, 0, sizeof stated);
    stated.month = month;
    stated.first_day = first_day;
    stated.days = days;
}

static int as_stated(const fanzsoreb_report *r)
{
    unsigned i, k, alike = 0;
    for (i = 0; i < FANZSOREB_REPORT_LINES; i++)
        for (k = 0; k < FANZSOREB_REPORT_SUMS; k++)
            alike += r->lines[i][k] == stated.lines[i][k];
    return alike == FANZSOREB_REPORT_LINES * FANZSOREB_REPORT_SUMS && r->answer == stated.answer
        && r->month == stated.month && r->first_day == stated.first_day && r->days == stated.days;
}

/* The month's report is the stated one, and no byte has changed. */
static int reported(uint32_t month)
{
    fanzsoreb_report r;
    keep();
    r = way_month_report(book, lent, month);
    return as_stated(&r) && as_expected();
}

/* The cause of a report; a refused one has no figure. */
static uint32_t report_cause(uint32_t month)
{
    fanzsoreb_report r = way_month_report(book, lent, month);
    state(0, 0, 0);
    stated.answer = r.answer;
    CHECK(r.answer == FANZSOREB_DONE || as_stated(&r));
    return r.answer;
}

/* February 2000, days 31 to 59, of two parties: nothing of the entry withdrawn, of the sale that control cancels, of the
 * mark or of the days 30 and 60. R 105, TM 500,000. */
static void reports(size_t offset)
{
    const uint64_t most = 10000000000000;
    fresh(offset);
    CHECK(post(1, 31, FANZSOREB_BILATERAL_SALE, 2, 700000) == FANZSOREB_DONE);
    CHECK(post(1, 31, FANZSOREB_BILATERAL_SALE, 0, 40) == FANZSOREB_DONE);
    CHECK(post(2, 31, FANZSOREB_BILATERAL_SALE, 1, 3) == FANZSOREB_DONE);
    CHECK(post(1, 31, FANZSOREB_DAY_AHEAD_SALE, 0, 100) == FANZSOREB_DONE);
    CHECK(post(2, 31, FANZSOREB_DAY_AHEAD_SALE, 0, 20) == FANZSOREB_DONE);
    CHECK(post(2, 31, FANZSOREB_DAY_AHEAD_SALE, 0, 7000) == FANZSOREB_DONE);
    CHECK(post(1, 31, FANZSOREB_INTRADAY_SALE_MONEY, 0, most) == FANZSOREB_DONE);
    CHECK(post(2, 59, FANZSOREB_INTRADAY_SALE_MONEY, 0, most) == FANZSOREB_DONE);
    CHECK(post(2, 59, FANZSOREB_DAY_AHEAD_SALE, 0, 5) == FANZSOREB_DONE);
    CHECK(post(1, 30, FANZSOREB_DAY_AHEAD_SALE, 0, 1000000) == FANZSOREB_DONE);
    CHECK(post(1, 60, FANZSOREB_DAY_AHEAD_SALE, 0, 2000000) == FANZSOREB_DONE);
    update(2, 31, 9);
    update(1, 59, 1);
    CHECK(way_withdraw(book, lent, 5) == FANZSOREB_DONE);
    state(1, 31, 29);
    stated.lines[0][0] = 120;
    stated.lines[0][5] = 700043; /* with the export of 40 */
    stated.lines[0][19] = most;
    stated.lines[0][20] = 9;
    stated.lines[28][0] = 5;
    stated.lines[28][19] = most;
    stated.lines[28][20] = 1;
    stated.lines[29][0] = 125;
    stated.lines[29][5] = 700043;
    stated.lines[29][19] = 2 * most;
    stated.lines[29][20] = 10;
    CHECK(reported(1));
    CHECK(way_control(book, lent, 31).cancelled == 1);
    stated.lines[0][5] = 43;
    stated.lines[29][5] = 43;
    CHECK(reported(1));
    state(0, 0, 31);
    stated.lines[30][0] = 1000000;
    stated.lines[31][0] = 1000000;
    CHECK(reported(0));
    state(2, 60, 31);
    stated.lines[0][0] = 2000000;
    stated.lines[31][0] = 2000000;
    CHECK(reported(2));
    state(3, 91, 30);
    CHECK(reported(3));
    lent = 12 + 14 * 20; /* 13 entries and the mark, to the last word */
    CHECK(reported(3));
    lent -= 4;
    REFUSED(report_cause(3), FANZSOREB_NOT_A_BOOK);
}

/* Months of each length, the first and the last: 10 on the day before, 200 on the first, 3,000 on the last and 40,000 on
 * the day after. */
static void reported_months(size_t offset)
{
    static const struct { uint32_t month, first, days; } months[] = {
        { 0, 0, 31 }, { 1, 31, 29 }, { 3, 91, 30 }, { 12, 366, 31 }, { 13, 397, 28 }, { 1189, 36191, 28 },
        { 1198, 36464, 30 }, { 1199, 36494, 31 }
    };
    size_t i;
    for (i = 0; i < sizeof months / sizeof months[0]; i++) {
        uint32_t month = months[i].month, first = months[i].first, days = months[i].days;
        fresh(offset);
        if (first > 0)
            CHECK(post(1, first - 1, FANZSOREB_FUTURES_SALE, 0, 10) == FANZSOREB_DONE);
        CHECK(post(999, first, FANZSOREB_FUTURES_SALE, 0, 200) == FANZSOREB_DONE);
        CHECK(post(2, first + days - 1, FANZSOREB_FUTURES_SALE, 0, 3000) == FANZSOREB_DONE);
        if (month < FANZSOREB_REPORT_MONTHS - 1)
            CHECK(post(3, first + days, FANZSOREB_FUTURES_SALE, 0, 40000) == FANZSOREB_DONE);
        state(month, first, days);
        CHECK(fanzsoreb_first_day(month).day == first && fanzsoreb_first_day(month + 1).day == first + days);
        stated.lines[0][2] = 200;
        stated.lines[days - 1][2] = 3000;
        stated.lines[days][2] = 3200;
        CHECK(reported(month));
    }
}

/* k x 1,000 of each type k, k days after the first of March 2000, and as much of another party, where type 6 is an
 * export. */
static void reported_types(size_t offset)
{
    uint32_t k;
    fresh(offset);
    state(2, 60, 31);
    for (k = 1; k <= 22; k++)
        if (k != FANZSOREB_MARK) {
            uint32_t place = fanzsoreb_report_place(k);
            CHECK(post(1, 60 + k, k, k == FANZSOREB_BILATERAL_SALE ? 2 : 0, 1000 * k) == FANZSOREB_DONE);
            CHECK(post(3, 60 + k, k, 0, 1000 * k) == FANZSOREB_DONE);
            CHECK(place == (k == 22 ? 20 : k - 1));
            stated.lines[k][place] = 2000 * k;
            stated.lines[31][place] = 2000 * k;
        }
    CHECK(reported(2));
    CHECK(fanzsoreb_report_place(0) == FANZSOREB_REPORT_SUMS && fanzsoreb_report_place(21) == FANZSOREB_REPORT_SUMS);
    CHECK(fanzsoreb_report_place(23) == FANZSOREB_REPORT_SUMS && fanzsoreb_report_place(278) == FANZSOREB_REPORT_SUMS);
    CHECK(fanzsoreb_report_place(4294967295u) == FANZSOREB_REPORT_SUMS);
}

/* 1 comes before 12. */
static void reports_refused(size_t offset)
{
    static const uint32_t months[] = { FANZSOREB_REPORT_MONTHS, 1201, 4799, 65536, 2147483648u, 4294967295u };
    size_t i;
    fresh(offset);
    CHECK(post(1, 0, FANZSOREB_DAY_AHEAD_SALE, 0, 5) == FANZSOREB_DONE);
    for (i = 0; i < 6; i++)
        REFUSED(report_cause(months[i]), FANZSOREB_BAD_FIGURE);
    store(book, 1, 0x700003E9); /* R 1,001 */
    REFUSED(report_cause(0), FANZSOREB_NOT_A_BOOK);
    for (i = 0; i < 6; i++)
        REFUSED(report_cause(months[i]), FANZSOREB_NOT_A_BOOK);
    store(book, 1, 0x70000069);
    lent = 28;
    REFUSED(report_cause(0), FANZSOREB_NOT_A_BOOK);
    lent = 12;
    store(book, 0, 0x60000000);
    state(1199, 36494, 31);
    CHECK(reported(1199));
}

/* The book of largest_trading: 3,072 x 10^13 of type 17 on day 99, in the line and in the totals of April 2000. */
static void largest_report(size_t offset)
{
    largest_trading(offset);
    state(3, 91, 30);
    stated.lines[8][16] = 30720000000000000;
    stated.lines[30][16] = 30720000000000000;
    CHECK(reported(3));
    state(2, 60, 31);
    CHECK(reported(2));
}
