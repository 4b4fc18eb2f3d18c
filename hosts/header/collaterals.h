/* Collateral (document 01, 'Collateral'). */

static uint32_t collateral_cause(const fanzsoreb_case *c)
{
    fanzsoreb_collateral_answer a = way_collateral(book, lent, c);
    CHECK(a.answer == FANZSOREB_DONE || (a.margin | a.trading | a.imbalance | a.risk | a.yek | a.total) == 0);
    return a.answer;
}

/* Day-ahead nets 900, -500, 100 and 5,000 on the four days before day 100, and an intraday net of 400 on day 90. */
static void money(size_t offset)
{
    fresh(offset);
    CHECK(post(5, 99, FANZSOREB_DAY_AHEAD_PURCHASE_MONEY, 0, 900) == FANZSOREB_DONE);
    CHECK(post(5, 98, FANZSOREB_DAY_AHEAD_SALE_MONEY, 0, 500) == FANZSOREB_DONE);
    CHECK(post(5, 97, FANZSOREB_DAY_AHEAD_PURCHASE_MONEY, 0, 100) == FANZSOREB_DONE);
    CHECK(post(5, 96, FANZSOREB_DAY_AHEAD_PURCHASE_MONEY, 0, 5000) == FANZSOREB_DONE);
    CHECK(post(5, 90, FANZSOREB_INTRADAY_PURCHASE_MONEY, 0, 700) == FANZSOREB_DONE);
    CHECK(post(5, 90, FANZSOREB_INTRADAY_SALE_MONEY, 0, 300) == FANZSOREB_DONE);
    CHECK(post(6, 99, FANZSOREB_DAY_AHEAD_PURCHASE_MONEY, 0, 1000000000000) == FANZSOREB_DONE);
}

/* A generator's case; its third month is out of range and not used. */
static fanzsoreb_case generator(void)
{
    fanzsoreb_case c = FANZSOREB_SUPPLIER;
    c.party = 5;
    c.day = 100;
    c.licence = 2;
    c.capacity = 50001;
    c.defaults = 1;
    c.months[0].aosmf = 175000;
    c.months[0].aedm = -1000;
    c.months[1].aosmf = 90000;
    c.months[1].aedm = -2001;
    c.months[2].aosmf = 1000001;
    c.months[2].aedm = INT64_MIN;
    c.used = 2;
    c.rk = 110;
    c.rt = 7;
    c.yt = 1000;
    c.score = 1;
    c.best = 3;
    return c;
}

static void plain_supplier(size_t offset)
{
    fanzsoreb_case c = FANZSOREB_SUPPLIER;
    fanzsoreb_collateral_answer a;
    int i;
    CHECK((c.party | c.day | c.licence | c.nonbusiness | c.holiday | c.defaults | c.used | c.rk | c.score) == 0);
    CHECK((c.capacity | c.rt | c.yt) == 0 && c.responsible == 1 && c.best == 1);
    for (i = 0; i < 3; i++)
        CHECK(c.months[i].aosmf == 0 && c.months[i].aedm == 0);
    fresh(offset);
    CHECK(collateral_cause(&c) == FANZSOREB_BAD_PARTY);
    c.party = 1;
    a = way_collateral(book, lent, &c);
    CHECK(a.answer == FANZSOREB_DONE && a.margin == 20000000 && a.total == 20000000);
    CHECK((a.trading | a.imbalance | a.risk | a.yek) == 0);
}

/* The same case as single figures, which words and bytes have. */
#define GENERATOR 5, 100, 2, 50001, 0, 0, 1, 1, 175000, -1000, 90000, -2001, 0, 0, 2, 110, 7, 1000, 1, 3

static fanzsoreb_collateral_answer by_figures(size_t length)
{
    return by == WORDS ? fanzsoreb_collateral_words(of_words(book), words_of(length), GENERATOR)
                       : fanzsoreb_collateral(book, length, GENERATOR);
}

static void items(size_t offset)
{
    fanzsoreb_case c = generator();
    fanzsoreb_collateral_answer a;
    money(offset);
    keep();
    a = way_collateral(book, lent, &c);
    CHECK(a.answer == FANZSOREB_DONE && a.margin == 1000020); /* 20 x 50,001 */
    CHECK(a.trading == 1470);      /* (900 + 0 + 100 + 400) x 21 x 4 / 80 */
    CHECK(a.imbalance == 385193);  /* 110 x 175,000 x 2,001 / 100,000, rounded up */
    CHECK(a.risk == 7 && a.yek == 667); /* 1,000 x 10 / 15, rounded up */
    CHECK(a.total == 1385887);     /* 1,000,020 + 385,193 + 7 + 667 */
    a = by_figures(lent);
    CHECK(a.answer == FANZSOREB_DONE && a.margin == 1000020 && a.trading == 1470 && a.imbalance == 385193);
    CHECK(a.risk == 7 && a.yek == 667 && a.total == 1385887);
    a = by_figures(12 + 6 * 20 + 16); /* seven entries */
    CHECK(a.answer == FANZSOREB_NOT_A_BOOK && (a.margin | a.trading | a.imbalance | a.risk | a.yek | a.total) == 0);
    CHECK(as_expected());
}

/* Trading is of types 17 to 20 alone. */
static void update_beside_money(size_t offset)
{
    fanzsoreb_case c = generator();
    money(offset);
    update(5, 99, 1000000000);
    CHECK(way_collateral(book, lent, &c).trading == 1470);
    CHECK(way_collateral(book, lent, &c).total == 1385887);
}

static void figures_of_a_case(size_t offset)
{
    fanzsoreb_case c = generator();
    money(offset);
    c.nonbusiness = 3; /* k 4: day 96 too */
    CHECK(way_collateral(book, lent, &c).trading == 6720); /* 6,400 x 21 x 4 / 80 */
    c.holiday = 1;
    CHECK(way_collateral(book, lent, &c).trading == 5040); /* 6,400 x 21 x 3 / 80 */
    c.used = 1;
    CHECK(way_collateral(book, lent, &c).imbalance == 192500); /* 110 x 175,000 x 1,000 / 100,000 */
    c.used = 3;
    c.rk = 500;
    c.months[2].aosmf = 1000000;
    c.months[2].aedm = -14900000000;
    CHECK(way_collateral(book, lent, &c).imbalance == 74500000000000);
    c.responsible = 0;
    CHECK(way_collateral(book, lent, &c).imbalance == 0);
    CHECK(way_collateral(book, lent, &c).risk == 0);
    c.licence = 1;
    CHECK(way_collateral(book, lent, &c).margin == 20000000);
    c.score = 3; /* a fifth of 1,000 */
    CHECK(way_collateral(book, lent, &c).yek == 200);
    CHECK(way_collateral(book, lent, &c).total == 20000200);
    c.party = 6; /* trading above margin: 10^12 x 21 x 3 / 80 */
    CHECK(way_collateral(book, lent, &c).total == 787500000200);
}

/* One figure of the generator's case out of its range. */
#define OUTSIDE(field, figure, cause)          \
    do {                                       \
        fanzsoreb_case c = generator();        \
        c.field = (figure);                    \
        CHECK(collateral_cause(&c) == (cause)); \
    } while (0)

static void cases_refused(size_t offset)
{
    money(offset);
    OUTSIDE(party, 1000, FANZSOREB_BAD_PARTY);
    OUTSIDE(day, 36525, FANZSOREB_BAD_DAY);
    OUTSIDE(licence, 3, FANZSOREB_BAD_FIGURE);
    OUTSIDE(capacity, 100000001, FANZSOREB_BAD_FIGURE);
    OUTSIDE(nonbusiness, 30, FANZSOREB_BAD_FIGURE);
    OUTSIDE(holiday, 2, FANZSOREB_BAD_FIGURE);
    OUTSIDE(defaults, 31, FANZSOREB_BAD_FIGURE);
    OUTSIDE(responsible, 2, FANZSOREB_BAD_FIGURE);
    OUTSIDE(months[0].aosmf, 1000001, FANZSOREB_BAD_FIGURE);
    OUTSIDE(months[0].aedm, 14900000001, FANZSOREB_BAD_FIGURE);
    OUTSIDE(months[1].aosmf, 1000001, FANZSOREB_BAD_FIGURE);
    OUTSIDE(months[1].aedm, -14900000001, FANZSOREB_BAD_FIGURE);
    OUTSIDE(used, 3, FANZSOREB_BAD_FIGURE); /* the third month's figures */
    OUTSIDE(used, 4, FANZSOREB_BAD_FIGURE);
    OUTSIDE(rk, 501, FANZSOREB_BAD_FIGURE);
    OUTSIDE(rt, 1000000000000001, FANZSOREB_BAD_FIGURE);
    OUTSIDE(yt, 100000000000001, FANZSOREB_BAD_FIGURE);
    OUTSIDE(score, 4, FANZSOREB_BAD_FIGURE);
    OUTSIDE(best, 0, FANZSOREB_BAD_FIGURE);
    OUTSIDE(best, 10001, FANZSOREB_BAD_FIGURE);
}
