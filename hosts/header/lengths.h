/* Lengths and addresses: the shortest books, no multiple of 4, null pointers, tables at addresses of their own. */

/* Up to two words are too few to open, three are a book without room, eight have room for one entry. */
static void shortest(size_t offset)
{
    lend(offset, 0, 0xEE);
    for (lent = 0; lent < 12; lent += 4) {
        REFUSED(way_open(book, lent, 1001, 0), FANZSOREB_BAD_LENGTH);
        REFUSED(way_open_default(book, lent), FANZSOREB_BAD_LENGTH);
        REFUSED(way_count(book, lent).answer, FANZSOREB_NOT_A_BOOK);
        REFUSED(report_cause(1200), FANZSOREB_NOT_A_BOOK);
    }
    REFUSED(way_open(book, 12, 1001, 0), FANZSOREB_BAD_FIGURE);
    put(0, 0x60000000);
    put(1, 0x70000000);
    put(2, 0x80000007);
    CHECK(way_open(book, 12, 0, 7) == FANZSOREB_DONE);
    CHECK(as_expected());
    put(1, 0x70000069); /* 105 */
    put(2, 0x8007A120); /* 500,000 */
    CHECK(way_open_default(book, 12) == FANZSOREB_DONE);
    CHECK(as_expected());
    for (lent = 12; lent < 32; lent += 4) {
        REFUSED(post(1, 0, 1, 0, 0), FANZSOREB_NO_ROOM);
        REFUSED(control_cause(0), FANZSOREB_NO_ROOM);
    }
    put(0, 0x60000001);
    put(3, 0x10000001);
    put(4, 0x20000000);
    put(5, 0x30000001);
    put(6, 0x40000000);
    put(7, 0x50000000);
    CHECK(post(1, 0, 1, 0, 0) == FANZSOREB_DONE);
    CHECK(as_expected());
    for (lent = 12; lent < 32; lent += 4)
        REFUSED(way_withdraw(book, lent, 0), FANZSOREB_NOT_A_BOOK);
}

/* A length that is no multiple of 4 is no book, whatever else is wrong. The header's choice goes by bytes there, at an
 * address that is a multiple of 4 too. */
static void odd_lengths(size_t offset)
{
    static const size_t lengths[] = { 1, 2, 3, 11, 13, 14, 15, 33, FANZSOREB_BOOK_BYTES - 1, FANZSOREB_BOOK_BYTES - 2,
                                      FANZSOREB_BOOK_BYTES + 1 };
    fanzsoreb_case c = FANZSOREB_SUPPLIER; /* of party 0 */
    size_t i;
    money(offset);
    sample(offset ^ 1);
    for (i = 0; i < sizeof lengths / sizeof lengths[0]; i++) {
        lent = lengths[i];
        REFUSED(way_is_book(book, lent), 0);
        REFUSED(way_open(book, lent, 1001, 0), FANZSOREB_NOT_A_BOOK);
        REFUSED(way_open_default(book, lent), FANZSOREB_NOT_A_BOOK);
        REFUSED(post(0, 0, 0, 0, 0), FANZSOREB_NOT_A_BOOK);
        REFUSED(way_withdraw(book, lent, 7), FANZSOREB_NOT_A_BOOK);
        REFUSED(way_count(book, lent).answer, FANZSOREB_NOT_A_BOOK);
        CHECK(way_count(book, lent).count == 0);
        REFUSED(entry_cause(7), FANZSOREB_NOT_A_BOOK);
        REFUSED(tally_cause(0, 36525), FANZSOREB_NOT_A_BOOK);
        REFUSED(balance_cause(0, 36525), FANZSOREB_NOT_A_BOOK);
        REFUSED(report_cause(1200), FANZSOREB_NOT_A_BOOK);
        REFUSED(collateral_cause(&c), FANZSOREB_NOT_A_BOOK);
        REFUSED(by_figures(lent).answer, FANZSOREB_NOT_A_BOOK);
        REFUSED(control_cause(36525), FANZSOREB_NOT_A_BOOK);
        REFUSED(file_cause(39), FANZSOREB_NOT_A_BOOK);
    }
}

/* The cause of two hours of two groups, 8, 16 and 8 bytes, with other lengths. */
static uint32_t lengths_cause(size_t of_prices, size_t of_imbalance, size_t of_dm)
{
    fanzsoreb_month_answer m = way_month(prices, of_prices, imbalance, of_imbalance, 2, dm, of_dm, 0);
    CHECK(m.answer == FANZSOREB_DONE || (m.month.aosmf == 0 && m.month.aedm == 0));
    return m.answer;
}

static void odd_months(size_t offset)
{
    size_t i;
    two_groups(offset);
    CHECK(lengths_cause(8, 16, 8) == FANZSOREB_DONE);
    for (i = 1; i < 4; i++) {
        CHECK(lengths_cause(8 - i, 16, 8) == FANZSOREB_BAD_LENGTH);
        CHECK(lengths_cause(8 + i, 16, 8) == FANZSOREB_BAD_LENGTH);
        CHECK(lengths_cause(8, 16 - i, 8) == FANZSOREB_BAD_LENGTH);
        CHECK(lengths_cause(8, 16 + i, 8) == FANZSOREB_BAD_LENGTH);
        CHECK(lengths_cause(8, 16, 8 - i) == FANZSOREB_BAD_LENGTH);
        CHECK(lengths_cause(8, 16, 8 + i) == FANZSOREB_BAD_LENGTH);
    }
}

/* Each table at an address of its own: the header's choice goes by words only if all three may. */
static void tables_apart(void)
{
    fanzsoreb_month_answer m;
    size_t i;
    for (i = 0; i < 8; i++) {
        tables_at(i & 1, i & 2, 3 * (i >> 2));
        fill_two_groups();
        m = month(2, 4, 2, 0); /* as in months */
        CHECK(m.answer == FANZSOREB_DONE && m.month.aosmf == 2800 && m.month.aedm == 11);
    }
}

/* A null pointer is for length 0: no byte is lent. */
static void null_pointers(void)
{
    fanzsoreb_case c = FANZSOREB_SUPPLIER;
    c.party = 1;
    CHECK(way_is_book(NULL, 0) == 0);
    CHECK(way_open(NULL, 0, 1001, 0) == FANZSOREB_BAD_LENGTH);
    CHECK(way_open_default(NULL, 0) == FANZSOREB_BAD_LENGTH);
    CHECK(way_post(NULL, 0, 0, 0, 0, 0, 0).answer == FANZSOREB_NOT_A_BOOK);
    CHECK(way_withdraw(NULL, 0, 0) == FANZSOREB_NOT_A_BOOK);
    CHECK(way_count(NULL, 0).answer == FANZSOREB_NOT_A_BOOK);
    CHECK(way_entry(NULL, 0, 0).answer == FANZSOREB_NOT_A_BOOK);
    CHECK(way_tally(NULL, 0, 0, 0).answer == FANZSOREB_NOT_A_BOOK);
    CHECK(way_day_ahead(NULL, 0, 0, 0).answer == FANZSOREB_NOT_A_BOOK);
    CHECK(way_delivery(NULL, 0, 0, 0).answer == FANZSOREB_NOT_A_BOOK);
    CHECK(way_month_report(NULL, 0, 1200).answer == FANZSOREB_NOT_A_BOOK);
    CHECK(way_month(NULL, 0, NULL, 0, 1, NULL, 0, 0).answer == FANZSOREB_DONE);
    CHECK(way_collateral(NULL, 0, &c).answer == FANZSOREB_NOT_A_BOOK);
    CHECK(way_control(NULL, 0, 0).answer == FANZSOREB_NOT_A_BOOK);
    CHECK(way_read_file(NULL, 0, NULL, 0).answer == FANZSOREB_NOT_A_BOOK);
    fresh(0);
    REFUSED(way_read_file(book, lent, NULL, 0).answer, FANZSOREB_DONE); /* an empty file */
}

static void aligned(void)
{
    size_t place, length;
    for (place = 0; place < 8; place++)
        for (length = 0; length < 8; length++)
            CHECK(fanzsoreb_is_aligned(memory + place, length) == (place % 4 == 0 && length % 4 == 0));
    CHECK(fanzsoreb_is_aligned(NULL, 0) == 1);
}
