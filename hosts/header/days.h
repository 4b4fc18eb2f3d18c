/* Control of a day, and a day file (document 01, 'Control of a day', 'Day file'). */

static uint32_t control_cause(uint32_t day)
{
    fanzsoreb_controlled c = way_control(book, lent, day);
    CHECK(c.answer == FANZSOREB_DONE || (c.first | c.second | c.cancelled) == 0);
    return c.answer;
}

/* Party 1 sells 700,000 to 2 against a program of 500,000, and 2 sells as much to 3: 1 is detected, 2 is covered by its
 * purchase. */
static void controlled_day(size_t offset)
{
    fanzsoreb_controlled c;
    fresh(offset);
    CHECK(post(1, 9000, FANZSOREB_BILATERAL_SALE, 2, 700000) == FANZSOREB_DONE);
    CHECK(post(1, 9000, FANZSOREB_GENERATION_PROGRAM, 0, 500000) == FANZSOREB_DONE);
    CHECK(post(1, 9000, FANZSOREB_BILATERAL_SALE, 0, 1) == FANZSOREB_DONE);
    CHECK(post(2, 9000, FANZSOREB_BILATERAL_SALE, 3, 700000) == FANZSOREB_DONE);
    keep();
    put(0, 0x60000005);
    put(5, 0x32000206);
    put(23, 0x10000000);
    put(24, 0x20002328);
    put(25, 0x30000015);
    put(26, 0x40000000);
    put(27, 0x50000000);
    c = way_control(book, lent, 9000);
    CHECK(c.answer == FANZSOREB_DONE && c.first == 1 && c.second == 0 && c.cancelled == 1);
    CHECK(as_expected());
}

/* The same sales on the next day: the pair 1, 2 is repeated, and 2 is detected without its purchase. */
static void repeated_pair(size_t offset)
{
    fanzsoreb_controlled c;
    controlled_day(offset);
    CHECK(post(1, 9001, FANZSOREB_BILATERAL_SALE, 2, 700000) == FANZSOREB_DONE);
    CHECK(post(2, 9001, FANZSOREB_BILATERAL_SALE, 3, 700000) == FANZSOREB_DONE);
    c = way_control(book, lent, 9001);
    CHECK(c.answer == FANZSOREB_DONE && c.first == 1 && c.second == 1 && c.cancelled == 2);
    CHECK(way_entry(book, lent, 5).status == FANZSOREB_CANCELLED);
    CHECK(way_entry(book, lent, 6).status == FANZSOREB_CANCELLED);
    CHECK(way_entry(book, lent, 7).entry_type == FANZSOREB_MARK);
}

static void closed_day(size_t offset)
{
    controlled_day(offset);
    REFUSED(control_cause(9000), FANZSOREB_DAY_CLOSED);
    REFUSED(control_cause(36525), FANZSOREB_BAD_DAY);
    REFUSED(post(4, 9000, FANZSOREB_BILATERAL_SALE, 5, 1), FANZSOREB_DAY_CLOSED);
    REFUSED(way_withdraw(book, lent, 3), FANZSOREB_DAY_CLOSED);
    REFUSED(way_withdraw(book, lent, 0), FANZSOREB_NO_ENTRY); /* cancelled */
    REFUSED(way_withdraw(book, lent, 4), FANZSOREB_NO_ENTRY); /* the mark */
    CHECK(way_withdraw(book, lent, 2) == FANZSOREB_DONE);     /* an export */
    CHECK(post(4, 9000, FANZSOREB_DAY_AHEAD_SALE, 0, 1) == FANZSOREB_DONE);
    lent = 12 + 6 * 20;
    REFUSED(control_cause(9001), FANZSOREB_NO_ROOM);
    lent = 12 + 6 * 20 - 4;
    REFUSED(control_cause(9001), FANZSOREB_NOT_A_BOOK);
}

/* Party 1 sells 700,000 to 2 against a program of 600,000, updated to 700,000: control goes by the day-ahead balance.
 * The closed day takes updates, and their withdrawal. R 105, TM 500,000. */
static void updated_day(size_t offset)
{
    fanzsoreb_controlled c;
    fresh(offset);
    CHECK(post(1, 9000, FANZSOREB_BILATERAL_SALE, 2, 700000) == FANZSOREB_DONE);
    CHECK(post(1, 9000, FANZSOREB_GENERATION_PROGRAM, 0, 600000) == FANZSOREB_DONE);
    update(1, 9000, 700000);
    CHECK(day_ahead(1, 9000) == 7000000 && delivery(1, 9000) == -3500000); /* 70,000,000 less 63 or 73.5 million */
    keep();
    put(0, 0x60000004);
    put(5, 0x32000206);
    put(18, 0x10000000);
    put(19, 0x20002328);
    put(20, 0x30000015);
    put(21, 0x40000000);
    put(22, 0x50000000);
    c = way_control(book, lent, 9000);
    CHECK(c.answer == FANZSOREB_DONE && c.first == 1 && c.second == 0 && c.cancelled == 1);
    CHECK(as_expected());
    CHECK(day_ahead(1, 9000) == -63000000 && delivery(1, 9000) == -73500000);
    CHECK(way_withdraw(book, lent, 2) == FANZSOREB_DONE);
    CHECK(day_ahead(1, 9000) == -63000000 && delivery(1, 9000) == -63000000);
    update(1, 9000, 650000);
    CHECK(day_ahead(1, 9000) == -63000000 && delivery(1, 9000) == -68250000); /* 105 x 650,000 */
}

/* As repeated_pair, and 2 has an update: it does not stand for the purchase that 2 lost. */
static void updated_buyer(size_t offset)
{
    fanzsoreb_controlled c;
    controlled_day(offset);
    CHECK(post(1, 9001, FANZSOREB_BILATERAL_SALE, 2, 700000) == FANZSOREB_DONE);
    CHECK(post(2, 9001, FANZSOREB_BILATERAL_SALE, 3, 700000) == FANZSOREB_DONE);
    update(2, 9001, 1000000);
    c = way_control(book, lent, 9001);
    CHECK(c.answer == FANZSOREB_DONE && c.first == 1 && c.second == 1 && c.cancelled == 2);
}

/* A file of words, at any address. */
static uint8_t file_bytes[FANZSOREB_MOST_FILE_BYTES + 16];
static uint8_t *file;

static uint32_t file_cause(size_t length)
{
    fanzsoreb_file_read r = way_read_file(book, lent, file, length);
    CHECK(r.answer == FANZSOREB_DONE || r.posted == 0);
    return r.answer;
}

/* The sample of document 01, and a block without lines after it. */
static void sample(size_t offset)
{
    static const uint32_t words[] = { 0x10020001, 0x20002328, 0x30000206, 0x400AAE60, 0x50000000,
                                      0x3000000C, 0x4007A120, 0x50000000, 0x10000003, 0x20002329 };
    size_t i;
    file = file_bytes + offset;
    for (i = 0; i < 10; i++)
        store(file, i, words[i]);
}

static void reads_a_file(size_t offset)
{
    fanzsoreb_file_read r;
    uint32_t i;
    fresh(offset);
    sample(offset ^ 1);
    REFUSED(file_cause(0), FANZSOREB_DONE); /* an empty file changes nothing */
    keep();
    put(0, 0x60000002);
    put(3, 0x10000001);
    put(4, 0x20002328);
    put(8, 0x10000001);
    put(9, 0x20002328);
    for (i = 0; i < 3; i++)
        put(5 + i, i == 0 ? 0x30000206 : i == 1 ? 0x400AAE60 : 0x50000000);
    for (i = 0; i < 3; i++)
        put(10 + i, i == 0 ? 0x3000000C : i == 1 ? 0x4007A120 : 0x50000000);
    r = way_read_file(book, lent, file, 40);
    CHECK(r.answer == FANZSOREB_DONE && r.posted == 2);
    CHECK(as_expected());
    CHECK(day_ahead(1, 9000) == 17500000 && delivery(1, 9000) == 17500000);   /* 70,000,000 - 105 x 500,000 */
    CHECK(day_ahead(2, 9000) == -73500000 && delivery(2, 9000) == -73500000); /* -105 x 700,000 */
    r = way_read_file(book, lent, file, 32);
    CHECK(r.answer == FANZSOREB_DONE && r.posted == 2 && way_count(book, lent).count == 4);
}

/* One word of the sample changed: the cause of its 40 bytes. */
static uint32_t changed(size_t offset, size_t i, uint32_t word)
{
    sample(offset);
    store(file, i, word);
    return file_cause(40);
}

/* Money of 10^13 in a line, a kurus more, and each bit of a kind 5 word from 12 on: 16 to 27 are spare. */
static void files_of_larger_money(size_t offset)
{
    uint32_t bit;
    fresh(offset);
    sample(offset ^ 1);
    store(file, 5, 0x30000014);
    store(file, 6, 0x4E72A000);
    store(file, 7, 0x50009184);
    CHECK(file_cause(40) == FANZSOREB_DONE && way_entry(book, lent, 1).amount == 10000000000000);
    store(file, 6, 0x4E72A001);
    REFUSED(file_cause(40), FANZSOREB_BAD_AMOUNT);
    for (bit = 12; bit <= 27; bit++) {
        uint32_t high = 0x50000000 | (uint32_t)1 << bit;
        sample(offset ^ 1);
        store(file, 5, 0x30000014);
        store(file, 7, high);
        CHECK(file_cause(40) == (uint32_t)(bit <= 15 ? FANZSOREB_DONE : FANZSOREB_BAD_FILE));
        REFUSED(changed(offset, 4, high), (uint32_t)(bit <= 15 ? FANZSOREB_BAD_AMOUNT : FANZSOREB_BAD_FILE));
    }
}

/* The sample with an update in the place of its program, and what a line of type 22 may not have. */
static void files_of_updates(size_t offset)
{
    fanzsoreb_file_read r;
    fresh(offset);
    sample(offset ^ 1);
    store(file, 5, 0x30000016);
    r = way_read_file(book, lent, file, 40);
    CHECK(r.answer == FANZSOREB_DONE && r.posted == 2);
    CHECK(way_entry(book, lent, 1).entry_type == FANZSOREB_UPDATED_GENERATION_PROGRAM);
    CHECK(day_ahead(1, 9000) == 20000000 && delivery(1, 9000) == 17500000); /* TM 500,000; 105 x 500,000 */
    REFUSED(changed(offset, 5, 0x30000216), FANZSOREB_BAD_COUNTERPARTY);
    REFUSED(changed(offset, 5, 0x31000016), FANZSOREB_BAD_FILE);
    REFUSED(changed(offset, 5, 0x30000015), FANZSOREB_BAD_TYPE);
    REFUSED(changed(offset, 5, 0x30000017), FANZSOREB_BAD_TYPE);
    REFUSED(changed(offset, 5, 0x300000FF), FANZSOREB_BAD_TYPE);
    sample(offset);
    store(file, 5, 0x30000016);
    store(file, 6, 0x4B9ACA00); /* 10^9, 10^9 + 1, 10^12 = 3,725 x 2^28 + 77,926,400 */
    store(file, 7, 0x50000003);
    CHECK(file_cause(40) == FANZSOREB_DONE && way_entry(book, lent, 3).amount == 1000000000);
    store(file, 6, 0x4B9ACA01);
    REFUSED(file_cause(40), FANZSOREB_BAD_AMOUNT);
    store(file, 6, 0x44A51000);
    store(file, 7, 0x50000E8D);
    REFUSED(file_cause(40), FANZSOREB_BAD_AMOUNT);
    controlled_day(offset);
    sample(offset);
    store(file, 2, 0x30000016); /* two lines of a closed day, neither a bilateral sale */
    CHECK(file_cause(40) == FANZSOREB_DONE && way_count(book, lent).count == 7);
}

/* 3,072 purchases of 10^13 on day 99, read at once: x 50 x 4 / 80. */
static void largest_trading(size_t offset)
{
    fanzsoreb_case c = FANZSOREB_SUPPLIER;
    fanzsoreb_collateral_answer a;
    size_t i;
    fresh(offset);
    file = file_bytes + (offset ^ 1);
    store(file, 0, 0x1C000001);
    store(file, 1, 0x20000063);
    for (i = 0; i < FANZSOREB_MOST_ENTRIES; i++) {
        store(file, 2 + 3 * i, 0x30000011);
        store(file, 3 + 3 * i, 0x4E72A000);
        store(file, 4 + 3 * i, 0x50009184);
    }
    CHECK(file_cause(4 * (2 + 3 * FANZSOREB_MOST_ENTRIES)) == FANZSOREB_DONE);
    c.party = 1;
    c.day = 100;
    c.defaults = 30;
    a = way_collateral(book, lent, &c);
    CHECK(a.answer == FANZSOREB_DONE && a.trading == 76800000000000000 && a.total == 76800000000000000);
}

static void files_refused(size_t offset)
{
    fresh(offset);
    sample(offset ^ 1);
    REFUSED(file_cause(39), FANZSOREB_BAD_FILE);
    REFUSED(file_cause(36), FANZSOREB_BAD_FILE);
    REFUSED(file_cause(FANZSOREB_MOST_FILE_BYTES + 4), FANZSOREB_BAD_FILE);
    REFUSED(changed(offset, 2, 0x31000206), FANZSOREB_BAD_FILE); /* status 1 */
    REFUSED(changed(offset, 8, 0x10000000), FANZSOREB_BAD_PARTY);
    REFUSED(changed(offset, 9, 0x20008EAD), FANZSOREB_BAD_DAY);
    REFUSED(changed(offset, 5, 0x30000015), FANZSOREB_BAD_TYPE);
    REFUSED(changed(offset, 2, 0x30000106), FANZSOREB_BAD_COUNTERPARTY);
    REFUSED(changed(offset, 4, 0x50000004), FANZSOREB_BAD_AMOUNT);
    sample(offset);
    store(file, 4, 0x50000004); /* the first line's amount, and the second line's type */
    store(file, 5, 0x30000015);
    REFUSED(file_cause(40), FANZSOREB_BAD_AMOUNT);
    sample(offset);
    lent = 12 + 20;
    REFUSED(file_cause(40), FANZSOREB_NO_ROOM);
    lent = 8;
    REFUSED(file_cause(39), FANZSOREB_NOT_A_BOOK);
    controlled_day(offset);
    sample(offset);
    REFUSED(file_cause(40), FANZSOREB_DAY_CLOSED);
}
