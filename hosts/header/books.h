/* Is it a book, open, post, withdraw, the number of entries and one entry (document 01, 'The words', 'Entry types'). */

/* The cause of a post; a refused one has no number. */
static uint32_t post(uint32_t party, uint32_t day, uint32_t type, uint32_t counterparty, uint64_t amount)
{
    fanzsoreb_posted p = way_post(book, lent, party, day, type, counterparty, amount);
    CHECK(p.answer == FANZSOREB_DONE || p.number == 0);
    return p.answer;
}

/* The cause of reading an entry; a refused call has no figure. */
static uint32_t entry_cause(uint32_t number)
{
    fanzsoreb_entry_read e = way_entry(book, lent, number);
    CHECK(e.answer == FANZSOREB_DONE || (e.party | e.day | e.entry_type | e.counterparty | e.status | e.amount) == 0);
    return e.answer;
}

/* A book opened without figures, filled with a byte that no entry has. */
static void fresh(size_t offset)
{
    lend(offset, FANZSOREB_BOOK_BYTES, 0xEE);
    CHECK(way_open_default(book, lent) == FANZSOREB_DONE);
}

static void opens(size_t offset)
{
    lend(offset, FANZSOREB_BOOK_BYTES, 0xEE);
    REFUSED(way_open(book, 8, 1001, 0), FANZSOREB_BAD_LENGTH);
    REFUSED(way_open(book, lent, 1001, 0), FANZSOREB_BAD_FIGURE);
    REFUSED(way_open(book, lent, 0, 200000001), FANZSOREB_BAD_FIGURE);
    put(0, 0x60000000);
    put(1, 0x700003E8); /* 1,000 */
    put(2, 0x8BEBC200); /* 200,000,000 */
    CHECK(way_open(book, lent, 1000, 200000000) == FANZSOREB_DONE);
    CHECK(as_expected());
    put(1, 0x7000006E); /* 110 */
    put(2, 0x800927C0); /* 600,000 */
    CHECK(way_open(book, lent, 110, 600000) == FANZSOREB_DONE);
    CHECK(as_expected());

    REFUSED(way_open_default(book, 8), FANZSOREB_BAD_LENGTH);
    put(1, 0x70000069); /* 105 */
    put(2, 0x8007A120); /* 500,000 */
    CHECK(way_open_default(book, lent) == FANZSOREB_DONE);
    CHECK(as_expected());
}

static void is_book(size_t offset)
{
    lend(offset, FANZSOREB_BOOK_BYTES, 0xEE);
    CHECK(way_is_book(book, lent) == 0);
    CHECK(way_open(book, lent, 0, 0) == FANZSOREB_DONE);
    keep();
    CHECK(way_is_book(book, lent) == 1);
    CHECK(way_is_book(book, 12) == 1);
    CHECK(way_is_book(book, 8) == 0);
    CHECK(way_is_book(book, lent - 4) == 1);
    CHECK(way_is_book(book, lent + 4) == 1);
    CHECK(as_expected());
    store(book, 0, 0x60000001); /* an entry of bytes 0xEE */
    CHECK(way_is_book(book, lent) == 0);
}

/* The first two posts are the lines of document 01's sample file. */
static void posts(size_t offset)
{
    fanzsoreb_posted p;
    fresh(offset);
    keep();
    put(0, 0x60000001);
    put(3, 0x10000001);
    put(4, 0x20002328);
    put(5, 0x30000206);
    put(6, 0x400AAE60);
    put(7, 0x50000000);
    p = way_post(book, lent, 1, 9000, FANZSOREB_BILATERAL_SALE, 2, 700000);
    CHECK(p.answer == FANZSOREB_DONE && p.number == 0);
    CHECK(as_expected());
    p = way_post(book, lent, 1, 9000, FANZSOREB_GENERATION_PROGRAM, 0, 500000);
    CHECK(p.answer == FANZSOREB_DONE && p.number == 1);

    keep();
    put(0, 0x60000003);
    put(13, 0x100003E7); /* 999 */
    put(14, 0x20008EAC); /* 36,524 */
    put(15, 0x30000011);
    put(16, 0x4E72A000); /* 10^13 = 37,252 x 2^28 + 242,393,088 */
    put(17, 0x50009184);
    p = way_post(book, lent, 999, 36524, FANZSOREB_DAY_AHEAD_PURCHASE_MONEY, 0, 10000000000000);
    CHECK(p.answer == FANZSOREB_DONE && p.number == 2);
    CHECK(as_expected());
}

/* Whether a first entry may have these words of kinds 3 and 5. */
static int holds(uint32_t figures, uint32_t high)
{
    store(book, 5, figures);
    store(book, 7, high);
    return (int)way_is_book(book, lent);
}

/* Bits 12 to 15 of a kind 5 word are an amount's, of money alone, bits 16 to 27 are spare (document 02, T-06). */
static void larger_money(size_t offset)
{
    uint32_t type, bit;
    fresh(offset);
    for (type = 17; type <= 20; type++) {
        CHECK(post(1, 0, type, 0, 10000000000000) == FANZSOREB_DONE);
        REFUSED(post(1, 0, type, 0, 10000000000001), FANZSOREB_BAD_AMOUNT);
        CHECK(way_entry(book, lent, type - 17).amount == 10000000000000);
    }
    CHECK(holds(0x30000011, 0x50009184) == 1 && holds(0x30000011, 0x50009185) == 0);
    store(book, 6, 0x40000000);
    for (bit = 12; bit <= 27; bit++) {
        CHECK(holds(0x30000014, 0x50000000 | (uint32_t)1 << bit) == (bit <= 15));
        CHECK(holds(0x30000001, 0x50000000 | (uint32_t)1 << bit) == 0);
    }
}

/* Type 22 is a volume without a counterparty; 21 stays a mark's, and 278 is 22 in its low byte (document 02, T-02). */
static void updates(size_t offset)
{
    static const uint32_t others[] = { 0, FANZSOREB_MARK, 23, 24, 255, 278 };
    fanzsoreb_posted p;
    fanzsoreb_entry_read e;
    size_t i;
    fresh(offset);
    keep();
    put(0, 0x60000001);
    put(3, 0x100003E7);
    put(4, 0x20008EAC);
    put(5, 0x30000016);
    put(6, 0x4B9ACA00); /* 10^9 = 3 x 2^28 + 194,693,632 */
    put(7, 0x50000003);
    p = way_post(book, lent, 999, 36524, FANZSOREB_UPDATED_GENERATION_PROGRAM, 0, 1000000000);
    CHECK(p.answer == FANZSOREB_DONE && p.number == 0);
    CHECK(as_expected());
    e = way_entry(book, lent, 0);
    CHECK(e.answer == FANZSOREB_DONE && e.party == 999 && e.day == 36524 && e.entry_type == 22);
    CHECK(e.counterparty == 0 && e.status == FANZSOREB_STANDING && e.amount == 1000000000);
    CHECK(way_count(book, lent).count == 1 && way_is_book(book, lent) == 1);
    REFUSED(post(0, 36525, FANZSOREB_UPDATED_GENERATION_PROGRAM, 1, 1000000001), FANZSOREB_BAD_PARTY);
    REFUSED(post(1, 36525, FANZSOREB_UPDATED_GENERATION_PROGRAM, 1, 1000000001), FANZSOREB_BAD_DAY);
    REFUSED(post(1, 0, FANZSOREB_UPDATED_GENERATION_PROGRAM, 1, 0), FANZSOREB_BAD_COUNTERPARTY);
    REFUSED(post(1, 0, FANZSOREB_UPDATED_GENERATION_PROGRAM, 2, 1000000001), FANZSOREB_BAD_COUNTERPARTY);
    REFUSED(post(1, 0, FANZSOREB_UPDATED_GENERATION_PROGRAM, 0, 1000000001), FANZSOREB_BAD_AMOUNT);
    REFUSED(post(1, 0, FANZSOREB_UPDATED_GENERATION_PROGRAM, 0, 1000000000000), FANZSOREB_BAD_AMOUNT);
    REFUSED(post(1, 0, FANZSOREB_UPDATED_GENERATION_PROGRAM, 0, 10000000000000), FANZSOREB_BAD_AMOUNT);
    for (i = 0; i < 6; i++)
        REFUSED(post(1, 0, others[i], 0, 0), FANZSOREB_BAD_TYPE);
    lent = 12 + 20;
    REFUSED(post(1, 0, FANZSOREB_UPDATED_GENERATION_PROGRAM, 0, 0), FANZSOREB_NO_ROOM);
    keep();
    put(5, 0x31000016);
    CHECK(way_withdraw(book, lent, 0) == FANZSOREB_DONE);
    CHECK(as_expected());
    REFUSED(way_withdraw(book, lent, 0), FANZSOREB_NO_ENTRY);
    CHECK(holds(0x30000016, 0x50000003) == 1 && holds(0x31000016, 0x50000003) == 1);
    CHECK(holds(0x32000016, 0x50000003) == 0 && holds(0x33000016, 0x50000003) == 0);
    CHECK(holds(0x30000116, 0x50000003) == 0 && holds(0x30000015, 0x50000003) == 0);
    CHECK(holds(0x30000017, 0x50000003) == 0 && holds(0x300000FF, 0x50000003) == 0);
    CHECK(holds(0x30000016, 0x50000004) == 0 && holds(0x30000016, 0x50000E8D) == 0);
    CHECK(holds(0x30000016, 0x50009184) == 0 && holds(0x30000016, 0x50010000) == 0);
    store(book, 6, 0x4B9ACA01); /* 10^9 + 1 */
    CHECK(holds(0x30000016, 0x50000003) == 0 && entry_cause(0) == FANZSOREB_NOT_A_BOOK);
}

static void posts_refused(size_t offset)
{
    fresh(offset);
    REFUSED(post(0, 36525, 0, 1, 0), FANZSOREB_BAD_PARTY);
    REFUSED(post(1000, 0, 1, 0, 0), FANZSOREB_BAD_PARTY);
    REFUSED(post(1, 36525, 1, 0, 0), FANZSOREB_BAD_DAY);
    REFUSED(post(1, 0, 0, 0, 0), FANZSOREB_BAD_TYPE);
    REFUSED(post(1, 0, FANZSOREB_MARK, 0, 0), FANZSOREB_BAD_TYPE);
    REFUSED(post(1, 0, FANZSOREB_DAY_AHEAD_SALE, 2, 0), FANZSOREB_BAD_COUNTERPARTY);
    REFUSED(post(1, 0, FANZSOREB_BILATERAL_SALE, 1, 0), FANZSOREB_BAD_COUNTERPARTY);
    REFUSED(post(1, 0, FANZSOREB_BILATERAL_SALE, 1000, 0), FANZSOREB_BAD_COUNTERPARTY);
    REFUSED(post(1, 0, FANZSOREB_IMPORT_NOTIFICATION, 0, 1000000001), FANZSOREB_BAD_AMOUNT);
    REFUSED(post(1, 0, FANZSOREB_IMPORT_NOTIFICATION, 0, 1000000000000), FANZSOREB_BAD_AMOUNT);
    REFUSED(post(1, 0, FANZSOREB_INTRADAY_SALE_MONEY, 0, 10000000000001), FANZSOREB_BAD_AMOUNT);
    CHECK(post(1, 0, FANZSOREB_BILATERAL_SALE, 0, 1000000000) == FANZSOREB_DONE);
    CHECK(post(1, 0, FANZSOREB_BILATERAL_SALE, 999, 0) == FANZSOREB_DONE);
    lent = 12 + 2 * 20 + 16;
    REFUSED(post(1, 0, 1, 0, 0), FANZSOREB_NO_ROOM);
    lent = 12 + 3 * 20;
    CHECK(post(1, 0, 1, 0, 0) == FANZSOREB_DONE);
}

static void withdraws(size_t offset)
{
    fresh(offset);
    CHECK(post(1, 9000, FANZSOREB_BILATERAL_SALE, 2, 700000) == FANZSOREB_DONE);
    CHECK(post(1, 9000, FANZSOREB_GENERATION_PROGRAM, 0, 500000) == FANZSOREB_DONE);
    keep();
    put(5, 0x31000206);
    CHECK(way_withdraw(book, lent, 0) == FANZSOREB_DONE);
    CHECK(as_expected());
    REFUSED(way_withdraw(book, lent, 0), FANZSOREB_NO_ENTRY);
    REFUSED(way_withdraw(book, lent, 2), FANZSOREB_NO_ENTRY);
    REFUSED(way_withdraw(book, lent, 4294967295u), FANZSOREB_NO_ENTRY);
    REFUSED(way_withdraw(book, lent - 4 * 15351, 1), FANZSOREB_NOT_A_BOOK); /* 12 words, 13 in use */
}

static void reads(size_t offset)
{
    fanzsoreb_counted n;
    fanzsoreb_entry_read e;
    fresh(offset);
    CHECK(post(1, 9000, FANZSOREB_BILATERAL_SALE, 2, 700000) == FANZSOREB_DONE);
    CHECK(post(3, 9001, FANZSOREB_DAY_AHEAD_SALE_MONEY, 0, 999999999999) == FANZSOREB_DONE);
    CHECK(way_withdraw(book, lent, 0) == FANZSOREB_DONE);
    keep();
    n = way_count(book, lent);
    CHECK(n.answer == FANZSOREB_DONE && n.count == 2);
    n = way_count(book, 12 + 20 + 16);
    CHECK(n.answer == FANZSOREB_NOT_A_BOOK && n.count == 0);
    e = way_entry(book, lent, 0);
    CHECK(e.answer == FANZSOREB_DONE && e.party == 1 && e.day == 9000 && e.entry_type == FANZSOREB_BILATERAL_SALE);
    CHECK(e.counterparty == 2 && e.status == FANZSOREB_WITHDRAWN && e.amount == 700000);
    e = way_entry(book, lent, 1);
    CHECK(e.answer == FANZSOREB_DONE && e.party == 3 && e.day == 9001);
    CHECK(e.entry_type == FANZSOREB_DAY_AHEAD_SALE_MONEY && e.counterparty == 0);
    CHECK(e.status == FANZSOREB_STANDING && e.amount == 999999999999);
    CHECK(entry_cause(2) == FANZSOREB_NO_ENTRY);
    CHECK(as_expected());
    store(book, 1, 0x700003E9); /* R 1,001 */
    CHECK(entry_cause(0) == FANZSOREB_NOT_A_BOOK);
}

/* A slice longer than a full book: 3,072 entries are its room, and the bytes past them stay. */
static void longer(size_t offset)
{
    uint32_t i;
    unsigned done = 0;
    lend(offset, FANZSOREB_BOOK_BYTES + 40, 0xEE);
    CHECK(way_open_default(book, lent) == FANZSOREB_DONE);
    for (i = 0; i < FANZSOREB_MOST_ENTRIES; i++)
        done += way_post(book, lent, 1, i, FANZSOREB_DAY_AHEAD_SALE, 0, 1).number == i;
    CHECK(done == FANZSOREB_MOST_ENTRIES);
    REFUSED(post(1, 0, 1, 0, 0), FANZSOREB_NO_ROOM);
    for (i = 0; i < 40; i++)
        done -= book[FANZSOREB_BOOK_BYTES + i] == 0xEE;
    CHECK(done == FANZSOREB_MOST_ENTRIES - 40);
    CHECK(way_count(book, FANZSOREB_BOOK_BYTES).count == FANZSOREB_MOST_ENTRIES);
}
