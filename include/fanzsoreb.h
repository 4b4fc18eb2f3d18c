/*
 * Fanzsoreb: the market balance engine. C99, usable from C++; the library is for x86-64 Linux.
 *
 * Answers. A call may be made with any figures and on any lent words or bytes. Either it is done: it answers 0, gives
 * the stated figures and changes just the stated words. Or it is refused: it answers the lowest number of the list
 * below that holds (a day file has an order of its own), its other figures are 0, and no lent byte has changed.
 * fanzsoreb_version, fanzsoreb_is_book in each of its ways and fanzsoreb_detected give a number and are never
 * refused. The figures of an answer have stated values, the padding between them has none: compare figures, not
 * memory.
 *
 * Units. Volumes are in kWh, money in kurus, prices in kurus per MWh, balances in hundredths of a kWh, signed. A day
 * is a number: 0 is 2000-01-01, 36,524 is 2099-12-31. Parties are 1 to 999.
 *
 * A book is memory that the host lends: 32-bit words, little-endian. A word's top four bits are its kind.
 *   word 0           kind 6, number of entries
 *   word 1           kind 7, coefficient R in hundredths, 0 to 1,000
 *   word 2           kind 8, tolerance amount TM in kWh, 0 to 200,000,000
 *   word 3 + 5 n     entry n, five words: kind 1, party; kind 2, day; kind 3, type in bits 0-7, counterparty in bits
 *                    8-23, status in bits 24-25; kind 4, the amount's low 28 bits; kind 5, its next 16 bits
 * It has room for (words - 3) / 5 entries, rounded down, and for 3,072 at most, which is 15,363 words or 61,452 bytes.
 * The words after its last entry may have any values, no answer depends on them; those after the first 15,363 are not
 * read or written.
 *
 * Words or bytes. Each call on a book, and the month step, is there three times:
 *   fanzsoreb_X_words  on words, in place: nothing is copied, and just the stated words are stored. This is the one to
 *                      use: a book in memory that is aligned to 4 bytes, its length in words.
 *   fanzsoreb_X        on bytes at any address: nothing is aligned, the length is in bytes. The words of the entries
 *                      are copied, and where the call is done copied back. A length that is no multiple of 4 is no
 *                      book: fanzsoreb_is_book gives 0, every other call on a book answers 1. (Of a day file it answers
 *                      2, of a month's tables 11.)
 *   fanzsoreb_X_any    on bytes, by the first where the address and the length allow it, else by the second.
 * On the same book all three give the same answer and leave the same bytes.
 *
 * Memory. A pointer leads to as many words or bytes as its length says, which the call may read and, where it is not
 * const, write. One to words is aligned to 4 bytes; one to bytes need not be. A null pointer is for length 0 only.
 * The memory has been given values before, whichever they are: fill fresh memory once (calloc, memset) before you
 * open a book in it. A book lent to be written overlaps nothing else that the same call is lent, such as the day file
 * read into it; slices that are only read may overlap or be the same. No other memory of the host is read or written;
 * nothing is kept between calls and nothing is allocated.
 *
 * Threads. Calls that take a const book may run on one book at the same time. A call that takes a book that is not
 * const needs it alone until it returns, whatever its answer: on bytes, where it is done, it may store any byte up to
 * the last entry's, though all but the stated ones get the values they had. Calls on different books may run at the
 * same time.
 *
 * A host that is killed. Books may stand in mapped files. The word with the number of entries is stored last, by a
 * store of its own (of an opening that names no figures by one store with R), after the words of new entries and after
 * statuses. So a process that is ended in the middle of a call, at any moment, leaves of
 *   a post, a day file   the book as it was, or with the entry or with all lines of the file
 *   a withdrawal         the entry standing or withdrawn
 *   an opening           what was there, in which R and TM may already be the new ones, or the opened book. Over an
 *                        earlier book with entries: while these are still there it is not opened, open it again
 *   a control            a book in which some of the sales to be cancelled are, without the day's mark. To have all of
 *                        a control or nothing, run it on a copy of the book (61,452 bytes) and swap the two, for
 *                        instance by renaming the file
 * This is about a process that is ended, not about a machine that loses power.
 *
 * Stack. FANZSOREB_STACK_... below are sizes of a thread's whole stack that are enough for a call, measured on the
 * largest books and tables; a thread's own data, which some C libraries keep on its stack, come on top. A call on a
 * book's bytes takes stack by the number of entries, or by the length where that is less: up to 25 entries at most 6
 * KiB, up to 127 at most 9, up to 768 at most 21, above that at most 66; an opening takes none. The lines of a day file
 * count as entries; a day file into a book that has a day's mark takes 36 KiB more, a control that is done 135, a month
 * report 9, its answer in its caller's frame among them.
 */
#ifndef FANZSOREB_H
#define FANZSOREB_H

#include <stddef.h>
#include <stdint.h>

#ifdef __cplusplus
extern "C" {
#endif

/* 2.2.0: major x 10,000 + minor x 100 + patch. A changed struct or signature raises the major number, a new call the
 * minor one, any other change the patch. */
#define FANZSOREB_VERSION 20200

#define FANZSOREB_MOST_ENTRIES 3072      /* of a book */
#define FANZSOREB_BOOK_WORDS 15363       /* of a book with room for as many, 3 + 5 x 3,072 */
#define FANZSOREB_BOOK_BYTES 61452       /* the same in bytes */
#define FANZSOREB_MOST_FILE_BYTES 65536  /* of a day file */
#define FANZSOREB_HORIZON_MONTHS 4800    /* of fanzsoreb_first_day: January 2000 to December 2399 */
#define FANZSOREB_REPORT_MONTHS 1200     /* of fanzsoreb_month_report: January 2000 to December 2099 */
#define FANZSOREB_REPORT_LINES 32        /* of a month report: 31 days at most, and the totals */
#define FANZSOREB_REPORT_SUMS 21         /* of a line: types 1 to 20, and 22 last */

/* Sizes of a thread's whole stack, in bytes, each enough for the calls named; new in version 2.1.0, those of
 * control lower since 2.1.1, those of a report new in 2.2.0. */
#define FANZSOREB_STACK_FIGURES 16384         /* version, detected, ceiling, first_day */
#define FANZSOREB_STACK_WORDS 16384           /* on a book's words, but for the next three; the month on words */
#define FANZSOREB_STACK_REPORT_WORDS 24576    /* a month report of a book's words, its answer on the same stack */
#define FANZSOREB_STACK_FILE_WORDS 49152      /* a file into a book's words */
#define FANZSOREB_STACK_CONTROL_WORDS 155648  /* control on a book's words */
#define FANZSOREB_STACK_BOOK 81920            /* on a book's bytes, but for the next three */
#define FANZSOREB_STACK_REPORT 98304          /* a month report of a book's bytes, its answer on the same stack */
#define FANZSOREB_STACK_FILE 114688           /* a file into a book's bytes */
#define FANZSOREB_STACK_CONTROL 221184        /* control on a book's bytes */
#define FANZSOREB_STACK_MONTH 24576           /* the month on bytes */

/* Why a call comes back. */
enum fanzsoreb_cause {
    FANZSOREB_DONE = 0,
    FANZSOREB_NOT_A_BOOK = 1,
    FANZSOREB_BAD_FILE = 2,         /* file above 65,536 bytes or no multiple of 4; kinds, spare or status bits, or
                                       ending wrong */
    FANZSOREB_BAD_PARTY = 3,        /* party outside 1 to 999 */
    FANZSOREB_BAD_DAY = 4,          /* day above 36,524 */
    FANZSOREB_BAD_TYPE = 5,         /* type outside 1 to 20 and not 22 */
    FANZSOREB_BAD_COUNTERPARTY = 6, /* not 0 outside type 6; in type 6 above 999 or the party itself. There 0 is the
                                       System Operator, an export */
    FANZSOREB_BAD_AMOUNT = 7,       /* above 10^9 kWh for types 1 to 16 and 22, above 10^13 kurus for 17 to 20 */
    FANZSOREB_DAY_CLOSED = 8,       /* a second control of a day; posting or withdrawing a standing bilateral sale,
                                       counterparty above 0, of a day that was controlled */
    FANZSOREB_NO_ROOM = 9,          /* no entry free */
    FANZSOREB_NO_ENTRY = 10,        /* no entry of this number; withdrawal of a mark or of one that does not stand */
    FANZSOREB_BAD_LENGTH = 11,      /* opening below 3 words; month tables over 745 hours, or lengths that do not
                                       agree */
    FANZSOREB_BAD_FIGURE = 12       /* another figure outside its range */
};

/* Entry types: 1 to 16 and 22 are volumes in kWh, 0 to 10^9; 17 to 20 are money in kurus, 0 to 10^13.
 *
 * Before version 2.0.0 there was no type 22: to such a copy a book with one in it is no book, so that every call on it
 * answers 1, and a post of one, or a line of a day file, is refused by 5 where no fault comes before it. Its tally had
 * 16 sums: fanzsoreb_sums and fanzsoreb_tally_answer have grown, and a host is to be compiled anew with this header.
 *
 * Before version 1.1.2 money was 0 to 10^12, and a kind 5 word had 12 bits: such a copy answers 1 to a book with more
 * money in an entry; of a day file with more it answers 2 if a kind 5 word has one of the bits 12 to 15, otherwise 7
 * for the line.
 *
 * Books and files that an older copy takes are read as before, with the same figures. */
enum fanzsoreb_type {
    FANZSOREB_DAY_AHEAD_SALE = 1,
    FANZSOREB_INTRADAY_SALE = 2,
    FANZSOREB_FUTURES_SALE = 3,
    FANZSOREB_DEFAULT_DAY_AHEAD_SALE = 4,
    FANZSOREB_DEFAULT_INTRADAY_SALE = 5,
    FANZSOREB_BILATERAL_SALE = 6,   /* to the counterparty; counterparty 0 is an export, counted in the month report
                                       alone */
    FANZSOREB_DAY_AHEAD_PURCHASE = 7,
    FANZSOREB_INTRADAY_PURCHASE = 8,
    FANZSOREB_FUTURES_PURCHASE = 9,
    FANZSOREB_DEFAULT_DAY_AHEAD_PURCHASE = 10,
    FANZSOREB_DEFAULT_INTRADAY_PURCHASE = 11,
    FANZSOREB_GENERATION_PROGRAM = 12,
    FANZSOREB_NONSYNCHRONOUS_IMPORT = 13,
    FANZSOREB_UNLICENSED_MAXIMUM = 14,
    FANZSOREB_CAPACITY_TENDER = 15,
    FANZSOREB_IMPORT_NOTIFICATION = 16,
    FANZSOREB_DAY_AHEAD_PURCHASE_MONEY = 17,
    FANZSOREB_DAY_AHEAD_SALE_MONEY = 18,
    FANZSOREB_INTRADAY_PURCHASE_MONEY = 19,
    FANZSOREB_INTRADAY_SALE_MONEY = 20,
    FANZSOREB_MARK = 21,            /* a closed day; control writes it, no post does */
    FANZSOREB_UPDATED_GENERATION_PROGRAM = 22 /* the program as a later update has it; new in version 2.0.0 */
};

/* Only standing entries count. */
enum fanzsoreb_status {
    FANZSOREB_STANDING = 0,
    FANZSOREB_WITHDRAWN = 1,
    FANZSOREB_CANCELLED = 2
};

/* Answers. `answer` is 0 or the cause. */
typedef struct { uint32_t answer; uint32_t number; } fanzsoreb_posted;
typedef struct { uint32_t answer; uint32_t count; } fanzsoreb_counted;
typedef struct {
    uint32_t answer, party, day, entry_type, counterparty, status;
    uint64_t amount;
} fanzsoreb_entry_read;
typedef struct { uint32_t answer; int64_t balance; } fanzsoreb_balance;
typedef struct { uint32_t party; uint64_t sums[17]; } fanzsoreb_sums;
typedef struct { uint32_t answer; fanzsoreb_sums tally; uint64_t bought; } fanzsoreb_tally_answer;
typedef struct {
    uint64_t aosmf;  /* average price, kurus per MWh */
    int64_t aedm;    /* imbalance volume, kWh, negative is short */
} fanzsoreb_month_figures;
typedef struct { uint32_t answer; fanzsoreb_month_figures month; } fanzsoreb_month_answer;
typedef struct { uint32_t answer; uint32_t recordable; } fanzsoreb_ceiling_answer;
typedef struct { uint32_t answer; uint32_t day; } fanzsoreb_first_day_answer;
typedef struct {
    uint32_t answer, month, first_day, days;
    uint64_t lines[32][21]; /* kWh, of types 17 to 20 kurus: a line a day, then that of the totals */
} fanzsoreb_report;
typedef struct { uint32_t answer, first, second, cancelled; } fanzsoreb_controlled;
typedef struct { uint32_t answer; uint32_t posted; } fanzsoreb_file_read;
typedef struct {
    uint32_t answer;
    uint64_t margin, trading, imbalance, risk, yek, total; /* kurus */
} fanzsoreb_collateral_answer;

/* The version of the library: FANZSOREB_VERSION of the header that belongs to it. */
uint32_t fanzsoreb_version(void);

/* 1 if the words are a book, else 0. Changes nothing. */
uint32_t fanzsoreb_is_book_words(const uint32_t *book, size_t words);
uint32_t fanzsoreb_is_book(const uint8_t *book, size_t length);

/* Opens a book with no entries in words of any values: coefficient R in hundredths, 0 to 1,000; tolerance amount TM
 * in kWh, 0 to 200,000,000. Changes the first three words. Causes: 11 (less than three words), 12 (R or TM outside its
 * range); on bytes first 1 (a length that is no multiple of 4). */
uint32_t fanzsoreb_open_words(uint32_t *book, size_t words, uint32_t coefficient, uint32_t tolerance);
uint32_t fanzsoreb_open(uint8_t *book, size_t length, uint32_t coefficient, uint32_t tolerance);

/* The same with R 105 and TM 500,000. Changes the first three words. Causes: 11; on bytes first 1. Before version 1.0.1
 * these were 110 and 600,000: a host that relied on them names them, fanzsoreb_open_words(book, words, 110, 600000). A
 * book keeps the R and TM that it was opened with, whichever version reads it. */
uint32_t fanzsoreb_open_default_words(uint32_t *book, size_t words);
uint32_t fanzsoreb_open_default(uint8_t *book, size_t length);

/* Appends one standing entry; its number, counted from 0. Party 1 to 999; day 0 to 36,524; type 1 to 20, or 22;
 * counterparty 0 outside type 6, in type 6 0 to 999 and not the party; amount 0 to 10^9 kWh for types 1 to 16 and 22,
 * 0 to 10^13 kurus for 17 to 20. Changes the five words after the last entry, and the number of entries. Causes: 1, 3,
 * 4, 5, 6, 7, 8 (type 6, counterparty above 0, on a closed day), 9. Each call checks the whole book: for many lines
 * read a day file. */
fanzsoreb_posted fanzsoreb_post_words(uint32_t *book, size_t words, uint32_t party, uint32_t day, uint32_t entry_type,
                                      uint32_t counterparty, uint64_t amount);
fanzsoreb_posted fanzsoreb_post(uint8_t *book, size_t length, uint32_t party, uint32_t day, uint32_t entry_type,
                                uint32_t counterparty, uint64_t amount);

/* Withdraws a standing entry by its number; its place is not used again. Changes the entry's status, to 1. Causes: 1,
 * 8 (a standing type 6, counterparty above 0, of a closed day), 10 (no such entry, a mark, or one that does not
 * stand). */
uint32_t fanzsoreb_withdraw_words(uint32_t *book, size_t words, uint32_t number);
uint32_t fanzsoreb_withdraw(uint8_t *book, size_t length, uint32_t number);

/* The number of entries, of every status and marks too. Cause: 1. Changes nothing. */
fanzsoreb_counted fanzsoreb_count_words(const uint32_t *book, size_t words);
fanzsoreb_counted fanzsoreb_count(const uint8_t *book, size_t length);

/* One entry by its number, of any status: its party, day, type, counterparty, status, and amount in kWh or kurus. A
 * mark has type 21 and a day, its other figures are 0. Causes: 1, 10 (number not below the number of entries).
 * Changes nothing. */
fanzsoreb_entry_read fanzsoreb_entry_words(const uint32_t *book, size_t words, uint32_t number);
fanzsoreb_entry_read fanzsoreb_entry(const uint8_t *book, size_t length, uint32_t number);

/* A party's sums of a day over standing entries, in kWh: sums[k - 1] for volume type k of 1 to 16, sum 6 without
 * exports, and sums[16] for type 22; and B, what others sold to it by standing type 6. Party 1 to 999, day 0 to 36,524.
 * Causes: 1, 3, 4. Changes nothing. */
fanzsoreb_tally_answer fanzsoreb_tally_words(const uint32_t *book, size_t words, uint32_t party, uint32_t day);
fanzsoreb_tally_answer fanzsoreb_tally(const uint8_t *book, size_t length, uint32_t party, uint32_t day);

/* The two unrequited volumes of a party's day, in hundredths of a kWh, within 30,720,000,000,000,000 either way: 100
 * times its sales, less the larger of 100 times TM and R times its cover. The generation program in its cover is sum 12
 * in the day-ahead balance, the larger of sums 12 and 22 in the delivery balance: an update below the program changes
 * neither. Party 1 to 999, day 0 to 36,524. Causes: 1, 3, 4. Change nothing. */
fanzsoreb_balance fanzsoreb_day_ahead_words(const uint32_t *book, size_t words, uint32_t party, uint32_t day);
fanzsoreb_balance fanzsoreb_delivery_words(const uint32_t *book, size_t words, uint32_t party, uint32_t day);
fanzsoreb_balance fanzsoreb_day_ahead(const uint8_t *book, size_t length, uint32_t party, uint32_t day);
fanzsoreb_balance fanzsoreb_delivery(const uint8_t *book, size_t length, uint32_t party, uint32_t day);

/* The month report: all parties' sums of standing entries by day and type, and the month's totals. A month is 0 to
 * 1,199, January 2000 to December 2099: 12 x (year - 2000) + n - 1 is the nth of a year. Its first day and the number
 * of its days, 28 to 31, come with it. lines[i] for i below days is that of day first_day + i: lines[i][k - 1] for type
 * k of 1 to 20 and lines[i][20] for type 22, in kWh, of types 17 to 20 in kurus. lines[days] has the totals, the lines
 * after it are 0. Type 6 is here with exports. Withdrawn and cancelled entries and marks count nowhere. A sum is at
 * most 30,720,000,000,000,000 (3,072 x 10^13; a double holds every whole number to 2^53 only, 9,007,199,254,740,992).
 * The answer has 5,392 bytes. Causes: 1, 12 (month above 1,199). Changes nothing. New in version 2.2.0: an older copy
 * has no such call; books and files are the same. */
fanzsoreb_report fanzsoreb_month_report_words(const uint32_t *book, size_t words, uint32_t month);
fanzsoreb_report fanzsoreb_month_report(const uint8_t *book, size_t length, uint32_t month);

/* The place of a type's sum in a line of a month report: 0 to 19 for types 1 to 20, 20 for 22. Another type has none:
 * FANZSOREB_REPORT_SUMS. */
static inline uint32_t fanzsoreb_report_place(uint32_t entry_type)
{
    if (entry_type == FANZSOREB_UPDATED_GENERATION_PROGRAM)
        return FANZSOREB_REPORT_SUMS - 1;
    return entry_type >= 1 && entry_type <= 20 ? entry_type - 1 : FANZSOREB_REPORT_SUMS;
}

/* 1 if a balance, of any value, is detected: above zero. Else 0: zero is clear. */
uint32_t fanzsoreb_detected(int64_t balance);

/* Whether a settlement period's offer is recordable (1 or 0): offer, net bilateral purchase, net futures position and
 * capacity, each 0 to 10^9 kWh. Cause: 12. */
fanzsoreb_ceiling_answer fanzsoreb_ceiling(uint32_t offer, uint32_t bilateral, uint32_t futures, uint32_t capacity);

/* The first day of a month by the Gregorian calendar: its number, 0 to 146,066, counted as everywhere from 2000-01-01.
 * A month is 0 to 4,799, January 2000 to December 2399: 12 x (year - 2000) + n - 1 is the nth of a year. A day above
 * 36,524 is given by this call alone; every other one still refuses it by 4. Cause: 12. New in version 1.1.0. */
fanzsoreb_first_day_answer fanzsoreb_first_day(uint32_t month);

/* The month step, on three tables of 32-bit figures:
 *   prices     one an hour, 0 to 1,000,000 kurus per MWh, for 0 to 745 hours
 *   imbalance  rows x hours, row after row, a row a group, each -10,000,000 to 10,000,000 kWh, negative is short
 *   dm         secondary control, one an hour, in the same range
 * rows is 1 to 64; group, the one asked, is below rows. Lengths are in figures; on bytes, little-endian, in bytes.
 * AOSMF in kurus per MWh, 0 to 1,000,000: the average price of all rows weighted by imbalance without its sign, halves
 * up, 0 where there is no imbalance. AEDM in kWh, signed, within 14,900,000,000 either way: imbalance less DM of the
 * group asked. Causes: 11 (more than 745 hours, an imbalance table of not rows x hours figures or a DM table of not one
 * an hour; on bytes also a length that is no multiple of 4), 12 (rows, group or a figure outside its range). Changes
 * nothing. */
fanzsoreb_month_answer fanzsoreb_month_words(const uint32_t *prices, size_t prices_length, const int32_t *imbalance,
                                             size_t imbalance_length, uint32_t rows, const int32_t *dm,
                                             size_t dm_length, uint32_t group);
fanzsoreb_month_answer fanzsoreb_month(const uint8_t *prices, size_t prices_length,
                                       const uint8_t *imbalance, size_t imbalance_length, uint32_t rows,
                                       const uint8_t *dm, size_t dm_length, uint32_t group);

/* Control of a day, 0 to 36,524: how many parties were detected in each pass, and how many entries were cancelled. It
 * goes by day-ahead balances, so an updated program does not count. Changes the status of the day's standing bilateral
 * sales that it cancels, to 2; the five words after the last entry, which become the day's mark; and the number of
 * entries. From then on the day is closed. Causes: 1, 4, 8, 9. */
fanzsoreb_controlled fanzsoreb_control_words(uint32_t *book, size_t words, uint32_t day);
fanzsoreb_controlled fanzsoreb_control(uint8_t *book, size_t length, uint32_t day);

/* Reads a day file into a book: all lines are posted, or none; how many were. A file is 0 to 65,536 bytes,
 * little-endian words in blocks: kind 1, party in bits 0-15 and the number of lines, 0 to 4,095, in bits 16-27; then
 * kind 2, day; then three words a line, of kinds 3, 4 and 5 as in a book, status 0. Changes the entries of the lines
 * posted, five words a line after the last entry, and the number of entries; a file without lines changes nothing.
 * Causes: 1, 2, then in file order that of the first faulty line (3 to 8, as of a post) or block without lines (3 or
 * 4), then 9 if the lines do not fit. */
fanzsoreb_file_read fanzsoreb_read_file_words(uint32_t *book, size_t words, const uint8_t *file, size_t file_length);
fanzsoreb_file_read fanzsoreb_read_file(uint8_t *book, size_t length, const uint8_t *file, size_t file_length);

/* A collateral case. Begin with FANZSOREB_SUPPLIER, a plain supplier's: all figures 0, best score 1, own group. */
typedef struct {
    uint32_t party;                     /* 1 to 999 */
    uint32_t day;                       /* g, 0 to 36,524 */
    uint32_t licence;                   /* 0 supply, 1 transmission, 2 generation */
    uint64_t capacity;                  /* kW, 0 to 10^8 for every licence */
    uint32_t nonbusiness;               /* non-business days h, 0 to 29: k is 3 up to 2, else 1 + h */
    uint32_t holiday;                   /* 1 if g is before a holiday, else 0 */
    uint32_t defaults;                  /* default days t, 0 to 30 */
    uint32_t responsible;               /* 1 if responsible for its group, else 0: neither imbalance nor risk */
    fanzsoreb_month_figures months[3];  /* month answers, latest first. Each used: aosmf 0 to 1,000,000 kurus per MWh,
                                           aedm within 14,900,000,000 kWh either way. Those not used may be anything */
    uint32_t used;                      /* how many of them are used, 0 to 3 */
    uint32_t rk;                        /* risk coefficient RK in hundredths, 0 to 500 */
    uint64_t rt;                        /* risk collateral RT, kurus, 0 to 10^15 */
    uint64_t yt;                        /* YEK amount YT, kurus, 0 to 10^14 */
    uint32_t score;                     /* credit score T, 0 to M; 0 without consent */
    uint32_t best;                      /* best credit score M, 1 to 10,000 */
} fanzsoreb_case;

#define FANZSOREB_SUPPLIER { 0, 0, 0, 0, 0, 0, 0, 1, { { 0, 0 }, { 0, 0 }, { 0, 0 } }, 0, 0, 0, 0, 0, 1 }

/* The collateral of a case on a book, in kurus: each item, each division rounded up, and the total, the larger of
 * margin and trading + imbalance + risk + YEK, 77,974,500,000,000,000 at most (a double holds every whole number to
 * 2^53 only, 9,007,199,254,740,992). The figures are those of fanzsoreb_case, in its order and ranges. Causes: 1, 3, 4,
 * 12 (another figure outside its range). Changes nothing. */
fanzsoreb_collateral_answer fanzsoreb_collateral_words(
    const uint32_t *book, size_t words, uint32_t party, uint32_t day, uint32_t licence, uint64_t capacity,
    uint32_t nonbusiness, uint32_t holiday, uint32_t defaults, uint32_t responsible, uint64_t aosmf1, int64_t aedm1,
    uint64_t aosmf2, int64_t aedm2, uint64_t aosmf3, int64_t aedm3, uint32_t used, uint32_t rk, uint64_t rt,
    uint64_t yt, uint32_t score, uint32_t best);
fanzsoreb_collateral_answer fanzsoreb_collateral(
    const uint8_t *book, size_t length, uint32_t party, uint32_t day, uint32_t licence, uint64_t capacity,
    uint32_t nonbusiness, uint32_t holiday, uint32_t defaults, uint32_t responsible, uint64_t aosmf1, int64_t aedm1,
    uint64_t aosmf2, int64_t aedm2, uint64_t aosmf3, int64_t aedm3, uint32_t used, uint32_t rk, uint64_t rt,
    uint64_t yt, uint32_t score, uint32_t best);

/* The same, of a case; its pointer is not null. */
static inline fanzsoreb_collateral_answer fanzsoreb_collateral_of_words(const uint32_t *book, size_t words,
                                                                        const fanzsoreb_case *c)
{
    return fanzsoreb_collateral_words(book, words, c->party, c->day, c->licence, c->capacity, c->nonbusiness,
                                      c->holiday, c->defaults, c->responsible, c->months[0].aosmf, c->months[0].aedm,
                                      c->months[1].aosmf, c->months[1].aedm, c->months[2].aosmf, c->months[2].aedm,
                                      c->used, c->rk, c->rt, c->yt, c->score, c->best);
}
static inline fanzsoreb_collateral_answer fanzsoreb_collateral_of(const uint8_t *book, size_t length,
                                                                  const fanzsoreb_case *c)
{
    return fanzsoreb_collateral(book, length, c->party, c->day, c->licence, c->capacity, c->nonbusiness, c->holiday,
                                c->defaults, c->responsible, c->months[0].aosmf, c->months[0].aedm,
                                c->months[1].aosmf, c->months[1].aedm, c->months[2].aosmf, c->months[2].aedm, c->used,
                                c->rk, c->rt, c->yt, c->score, c->best);
}

/* The calls on bytes, each by words where address and length allow it: the same answers and bytes. The pointer may lead
 * to words too. Of collateral there is the one of a case. */
static inline int fanzsoreb_is_aligned(const void *memory, size_t length)
{
    return ((uintptr_t)memory | length) % 4 == 0;
}
static inline uint32_t fanzsoreb_is_book_any(const void *book, size_t length)
{
    return fanzsoreb_is_aligned(book, length) ? fanzsoreb_is_book_words((const uint32_t *)book, length / 4)
                                              : fanzsoreb_is_book((const uint8_t *)book, length);
}
static inline uint32_t fanzsoreb_open_any(void *book, size_t length, uint32_t coefficient, uint32_t tolerance)
{
    return fanzsoreb_is_aligned(book, length)
               ? fanzsoreb_open_words((uint32_t *)book, length / 4, coefficient, tolerance)
               : fanzsoreb_open((uint8_t *)book, length, coefficient, tolerance);
}
static inline uint32_t fanzsoreb_open_default_any(void *book, size_t length)
{
    return fanzsoreb_is_aligned(book, length) ? fanzsoreb_open_default_words((uint32_t *)book, length / 4)
                                              : fanzsoreb_open_default((uint8_t *)book, length);
}
static inline fanzsoreb_posted fanzsoreb_post_any(void *book, size_t length, uint32_t party, uint32_t day,
                                                  uint32_t entry_type, uint32_t counterparty, uint64_t amount)
{
    return fanzsoreb_is_aligned(book, length)
               ? fanzsoreb_post_words((uint32_t *)book, length / 4, party, day, entry_type, counterparty, amount)
               : fanzsoreb_post((uint8_t *)book, length, party, day, entry_type, counterparty, amount);
}
static inline uint32_t fanzsoreb_withdraw_any(void *book, size_t length, uint32_t number)
{
    return fanzsoreb_is_aligned(book, length) ? fanzsoreb_withdraw_words((uint32_t *)book, length / 4, number)
                                              : fanzsoreb_withdraw((uint8_t *)book, length, number);
}
static inline fanzsoreb_counted fanzsoreb_count_any(const void *book, size_t length)
{
    return fanzsoreb_is_aligned(book, length) ? fanzsoreb_count_words((const uint32_t *)book, length / 4)
                                              : fanzsoreb_count((const uint8_t *)book, length);
}
static inline fanzsoreb_entry_read fanzsoreb_entry_any(const void *book, size_t length, uint32_t number)
{
    return fanzsoreb_is_aligned(book, length) ? fanzsoreb_entry_words((const uint32_t *)book, length / 4, number)
                                              : fanzsoreb_entry((const uint8_t *)book, length, number);
}
static inline fanzsoreb_tally_answer fanzsoreb_tally_any(const void *book, size_t length, uint32_t party, uint32_t day)
{
    return fanzsoreb_is_aligned(book, length) ? fanzsoreb_tally_words((const uint32_t *)book, length / 4, party, day)
                                              : fanzsoreb_tally((const uint8_t *)book, length, party, day);
}
static inline fanzsoreb_balance fanzsoreb_day_ahead_any(const void *book, size_t length, uint32_t party, uint32_t day)
{
    return fanzsoreb_is_aligned(book, length)
               ? fanzsoreb_day_ahead_words((const uint32_t *)book, length / 4, party, day)
               : fanzsoreb_day_ahead((const uint8_t *)book, length, party, day);
}
static inline fanzsoreb_balance fanzsoreb_delivery_any(const void *book, size_t length, uint32_t party, uint32_t day)
{
    return fanzsoreb_is_aligned(book, length)
               ? fanzsoreb_delivery_words((const uint32_t *)book, length / 4, party, day)
               : fanzsoreb_delivery((const uint8_t *)book, length, party, day);
}
static inline fanzsoreb_report fanzsoreb_month_report_any(const void *book, size_t length, uint32_t month)
{
    return fanzsoreb_is_aligned(book, length)
               ? fanzsoreb_month_report_words((const uint32_t *)book, length / 4, month)
               : fanzsoreb_month_report((const uint8_t *)book, length, month);
}
static inline fanzsoreb_controlled fanzsoreb_control_any(void *book, size_t length, uint32_t day)
{
    return fanzsoreb_is_aligned(book, length) ? fanzsoreb_control_words((uint32_t *)book, length / 4, day)
                                              : fanzsoreb_control((uint8_t *)book, length, day);
}
static inline fanzsoreb_file_read fanzsoreb_read_file_any(void *book, size_t length, const uint8_t *file,
                                                          size_t file_length)
{
    return fanzsoreb_is_aligned(book, length)
               ? fanzsoreb_read_file_words((uint32_t *)book, length / 4, file, file_length)
               : fanzsoreb_read_file((uint8_t *)book, length, file, file_length);
}
static inline fanzsoreb_collateral_answer fanzsoreb_collateral_of_any(const void *book, size_t length,
                                                                      const fanzsoreb_case *c)
{
    return fanzsoreb_is_aligned(book, length) ? fanzsoreb_collateral_of_words((const uint32_t *)book, length / 4, c)
                                              : fanzsoreb_collateral_of((const uint8_t *)book, length, c);
}
static inline fanzsoreb_month_answer fanzsoreb_month_any(const void *prices, size_t prices_length,
                                                         const void *imbalance, size_t imbalance_length, uint32_t rows,
                                                         const void *dm, size_t dm_length, uint32_t group)
{
    return fanzsoreb_is_aligned(prices, prices_length) && fanzsoreb_is_aligned(imbalance, imbalance_length)
                   && fanzsoreb_is_aligned(dm, dm_length)
               ? fanzsoreb_month_words((const uint32_t *)prices, prices_length / 4, (const int32_t *)imbalance,
                                       imbalance_length / 4, rows, (const int32_t *)dm, dm_length / 4, group)
               : fanzsoreb_month((const uint8_t *)prices, prices_length, (const uint8_t *)imbalance, imbalance_length,
                                 rows, (const uint8_t *)dm, dm_length, group);
}

/* What an answer means, in English; "unknown" where it is none of the list. */
static inline const char *fanzsoreb_cause_name(uint32_t answer)
{
    switch (answer) {
    case FANZSOREB_DONE: return "done";
    case FANZSOREB_NOT_A_BOOK: return "not a book";
    case FANZSOREB_BAD_FILE: return "not a day file";
    case FANZSOREB_BAD_PARTY: return "party outside 1 to 999";
    case FANZSOREB_BAD_DAY: return "day above 36,524";
    case FANZSOREB_BAD_TYPE: return "type outside 1 to 20 and not 22";
    case FANZSOREB_BAD_COUNTERPARTY: return "counterparty";
    case FANZSOREB_BAD_AMOUNT: return "amount";
    case FANZSOREB_DAY_CLOSED: return "day closed";
    case FANZSOREB_NO_ROOM: return "no entry free";
    case FANZSOREB_NO_ENTRY: return "no such entry, a mark, or not standing";
    case FANZSOREB_BAD_LENGTH: return "length";
    case FANZSOREB_BAD_FIGURE: return "figure outside its range";
    default: return "unknown";
    }
}

#ifdef __cplusplus
}
#endif

#endif
