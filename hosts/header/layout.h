/* Sizes, offsets and constants of fanzsoreb.h, each held when this is compiled: in C99 by an array of -1 elements where
 * one does not hold, in C++ by static_assert. Counted by hand for x86-64: a number stands at the next multiple of its
 * own size. */
#ifndef LAYOUT_H
#define LAYOUT_H

#ifdef __cplusplus
#define HELD(name, condition) static_assert(condition, #name)
#else
#define HELD(name, condition) typedef char held_##name[(condition) ? 1 : -1]
#endif
#define SIZE(type, bytes) HELD(type##_size, sizeof(type) == (bytes))
#define AT(type, field, place, bytes) \
    HELD(type##_##field, offsetof(type, field) == (place) && sizeof(((type *)0)->field) == (bytes))
#define VALUE(name, value) HELD(name##_value, (name) == (value))

VALUE(FANZSOREB_VERSION, 20200);
VALUE(FANZSOREB_MOST_ENTRIES, 3072);
VALUE(FANZSOREB_BOOK_WORDS, 3 + 5 * 3072);
VALUE(FANZSOREB_BOOK_BYTES, 4 * (3 + 5 * 3072));
VALUE(FANZSOREB_MOST_FILE_BYTES, 65536);
VALUE(FANZSOREB_HORIZON_MONTHS, 4800);
VALUE(FANZSOREB_REPORT_MONTHS, 1200);
VALUE(FANZSOREB_REPORT_LINES, 32);
VALUE(FANZSOREB_REPORT_SUMS, 21);

VALUE(FANZSOREB_STACK_FIGURES, 16 * 1024);
VALUE(FANZSOREB_STACK_WORDS, 16 * 1024);
VALUE(FANZSOREB_STACK_REPORT_WORDS, 24 * 1024);
VALUE(FANZSOREB_STACK_FILE_WORDS, 48 * 1024);
VALUE(FANZSOREB_STACK_CONTROL_WORDS, 152 * 1024);
VALUE(FANZSOREB_STACK_BOOK, 80 * 1024);
VALUE(FANZSOREB_STACK_REPORT, 96 * 1024);
VALUE(FANZSOREB_STACK_FILE, 112 * 1024);
VALUE(FANZSOREB_STACK_CONTROL, 216 * 1024);
VALUE(FANZSOREB_STACK_MONTH, 24 * 1024);

VALUE(FANZSOREB_DONE, 0);
VALUE(FANZSOREB_NOT_A_BOOK, 1);
VALUE(FANZSOREB_BAD_FILE, 2);
VALUE(FANZSOREB_BAD_PARTY, 3);
VALUE(FANZSOREB_BAD_DAY, 4);
VALUE(FANZSOREB_BAD_TYPE, 5);
VALUE(FANZSOREB_BAD_COUNTERPARTY, 6);
VALUE(FANZSOREB_BAD_AMOUNT, 7);
VALUE(FANZSOREB_DAY_CLOSED, 8);
VALUE(FANZSOREB_NO_ROOM, 9);
VALUE(FANZSOREB_NO_ENTRY, 10);
VALUE(FANZSOREB_BAD_LENGTH, 11);
VALUE(FANZSOREB_BAD_FIGURE, 12);

VALUE(FANZSOREB_DAY_AHEAD_SALE, 1);
VALUE(FANZSOREB_INTRADAY_SALE, 2);
VALUE(FANZSOREB_FUTURES_SALE, 3);
VALUE(FANZSOREB_DEFAULT_DAY_AHEAD_SALE, 4);
VALUE(FANZSOREB_DEFAULT_INTRADAY_SALE, 5);
VALUE(FANZSOREB_BILATERAL_SALE, 6);
VALUE(FANZSOREB_DAY_AHEAD_PURCHASE, 7);
VALUE(FANZSOREB_INTRADAY_PURCHASE, 8);
VALUE(FANZSOREB_FUTURES_PURCHASE, 9);
VALUE(FANZSOREB_DEFAULT_DAY_AHEAD_PURCHASE, 10);
VALUE(FANZSOREB_DEFAULT_INTRADAY_PURCHASE, 11);
VALUE(FANZSOREB_GENERATION_PROGRAM, 12);
VALUE(FANZSOREB_NONSYNCHRONOUS_IMPORT, 13);
VALUE(FANZSOREB_UNLICENSED_MAXIMUM, 14);
VALUE(FANZSOREB_CAPACITY_TENDER, 15);
VALUE(FANZSOREB_IMPORT_NOTIFICATION, 16);
VALUE(FANZSOREB_DAY_AHEAD_PURCHASE_MONEY, 17);
VALUE(FANZSOREB_DAY_AHEAD_SALE_MONEY, 18);
VALUE(FANZSOREB_INTRADAY_PURCHASE_MONEY, 19);
VALUE(FANZSOREB_INTRADAY_SALE_MONEY, 20);
VALUE(FANZSOREB_MARK, 21);
VALUE(FANZSOREB_UPDATED_GENERATION_PROGRAM, 22);

VALUE(FANZSOREB_STANDING, 0);
VALUE(FANZSOREB_WITHDRAWN, 1);
VALUE(FANZSOREB_CANCELLED, 2);

HELD(cause, sizeof(enum fanzsoreb_cause) == 4);
HELD(type, sizeof(enum fanzsoreb_type) == 4);
HELD(status, sizeof(enum fanzsoreb_status) == 4);

SIZE(fanzsoreb_posted, 8);
AT(fanzsoreb_posted, answer, 0, 4);
AT(fanzsoreb_posted, number, 4, 4);

SIZE(fanzsoreb_counted, 8);
AT(fanzsoreb_counted, answer, 0, 4);
AT(fanzsoreb_counted, count, 4, 4);

SIZE(fanzsoreb_entry_read, 32);
AT(fanzsoreb_entry_read, answer, 0, 4);
AT(fanzsoreb_entry_read, party, 4, 4);
AT(fanzsoreb_entry_read, day, 8, 4);
AT(fanzsoreb_entry_read, entry_type, 12, 4);
AT(fanzsoreb_entry_read, counterparty, 16, 4);
AT(fanzsoreb_entry_read, status, 20, 4);
AT(fanzsoreb_entry_read, amount, 24, 8);

SIZE(fanzsoreb_balance, 16);
AT(fanzsoreb_balance, answer, 0, 4);
AT(fanzsoreb_balance, balance, 8, 8);

SIZE(fanzsoreb_sums, 144);
AT(fanzsoreb_sums, party, 0, 4);
AT(fanzsoreb_sums, sums, 8, 136);

SIZE(fanzsoreb_tally_answer, 160);
AT(fanzsoreb_tally_answer, answer, 0, 4);
AT(fanzsoreb_tally_answer, tally, 8, 144);
AT(fanzsoreb_tally_answer, bought, 152, 8);

SIZE(fanzsoreb_month_figures, 16);
AT(fanzsoreb_month_figures, aosmf, 0, 8);
AT(fanzsoreb_month_figures, aedm, 8, 8);

SIZE(fanzsoreb_month_answer, 24);
AT(fanzsoreb_month_answer, answer, 0, 4);
AT(fanzsoreb_month_answer, month, 8, 16);

SIZE(fanzsoreb_ceiling_answer, 8);
AT(fanzsoreb_ceiling_answer, answer, 0, 4);
AT(fanzsoreb_ceiling_answer, recordable, 4, 4);

SIZE(fanzsoreb_first_day_answer, 8);
AT(fanzsoreb_first_day_answer, answer, 0, 4);
AT(fanzsoreb_first_day_answer, day, 4, 4);

SIZE(fanzsoreb_report, 16 + 8 * 32 * 21);
AT(fanzsoreb_report, answer, 0, 4);
AT(fanzsoreb_report, month, 4, 4);
AT(fanzsoreb_report, first_day, 8, 4);
AT(fanzsoreb_report, days, 12, 4);
AT(fanzsoreb_report, lines, 16, 5376);
HELD(report_line, sizeof(((fanzsoreb_report *)0)->lines[0]) == 8 * FANZSOREB_REPORT_SUMS);
HELD(report_lines, sizeof(((fanzsoreb_report *)0)->lines) == 8 * FANZSOREB_REPORT_SUMS * FANZSOREB_REPORT_LINES);

SIZE(fanzsoreb_controlled, 16);
AT(fanzsoreb_controlled, answer, 0, 4);
AT(fanzsoreb_controlled, first, 4, 4);
AT(fanzsoreb_controlled, second, 8, 4);
AT(fanzsoreb_controlled, cancelled, 12, 4);

SIZE(fanzsoreb_file_read, 8);
AT(fanzsoreb_file_read, answer, 0, 4);
AT(fanzsoreb_file_read, posted, 4, 4);

SIZE(fanzsoreb_collateral_answer, 56);
AT(fanzsoreb_collateral_answer, answer, 0, 4);
AT(fanzsoreb_collateral_answer, margin, 8, 8);
AT(fanzsoreb_collateral_answer, trading, 16, 8);
AT(fanzsoreb_collateral_answer, imbalance, 24, 8);
AT(fanzsoreb_collateral_answer, risk, 32, 8);
AT(fanzsoreb_collateral_answer, yek, 40, 8);
AT(fanzsoreb_collateral_answer, total, 48, 8);

SIZE(fanzsoreb_case, 120);
AT(fanzsoreb_case, party, 0, 4);
AT(fanzsoreb_case, day, 4, 4);
AT(fanzsoreb_case, licence, 8, 4);
AT(fanzsoreb_case, capacity, 16, 8);
AT(fanzsoreb_case, nonbusiness, 24, 4);
AT(fanzsoreb_case, holiday, 28, 4);
AT(fanzsoreb_case, defaults, 32, 4);
AT(fanzsoreb_case, responsible, 36, 4);
AT(fanzsoreb_case, months, 40, 48);
AT(fanzsoreb_case, used, 88, 4);
AT(fanzsoreb_case, rk, 92, 4);
AT(fanzsoreb_case, rt, 96, 8);
AT(fanzsoreb_case, yt, 104, 8);
AT(fanzsoreb_case, score, 112, 4);
AT(fanzsoreb_case, best, 116, 4);

#endif
