/* A call on words stores just the stated words, not others with the values they have: pages of the book without any
 * stated word may not be written. The book of 3,071 entries has 15 pages of 1,024 words, and its last three words lie
 * on a sixteenth; the place of entry 3,071 is on the last two. */
typedef struct { const char *name; void *(*call)(void *); uint32_t cause; size_t first, after; } kept;
#define KEPT(call, cause, first, after) { #call, call, FANZSOREB_##cause, first, after }
enum { PAGE = 4096, PAGES = 15 };

static const kept keeps[] = {
    KEPT(open_words, DONE, 1, PAGES), /* words 0 to 2 */
    KEPT(open_default_words, DONE, 1, PAGES),
    KEPT(withdraw_words, DONE, 1, PAGES), /* entry 1 */
    KEPT(post_words, DONE, 1, PAGES - 1), /* word 0 and entry 3,071 */
    KEPT(one_line_words, DONE, 1, PAGES - 1),
    KEPT(control_words, DONE, 1, PAGES - 1), /* entries 1 and 2 too */
    KEPT(is_book_words, DONE, 0, PAGES),
    KEPT(count_words, DONE, 0, PAGES),
    KEPT(entry_words, DONE, 0, PAGES),
    KEPT(tally_words, DONE, 0, PAGES),
    KEPT(day_ahead_words, DONE, 0, PAGES),
    KEPT(delivery_words, DONE, 0, PAGES),
    KEPT(collateral_words, DONE, 0, PAGES),
    KEPT(month_report_words, DONE, 0, PAGES),
    KEPT(no_words_for_a_file, NOT_A_BOOK, 0, PAGES),
    KEPT(no_words_to_control, NOT_A_BOOK, 0, PAGES),
    KEPT(no_day_to_control_words, BAD_DAY, 0, PAGES)
};

/* Whether the call is done without those pages, in a process of its own, which a store into one of them ends. */
static int stays_within(const kept *k)
{
    int status = 1;
    pid_t child;
    book_of(FULL, FANZSOREB_BOOK_BYTES);
    fflush(stdout);
    child = fork();
    if (child == 0) {
        if (mprotect((uint8_t *)book_words + k->first * PAGE, (k->after - k->first) * PAGE, PROT_READ) != 0)
            _exit(2);
        k->call(NULL);
        _exit(answered == k->cause ? 0 : 1);
    }
    return child > 0 && waitpid(child, &status, 0) == child && WIFEXITED(status) && WEXITSTATUS(status) == 0;
}

static void stores(void)
{
    static const kept counted = KEPT(post_words, DONE, 0, 1), appended = KEPT(post_words, DONE, 1, PAGES);
    size_t i;
    CHECK(sysconf(_SC_PAGESIZE) == PAGE && !stays_within(&counted) && !stays_within(&appended));
    for (i = 0; i < sizeof keeps / sizeof keeps[0]; i++)
        check(stays_within(&keeps[i]), keeps[i].name, __LINE__);
}
