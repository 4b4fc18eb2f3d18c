/* Calls that store in an order of their own, one right and the others wrong, for the test to tell apart. Each store is
 * volatile: the compiler keeps their order. */

/* The words that differ between two books, from one to another. */
static void store_words(volatile uint32_t *book, const uint32_t *after, size_t from, size_t to)
{
    size_t i;
    for (i = from; i < to; i++)
        if (book[i] != after[i])
            book[i] = after[i];
}

/* The book after a call, worked out on a copy. */
static const uint32_t *copy_after(const task *t, const uint8_t *book, size_t length)
{
    static uint32_t after[WORDS];
    memcpy(after, book, length);
    work_out(t, after);
    return after;
}

static uint32_t count_last(const task *t, uint8_t *book, size_t length)
{
    const uint32_t *after = copy_after(t, book, length);
    store_words(AS_WORDS(book), after, 1, length / 4);
    store_words(AS_WORDS(book), after, 0, 1);
    return FANZSOREB_DONE;
}

static uint32_t count_first(const task *t, uint8_t *book, size_t length)
{
    store_words(AS_WORDS(book), copy_after(t, book, length), 0, length / 4);
    return FANZSOREB_DONE;
}

/* The number of entries last, but byte by byte. */
static uint32_t count_in_bytes(const task *t, uint8_t *book, size_t length)
{
    const uint32_t *after = copy_after(t, book, length);
    volatile uint8_t *bytes = book;
    int i;
    store_words(AS_WORDS(book), after, 1, length / 4);
    for (i = 0; i < 4; i++)
        bytes[i] = (uint8_t)(after[0] >> 8 * i & 255);
    return FANZSOREB_DONE;
}

/* Each line with the number of entries that it makes. */
static uint32_t line_by_line(const task *t, uint8_t *book, size_t length)
{
    const uint32_t *after = copy_after(t, book, length);
    volatile uint32_t *words = AS_WORDS(book);
    uint32_t count;
    for (count = entries_of(AS_WORDS(book)); count < entries_of(after); count++) {
        store_words(words, after, 3 + 5 * count, 8 + 5 * count);
        words[0] = 0x60000001 + count;
    }
    return FANZSOREB_DONE;
}

/* An entry's word is cleared before it gets its status. */
static uint32_t cleared_first(const task *t, uint8_t *book, size_t length)
{
    const uint32_t *after = copy_after(t, book, length);
    volatile uint32_t *words = AS_WORDS(book);
    words[5 + 5 * t->first] = 0;
    store_words(words, after, 0, length / 4);
    return FANZSOREB_DONE;
}

/* The number of entries some time before the entries, which a random end is to find. */
static uint32_t count_long_before(const task *t, uint8_t *book, size_t length)
{
    const uint32_t *after = copy_after(t, book, length);
    volatile unsigned turns;
    store_words(AS_WORDS(book), after, 0, 1);
    for (turns = 0; turns < 20000; turns++)
        ;
    store_words(AS_WORDS(book), after, 1, length / 4);
    return FANZSOREB_DONE;
}
