/* What a reader may see of a book while a call runs, and after the process that made it was ended. */

/* The books before and after the call; whether there was one before. */
typedef struct { task todo; uint32_t before[WORDS], after[WORDS]; size_t length; int was_book; } plan;

static int sees(const uint8_t *lent, const uint32_t *words)
{
    return memcmp(lent, words, 4 * used(words)) == 0;
}

/* The number of entries as before, and each word up to the last of them as before or as after. */
static int between(const uint8_t *lent, const plan *p)
{
    size_t i;
    uint32_t word;
    if (memcmp(lent, p->before, 4) != 0)
        return 0;
    for (i = 1; i < used(p->before); i++) {
        memcpy(&word, lent + 4 * i, 4);
        if (word != p->before[i] && word != p->after[i])
            return 0;
    }
    return 1;
}

/* Of a post, a withdrawal or a file just the two books. An opening may give R and TM before it takes the entries away;
 * control may cancel before it closes the day, and cancels nothing that it does not cancel in the end. */
static int may_be_seen(const uint8_t *lent, const plan *p)
{
    if (!p->was_book)
        return fanzsoreb_is_book(lent, p->length) == 0 || sees(lent, p->after);
    if (sees(lent, p->before) || sees(lent, p->after))
        return 1;
    switch (p->todo.kind) {
    case OPEN:
    case OPEN_DEFAULT:
        return between(lent, p);
    case CONTROL:
        return between(lent, p) && fanzsoreb_is_book(lent, p->length) == 1;
    default:
        return 0;
    }
}
