/* The mapped file, and the books laid out in it. */
#include <stdlib.h>
#include <unistd.h>

enum { FILE_BYTES = 61440 + 4096 };

/* The file's bytes in this process. Its mapping may be written, and what is written is in the file at once. */
static uint8_t *map_file(int file)
{
    void *at = mmap(NULL, FILE_BYTES, PROT_READ | PROT_WRITE, MAP_SHARED, file, 0);
    if (at == MAP_FAILED) {
        perror("the file cannot be mapped");
        exit(1);
    }
    return (uint8_t *)at;
}

/* A file without a name, so that none is left. */
static int new_file(void)
{
    const char *folder = getenv("TMPDIR");
    char name[4096];
    int file;
    snprintf(name, sizeof name, "%s/fanzsoreb-kill-XXXXXX", folder ? folder : "/tmp");
    file = mkstemp(name);
    if (file < 0 || ftruncate(file, FILE_BYTES) != 0) {
        perror(name);
        exit(1);
    }
    unlink(name);
    return file;
}

static int is_withdrawn(uint32_t i)
{
    return i % 8 == 4;
}

/* A book of so many entries of the day in a file full of an earlier day's. */
static void lay_out(uint8_t *at, uint32_t entries)
{
    static uint32_t words[WORDS];
    uint32_t i;
    words[0] = 0x60000000 + entries;
    words[1] = 0x70000000 + EARLIER_R;
    words[2] = 0x80000000 + EARLIER_TM;
    for (i = 0; i < FANZSOREB_MOST_ENTRIES; i++) {
        entry_of(i, i < entries ? DAY : EARLIER_DAY, words + 3 + 5 * i);
        if (i < entries && is_withdrawn(i))
            words[5 + 5 * i] += FANZSOREB_WITHDRAWN << 24;
    }
    memcpy(at, words, sizeof words);
}

/* The book that a call finds in the slice, or other bytes, and the one that it is to leave. */
static void found(plan *p, const uint8_t *at, size_t length, int was_book)
{
    size_t bytes = length;
    memcpy(p->before, at, 4);
    if (was_book)
        bytes = 4 * used(p->before);
    memcpy(p->before, at, bytes);
    memcpy(p->after, at, bytes);
    p->length = length;
    p->was_book = was_book;
}

static void to_do(plan *p, task todo)
{
    p->todo = todo;
    work_out(&todo, p->after);
}
