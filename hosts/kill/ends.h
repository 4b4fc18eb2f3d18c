/* A child that makes one call after the other on a book in a mapped file, ended by SIGKILL at any time. The file is
 * then mapped anew and read. */
#include <sys/wait.h>
#include <time.h>

/* What the child is at, for its parent to read: the plan of the call that it makes, and how many it has made. The
 * other plan is the one that it prepares. */
typedef struct { volatile unsigned current, inside, made, wrong; plan plans[2]; } notes;

static uint64_t drawn = 88172645463325252u;

static uint32_t draw(uint32_t below)
{
    drawn ^= drawn << 13;
    drawn ^= drawn >> 7;
    drawn ^= drawn << 17;
    return (uint32_t)(drawn % below);
}

/* The next call on a book: a full one is opened again. */
static task next_call(const uint32_t *words)
{
    uint32_t count = entries_of(words), free_entries = FANZSOREB_MOST_ENTRIES - count, at = count ? draw(count) : 0;
    task t = { OPEN, 0, 0, DAY };
    t.first = draw(100000);
    t.lines = 1 + draw(LINES);
    if (count > 0 && draw(3) == 0 && words[5 + 5 * at] >> 24 == 0x30) {
        t.kind = WITHDRAW;
        t.first = at;
    } else if (draw(4) == 0 && t.lines <= free_entries)
        t.kind = READ_FILE;
    else if (draw(64) != 0 && free_entries > 0)
        t.kind = POST;
    else
        t.kind = draw(2) ? OPEN : OPEN_DEFAULT;
    return t;
}

/* Makes calls until it is ended, each way in turn. A barrier keeps the notes in step with the book. */
static void work(notes *n, caller *const ways[2], uint8_t *at)
{
    for (;;) {
        unsigned next = 1 - n->current;
        plan *p = &n->plans[next];
        uint32_t cause;
        found(p, at, FANZSOREB_BOOK_BYTES, 1);
        to_do(p, next_call(p->before));
        __sync_synchronize();
        n->current = next;
        n->inside = 1;
        __sync_synchronize();
        cause = ways[n->made % 2](&p->todo, at, p->length);
        __sync_synchronize();
        n->inside = 0;
        n->wrong += cause != FANZSOREB_DONE || !sees(at, p->after);
        n->made++;
    }
}

static void rest(long microseconds)
{
    struct timespec time = { 0, 0 };
    time.tv_nsec = 1000 * microseconds;
    nanosleep(&time, NULL);
}

static pid_t start_child(notes *n, int file, caller *const ways[2], size_t offset)
{
    pid_t child = fork();
    if (child < 0) {
        perror("no child can be started");
        exit(1);
    }
    if (child == 0) {
        alarm(10); /* in case its parent is ended before */
        work(n, ways, map_file(file) + offset);
    }
    return child;
}

/* One child and its end, some time after its first call. Whether the file then has a book that may be seen. */
static int ended_well(notes *n, int file, caller *const ways[2], size_t offset, unsigned *within)
{
    pid_t child, gone = 0;
    uint8_t *at;
    int status = 0, well;
    n->made = n->wrong = n->inside = 0;
    child = start_child(n, file, ways, offset);
    while (n->made == 0 && (gone = waitpid(child, &status, WNOHANG)) == 0)
        rest(20);
    if (gone != 0)
        return 0;
    rest(draw(2000));
    kill(child, SIGKILL);
    waitpid(child, &status, 0);
    at = map_file(file);
    well = WIFSIGNALED(status) && WTERMSIG(status) == SIGKILL && n->wrong == 0
        && fanzsoreb_is_book(at + offset, FANZSOREB_BOOK_BYTES) == 1
        && may_be_seen(at + offset, &n->plans[n->current]);
    *within += n->inside;
    munmap(at, FILE_BYTES);
    return well;
}

/* How many of so many ends left what no reader is to see; how many were within a call. */
static unsigned ended_badly(int file, unsigned ends, caller *const ways[2], size_t offset, unsigned *within)
{
    void *shared = mmap(NULL, sizeof(notes), PROT_READ | PROT_WRITE, MAP_SHARED | MAP_ANONYMOUS, -1, 0);
    uint8_t *at = map_file(file);
    unsigned i, bad = 0;
    if (shared == MAP_FAILED)
        return ends;
    lay_out(at + offset, 1000);
    munmap(at, FILE_BYTES);
    *within = 0;
    for (i = 0; i < ends; i++)
        bad += !ended_well((notes *)shared, file, ways, offset, within);
    munmap(shared, sizeof(notes));
    return bad;
}
