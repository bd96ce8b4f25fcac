/* drawer [whole]: the library's call for all lists of a drawer. Reads a set from each line of standard input and answers it by a line; tests/README.md fixes both.
 *
 * The own list's tables lie in one block of memory with known bytes between edges, and once more in a second one; the buffer and the lengths end where nothing can be
 * read. The working tables keep what the set before left in them. After each call:
 *   - refused: the own list's head and tables are as they were;
 *   - accepted: they are, byte for byte, what seek_load and seek_merge of each file in turn make of the second one;
 *   - what lies around the tables is as it was.
 * Else the answer ends with "changed" and what was. Of each table the first 65,536 bytes and its end are compared after each set, all of the block after each sixty-fourth,
 * or with the word whole after each. */
#define _DEFAULT_SOURCE
#define _POSIX_C_SOURCE 200809L
#include <inttypes.h>
#include <stdio.h>
#include <stdlib.h>
#include <string.h>
#include <sys/mman.h>
#include <unistd.h>

#include "seek.h"

enum { TABLES = 7, EDGE = 64, EVERY = 64, NEAR = 65536, OUT_MOST = 1 << 20, BUFFER_MOST = 1 << 20, FILES = 64 };
enum { OWN, TURN, WORK, OTHER, PLACES };
static const size_t most[TABLES] = {24 * 1024, 8 * 1024, 131072, 24 * 1024, 4 * 4096, 8 * 524288, 16 * 262145};
static const unsigned width[TABLES] = {24, 8, 1, 24, 4, 8, 16};

static void stop(const char *why)
{
    fprintf(stderr, "drawer: %s\n", why);
    exit(2);
}

/* ---- memory */
static uint8_t *block[PLACES], *known, *out, *buffer_end, *lengths_end;
static size_t block_size, place[TABLES];
static seek_list lists[PLACES];
static const char *changed;

/* So many bytes, behind which nothing can be read. */
static uint8_t *guarded(size_t n)
{
    size_t page = (size_t)sysconf(_SC_PAGESIZE);
    uint8_t *pages = mmap(NULL, n + page, PROT_READ | PROT_WRITE, MAP_PRIVATE | MAP_ANONYMOUS, -1, 0);
    if (pages == MAP_FAILED || mprotect(pages + n, page, PROT_NONE) != 0)
        stop("no memory");
    return pages + n;
}

static void make_memory(void)
{
    size_t i;
    int k, p;
    for (block_size = EDGE, k = 0; k < TABLES; k++) {
        place[k] = block_size;
        block_size += most[k] + EDGE;
    }
    known = malloc(block_size);
    out = malloc(OUT_MOST);
    if (known == NULL || out == NULL)
        stop("no memory");
    for (i = 0; i < block_size; i++)
        known[i] = (uint8_t)(i * 167 + (i >> 8) * 31 + 41);
    for (p = 0; p < PLACES; p++) {
        block[p] = malloc(block_size);
        if (block[p] == NULL)
            stop("no memory");
        memcpy(block[p], known, block_size);
    }
    buffer_end = guarded(BUFFER_MOST);
    lengths_end = guarded((size_t)sysconf(_SC_PAGESIZE));
}

static seek_table *table(int p, int k)
{
    seek_list *l = &lists[p];
    seek_table *all[TABLES] = {&l->checkpoints, &l->frames, &l->store, &l->parts, &l->malformed, &l->hints, &l->confirmed};
    return all[k];
}

static void lend(int p, const uint64_t *lengths)
{
    int k;
    for (k = 0; k < TABLES; k++) {
        if (lengths[k] > most[k])
            stop("a table is longer than its room");
        table(p, k)->at = block[p] + place[k];
        table(p, k)->length = (size_t)lengths[k];
    }
    memset(lists[p].head, 0xa5, SEEK_BLOCK);
}

/* The second list becomes the own one: head, lengths and what lies in the tables. */
static void copy_own(void)
{
    int k;
    memcpy(lists[TURN].head, lists[OWN].head, SEEK_BLOCK);
    for (k = 0; k < TABLES; k++) {
        table(TURN, k)->at = block[TURN] + place[k];
        table(TURN, k)->length = table(OWN, k)->length;
        memcpy(block[TURN] + place[k], block[OWN] + place[k], most[k] < NEAR ? most[k] : NEAR);
    }
}

/* Does the own list differ from the second one? */
static int differs(void)
{
    int k;
    for (k = 0; k < TABLES; k++) {
        size_t n = table(OWN, k)->length, near = n < NEAR ? n : NEAR;
        if (memcmp(block[OWN] + place[k] - EDGE, block[TURN] + place[k] - EDGE, near + EDGE) != 0
            || memcmp(block[OWN] + place[k] + n - near, block[TURN] + place[k] + n - near, near + EDGE) != 0)
            return 1;
    }
    return memcmp(lists[OWN].head, lists[TURN].head, SEEK_BLOCK) != 0;
}

/* The edges of the working tables, before a call and after it. */
static uint8_t edges[TABLES][2 * EDGE];

static int look_at_edges(int after)
{
    int k, same = 1;
    for (k = 0; k < TABLES; k++) {
        const uint8_t *t = table(WORK, k)->at, *end = t + table(WORK, k)->length;
        if (after)
            same &= memcmp(edges[k], t - EDGE, EDGE) == 0 && memcmp(edges[k] + EDGE, end, EDGE) == 0;
        memcpy(edges[k], t - EDGE, EDGE);
        memcpy(edges[k] + EDGE, end, EDGE);
    }
    return same;
}

/* ---- a line */
static char *word;

static uint64_t number(void)
{
    char *end;
    uint64_t v = strtoull(word, &end, 10);
    if (end == word || (*end != ' ' && *end != '\n'))
        stop("a line that is no set");
    word = end + 1;
    return v;
}

static void numbers(uint64_t *v, int n)
{
    int i;
    for (i = 0; i < n; i++)
        v[i] = number();
}

static seek_area area(void)
{
    seek_area a;
    a.slot = (uint8_t)number();
    a.key_start = (uint32_t)number();
    a.key_end = (uint32_t)number();
    a.channels = (uint8_t)number();
    a.sectors = number();
    a.start = number();
    a.end = number();
    return a;
}

static unsigned digit(char c) { return c <= '9' ? (unsigned)(c - '0') : (unsigned)(c - 'a' + 10); }

/* The bytes of the next word, so that they end at `end`. */
static uint8_t *bytes(uint8_t *end, size_t room, size_t *length)
{
    size_t n = strcspn(word, " \n"), i;
    uint8_t *at;
    if (*word == '-')
        n = 0, word++;
    if (n / 2 > room)
        stop("too many bytes");
    at = end - n / 2;
    for (i = 0; i < n / 2; i++)
        at[i] = (uint8_t)(digit(word[2 * i]) << 4 | digit(word[2 * i + 1]));
    word += n + 1;
    *length = n / 2;
    return at;
}

static void put_word(seek_list *l, unsigned i, uint64_t v)
{
    unsigned b;
    for (b = 0; b < 8; b++)
        l->head[8 * i + b] = (uint8_t)(v >> (8 * b));
}

/* A byte of a table (0 to 6), a word of the head (7) or a table's length (8); where; the new value. */
static void change(const uint64_t *e)
{
    if (e[0] < TABLES && e[1] < table(OWN, (int)e[0])->length)
        table(OWN, (int)e[0])->at[e[1]] = (uint8_t)e[2];
    else if (e[0] == 7 && e[1] < SEEK_BLOCK / 8)
        put_word(&lists[OWN], (unsigned)e[1], e[2]);
    else if (e[0] == 8 && e[1] < TABLES && e[2] <= most[e[1]])
        table(OWN, (int)e[1])->length = (size_t)e[2];
    else
        stop("an edit of nothing");
}

/* The own list, in tables whose first bytes are known ones again. */
static void own_list(const seek_area *a)
{
    uint64_t limit = number(), lent[TABLES], stated[2], image[2], edit[3], edits;
    size_t length;
    const uint8_t *file;
    int k;
    numbers(lent, TABLES);
    file = bytes(buffer_end, BUFFER_MOST, &length);
    lend(OWN, lent);
    for (k = 0; k < TABLES; k++) {
        size_t near = most[k] < NEAR ? most[k] : NEAR;
        memcpy(block[OWN] + place[k], known + place[k], near);
        memcpy(block[TURN] + place[k], known + place[k], near);
    }
    if (seek_load(SEEK_WORKSHOP, &lists[OWN], a, file, length, limit) != 0)
        stop("the own list is not loaded");
    numbers(stated, 2);
    if (stated[0] && seek_fingerprint(&lists[OWN], stated[1]) != 0)
        stop("the fingerprint is not stated");
    numbers(image, 2);
    if (image[0])
        put_word(&lists[OWN], 22, 1), put_word(&lists[OWN], 23, image[1]);
    edits = number();
    if (edits > 1)
        stop("a line that is no set");
    if (edits) {
        numbers(edit, 3);
        change(edit);
    }
}

/* ---- the files in turn, into the second list */
static uint32_t in_turn(const seek_area *a, const uint8_t *files, const uint64_t *lengths, size_t count, uint64_t limit)
{
    uint32_t n = 0;
    size_t i;
    for (i = 0; i < count && n == 0; i++) {
        n = seek_load(SEEK_WORKSHOP, &lists[OTHER], a, files, (size_t)lengths[i], limit);
        if (n == 0)
            n = seek_merge(SEEK_WORKSHOP, &lists[TURN], &lists[OTHER]);
        files += lengths[i];
    }
    return n;
}

/* ---- answers */
static void say(uint64_t v) { printf(" %" PRIu64, v); }

/* The bytes of table k that a list takes up. */
static size_t used(const seek_list *l, int k)
{
    const uint64_t counts[TABLES] = {seek_checkpoint_count(l), seek_frame_count(l), 0, seek_part_count(l), seek_malformed_count(l), seek_hint_count(l),
                                     seek_confirmation_count(l)};
    uint64_t n = counts[k] * width[k], i;
    for (i = 0; k == 2 && i < counts[1] && i < most[1] / 8; i++)
        n += seek_bytes(l->frames.at + 8 * i + 4, 4);
    if (n > most[k])
        stop("a list says that it is longer than its table");
    return (size_t)n;
}

static void say_list(void)
{
    static const int order[11] = {7, 8, 9, 10, 17, 18, 19, 20, 21, 22, 23};
    const seek_list *l = &lists[OWN];
    uint64_t length;
    seek_area a;
    int k;
    seek_area_of(l, &a);
    printf(" / list");
    say(a.slot), say(a.key_start), say(a.key_end), say(a.channels), say(a.sectors), say(a.start), say(a.end);
    for (k = 0; k < 11; k++)
        say(seek_word(l->head, (unsigned)order[k]));
    for (k = 0; k < TABLES; k++) {
        size_t n = used(l, k);
        say(n / width[k]);
        say(n == 0 ? 0 : seek_raw_sum(block[OWN] + place[k], n));
    }
    length = seek_save(SEEK_WORKSHOP, l, out, OUT_MOST);
    printf(" / save");
    say(length);
    say(seek_refused(length) ? 0 : seek_sum(out, (size_t)length));
}

#define LENT(t) (t).at, (t).length
#define SEVEN(l) LENT((l).checkpoints), LENT((l).frames), LENT((l).store), LENT((l).parts), LENT((l).malformed), LENT((l).hints), LENT((l).confirmed)

/* By seek_merge_all; with a short head or bytes behind the lengths by the raw call. */
static uint32_t merge_all(size_t head, const uint64_t *lengths, size_t count, const uint8_t *rest, size_t rest_length, const uint8_t *files, size_t files_length,
                          uint64_t limit)
{
    uint8_t *raw = lengths_end - 8 * count - rest_length;
    size_t i;
    if (head == SEEK_BLOCK && rest_length == 0)
        return seek_merge_all(SEEK_WORKSHOP, &lists[OWN], files, files_length, lengths, count, limit, &lists[WORK]);
    for (i = 0; i < 8 * count; i++)
        raw[i] = (uint8_t)(lengths[i / 8] >> 8 * (i % 8));
    memmove(raw + 8 * count, rest, rest_length);
    return seek_raw_merge_all(SEEK_WORKSHOP, lists[OWN].head, head, raw, 8 * count + rest_length, files, files_length, limit, SEVEN(lists[OWN]), SEVEN(lists[WORK]));
}

static void set_case(void)
{
    seek_area a = area();
    uint64_t limit, work[TABLES], lengths[FILES], answer;
    size_t head, count, rest_length, files_length;
    const uint8_t *files, *rest;
    uint8_t behind[8];
    own_list(&a);
    copy_own();
    head = (size_t)number();
    limit = number();
    numbers(work, TABLES);
    lend(WORK, work);
    lend(OTHER, work);
    count = (size_t)number();
    if (count > FILES || head > SEEK_BLOCK)
        stop("a line that is no set");
    numbers(lengths, (int)count);
    rest = bytes(behind + 8, 8, &rest_length);
    files = bytes(buffer_end, BUFFER_MOST, &files_length);
    look_at_edges(0);
    answer = merge_all(head, lengths, count, rest, rest_length, files, files_length, limit);
    printf("set %" PRIu64, answer);
    if (!look_at_edges(1))
        changed = "what lies around the working tables";
    if (answer == 0)
        say_list();
    if (answer == 0 && in_turn(&a, files, lengths, count, limit) != 0)
        changed = "what in turn is refused";
    if (differs())
        changed = answer ? "the own list" : "the own list, otherwise than in turn";
}

int main(int argc, char **argv)
{
    char *line = NULL;
    size_t room = 0;
    uint64_t cases = 0;
    int whole = argc > 1 && strcmp(argv[1], "whole") == 0;
    make_memory();
    while (getline(&line, &room, stdin) > 0) {
        changed = NULL;
        if (strncmp(line, "set ", 4) != 0)
            stop("a line that is no set");
        word = line + 4;
        set_case();
        if ((whole || ++cases % EVERY == 0) && memcmp(block[OWN], block[TURN], block_size) != 0) {
            changed = changed ? changed : "memory, by this set or one of the 63 before it";
            memcpy(block[OWN], block[TURN], block_size);
        }
        if (changed != NULL)
            printf(" changed %s", changed);
        putchar('\n');
    }
    return 0;
}
