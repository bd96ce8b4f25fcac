/* disc [whole]: the library's calls for disc files. Reads a case from each line of standard input and answers it by a line; tests/README.md fixes both.
 *
 * Tables lie in one block of memory with a known byte everywhere, between edges; the file ends at a page that cannot be read. After each call: what the
 * call may not write is as it was, or the answer ends with "changed" and what was. The edges of each table are compared after each call, all of the block
 * after each sixty-fourth case, or with the word whole after each. */
#define _DEFAULT_SOURCE
#define _POSIX_C_SOURCE 200809L
#include <inttypes.h>
#include <stdio.h>
#include <stdlib.h>
#include <string.h>
#include <sys/mman.h>
#include <unistd.h>

#include "seek.h"

enum { TABLES = 7, EDGE = 64, EVERY = 64, OUT_MOST = 1 << 20, FILE_MOST = 1 << 22 };
static const size_t most[TABLES] = {24 * 1024, 8 * 1024, 131072, 24 * 1024, 4 * 4096, 8 * 524288, 16 * 262145};
static const unsigned width[TABLES] = {24, 8, 1, 24, 4, 8, 16};

static void stop(const char *why)
{
    fprintf(stderr, "disc: %s\n", why);
    exit(2);
}

/* ---- memory: block is what the library writes, as_it_was what it must be */
static uint8_t *block, *as_it_was, *out, *file_end;
static size_t block_size, place[2][TABLES], taken[2][TABLES];
static seek_list lists[2];
static int whole;
static const char *changed;

static uint8_t known(size_t i) { return (uint8_t)(i * 167 + (i >> 8) * 31 + 41); }

static void make_known(size_t at, size_t n)
{
    size_t i;
    for (i = at; i < at + n; i++)
        block[i] = as_it_was[i] = known(i);
}

static void make_memory(void)
{
    size_t at = EDGE, page = (size_t)sysconf(_SC_PAGESIZE);
    uint8_t *pages = mmap(NULL, FILE_MOST + page, PROT_READ | PROT_WRITE, MAP_PRIVATE | MAP_ANONYMOUS, -1, 0);
    int s, k;
    for (s = 0; s < 2; s++)
        for (k = 0; k < TABLES; k++) {
            place[s][k] = at;
            at += most[k] + EDGE;
        }
    block_size = at;
    block = malloc(block_size);
    as_it_was = malloc(block_size);
    out = malloc(OUT_MOST + 2 * EDGE);
    if (pages == MAP_FAILED || mprotect(pages + FILE_MOST, page, PROT_NONE) != 0 || block == NULL || as_it_was == NULL || out == NULL)
        stop("no memory");
    file_end = pages + FILE_MOST;
    make_known(0, block_size);
    memset(out, 165, OUT_MOST + 2 * EDGE);
}

static seek_table *table(seek_list *l, int k)
{
    seek_table *all[TABLES] = {&l->checkpoints, &l->frames, &l->store, &l->parts, &l->malformed, &l->hints, &l->confirmed};
    return all[k];
}

static void lend(int s, const uint64_t *lengths)
{
    int k;
    for (k = 0; k < TABLES; k++) {
        if (lengths[k] > most[k])
            stop("a table is longer than its room");
        table(&lists[s], k)->at = block + place[s][k];
        table(&lists[s], k)->length = (size_t)lengths[k];
    }
    for (k = 0; k < SEEK_BLOCK; k++)
        lists[s].head[k] = known((size_t)k);
}

/* A number into four bytes, and into a word of a head. */
static void put4(uint8_t *at, uint64_t v)
{
    unsigned b;
    for (b = 0; b < 4; b++)
        at[b] = (uint8_t)(v >> (8 * b));
}

static void put_word(seek_list *l, unsigned i, uint64_t v)
{
    put4(l->head + 8 * i, v), put4(l->head + 8 * i + 4, v >> 32);
}

/* The bytes of table k that a list takes up. */
static size_t used(const seek_list *l, int k)
{
    const uint64_t counts[TABLES] = {seek_checkpoint_count(l), seek_frame_count(l), 0, seek_part_count(l), seek_malformed_count(l), seek_hint_count(l),
                                     seek_confirmation_count(l)};
    uint64_t n = counts[k] * width[k], i, b;
    if (k == 2)
        for (i = 0; i < counts[1]; i++)
            for (b = 0; b < 4; b++)
                n += (uint64_t)l->frames.at[8 * i + 4 + b] << (8 * b);
    if (counts[k] > most[k] || n > most[k])
        stop("a list says that it is longer than its table");
    return (size_t)n;
}

/* What a loaded list takes up must stay as it is. */
static void take(int s)
{
    int k;
    for (k = 0; k < TABLES; k++) {
        taken[s][k] = used(&lists[s], k);
        memcpy(as_it_was + place[s][k], block + place[s][k], taken[s][k]);
    }
}

/* The case ends: its bytes are known ones again. */
static void give_back(int s)
{
    int k;
    for (k = 0; k < TABLES; k++) {
        make_known(place[s][k], taken[s][k]);
        taken[s][k] = 0;
    }
}

static int differs(size_t at, size_t n) { return memcmp(block + at, as_it_was + at, n) != 0; }

/* The beginning of each table, what lies behind a list in it, and what lies around its end. */
static void look(int s, int holds)
{
    int k;
    for (k = 0; k < TABLES; k++) {
        size_t n = table(&lists[s], k)->length, from = holds ? used(&lists[s], k) : 0;
        size_t before = n - from < EDGE ? from : n - EDGE;
        if (from > n)
            stop("a list is longer than its table");
        if (differs(place[s][k] - EDGE, EDGE) || differs(place[s][k] + from, EDGE) || differs(place[s][k] + before, n - before + EDGE))
            changed = "a table";
    }
}

static void look_at_all(void)
{
    if (differs(0, block_size) && changed == NULL)
        changed = "memory, by this case or one of the 63 before it";
    if (changed != NULL)
        memcpy(block, as_it_was, block_size);
}

/* ---- a line */
static char *word;

static uint64_t number(void)
{
    char *end;
    uint64_t v = strtoull(word, &end, 10);
    if (end == word || (*end != ' ' && *end != '\n'))
        stop("a line that is no case");
    word = end + 1;
    return v;
}

static seek_area area(void)
{
    seek_area a;
    a.slot = (uint8_t)number();
    a.key_start = (uint32_t)number();
    a.key_end = (uint32_t)number();
    a.channels = (uint8_t)number();
    a.sectors = number();
    a.start = number();
    a.end = number();
    return a;
}

static void numbers(uint64_t *v, int n)
{
    int i;
    for (i = 0; i < n; i++)
        v[i] = number();
}

static unsigned digit(char c) { return c <= '9' ? (unsigned)(c - '0') : (unsigned)(c - 'a' + 10); }

/* The bytes of the next word, so that they end where nothing can be read. */
static const uint8_t *bytes(size_t *length)
{
    size_t n = strcspn(word, " \n"), i;
    uint8_t *at;
    if (*word == '-')
        n = 0, word++;
    if (n / 2 > FILE_MOST)
        stop("a file is too long");
    at = file_end - n / 2;
    for (i = 0; i < n / 2; i++)
        at[i] = (uint8_t)(digit(word[2 * i]) << 4 | digit(word[2 * i + 1]));
    word += n + 1;
    *length = n / 2;
    return at;
}

/* ---- answers */
static void say(uint64_t v) { printf(" %" PRIu64, v); }

static void say_sizes(const seek_table_sizes *s)
{
    say(s->checkpoints), say(s->frames), say(s->store), say(s->parts), say(s->malformed), say(s->hints), say(s->confirmed);
}

static void say_list(int s)
{
    static const int order[11] = {7, 8, 9, 10, 17, 18, 19, 20, 21, 22, 23};
    const seek_list *l = &lists[s];
    seek_area a;
    int k;
    seek_area_of(l, &a);
    printf(" / list %d", s);
    say(a.slot), say(a.key_start), say(a.key_end), say(a.channels), say(a.sectors), say(a.start), say(a.end);
    for (k = 0; k < 11; k++)
        say(seek_word(l->head, (unsigned)order[k]));
    for (k = 0; k < TABLES; k++) {
        size_t n = used(l, k);
        say(n / width[k]);
        say(n == 0 ? 0 : seek_raw_sum(block + place[s][k], n));
    }
}

/* Length and file of one list or two, in an output of this length. */
static void say_saved(const seek_list *l, const seek_list *other, size_t length)
{
    uint64_t answer;
    size_t i;
    printf(" / save");
    say(seek_disc_saved_length(l, other));
    answer = seek_disc_save(SEEK_WORKSHOP, l, other, out + EDGE, length);
    say(answer);
    say(seek_raw_sum(out + EDGE, length));
    for (i = 0; i < EDGE; i++)
        if (out[i] != 165 || out[EDGE + length + i] != 165)
            changed = "what lies around the output";
    memset(out + EDGE, 165, length);
}

static void load_case(void)
{
    seek_area areas[2];
    seek_list before[2];
    seek_contents c;
    seek_table_sizes sizes[2];
    uint64_t limit, lengths[2][TABLES], answer;
    size_t length, out_length;
    const uint8_t *file;
    int present[2] = {7, 7}, s;
    areas[0] = area(), areas[1] = area();
    limit = number();
    numbers(lengths[0], TABLES), numbers(lengths[1], TABLES);
    out_length = (size_t)number();
    file = bytes(&length);
    if (out_length > OUT_MOST)
        stop("the output is longer than its room");
    for (s = 0; s < 2; s++) {
        lend(s, lengths[s]);
        before[s] = lists[s];
    }
    printf("contents %" PRIu32, seek_disc_contents(file, length, &c));
    for (s = 0; s < 2; s++)
        say((uint64_t)c.present[s]), say(c.offset[s]), say(c.length[s]);
    printf(" / sizes %" PRIu32, seek_disc_sizes(&areas[0], &areas[1], file, length, limit, &sizes[0], &sizes[1]));
    say_sizes(&sizes[0]), say_sizes(&sizes[1]);
    answer = seek_disc_load(SEEK_WORKSHOP, &lists[0], &lists[1], &areas[0], &areas[1], file, length, limit, present);
    printf(" / load %" PRIu64 " %d %d", answer, present[0], present[1]);
    for (s = 0; s < 2; s++) {
        int holds = answer == 0 && present[s];
        look(s, holds);
        if (!holds && memcmp(&before[s], &lists[s], sizeof before[s]) != 0)
            changed = "a head";
        if (holds)
            say_list(s), take(s);
    }
    if (answer == 0 && present[0] && present[1]) {
        say_saved(&lists[0], &lists[1], out_length);
        say_saved(&lists[1], &lists[0], out_length);
    } else if (answer == 0 && (present[0] || present[1]))
        say_saved(&lists[present[1]], NULL, out_length);
    for (s = 0; s < 2; s++) {
        look(s, 0);
        give_back(s);
    }
}

/* An edit: of which list; a byte of one of its tables (0 to 6), a word of its head (7) or a table's length (8); where; the new value. */
static void change(const uint64_t *e)
{
    seek_list *l = &lists[e[0] & 1];
    if (e[1] < TABLES && e[2] < taken[e[0] & 1][e[1]]) {
        size_t at = place[e[0] & 1][e[1]] + (size_t)e[2];
        block[at] = as_it_was[at] = (uint8_t)e[3];
    } else if (e[1] == 7 && e[2] < SEEK_BLOCK / 8)
        put_word(l, (unsigned)e[2], e[3]);
    else if (e[1] == 8 && e[2] < TABLES && e[3] <= most[e[2]])
        table(l, (int)e[2])->length = (size_t)e[3];
    else
        stop("an edit of nothing");
}

/* Two list files, loaded one by one; then what the line says is changed in them, and they are saved, together and alone. */
static void pair_case(void)
{
    uint64_t limit = number(), lengths[TABLES], edits[4 * 8], i, n;
    size_t out_length = (size_t)number();
    seek_list before[2];
    uint32_t refused[2];
    int s;
    n = number();
    if (n > 8 || out_length > OUT_MOST)
        stop("a line that is no case");
    numbers(edits, 4 * (int)n);
    printf("pair");
    for (s = 0; s < 2; s++) {
        seek_area a = area();
        const uint8_t *file;
        size_t length;
        numbers(lengths, TABLES);
        file = bytes(&length);
        lend(s, lengths);
        refused[s] = seek_load(SEEK_WORKSHOP, &lists[s], &a, file, length, limit);
        say(refused[s]);
        if (refused[s] == 0)
            take(s);
    }
    for (i = 0; i < n && !refused[0] && !refused[1]; i++)
        change(edits + 4 * i);
    memcpy(before, lists, sizeof before);
    if (!refused[0] && !refused[1]) {
        say_saved(&lists[0], &lists[1], out_length);
        say_saved(&lists[1], &lists[0], out_length);
        say_saved(&lists[0], NULL, out_length);
        say_saved(&lists[1], NULL, out_length);
    }
    if (memcmp(before, lists, sizeof before) != 0)
        changed = "a head";
    for (s = 0; s < 2; s++) {
        look(s, 0);
        give_back(s);
    }
}

/* ---- lists that need an offset or a length above four bytes
 * A list of the slot with this many frames, of which each but the last has 65,536 bytes; all have these bytes together, zeros in pages that are never
 * written. */
static void make_wide(seek_list *l, uint8_t slot, uint64_t frames, uint64_t frame_bytes)
{
    seek_area a = {slot, 2, 1000, 0, 10000000, 1000, 0};
    seek_table_sizes s;
    uint64_t i;
    uint8_t *memory;
    a.key_end = (uint32_t)(1000 + frames);
    a.end = 1001 + frames;
    if (seek_sizes(&a, 1, frame_bytes, 2048, &s) != 0)
        stop("no list of these numbers");
    memory = mmap(NULL, (size_t)seek_total(&s), PROT_READ | PROT_WRITE, MAP_PRIVATE | MAP_ANONYMOUS | MAP_NORESERVE, -1, 0);
    if (memory == MAP_FAILED || seek_carve(l, &s, memory, seek_total(&s)) == 0 || seek_new(l, &a, 1, frame_bytes, 8, 2048) != 0)
        stop("no memory for a wide list");
    for (i = 0; i < frames; i++) {
        uint64_t n = frame_bytes < 65536 ? frame_bytes : 65536;
        put4(l->checkpoints.at + 24 * (i + 1) + 4, 1);
        put4(l->frames.at + 8 * i, 1000 + i), put4(l->frames.at + 8 * i + 4, n);
        put4(l->parts.at + 24 * i, i + 1), put4(l->parts.at + 24 * i + 4, i), put4(l->parts.at + 24 * i + 8, n);
        frame_bytes -= n;
    }
    put_word(l, 11, frames + 1), put_word(l, 12, frames), put_word(l, 13, frames);
}

/* wide SLOT FRAMES BYTES SLOT FRAMES BYTES: two such lists, saved together in either order and alone, into an output of no bytes. */
static void wide_case(void)
{
    seek_list wide[2];
    uint64_t v[6], s;
    numbers(v, 6);
    for (s = 0; s < 2; s++)
        make_wide(&wide[s], (uint8_t)v[3 * s], v[3 * s + 1], v[3 * s + 2]);
    printf("wide");
    say_saved(&wide[0], &wide[1], 0);
    say_saved(&wide[1], &wide[0], 0);
    say_saved(&wide[0], NULL, 0);
    say_saved(&wide[1], NULL, 0);
    for (s = 0; s < 2; s++)
        munmap(wide[s].checkpoints.at, wide[s].checkpoints.length + wide[s].frames.length + wide[s].store.length + wide[s].parts.length
                                           + wide[s].malformed.length + wide[s].hints.length + wide[s].confirmed.length);
}

int main(int argc, char **argv)
{
    char *line = NULL;
    size_t room = 0;
    uint64_t cases = 0;
    whole = argc > 1 && strcmp(argv[1], "whole") == 0;
    make_memory();
    while (getline(&line, &room, stdin) > 0) {
        changed = NULL;
        word = line + 5;
        if (strncmp(line, "load ", 5) == 0)
            load_case();
        else if (strncmp(line, "pair ", 5) == 0)
            pair_case();
        else if (strncmp(line, "wide ", 5) == 0)
            wide_case();
        else
            stop("a line that is no case");
        if (whole || changed != NULL || ++cases % EVERY == 0)
            look_at_all();
        if (changed != NULL)
            printf(" / changed: %s", changed);
        putchar('\n');
    }
    free(line);
    return 0;
}
