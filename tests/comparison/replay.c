/* replay [--large]: the script language of tests/README.md over the player's library. Reads lines from standard input, makes each line's call through
 * seek.h and prints its answer; it judges nothing. --large: the tables of kinds large, version4 and long.
 *
 * What a call may not change is copied before it and compared behind it: the blocks, and of each table what its records take up and a few bytes behind
 * them, or all of it where a line before lent a table short or changed a byte. A change is told at the end of the answer's first line. */
#define _DEFAULT_SOURCE
#define _POSIX_C_SOURCE 200809L
#include <inttypes.h>
#include <stdio.h>
#include <stdlib.h>
#include <string.h>
#include <sys/mman.h>
#include <unistd.h>

#include "seek.h"

/* A place's tables: the list's seven, the recorder's four; the hint recorder's list; then the three blocks, which are edited by words. */
enum { PLACES = 4, RECORDS = 7, SEEN = 11, TABLES = 12, HEAD = 12, BLOCK = 13, HINT_BLOCK = 14, EDGE = 64, SECTOR = 2048, GIVEN = 1 << 24 };
static const unsigned width[TABLES] = {24, 8, 1, 24, 4, 8, 16, 24, 8, 1, 24, 8};
static size_t room[TABLES], output_most;

typedef struct {
    int has_area, has_list, has_recorder;
    seek_area area;
    seek_list list;
    seek_recorder recorder;
} place;

static place places[PLACES];
static seek_hint_recorder hints;
static int has_hints;
static uint8_t *output, *given_end;

static void stop(const char *why)
{
    fflush(stdout);
    fprintf(stderr, "replay: %s\n", why);
    exit(2);
}

/* ---- memory */
static seek_table *table(int p, int t)
{
    seek_list *l = &places[p].list;
    seek_recorder *r = &places[p].recorder;
    seek_table *all[TABLES] = {&l->checkpoints, &l->frames, &l->store, &l->parts, &l->malformed, &l->hints, &l->confirmed,
                               &r->checkpoints, &r->frames, &r->store, &r->parts, &hints.list};
    return all[t];
}

/* The block that says how much of table t is taken up, or the block t itself. */
static uint8_t *block(int p, int t)
{
    if (t == SEEN || t == HINT_BLOCK)
        return hints.block;
    return t < RECORDS || t == HEAD ? places[p].list.head : places[p].recorder.block;
}

static void set_rooms(int large)
{
    size_t boundaries = large ? 65536 : 1024, most = large ? 262600 : 16384;
    int t;
    for (t = 0; t < TABLES; t++)
        room[t] = boundaries * width[t];
    room[2] = room[9] = large ? 1 << 20 : 131072;
    room[4] = 4096 * 4;
    room[5] = (most + 262144) * 8;
    room[6] = (most + 1) * 16;
    room[SEEN] = SEEK_HINT_LIST;
    output_most = large ? 1 << 23 : 262144;
}

static void *memory(size_t n)
{
    void *at = calloc(n, 1);
    if (at == NULL)
        stop("no memory");
    return at;
}

/* What a line gives lies before a page that cannot be read. */
static void make_memory(void)
{
    size_t page = (size_t)sysconf(_SC_PAGESIZE);
    uint8_t *pages = mmap(NULL, GIVEN + page, PROT_READ | PROT_WRITE, MAP_PRIVATE | MAP_ANONYMOUS, -1, 0);
    int p, t;
    if (pages == MAP_FAILED || mprotect(pages + GIVEN, page, PROT_NONE) != 0)
        stop("no memory");
    given_end = pages + GIVEN;
    output = memory(output_most);
    for (p = 0; p < PLACES; p++)
        for (t = 0; t < SEEN; t++)
            *table(p, t) = (seek_table){memory(room[t]), room[t]};
    hints.list = (seek_table){memory(room[SEEN]), room[SEEN]};
}

/* ---- a line */
static char *word, *command;

static uint64_t number(void)
{
    char *end;
    uint64_t v = strtoull(word, &end, 10);
    if (end == word || (*end != ' ' && *end != '\n'))
        stop("a line that is none");
    word = end + 1;
    return v;
}

static int number_below(uint64_t most)
{
    uint64_t v = number();
    if (v >= most)
        stop("a number that is too large");
    return (int)v;
}

static int at_place(void) { return number_below(PLACES); }

static unsigned digit(char c) { return c <= '9' ? (unsigned)(c - '0') : (unsigned)(c - 'a' + 10); }

/* Room for n bytes that end where nothing can be read. */
static uint8_t *given(size_t n)
{
    if (n > GIVEN)
        stop("a line that gives too much");
    return given_end - n;
}

/* The bytes of a word. */
static uint8_t *bytes(size_t *length)
{
    size_t n = *word == '-' ? 0 : strcspn(word, " \n") / 2, i;
    uint8_t *at = given(n);
    for (i = 0; i < n; i++)
        at[i] = (uint8_t)(digit(word[2 * i]) << 4 | digit(word[2 * i + 1]));
    word += *word == '-' ? 2 : 2 * n + 1;
    *length = n;
    return at;
}

/* The next n numbers, four bytes each. */
static uint8_t *words32(size_t n)
{
    uint8_t *at = given(4 * n), *b = at;
    size_t i;
    unsigned k;
    for (i = 0; i < n; i++) {
        uint64_t v = number();
        for (k = 0; k < 4; k++)
            *b++ = (uint8_t)(v >> (8 * k));
    }
    return at;
}

static int32_t signed32(uint64_t v) { return v < 2147483648u ? (int32_t)v : (int32_t)(v - 2147483648u) + INT32_MIN; }

/* ---- what lines lend and edit for the next call */
static struct {
    uint8_t *at, old[8];
    size_t length;
} edits[64];
static size_t edited;
static int pending;

static void put_bytes(uint8_t *at, size_t n, uint64_t v)
{
    size_t k;
    if (edited == sizeof edits / sizeof *edits)
        stop("too many edits");
    edits[edited].at = at;
    edits[edited].length = n;
    memcpy(edits[edited++].old, at, n);
    for (k = 0; k < n; k++)
        at[k] = (uint8_t)(v >> (8 * k));
}

/* The bytes as they were, the last edit first, and every table in its full length. */
static void restore(void)
{
    int p, t;
    while (edited > 0) {
        edited--;
        memcpy(edits[edited].at, edits[edited].old, edits[edited].length);
    }
    for (p = 0; p < PLACES && pending; p++)
        for (t = 0; t < TABLES; t++)
            table(p, t)->length = room[t];
    pending = 0;
}

/* ---- copies of what a call may not change: READ never, WRITTEN where it is refused, STOPPED where it is refused but for 8 */
enum { READ, WRITTEN, STOPPED };
static struct {
    const uint8_t *at, *copy;
    size_t length;
    int how;
} kept[3 * (RECORDS + 1)];
static size_t kept_count, copied;
static uint8_t *copies;
static int changed;

static void keep_bytes(const uint8_t *at, size_t n, int how)
{
    memcpy(copies + copied, at, n);
    kept[kept_count].at = at;
    kept[kept_count].copy = copies + copied;
    kept[kept_count].length = n;
    kept[kept_count++].how = how;
    copied += n;
}

static uint64_t count_in(const uint8_t *at, unsigned i) { return seek_word(at, i) & UINT32_MAX; }

/* The bytes of table t that records take up. */
static size_t used(int p, int t)
{
    static const unsigned at[TABLES] = {11, 12, 12, 13, 14, 15, 16, 11, 12, 12, 13, 6};
    uint64_t n = count_in(block(p, t), at[t]), i, sum = 0;
    if (width[t] > 1)
        sum = n * width[t];
    else
        for (i = 0; i < n && 8 * (i + 1) <= room[t - 1]; i++)
            sum += seek_word(table(p, t - 1)->at + 8 * i, 0) >> 32;
    return sum < room[t] ? (size_t)sum : room[t];
}

static void keep_tables(int p, int first, int end, int how)
{
    int t;
    for (t = first; t < end; t++) {
        size_t n = pending ? room[t] : used(p, t) + EDGE;
        keep_bytes(table(p, t)->at, n < room[t] ? n : room[t], how);
    }
}

static void keep_list(int p, int how)
{
    keep_bytes(places[p].list.head, SEEK_BLOCK, how);
    keep_tables(p, 0, RECORDS, how);
}

static void keep_recorder(int p, int how)
{
    keep_bytes(places[p].recorder.block, SEEK_BLOCK, how);
    keep_tables(p, RECORDS, SEEN, how == STOPPED ? READ : how);
}

static void keep_hints(int how)
{
    keep_bytes(hints.block, SEEK_BLOCK, how);
    keep_tables(0, SEEN, TABLES, how);
}

/* Behind a call that answered n: is all as it was? */
static void look(uint64_t n)
{
    size_t i;
    for (i = 0; i < kept_count; i++) {
        int free_to_write = kept[i].how != READ && (n == 0 || (n == 8 && kept[i].how == STOPPED));
        if (!free_to_write && memcmp(kept[i].at, kept[i].copy, kept[i].length) != 0)
            changed = 1;
    }
    kept_count = copied = 0;
}

/* ---- answers */
static void say(uint64_t v) { printf(" %" PRIu64, v); }

static void say_sum(uint64_t count, const uint8_t *at, size_t n)
{
    say(count);
    say(n == 0 ? 0 : seek_raw_sum(at, n));
}

static void say_hex(const uint8_t *at, size_t n)
{
    size_t i;
    putchar(' ');
    for (i = 0; i < n; i++)
        printf("%02x", at[i]);
}

/* The first line of an answer, without its end: the call is made, and what was lent and edited for it as it was. */
static int answer(uint64_t n)
{
    look(n);
    restore();
    printf("%s %" PRIu64, command, n);
    return n == 0;
}

static void end_line(void)
{
    puts(changed ? " changed what it may not" : "");
    changed = 0;
}

static void none(void)
{
    restore();
    printf("%s none\n", command);
}

static void say_tables(int p, int first, int end)
{
    int t;
    for (t = first; t < end; t++) {
        size_t n = used(p, t);
        say_sum(n / width[t], table(p, t)->at, n);
    }
}

static void say_words(const uint8_t *at, const int *order, int n)
{
    int i;
    for (i = 0; i < n; i++)
        say(seek_word(at, (unsigned)order[i]));
}

static void show_list(int p)
{
    static const int order[11] = {7, 8, 9, 10, 17, 18, 19, 20, 21, 22, 23};
    printf("list %d", p);
    if (places[p].has_list) {
        say_words(places[p].list.head, order, 11);
        say_tables(p, 0, RECORDS);
        puts("");
    } else
        puts(" none");
}

static void show_recorder(int p)
{
    static const int order[7] = {14, 7, 8, 9, 10, 15, 16};
    printf("rec %d", p);
    if (!places[p].has_recorder)
        puts(" none");
    else if (seek_recorder_stopped(&places[p].recorder))
        puts(" 2");
    else {
        say_words(places[p].recorder.block, order, 7);
        say_tables(p, RECORDS, SEEN);
        puts("");
    }
}

static void show_hints(void)
{
    static const int order[6] = {0, 1, 2, 3, 4, 5};
    printf("hrec");
    if (has_hints) {
        say_words(hints.block, order, 6);
        say_tables(0, SEEN, TABLES);
        puts("");
    } else
        puts(" none");
}

/* The answer of a call that has no values and shows its list. */
static void say_list_call(int p, uint64_t n)
{
    answer(n);
    end_line();
    show_list(p);
}

/* Is the list there? Where not, that is the answer. */
static int list_there(int p)
{
    if (!places[p].has_list)
        none();
    return places[p].has_list;
}

/* ---- lines: no calls */
static void do_script(void)
{
    uint64_t n = number();
    int p;
    restore();
    for (p = 0; p < PLACES; p++)
        places[p].has_area = places[p].has_list = places[p].has_recorder = 0;
    has_hints = 0;
    printf("script %" PRIu64 "\n", n);
}

static void do_area(void)
{
    int p = at_place();
    seek_area *a = &places[p].area;
    restore();
    a->slot = (uint8_t)number();
    a->key_start = (uint32_t)number();
    a->key_end = (uint32_t)number();
    a->channels = (uint8_t)number();
    a->sectors = number();
    a->start = number();
    a->end = number();
    places[p].has_area = 1;
    places[p].has_list = places[p].has_recorder = 0;
    puts("area 0");
}

static void do_lend(void)
{
    int p = at_place(), t = number_below(TABLES);
    uint64_t n = number();
    if (n > room[t])
        stop("a table is longer than its room");
    table(p, t)->length = (size_t)n;
    pending = 1;
    puts("lend 0");
}

/* A byte of a table, or a word of a block. */
static void do_edit(void)
{
    int p = at_place(), t = number_below(HINT_BLOCK + 1);
    uint64_t at = number(), v = number();
    int there = t == SEEN || t == HINT_BLOCK ? has_hints : t < RECORDS || t == HEAD ? places[p].has_list : places[p].has_recorder;
    if (at >= (t < TABLES ? room[t] : SEEK_BLOCK / 8))
        stop("an edit of nothing");
    if (there) {
        put_bytes(t < TABLES ? table(p, t)->at + at : block(p, t) + 8 * at, t < TABLES ? 1 : 8, v);
        pending = 1;
    }
    puts(there ? "edit 0" : "edit none");
}

/* ---- lines: lists */
static void do_new(void)
{
    int p = at_place();
    uint32_t interval = (uint32_t)number(), n;
    uint64_t budget = number(), spacing = number(), most = number();
    if (places[p].has_area) {
        keep_list(p, WRITTEN);
        n = seek_new(&places[p].list, &places[p].area, interval, budget, (uint32_t)spacing, most < UINT32_MAX ? (uint32_t)most : UINT32_MAX);
        places[p].has_list |= answer(n);
        end_line();
    } else
        none();
    show_list(p);
}

static void do_load(void)
{
    int p = at_place();
    uint64_t limit = number();
    size_t n;
    const uint8_t *file = bytes(&n);
    if (places[p].has_area) {
        keep_list(p, WRITTEN);
        places[p].has_list |= answer(seek_load(SEEK_WORKSHOP, &places[p].list, &places[p].area, file, n, limit));
        end_line();
    } else
        none();
    show_list(p);
}

static void do_save(void)
{
    int p = at_place();
    size_t length = (size_t)number();
    uint64_t n;
    if (length > output_most)
        stop("an output that is too long");
    if (!list_there(p))
        return;
    memset(output, 165, length);
    keep_list(p, READ);
    n = seek_save(SEEK_WORKSHOP, &places[p].list, output, length);
    if (answer(n < 88 ? n : 0)) {
        say_sum(n, output, (size_t)n);
        say_hex(output, 16), say_hex(output + n - 16, 16);
    }
    say_sum(length, output, length);
    end_line();
}

/* Saved, and loaded in the same place. */
static void do_reload(void)
{
    int p = at_place();
    uint64_t limit = number(), n;
    if (list_there(p)) {
        keep_list(p, WRITTEN);
        n = seek_save(SEEK_WORKSHOP, &places[p].list, output, output_most);
        n = n < 88 ? n : seek_load(SEEK_WORKSHOP, &places[p].list, &places[p].area, output, (size_t)n, limit);
        answer(n);
        end_line();
    }
    show_list(p);
}

static void say_jump(const seek_list *l, const seek_jump *j)
{
    say((uint64_t)j->where);
    if (j->where == SEEK_AT_END)
        say(j->threshold), say(j->malformed);
    if (j->where != SEEK_AT_CHECKPOINT)
        return;
    say(j->lsn), say(j->threshold), say(j->back), say(j->malformed), say(j->digest), say((uint64_t)j->held);
    if (j->held) {
        say((uint64_t)j->kind), say(j->frame), say((uint32_t)j->remaining);
        say_sum(j->length, seek_part(l, j), (size_t)j->length);
    }
}

static void do_plan(void)
{
    int p = at_place();
    uint32_t frame = (uint32_t)number();
    seek_jump j;
    if (!list_there(p))
        return;
    keep_list(p, READ);
    if (answer(seek_plan(&places[p].list, frame, &j)))
        say_jump(&places[p].list, &j);
    end_line();
}

/* The rule of a plan alone. */
static void do_plan_rule(void)
{
    int p = at_place();
    uint32_t frame = (uint32_t)number();
    seek_jump j;
    if (!list_there(p))
        return;
    keep_list(p, READ);
    if (answer(seek_plan(&places[p].list, frame, &j)))
        say((uint64_t)j.rule);
    end_line();
}

static void do_merge(void)
{
    int p = at_place(), q = at_place();
    if (places[p].has_list && places[q].has_list) {
        keep_list(p, WRITTEN), keep_list(q, READ);
        answer(seek_merge(SEEK_WORKSHOP, &places[p].list, &places[q].list));
        end_line();
    } else
        none();
    show_list(p), show_list(q);
}

/* Is the next number another one? */
static unsigned other(uint64_t v) { return v != number(); }

/* Whether a list has exactly these hints and confirmations: 0, or 1 where it has others. */
static void do_union(void)
{
    int p = at_place();
    const seek_list *l = &places[p].list;
    uint64_t n = number(), i;
    uint32_t lsn, frame;
    seek_confirmation c;
    unsigned off;
    if (!list_there(p))
        return;
    off = n != seek_hint_count(l);
    for (i = 0; i < n; i++) {
        off |= !seek_hint_at(l, i, &lsn, &frame);
        off |= other(lsn);
        off |= other(frame);
    }
    n = number();
    off |= n != seek_confirmation_count(l);
    for (i = 0; i < n; i++) {
        off |= !seek_confirmation_at(l, i, &c);
        off |= other(c.lsn);
        off |= other(c.threshold);
        off |= other(c.digest);
    }
    printf("union %u\n", off);
}

static void do_fingerprint(void)
{
    int p = at_place();
    uint64_t v = number();
    if (list_there(p)) {
        keep_list(p, WRITTEN);
        say_list_call(p, seek_fingerprint(&places[p].list, v));
    } else
        show_list(p);
}

static void do_add_hints(void)
{
    int p = at_place();
    size_t n = (size_t)number();
    const uint8_t *list = words32(2 * n);
    if (list_there(p)) {
        keep_list(p, WRITTEN);
        say_list_call(p, seek_add_hints(&places[p].list, list, 8 * n));
    } else
        show_list(p);
}

static void do_confirm(void)
{
    int p = at_place(), held;
    uint64_t lsn = number(), threshold = number(), digest = number();
    if (list_there(p)) {
        keep_list(p, WRITTEN);
        if (answer(seek_keep_confirmation(&places[p].list, lsn, (uint32_t)threshold, digest, &held)))
            say((uint64_t)held);
        end_line();
    }
    show_list(p);
}

static void do_hint(void)
{
    int p = at_place();
    uint64_t first = number(), end = number(), playtime = number();
    seek_hinted h;
    if (!list_there(p))
        return;
    keep_list(p, READ);
    if (answer(seek_hint(&places[p].list, (uint32_t)first, (uint32_t)end, (uint32_t)playtime, &h))) {
        say((uint64_t)h.found);
        if (h.found)
            say(h.lsn), say(h.number), say(h.upper), say((uint64_t)h.later);
    }
    end_line();
}

/* How the hint was chosen and where its upper end came from; 0 0 without one. */
static void do_hint_rule(void)
{
    int p = at_place();
    uint64_t first = number(), end = number(), playtime = number();
    seek_hinted h;
    if (!list_there(p))
        return;
    keep_list(p, READ);
    if (answer(seek_hint(&places[p].list, (uint32_t)first, (uint32_t)end, (uint32_t)playtime, &h)))
        say((uint64_t)h.start), say((uint64_t)h.end);
    end_line();
}

/* ---- lines: recorders */
static void do_recorder(void)
{
    int p = at_place();
    uint64_t from = number();
    if (list_there(p)) {
        keep_list(p, READ), keep_recorder(p, WRITTEN);
        places[p].has_recorder |= answer(seek_recorder_of(&places[p].list, from, &places[p].recorder));
        end_line();
    }
    show_recorder(p);
}

/* The frame under assembly of a line. */
static seek_frame frame_given(void)
{
    seek_frame f;
    f.start = number();
    f.number = (uint32_t)number();
    f.kind = (uint8_t)number();
    f.remaining = signed32(number());
    f.bytes = bytes(&f.length);
    return f;
}

static void do_record(void)
{
    static uint8_t sector[4096];
    int p = at_place();
    uint64_t lsn = number(), threshold = number(), malformed = number();
    size_t length = (size_t)number_below(sizeof sector + 1);
    int fill = (int)number(), assembling = (int)number();
    seek_frame f = {0, 0, 0, 0, NULL, 0};
    if (assembling)
        f = frame_given();
    memset(sector, fill, sizeof sector);
    if (places[p].has_recorder) {
        keep_recorder(p, WRITTEN);
        answer(seek_record(&places[p].recorder, lsn, (uint32_t)threshold, malformed, assembling ? &f : NULL, sector, length));
        end_line();
    } else
        none();
    show_recorder(p);
}

static void do_finish(void)
{
    int p = at_place();
    uint64_t threshold = number(), malformed = number();
    if (places[p].has_recorder) {
        keep_recorder(p, WRITTEN);
        answer(seek_finish(&places[p].recorder, (uint32_t)threshold, malformed));
        end_line();
    } else
        none();
    show_recorder(p);
}

static void do_absorb(void)
{
    int p = at_place(), q = at_place(), known = (int)number();
    uint64_t image = number();
    size_t n = (size_t)number();
    const uint8_t *list = words32(n);
    if (places[p].has_list && places[q].has_recorder) {
        keep_list(p, WRITTEN), keep_recorder(q, STOPPED);
        answer(seek_absorb(&places[p].list, &places[q].recorder, known ? &image : NULL, list, 4 * n));
        end_line();
    } else
        none();
    show_list(p), show_recorder(q);
}

/* ---- lines: hints */
static void do_first_record(void)
{
    uint8_t told[SEEK_BLOCK] = {0};
    size_t n;
    const uint8_t *sector = bytes(&n);
    if (answer(seek_raw_first_record(sector, n, told, SEEK_BLOCK))) {
        say(seek_word(told, 0));
        if (seek_word(told, 0) != 0)
            say(seek_word(told, 1));
    }
    end_line();
}

static void say_first(const seek_first *f)
{
    say((uint64_t)f->found), say(f->number), say(f->offset), say((uint64_t)f->why);
}

/* Where its time bytes lie, or why there are none. */
static void do_first_bytes(void)
{
    seek_first f;
    size_t n;
    const uint8_t *sector = bytes(&n);
    if (answer(seek_first_record(sector, n, &f)))
        say_first(&f);
    end_line();
}

static void do_hint_recorder(void)
{
    int p = at_place(), made;
    if (list_there(p)) {
        keep_list(p, READ), keep_hints(WRITTEN);
        if (answer(seek_hint_recorder_of(&places[p].list, &hints, &made)))
            has_hints = made;
        end_line();
    }
    show_hints();
}

static void see(uint64_t lsn, const uint8_t *sector, size_t length)
{
    if (has_hints) {
        keep_hints(WRITTEN);
        answer(seek_see(&hints, lsn, sector, length, NULL));
        end_line();
    } else
        none();
    show_hints();
}

/* The sector's first bytes; the others are 0. */
static void do_see(void)
{
    uint8_t sector[SECTOR] = {0};
    uint64_t lsn = number();
    size_t n;
    const uint8_t *first = bytes(&n);
    if (n > SECTOR)
        stop("a sector that is too long");
    memcpy(sector, first, n);
    see(lsn, sector, SECTOR);
}

/* All bytes that there are. */
static void do_see_bytes(void)
{
    uint64_t lsn = number();
    size_t n;
    const uint8_t *sector = bytes(&n);
    see(lsn, sector, n);
}

/* What was passed through. */
static void do_see_first(void)
{
    uint64_t lsn = number();
    size_t n;
    const uint8_t *sector = bytes(&n);
    seek_first f;
    if (has_hints) {
        keep_hints(WRITTEN);
        if (answer(seek_see(&hints, lsn, sector, n, &f)))
            say_first(&f);
        else if (f.found || f.number || f.offset || f.why)
            changed = 1;
        end_line();
    } else
        none();
    show_hints();
}

static uint8_t at_most_255(uint64_t v) { return v < 255 ? (uint8_t)v : 255; }

/* A sector that begins with a frame of this number. */
static void put_number(uint8_t *sector, uint64_t t)
{
    sector[0] = 4;
    sector[1] = at_most_255(t / 4500), t -= 4500u * sector[1];
    sector[2] = at_most_255(t / 75), t -= 75u * sector[2];
    sector[3] = (uint8_t)t;
}

/* Many sectors, until one is refused; the hint recorder is shown once. */
static void do_see_many(void)
{
    uint8_t sector[SECTOR] = {0};
    uint64_t count = number(), lsn = number(), step = number(), t = number(), rise = number(), i, n = 0;
    if (has_hints) {
        keep_hints(WRITTEN);
        for (i = 0; i < count && n == 0; i++, lsn += step, t = (t + rise) % 1166881) {
            put_number(sector, t);
            n = seek_see(&hints, lsn, sector, SECTOR, NULL);
        }
        answer(n);
        end_line();
    } else
        none();
    show_hints();
}

static void do_flush(void)
{
    if (has_hints) {
        keep_hints(WRITTEN);
        answer(seek_flush(&hints));
        end_line();
    } else
        none();
    show_hints();
}

/* Taken, and added to a list. */
static void do_take(void)
{
    int p = at_place();
    size_t length;
    uint64_t n;
    if (has_hints && places[p].has_list) {
        keep_hints(WRITTEN);
        n = seek_take(&hints, &length);
        look(n);
        keep_list(p, WRITTEN), keep_hints(READ);
        if (answer(n != 0 ? n : seek_add_hints(&places[p].list, hints.list.at, length)))
            say_sum(length / 8, hints.list.at, length);
        end_line();
    } else
        none();
    show_list(p);
    show_hints();
}

/* ---- all lines */
static const struct {
    const char *name;
    void (*run)(void);
} lines[] = {{"script", do_script}, {"area", do_area}, {"lend", do_lend}, {"edit", do_edit}, {"new", do_new}, {"load", do_load}, {"save", do_save},
             {"reload", do_reload}, {"plan", do_plan}, {"merge", do_merge}, {"union", do_union}, {"fingerprint", do_fingerprint}, {"add_hints", do_add_hints},
             {"confirm", do_confirm}, {"hint", do_hint}, {"recorder", do_recorder}, {"record", do_record}, {"finish", do_finish},
             {"absorb", do_absorb}, {"first_record", do_first_record}, {"hint_recorder", do_hint_recorder}, {"see", do_see},
             {"see_bytes", do_see_bytes}, {"see_many", do_see_many}, {"flush", do_flush}, {"take", do_take},
             {"plan_rule", do_plan_rule}, {"hint_rule", do_hint_rule}, {"first_bytes", do_first_bytes}, {"see_first", do_see_first}};

static void run_line(char *line)
{
    size_t i, n = strcspn(line, " \n");
    word = line + n + 1;
    line[n] = '\0';
    command = line;
    for (i = 0; i < sizeof lines / sizeof *lines; i++)
        if (strcmp(command, lines[i].name) == 0) {
            lines[i].run();
            break;
        }
    if (i == sizeof lines / sizeof *lines)
        printf("%s unsupported\n", command);
}

int main(int argc, char **argv)
{
    char *line = NULL;
    size_t length = 0, all = 0;
    int t;
    set_rooms(argc > 1 && strcmp(argv[1], "--large") == 0);
    for (t = 0; t < TABLES; t++)
        all += 2 * room[t];
    copies = memory(all + 3 * SEEK_BLOCK);
    make_memory();
    setvbuf(stdout, NULL, _IOFBF, 1 << 20);
    while (getline(&line, &length, stdin) > 0)
        if (line[0] != '#' && line[0] != '\n')
            run_line(line);
    free(line);
    return 0;
}
