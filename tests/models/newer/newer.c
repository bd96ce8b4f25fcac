/* newer COUNT [SEED]: of two hints at one LSN the one that arrives stays. COUNT random lists and merges through seek_add_hints, seek_adds and seek_merge, and
 * through a model of change request 5 that shares nothing with the library: a map from LSN to number, filled in order, then thinned. Stops with status 1 at the
 * first difference, and where a way of adding was tried and too seldom replaced a number.
 *
 * Of each area there are two lists, each with a hint limit of its own. The lists that are added are of every shape that seek_add_hints has a way for: behind
 * the held ones; rising; with one descent; in any order, up to 2,048, and longer, up to 65,536; one LSN again and again; with part of a record at the end; and
 * lists that are refused. Areas end below and above LSN 4,194,304. */
#include <inttypes.h>
#include <stdio.h>
#include <stdlib.h>
#include <string.h>

#include "seek.h"

enum { LIM = 1166881, MOST_GIVEN = 65536, MOST_SPAN = 8 << 20, MOST_HELD = 65536 + MOST_GIVEN, MEMORY = 8 << 20, INTERVAL = 65536 };

/* ---- random numbers (xorshift64*) */
static uint64_t state;

static uint64_t random64(void)
{
    state ^= state >> 12;
    state ^= state << 25;
    state ^= state >> 27;
    return state * 0x2545f4914f6cdd1du;
}

static uint32_t below(uint32_t n) { return (uint32_t)(random64() >> 32) % n; }
static int chance(unsigned percent) { return below(100) < percent; }

/* ---- hints */
typedef struct { uint32_t lsn, number; } hint;
typedef struct { hint *at; uint32_t count; } hints;

static void put(uint8_t *at, uint32_t v)
{
    int i;
    for (i = 0; i < 4; i++)
        at[i] = (uint8_t)(v >> 8 * i);
}

/* ---- the model */
typedef struct { uint32_t start, end, most; hints held; } model;

/* The map: the number of each LSN, from the area's start on, plus 1; 0 where there is none. filled has the LSNs that have one. */
static uint32_t *map, *filled, many;

static void fill(const model *m, hint h)
{
    uint32_t i = h.lsn - m->start;
    if (h.lsn < m->start || h.lsn >= m->end)
        return;
    if (map[i] == 0)
        filled[many++] = h.lsn;
    map[i] = h.number + 1;
}

static int by_number(const void *a, const void *b)
{
    uint32_t x = *(const uint32_t *)a, y = *(const uint32_t *)b;
    return x < y ? -1 : x > y;
}

/* The map emptied into the held hints, in the order of their LSNs. */
static void empty(model *m)
{
    uint32_t i;
    qsort(filled, many, sizeof *filled, by_number);
    for (i = 0; i < many; i++) {
        m->held.at[i].lsn = filled[i];
        m->held.at[i].number = map[filled[i] - m->start] - 1;
        map[filled[i] - m->start] = 0;
    }
    m->held.count = many;
    many = 0;
}

typedef struct { uint32_t gap, place; } pair;
static pair *pairs;
static uint8_t *dropped;

static int by_pair(const void *a, const void *b)
{
    const pair *x = a, *y = b;
    return x->gap != y->gap ? (x->gap < y->gap ? -1 : 1) : x->place < y->place ? -1 : x->place > y->place;
}

/* Above the limit the smallest pairs (gap, place) go, so that M - M/4 are left. */
static int thin(model *m)
{
    uint32_t i, k = 0, n = m->held.count, left = m->most - m->most / 4;
    hint *h = m->held.at;
    if (n <= m->most)
        return 0;
    for (i = 0; i < n; i++) {
        pairs[i].gap = i > 0 && h[i - 1].number < h[i].number ? h[i].number - h[i - 1].number : UINT32_MAX;
        pairs[i].place = i;
    }
    qsort(pairs, n, sizeof *pairs, by_pair);
    memset(dropped, 0, n);
    for (i = 0; i < n - left; i++)
        dropped[pairs[i].place] = 1;
    for (i = 0; i < n; i++)
        if (!dropped[i])
            h[k++] = h[i];
    m->held.count = k;
    return 1;
}

/* What is given, in order, joined to the held hints. Answers whether it was thinned. */
static int join(model *m, hints given)
{
    uint32_t i;
    if (m->most == 0)
        return 0;
    for (i = 0; i < m->held.count; i++)
        fill(m, m->held.at[i]);
    for (i = 0; i < given.count; i++)
        fill(m, given.at[i]);
    empty(m);
    return thin(m);
}

/* Does what is given replace a held number, or has it an LSN in the area under two numbers? */
static int replaces(const model *m, hints given)
{
    uint32_t i, k;
    int other = 0;
    for (i = 0; i < m->held.count; i++)
        fill(m, m->held.at[i]);
    for (i = 0; i < given.count && m->most > 0; i++) {
        k = given.at[i].lsn - m->start;
        if (given.at[i].lsn >= m->start && given.at[i].lsn < m->end && map[k] > 0 && map[k] != given.at[i].number + 1)
            other = 1;
        fill(m, given.at[i]);
    }
    while (many > 0)
        map[filled[--many] - m->start] = 0;
    return other;
}

/* ---- the lists */
enum { LISTS = 2 };
static seek_area area;
static seek_list lists[LISTS];
static uint8_t *memory[LISTS], *before;
static model models[LISTS];
static uint64_t done;
static hints given;

static void stop(const char *what)
{
    printf("number %" PRIu64 " differs\nthe first difference found: area %" PRIu64 "..%" PRIu64 ", %" PRIu32 " hints given: %s\n", done, area.start, area.end,
           given.count, what);
    exit(1);
}

static void new_list(int p)
{
    uint32_t most = chance(40) ? 1 + below(12) : chance(50) ? below(200) : chance(60) ? 2048 : below(65537);
    seek_table_sizes sizes;
    if (chance(2))
        most = 0;
    if (seek_sizes(&area, INTERVAL, 0, most, &sizes) || !seek_carve(&lists[p], &sizes, memory[p], MEMORY) || seek_new(&lists[p], &area, INTERVAL, 0, 8, most))
        stop("a new list is refused");
    models[p].start = (uint32_t)area.start;
    models[p].end = (uint32_t)area.end;
    models[p].most = most;
    models[p].held.count = 0;
}

/* An area of some length, at the beginning, across LSN 4,194,304, or far behind it. */
static void new_area(void)
{
    uint32_t span = chance(70) ? 1 + below(60) : chance(60) ? 1 + below(5000) : 1 + below(MOST_SPAN), start;
    start = chance(40) ? below(1000) : chance(60) ? (1u << 22) - below(span < 1u << 22 ? span : 1u << 22) : UINT32_MAX - span - below(100);
    memset(&area, 0, sizeof area);
    area.slot = (uint8_t)below(2);
    area.channels = 2;
    area.key_start = start;
    area.key_end = start + span - 1;
    area.sectors = (uint64_t)start + span;
    area.start = start;
    area.end = (uint64_t)start + span;
    new_list(0);
    new_list(1);
}

/* Are the list's hints those of the model? */
static void same(int p)
{
    const hints *h = &models[p].held;
    uint32_t i, lsn, number;
    if (seek_hint_count(&lists[p]) != h->count)
        stop("another count of hints");
    for (i = 0; i < h->count; i++)
        if (!seek_hint_at(&lists[p], i, &lsn, &number) || lsn != h->at[i].lsn || number != h->at[i].number)
            stop("another hint");
}

/* ---- lists to add */
enum { BEHIND, RISING, DESCENT, SHORT, LONG, ONE_LSN, SHAPES };
static const char *const shape_names[SHAPES] = {"behind the held ones or from the last on", "rising", "one descent", "any order, up to 2,048", "any order, longer", "one LSN again and again"};
typedef struct { uint64_t lists, replace, thinned, high; } counts;
static counts of_shape[SHAPES], of_merge;
static uint64_t refused, unchanged, brings, ends_above;
static uint8_t *bytes;

static uint32_t some_number(uint32_t lsn) { return chance(80) ? ((lsn - (uint32_t)area.start) / 3 + below(4)) % LIM : below(LIM); }

static void give(uint32_t lsn)
{
    given.at[given.count].lsn = lsn;
    given.at[given.count++].number = some_number(lsn);
}

/* n LSNs that rise from lsn on, by at most step. */
static void give_run(uint32_t lsn, uint32_t n, uint32_t step)
{
    while (n-- > 0 && lsn < UINT32_MAX - step) {
        give(lsn);
        lsn += 1 + below(step);
    }
}

/* n LSNs in any order, out of w from the area's LSN number at on; some lie outside the area. */
static void give_any(uint32_t n, uint32_t w)
{
    uint32_t at = (uint32_t)area.start + below((uint32_t)(area.end - area.start));
    while (n-- > 0)
        give(chance(95) ? at + below(w) % (UINT32_MAX - at) : (uint32_t)random64());
}

/* The shape that the list turned out to have. */
static int shape_of(int wanted)
{
    uint32_t i, descents = 0;
    if (wanted == BEHIND || wanted == ONE_LSN)
        return wanted;
    for (i = 1; i < given.count; i++)
        descents += given.at[i].lsn <= given.at[i - 1].lsn;
    return descents == 0 ? RISING : descents == 1 ? DESCENT : given.count <= 2048 ? SHORT : LONG;
}

static int make_list(const model *m)
{
    uint32_t span = (uint32_t)(area.end - area.start), n = 1 + below(24), last = m->held.count ? m->held.at[m->held.count - 1].lsn : (uint32_t)area.start;
    uint32_t from = (uint32_t)area.start + below(span);
    int wanted = (int)below(LONG);
    given.count = 0;
    if (below(400) == 0)
        wanted = LONG;
    else if (chance(8))
        wanted = ONE_LSN;
    if (wanted == SHORT && chance(4))
        n = 1 + below(2048);
    if (wanted == LONG)
        n = chance(90) ? 2049 + below(6000) : 2049 + below(MOST_GIVEN - 2048);
    if (wanted == BEHIND)
        give_run(last + (chance(50) && last < UINT32_MAX), n, 1 + span / 40);
    else if (wanted == RISING)
        give_run(chance(50) ? (uint32_t)area.start : from, n, 1 + span / 40);
    else if (wanted == DESCENT)
        give_run(from, n, 1 + span / 40), give_run(chance(50) ? (uint32_t)area.start : from, 1 + below(24), 1 + span / 40);
    else if (wanted == ONE_LSN)
        for (n = below(300) == 0 ? MOST_GIVEN : n; n > 0; n--)
            give(from);
    else
        give_any(n, 1 + (chance(70) ? n + n / 2 : below(MOST_SPAN)));
    return shape_of(wanted);
}

/* Sometimes a number that 13 refuses, or one hint too many. Answers whether the list is to be refused. */
static int spoil(void)
{
    if (below(2000) == 0) {
        while (given.count <= MOST_GIVEN)
            give((uint32_t)area.start);
        return 1;
    }
    if (given.count == 0 || !chance(3))
        return 0;
    given.at[below(given.count)].number = LIM + (chance(50) ? 0 : below(UINT32_MAX - LIM));
    return 1;
}

static size_t encode(void)
{
    uint32_t i;
    for (i = 0; i < given.count; i++) {
        put(bytes + 8 * i, given.at[i].lsn);
        put(bytes + 8 * i + 4, given.at[i].number);
    }
    memset(bytes + 8 * (size_t)given.count, 7, 8);
    return 8 * (size_t)given.count + below(8) * chance(20);
}

static void add_one(int p)
{
    model *m = &models[p];
    int shape = make_list(m), no = spoil(), other = replaces(m, given);
    uint32_t answer = seek_add_hints(&lists[p], bytes, encode());
    if (answer != (no ? 13u : 0))
        stop("another answer of seek_add_hints");
    refused += (uint64_t)no;
    if (!no) {
        of_shape[shape].lists++;
        of_shape[shape].replace += (uint64_t)other;
        of_shape[shape].high += area.end > 1u << 22;
        of_shape[shape].thinned += (uint64_t)join(m, given);
    }
    same(p);
}

/* ---- merges */
/* Are only hints named, and they where changed says so? */
static void named(const seek_brings *b, int changed)
{
    if (b->checkpoints || b->end || b->parts || b->malformed || b->confirmations || b->fingerprint || b->image)
        stop("seek_adds names something else than hints");
    if (b->hints != changed)
        stop(changed ? "seek_adds does not name the hints that change" : "seek_adds names hints, and none changes");
}

static void merge_one(int p, int q)
{
    model *m = &models[p];
    seek_brings b;
    uint64_t n = seek_hint_count(&lists[p]);
    int other = replaces(m, models[q].held), changed;
    memcpy(before, lists[p].hints.at, 8 * (size_t)n);
    if (seek_adds(&lists[p], &lists[q], &b) || seek_merge(SEEK_WORKSHOP, &lists[p], &lists[q]))
        stop("a merge is refused");
    of_merge.lists++;
    of_merge.replace += (uint64_t)other;
    of_merge.high += area.end > 1u << 22;
    of_merge.thinned += (uint64_t)join(m, models[q].held);
    same(p);
    same(q);
    changed = seek_hint_count(&lists[p]) != n || memcmp(before, lists[p].hints.at, 8 * (size_t)n) != 0;
    named(&b, changed);
    brings += (uint64_t)changed;
    unchanged += !changed;
}

/* ---- all of it */
static int told(const char *name, const counts *c)
{
    int few = c->lists >= 1000 && c->replace * 10 < c->lists;
    printf("  %s: %" PRIu64 ", %" PRIu64 " of them with an LSN under two numbers, %" PRIu64 " thinned, %" PRIu64 " in areas that end above 4,194,304%s\n", name,
           c->lists, c->replace, c->thinned, c->high, few ? ": TOO FEW with two numbers" : "");
    return few || c->lists == 0 || c->replace == 0;
}

static int tell(uint64_t count)
{
    int i, few = 0;
    printf("newer: %" PRIu64 " lists and merges, no difference\n", count);
    for (i = 0; i < SHAPES; i++)
        few |= told(shape_names[i], &of_shape[i]);
    few |= told("merges", &of_merge);
    printf("  merges that change the held hints: %" PRIu64 ", that do not: %" PRIu64 "; lists refused (13): %" PRIu64 "; areas that end above 4,194,304: %" PRIu64 "\n",
           brings, unchanged, refused, ends_above);
    return few || !brings || !unchanged || !refused || !ends_above;
}

static void *room(size_t n)
{
    void *at = calloc(n, 1);
    if (!at)
        exit(2);
    return at;
}

int main(int argc, char **argv)
{
    uint64_t count = argc > 1 ? strtoull(argv[1], NULL, 10) : 0;
    int p;
    state = 88172645463325252u + (argc > 2 ? strtoull(argv[2], NULL, 10) : 1) * 0x9e3779b97f4a7c15u;
    map = room(4 * (size_t)MOST_SPAN + 4);
    filled = room(4 * (size_t)MOST_HELD + 4);
    pairs = room(sizeof *pairs * MOST_HELD);
    dropped = room(MOST_HELD);
    bytes = room(8 * (size_t)(MOST_GIVEN + 8));
    before = room(8 * (size_t)MOST_HELD);
    given.at = room(sizeof(hint) * (MOST_GIVEN + 8));
    for (p = 0; p < LISTS; p++) {
        memory[p] = room(MEMORY);
        models[p].held.at = room(sizeof(hint) * MOST_HELD);
    }
    for (done = 0; done < count; done++) {
        if (done % 8 == 0) {
            new_area();
            ends_above += area.end > 1u << 22;
        }
        p = (int)below(LISTS);
        if (done % 8 >= 3 && chance(45))
            merge_one(p, 1 - p);
        else
            add_one(p);
    }
    return count && tell(count);
}
