/* kept COUNT [SEED]: hints that are marked as kept. COUNT random calls through the library and through a model of change request 11 that shares nothing with it:
 * hints are LSN, number and mark; what arrives is sorted by LSN, and thinning sorts the (gap, place) pairs and drops the first of those that are not kept.
 * Stops with status 1 at the first difference, and where an answer, a way of 53 or a thinning with marks never occurred.
 *
 * Of each area there are two lists, each with a hint limit of its own: 0 to 40, so that the quarter is often used up; in some areas 65,536 and 262,144. Calls in
 * any order: seek_new, seek_add_hints with lists of every shape, seek_keep_hint, seek_adds and seek_merge, seek_save and seek_load under a limit; seek_hint,
 * seek_plan, the fingerprint, confirmations, seek_absorb and seek_coarse, on which a mark has no effect. Tables that no list holds, with marks other than 0 and 1, more
 * marks than a quarter or numbers too large, are lent to every call that reads a list: 4.
 *
 * After every call: the hints and marks are the model's, the kept LSNs are those of before, and that of the hint that was marked, question 4 passes, and what a
 * call refused or only read is as it was. Before each merge seek_adds names hints exactly where the table then changes. A saved file is the model's, byte for byte. */
#include <inttypes.h>
#include <stdio.h>
#include <stdlib.h>
#include <string.h>

#include "seek.h"

enum { LIM = 1166881, GIVEN = 65536, LARGEST = 262144, HELD = 2 * LARGEST, INTERVAL = 32768, MEMORY = 9 << 20, SPACING = 8, USUAL = 2048, CALLS = 24 };

/* ---- random numbers (xorshift64*) */
static uint64_t state;

static uint64_t random64(void)
{
    state ^= state >> 12;
    state ^= state << 25;
    state ^= state >> 27;
    return state * 0x2545f4914f6cdd1du;
}

static uint32_t below(uint32_t n) { return (uint32_t)(random64() >> 32) % n; }
static int chance(unsigned percent) { return below(100) < percent; }

static void *room(size_t n)
{
    void *at = calloc(n, 1);
    if (!at)
        exit(2);
    return at;
}

/* ---- the model */
typedef struct { uint32_t lsn, number; uint8_t mark; } hint;
typedef struct { uint32_t start, end, most, count; hint *held; } model;

static seek_area area;
static uint64_t done;

static void stop(const char *what)
{
    printf("number %" PRIu64 " differs\nthe first difference found: area %" PRIu64 "..%" PRIu64 ": %s\n", done, area.start, area.end, what);
    exit(1);
}

static uint32_t kept_count(const model *m)
{
    uint32_t i, n = 0;
    for (i = 0; i < m->count; i++)
        n += m->held[i].mark;
    return n;
}

/* A hint of the held ones and then those that arrive, by its place in that order. */
typedef struct { uint32_t lsn, order; } arrival;
static arrival *arrivals;
static hint *both;

static int by_lsn(const void *a, const void *b)
{
    const arrival *x = a, *y = b;
    return x->lsn != y->lsn ? (x->lsn < y->lsn ? -1 : 1) : x->order < y->order ? -1 : x->order > y->order;
}

/* At each LSN the number that arrives last, and the mark of the held one. Answers whether a kept hint has another number then. */
static int join(model *m, const hint *given, uint32_t n)
{
    uint32_t i, j, k = m->count;
    int renumbered = 0;
    memcpy(both, m->held, k * sizeof *both);
    for (i = 0; i < n; i++)
        if (given[i].lsn >= m->start && given[i].lsn < m->end)
            both[k] = given[i], both[k++].mark = 0;
    for (i = 0; i < k; i++)
        arrivals[i].lsn = both[i].lsn, arrivals[i].order = i;
    qsort(arrivals, k, sizeof *arrivals, by_lsn);
    m->count = 0;
    for (i = 0; i < k; i = j) {
        hint *h = &m->held[m->count++];
        for (j = i + 1; j < k && arrivals[j].lsn == arrivals[i].lsn;)
            j++;
        *h = both[arrivals[j - 1].order];
        h->mark = both[arrivals[i].order].mark;
        renumbered |= h->mark && h->number != both[arrivals[i].order].number;
    }
    return renumbered;
}

typedef struct { uint32_t gap, place; } pair;
static pair *pairs;
static uint8_t *gone;

static int by_pair(const void *a, const void *b)
{
    const pair *x = a, *y = b;
    return x->gap != y->gap ? (x->gap < y->gap ? -1 : 1) : x->place < y->place ? -1 : x->place > y->place;
}

/* Of the hints that are not kept the smallest pairs (gap, place) go, until so many hints are left. Answers whether a kept one was passed over. */
static int thin(model *m, uint32_t left)
{
    uint32_t i, k = 0, n = m->count;
    int passed = 0;
    hint *h = m->held;
    for (i = 0; i < n; i++) {
        pairs[i].gap = i > 0 && h[i - 1].number < h[i].number ? h[i].number - h[i - 1].number : UINT32_MAX;
        pairs[i].place = i;
    }
    qsort(pairs, n, sizeof *pairs, by_pair);
    memset(gone, 0, n);
    for (i = 0; i < n && k < n - left; i++)
        if (h[pairs[i].place].mark)
            passed = 1;
        else
            gone[pairs[i].place] = 1, k++;
    if (k < n - left)
        stop("too few hints are not kept");
    for (i = k = 0; i < n; i++)
        if (!gone[i])
            h[k++] = h[i];
    m->count = k;
    return passed;
}

/* What a thinning of add_hints and merge was like. */
typedef struct { uint64_t calls, renumbered, thinned, marked, full, passed; } counts;

/* What arrives is joined to the held hints; above the limit they are thinned. */
static void arrive(model *m, const hint *given, uint32_t n, counts *c)
{
    uint32_t kept = kept_count(m);
    c->calls++;
    if (m->most == 0)
        return;
    c->renumbered += (uint64_t)join(m, given, n);
    if (m->count <= m->most)
        return;
    c->thinned++;
    c->marked += kept > 0;
    c->full += kept > 0 && kept == m->most / 4;
    c->passed += (uint64_t)thin(m, m->most - m->most / 4);
}

/* What loading under a limit leaves of a saved list. */
static int limit_to(model *m, uint64_t limit)
{
    uint32_t i;
    m->most = limit / 8 < m->most ? (uint32_t)(limit / 8) : m->most;
    for (i = 0; i < m->count; i++)
        m->held[i].mark = 0;
    if (m->count <= m->most)
        return 0;
    thin(m, m->most);
    return 1;
}

enum { MARKED, AGAIN_BELOW, AGAIN_FULL, NO_HINT, OUTSIDE, WIDE, USED_UP, BELOW_FOUR, WAYS };
static const char *const ways[WAYS] = {"0: marked", "0: again, below the quarter", "0: again, the quarter is used up", "53: no hint has that LSN", "53: it lies outside the area",
                                       "53: 2^32 and the LSN of a hint", "53: the quarter is used up", "53: a limit below 4"};
static uint64_t way[WAYS];

/* The mark set. Answers the way. */
static int keep(model *m, uint64_t lsn)
{
    uint32_t i, n = kept_count(m);
    for (i = 0; i < m->count && m->held[i].lsn != lsn; i++)
        ;
    if (i == m->count)
        return lsn > UINT32_MAX ? WIDE : lsn < m->start || lsn >= m->end ? OUTSIDE : NO_HINT;
    if (m->held[i].mark)
        return n < m->most / 4 ? AGAIN_BELOW : AGAIN_FULL;
    if (n >= m->most / 4)
        return m->most < 4 ? BELOW_FOUR : USED_UP;
    m->held[i].mark = 1;
    return MARKED;
}

/* ---- the model's file */
static uint8_t *file, *saved;

static uint8_t *put(uint8_t *at, uint64_t v, unsigned width)
{
    for (; width > 0; width--, v >>= 8)
        *at++ = (uint8_t)v;
    return at;
}

static size_t summed(uint8_t *end)
{
    uint64_t sum = 0xcbf29ce484222325u;
    const uint8_t *b;
    for (b = file; b < end; b++)
        sum = (sum ^ *b) * 0x100000001b3u;
    return (size_t)(put(end, sum, 8) - file);
}

/* The file of a list without checkpoints; its length. */
enum { FIRST_HINT = 104 };
static size_t written(const model *m)
{
    unsigned version = m->most > 65536 ? 4 : m->most == USUAL && m->count == 0 ? 1 : 2;
    uint8_t *at = file;
    uint32_t i;
    memcpy(at, "SBSEEKIX", 8);
    at = put(put(put(put(at + 8, version, 4), area.slot, 1), area.channels, 1), 0, 2);
    at = put(put(put(put(at, area.key_start, 4), area.key_end, 4), area.sectors, 8), INTERVAL, 4);
    memset(at, 0, 44);
    at += 44;
    if (version > 1)
        at = put(put(put(put(put(at, 0, 8), SPACING, 4), m->most, 4), m->count, 4), 0, 4);
    for (i = 0; i < m->count; i++)
        at = put(put(at, m->held[i].lsn, 4), m->held[i].number, 4);
    if (version > 2)
        at = put(at, 0, 8);
    return summed(at);
}

/* ---- the lists */
enum { LISTS = 2, COPY = 2, COARSE = 3, PLACES = 4 };
static seek_list lists[PLACES];
static uint8_t *memory[PLACES];
static model models[LISTS];

/* The answers of each call. */
enum { NEW, ADD_HINTS, KEEP_HINT, ADDS, MERGE, LACKS, SAVE, LOAD, HINT, PLAN, FINGERPRINT, CONFIRM, RECORDER, ABSORB, HINT_RECORDER, COARSEN, NAMES };
static const char *const names[NAMES] = {"new", "add_hints", "keep_hint", "adds", "merge", "lacks", "save", "load", "hint", "plan", "fingerprint", "keep_confirmation", "recorder",
                                         "absorb", "hint_recorder", "coarse"};
static uint64_t answers[NAMES][60];

static uint32_t told(int name, uint32_t answer)
{
    if (answer >= 60)
        stop("a number that there is not");
    answers[name][answer]++;
    return answer;
}

static uint32_t told_length(int name, uint64_t answer) { return told(name, seek_refused(answer) ? (uint32_t)answer : 0); }

static void expect(int name, uint32_t answer, uint32_t wanted)
{
    static char text[80];
    if (told(name, answer) == wanted)
        return;
    snprintf(text, sizeof text, "seek_%s answers %" PRIu32 ", not %" PRIu32, names[name], answer, wanted);
    stop(text);
}

static void carve(int p, uint32_t interval, uint32_t most)
{
    seek_table_sizes sizes;
    if (seek_sizes(&area, interval, 0, most, &sizes) || !seek_carve(&lists[p], &sizes, memory[p], MEMORY))
        stop("no sizes");
    memset(lists[p].hints.at, 0xff, 2048); /* marks of 255, behind the list */
}

static void new_list(int p, uint32_t most)
{
    carve(p, INTERVAL, most);
    expect(NEW, seek_new(&lists[p], &area, INTERVAL, 0, SPACING, most), 0);
    models[p].start = (uint32_t)area.start;
    models[p].end = (uint32_t)area.end;
    models[p].most = most;
    models[p].count = 0;
}

static uint32_t some_limit(int large)
{
    static const uint32_t edges[] = {0, 3, 4, 7, 8};
    if (large)
        return chance(50) ? LARGEST : GIVEN;
    return chance(15) ? edges[below(5)] : chance(1) ? USUAL : below(41);
}

static void new_area(int large)
{
    uint32_t span = large ? 1u << 20 : chance(80) ? 1 + below(120) : 1 + below(5000), start;
    start = chance(40) ? below(1000) : chance(60) ? (1u << 22) - below(span) : UINT32_MAX - span - below(100);
    memset(&area, 0, sizeof area);
    area.slot = (uint8_t)below(2);
    area.channels = 2;
    area.key_start = start;
    area.key_end = start + span - 1;
    area.sectors = (uint64_t)start + span;
    area.start = start;
    area.end = (uint64_t)start + span;
    new_list(0, some_limit(large));
    new_list(1, some_limit(large));
}

/* ---- what a call left */
/* What a list was before a call: its head, its hints and some records behind them. */
typedef struct { uint8_t head[SEEK_BLOCK], *table; size_t length; uint32_t kept, *lsn; } shot;
static shot shots[LISTS];

static void remember(int p)
{
    shot *s = &shots[p];
    size_t n = 8 * (size_t)seek_hint_count(&lists[p]), i;
    s->length = n + 256 < lists[p].hints.length ? n + 256 : n;
    memcpy(s->head, lists[p].head, SEEK_BLOCK);
    memcpy(s->table, lists[p].hints.at, s->length);
    for (i = s->kept = 0; i < n; i += 8)
        if (s->table[i + 7])
            s->lsn[s->kept++] = (uint32_t)seek_bytes(s->table + i, 4);
}

static int unchanged(int p) { return memcmp(shots[p].head, lists[p].head, SEEK_BLOCK) == 0 && memcmp(shots[p].table, lists[p].hints.at, shots[p].length) == 0; }

static void restore(int p)
{
    memcpy(lists[p].head, shots[p].head, SEEK_BLOCK);
    memcpy(lists[p].hints.at, shots[p].table, shots[p].length);
}

/* Are the kept LSNs those of before, and the one that was marked? */
static void same_kept(int p, int marked, uint64_t lsn)
{
    const shot *s = &shots[p];
    uint64_t i, n = seek_hint_count(&lists[p]), k = 0;
    uint32_t at, number;
    for (i = 0; i < n; i++) {
        if (!seek_hint_kept_at(&lists[p], i) || !seek_hint_at(&lists[p], i, &at, &number))
            continue;
        if (k < s->kept && s->lsn[k] == at)
            k++;
        else if (!marked || at != lsn)
            stop("a hint is kept that was not");
    }
    if (k < s->kept)
        stop("a hint is no longer kept");
}

/* Are a list's hints and marks those of the model, and does question 4 pass? */
static void same_hints(int p, const model *m)
{
    uint32_t i, lsn, number;
    const seek_list *l = &lists[p];
    if (seek_hint_count(l) != m->count || seek_hint_limit(l) != m->most)
        stop("another count of hints, or another limit");
    for (i = 0; i < m->count; i++)
        if (!seek_hint_at(l, i, &lsn, &number) || lsn != m->held[i].lsn || number != m->held[i].number)
            stop("another hint");
        else if (l->hints.at[8 * i + 7] != m->held[i].mark || seek_hint_kept_at(l, i) != m->held[i].mark)
            stop("another mark");
    if (seek_hint_kept_at(l, m->count) || seek_kept_count(l) != kept_count(m) || kept_count(m) > m->most / 4)
        stop("another count of kept hints");
    if (seek_refused(seek_saved_length(l)))
        stop("question 4 refuses");
}

/* ---- lists to add */
enum { BEHIND, RISING, DESCENT, SHORT, LONG, ONE_LSN, AGAIN, SHAPES };
static const char *const shapes[SHAPES] = {"behind the held ones or from the last on", "rising", "one descent", "any order, up to 2,048", "any order, longer", "one LSN again and again",
                                           "all held ones again under other numbers"};
static counts of_shape[SHAPES], of_merge;
static hint *given;
static uint32_t many;
static uint8_t *bytes;

static uint32_t some_number(uint32_t lsn) { return chance(80) ? ((lsn - (uint32_t)area.start) / 3 + below(4)) % LIM : below(LIM); }

static void give(uint32_t lsn)
{
    if (many == GIVEN)
        return;
    given[many].lsn = lsn;
    given[many++].number = some_number(lsn);
}

/* n LSNs that rise from lsn on, by at most step. */
static void give_run(uint32_t lsn, uint32_t n, uint32_t step)
{
    while (n-- > 0 && lsn < UINT32_MAX - step) {
        give(lsn);
        lsn += 1 + below(step);
    }
}

/* n LSNs in any order; some lie outside the area. */
static void give_any(uint32_t n)
{
    uint32_t span = (uint32_t)(area.end - area.start);
    while (n-- > 0)
        give(chance(96) ? (uint32_t)area.start + below(span) : (uint32_t)random64());
}

/* The shape that the list turned out to have. */
static int shape_of(int wanted)
{
    uint32_t i, descents = 0;
    if (wanted == BEHIND || wanted == ONE_LSN || wanted == AGAIN)
        return wanted;
    for (i = 1; i < many; i++)
        descents += given[i].lsn <= given[i - 1].lsn;
    return descents == 0 ? RISING : descents == 1 ? DESCENT : many <= 2048 ? SHORT : LONG;
}

static int make_list(const model *m, int large)
{
    uint32_t span = (uint32_t)(area.end - area.start), n = large ? GIVEN : 1 + below(24), step = large ? 16 : 1 + span / 30, i;
    uint32_t from = (uint32_t)area.start + below(span), last = m->count ? m->held[m->count - 1].lsn : (uint32_t)area.start;
    int wanted = large && chance(60) ? LONG : chance(8) ? ONE_LSN : chance(8) ? AGAIN : (int)below(LONG);
    many = 0;
    if (!large && below(500) == 0)
        wanted = LONG, n = 2049 + below(4000);
    if (wanted == BEHIND)
        give_run(last + (chance(50) && last < UINT32_MAX), n, step);
    else if (wanted == RISING)
        give_run(chance(50) ? (uint32_t)area.start : from, n, step);
    else if (wanted == DESCENT)
        give_run(from, n / 2, step), give_run(chance(50) ? (uint32_t)area.start : from, 1 + n / 2, step);
    else if (wanted == AGAIN)
        for (i = 0; i < m->count; i++)
            give(m->held[i].lsn);
    else if (wanted == ONE_LSN)
        while (n-- > 0)
            give(m->count && chance(50) ? last : from);
    else
        give_any(n);
    return shape_of(wanted);
}

/* Sometimes a number that 13 refuses: too large, or with the highest byte of its word set. */
static int spoil_list(void)
{
    uint32_t i = many ? below(many) : 0;
    if (many == 0 || !chance(3))
        return 0;
    given[i].number = chance(50) ? given[i].number | (1 + below(255)) << 24 : LIM + below((1u << 24) - LIM);
    return 1;
}

static size_t encode(void)
{
    uint32_t i;
    for (i = 0; i < many; i++)
        put(put(bytes + 8 * i, given[i].lsn, 4), given[i].number, 4);
    memset(bytes + 8 * (size_t)many, 7, 8);
    return 8 * (size_t)many + below(8) * chance(20);
}

static void add_one(int p, int large)
{
    int shape = make_list(&models[p], large), no = spoil_list();
    remember(p);
    expect(ADD_HINTS, seek_add_hints(&lists[p], bytes, encode()), no ? 13 : 0);
    if (no && !unchanged(p))
        stop("a refused list is added");
    if (!no)
        arrive(&models[p], given, many, &of_shape[shape]);
    same_kept(p, 0, 0);
}

/* ---- marking */
static void keep_one(int p)
{
    model *m = &models[p];
    uint64_t lsn = m->count ? m->held[below(m->count)].lsn : area.start;
    int how;
    if (chance(25))
        lsn = chance(40) ? lsn + 1 : chance(40) ? lsn + UINT64_C(4294967296) : chance(50) ? random64() >> below(64) : area.end;
    remember(p);
    how = keep(m, lsn);
    way[how]++;
    expect(KEEP_HINT, seek_keep_hint(&lists[p], lsn), how < NO_HINT ? 0 : 53);
    if (how != MARKED && !unchanged(p))
        stop("a call that marks nothing changes the list");
    same_kept(p, how == MARKED, lsn);
}

/* Many marks at once, in the lent table and in the model. */
static void keep_many(int p)
{
    model *m = &models[p];
    uint32_t n = m->most / 4 - kept_count(m), i;
    if (m->count == 0)
        return;
    if (chance(40))
        n = below(n + 1);
    for (i = below(m->count); n > 0 && i < m->count; i += 1 + below(3))
        if (!m->held[i].mark)
            m->held[i].mark = lists[p].hints.at[8 * (size_t)i + 7] = 1, n--;
}

/* ---- merges */
static uint64_t brings, brings_none, others_marks;

static uint32_t lacking(const model *own, const model *other)
{
    uint32_t i = 0, j, n = 0;
    for (j = 0; j < other->count; j++) {
        while (i < own->count && own->held[i].lsn < other->held[j].lsn)
            i++;
        n += i == own->count || own->held[i].lsn != other->held[j].lsn || own->held[i].number != other->held[j].number;
    }
    return n;
}

static void merge_one(int p, int q)
{
    seek_brings b;
    seek_lacking l;
    int changed;
    uint64_t n = seek_hint_count(&lists[p]);
    remember(p);
    remember(q);
    expect(ADDS, seek_adds(&lists[p], &lists[q], &b), 0);
    expect(LACKS, seek_lacks(&lists[p], &lists[q], &l), 0);
    if (l.hints != lacking(&models[p], &models[q]))
        stop("seek_lacks counts other hints");
    if (!unchanged(p))
        stop("seek_adds or seek_lacks writes");
    expect(MERGE, seek_merge(SEEK_WORKSHOP, &lists[p], &lists[q]), 0);
    others_marks += kept_count(&models[q]) > 0;
    arrive(&models[p], models[q].held, models[q].count, &of_merge);
    same_kept(p, 0, 0);
    if (!unchanged(q))
        stop("a merge writes the other list");
    changed = seek_hint_count(&lists[p]) != n || memcmp(shots[p].table, lists[p].hints.at, 8 * (size_t)n) != 0;
    if (b.checkpoints || b.end || b.parts || b.malformed || b.confirmations || b.fingerprint || b.image)
        stop("seek_adds names something else than hints");
    if (b.hints != changed)
        stop(changed ? "seek_adds does not name the hints that change" : "seek_adds names hints, and none changes");
    brings += (uint64_t)changed;
    brings_none += !changed;
}

/* ---- saving and loading */
static uint64_t loaded, load_thinned, load_marked, load_both;

/* The list of p, saved and loaded in place q (or p) under a limit; a file whose hint has a last byte of 1 to 255 is refused. */
static void reload_one(int p, int q)
{
    model *m = &models[p];
    size_t n = written(m);
    uint64_t limit = chance(30) ? UINT64_MAX : chance(50) ? 8 * (uint64_t)below(m->most + 2) + below(8) : below(400), kept = kept_count(m);
    seek_table_sizes sizes;
    int thinned;
    remember(p);
    if (told_length(SAVE, seek_save(SEEK_WORKSHOP, &lists[p], saved, n)) != 0 || seek_saved_length(&lists[p]) != n || memcmp(saved, file, n) != 0 || !unchanged(p))
        stop("another file is saved");
    expect(SAVE, (uint32_t)seek_save(SEEK_WORKSHOP, &lists[p], saved, n - 1), 40);
    if (m->count > 0 && chance(20)) {
        file[FIRST_HINT + 8 * (size_t)below(m->count) + 7] = (uint8_t)(1 + below(255));
        summed(file + n - 8);
        expect(LOAD, seek_load(SEEK_WORKSHOP, &lists[p], &area, file, n, limit), 36);
        if (!unchanged(p))
            stop("a refused file is loaded");
    }
    if (seek_file_sizes(&area, saved, n, limit, &sizes) || !seek_carve(&lists[q], &sizes, memory[q], MEMORY))
        stop("no sizes of a file");
    expect(LOAD, seek_load(SEEK_WORKSHOP, &lists[q], &area, saved, n, limit), 0);
    if (p != q) {
        models[q].most = m->most;
        models[q].count = m->count;
        memcpy(models[q].held, m->held, m->count * sizeof *m->held);
    }
    thinned = limit_to(&models[q], limit);
    loaded++;
    load_marked += kept > 0;
    load_thinned += (uint64_t)thinned;
    load_both += kept > 0 && thinned;
    if (seek_kept_count(&lists[q]) != 0)
        stop("loading gives a mark");
}

/* ---- calls on which a mark has no effect */
static uint64_t beside;
static seek_recorder recorder;
static uint8_t sector[2048], *recorder_memory;

static int same_hinted(const seek_hinted *a, const seek_hinted *b)
{
    return a->found == b->found && a->lsn == b->lsn && a->number == b->number && a->upper == b->upper && a->later == b->later && a->start == b->start && a->end == b->end;
}

static void copy_list(int p)
{
    carve(COPY, INTERVAL, models[p].most);
    memcpy(lists[COPY].head, lists[p].head, SEEK_BLOCK);
    memcpy(lists[COPY].hints.at, lists[p].hints.at, 8 * (size_t)models[p].count);
}

/* seek_hint with marks and without. */
static void hint_alike(int p)
{
    uint32_t first = below(chance(90) ? 2000 : LIM), end = first + below(100), playtime = below(LIM), i;
    seek_hinted a, b;
    copy_list(p);
    for (i = 0; i < models[p].count; i++)
        lists[COPY].hints.at[8 * (size_t)i + 7] = 0;
    expect(HINT, seek_hint(&lists[p], first, end, playtime, &a), 0);
    expect(HINT, seek_hint(&lists[COPY], first, end, playtime, &b), 0);
    if (!same_hinted(&a, &b))
        stop("seek_hint answers otherwise with marks");
}

static void make_recorder(int p)
{
    seek_table_sizes sizes;
    if (seek_sizes(&area, INTERVAL, 0, 0, &sizes) || !seek_carve_recorder(&recorder, &sizes, recorder_memory, MEMORY))
        stop("no recorder");
    expect(RECORDER, seek_recorder_of(&lists[p], area.start, &recorder), 0);
    if (seek_record(&recorder, area.start, 0, 0, SEEK_NULL_, sector, sizeof sector))
        stop("nothing is recorded");
}

/* A copy of the list is read, recorded and made coarser: its hints and marks are as they were. */
static void beside_one(int p)
{
    const model *m = &models[p];
    seek_jump j;
    int kept, any = m->most > 0 && area.start < area.end;
    beside++;
    hint_alike(p);
    copy_list(p);
    expect(PLAN, seek_plan(&lists[COPY], below(LIM), &j), 0);
    expect(FINGERPRINT, seek_fingerprint(&lists[COPY], 9), 0);
    expect(CONFIRM, seek_keep_confirmation(&lists[COPY], m->count ? m->held[below(m->count)].lsn : area.start, below(LIM), 5, &kept), 0);
    if (kept != any)
        stop("a confirmation is kept, or not");
    make_recorder(COPY);
    expect(ABSORB, seek_absorb(&lists[COPY], &recorder, SEEK_NULL_, SEEK_NULL_, 0), 0);
    if (seek_checkpoint_count(&lists[COPY]) != 1)
        stop("nothing is absorbed");
    same_hints(COPY, m);
    carve(COARSE, 2 * INTERVAL, m->most);
    expect(COARSEN, seek_coarse(&lists[COPY], 2 * INTERVAL, &lists[COARSE]), 0);
    same_hints(COARSE, m);
}

/* ---- tables that hold no list */
enum { MARK, TOO_MANY, NUMBER, SPOILS };
static const char *const spoils[SPOILS] = {"a mark of 2 to 255", "more marks than a quarter", "a number of LIM to 2^24 - 1"};
static uint64_t spoilt[SPOILS], short_first;

/* Spoils the table of p. Answers the kind, or -1 where the list has too few hints for it. */
static int spoil_table(int p)
{
    const model *m = &models[p];
    uint32_t i, n = kept_count(m), want = m->most / 4 + 1;
    uint8_t *t = lists[p].hints.at;
    int kind = (int)below(SPOILS);
    if (m->count == 0 || (kind == TOO_MANY && m->count < want))
        return -1;
    i = below(m->count);
    if (kind == MARK)
        t[8 * (size_t)i + 7] = (uint8_t)(chance(40) ? 2 : 2 + below(254));
    else if (kind == NUMBER)
        put(t + 8 * (size_t)i + 4, chance(30) ? LIM : LIM + below((1u << 24) - LIM), 3), t[8 * (size_t)i + 7] = (uint8_t)below(2);
    else
        for (want = chance(70) ? want : m->count; n < want; i = (i + 1) % m->count)
            n += !t[8 * (size_t)i + 7], t[8 * (size_t)i + 7] = 1;
    return kind;
}

/* Every call that reads the list of p answers this number. */
static void refuse_all(int p, int q, uint32_t no)
{
    seek_list *l = &lists[p];
    seek_brings b;
    seek_lacking k;
    seek_hinted h;
    seek_jump j;
    seek_hint_recorder r;
    int kept, made;
    expect(KEEP_HINT, seek_keep_hint(l, models[p].count && chance(70) ? models[p].held[0].lsn : random64()), no);
    expect(ADD_HINTS, seek_add_hints(l, bytes, 8 * below(3)), no);
    expect(ADDS, seek_adds(l, &lists[q], &b), no);
    expect(ADDS, seek_adds(&lists[q], l, &b), no);
    expect(LACKS, seek_lacks(l, &lists[q], &k), no);
    expect(LACKS, seek_lacks(&lists[q], l, &k), no);
    expect(MERGE, seek_merge(SEEK_WORKSHOP, l, &lists[q]), no);
    expect(MERGE, seek_merge(SEEK_WORKSHOP, &lists[q], l), no);
    expect(SAVE, (uint32_t)seek_save(SEEK_WORKSHOP, l, saved, 8 * (size_t)LARGEST), no);
    expect(SAVE, (uint32_t)seek_saved_length(l), no);
    expect(HINT, seek_hint(l, 5, 4, 9, &h), no);
    expect(PLAN, seek_plan(l, 5, &j), no);
    expect(FINGERPRINT, seek_fingerprint(l, 9), no);
    expect(CONFIRM, seek_keep_confirmation(l, area.end, LIM, 9, &kept), no);
    expect(RECORDER, seek_recorder_of(l, area.start, &recorder), no);
    expect(ABSORB, seek_absorb(l, &recorder, SEEK_NULL_, SEEK_NULL_, 0), no);
    r.list.at = bytes;
    r.list.length = 8 * (size_t)GIVEN;
    expect(HINT_RECORDER, seek_hint_recorder_of(l, &r, &made), no);
    expect(COARSEN, seek_coarse(l, 2 * INTERVAL, &lists[COARSE]), no);
}

static void spoil_one(int p, int q)
{
    int kind;
    remember(p);
    make_recorder(p);
    kind = spoil_table(p);
    if (kind < 0)
        return;
    spoilt[kind]++;
    remember(q);
    carve(COARSE, 2 * INTERVAL, models[p].most);
    {
        shot was = shots[p]; /* of the list before it was spoilt; the spoilt table must stay as it is too */
        size_t n = 8 * (size_t)models[p].count;
        memcpy(saved, lists[p].hints.at, n);
        memcpy(file, saved, n);
        refuse_all(p, q, 4);
        if (memcmp(file, lists[p].hints.at, n) != 0 || memcmp(was.head, lists[p].head, SEEK_BLOCK) != 0 || !unchanged(q))
            stop("a refused call writes");
    }
    if (chance(20)) {
        lists[p].hints.length--;
        refuse_all(p, q, 3);
        lists[p].hints.length++;
        short_first++;
    }
    restore(p);
}

/* ---- all of it */
static int large_calls;

static void one(int large)
{
    int p = (int)below(LISTS), r = (int)below(100);
    large_calls += large;
    if (models[p].count == 0 && chance(50))
        add_one(p, large);
    else if (large && r < 20)
        keep_many(p);
    else if (large)
        r < 50 ? add_one(p, 1) : r < 60 ? keep_one(p) : r < 80 ? merge_one(p, 1 - p) : r < 92 ? reload_one(p, chance(30) ? p : 1 - p) : r < 96 ? beside_one(p) : spoil_one(p, 1 - p);
    else if (r < 3)
        new_list(p, some_limit(0));
    else
        r < 35 ? add_one(p, 0) : r < 75 ? keep_one(p) : r < 88 ? merge_one(p, 1 - p) : r < 92 ? reload_one(p, chance(30) ? p : 1 - p) : r < 96 ? beside_one(p) : spoil_one(p, 1 - p);
    same_hints(0, &models[0]);
    same_hints(1, &models[1]);
}

static int told_counts(const char *name, const counts *c, int one_lsn)
{
    printf("  %s: %" PRIu64 ", with another number for a kept hint %" PRIu64 "; thinned %" PRIu64 ", with marks %" PRIu64 ", with the quarter used up %" PRIu64
           ", a kept hint passed over %" PRIu64 "\n", name, c->calls, c->renumbered, c->thinned, c->marked, c->full, c->passed);
    return c->calls == 0 || (!one_lsn && (c->thinned == 0 || c->marked == 0 || c->full == 0 || c->passed == 0));
}

static int tell_answers(void)
{
    int i, k, never = 0;
    for (i = 0; i < NAMES; i++) {
        printf("  %s:", names[i]);
        for (k = 0; k < 60; k++)
            if (answers[i][k])
                printf(" %d: %" PRIu64, k, answers[i][k]);
        printf("\n");
        never |= i != NEW && i != LOAD && (!answers[i][3] || !answers[i][4]);
    }
    return never || !answers[LOAD][36] || !answers[ADD_HINTS][13] || !answers[KEEP_HINT][53] || !answers[ABSORB][0];
}

static int tell(uint64_t count)
{
    int i, never = 0;
    printf("kept: %" PRIu64 " calls, no difference; %d of them on lists of limit 65,536 or 262,144\n", count, large_calls);
    for (i = 0; i < WAYS; i++) {
        printf("  keep_hint, %s: %" PRIu64 "\n", ways[i], way[i]);
        never |= way[i] == 0;
    }
    for (i = 0; i < SHAPES; i++)
        never |= told_counts(shapes[i], &of_shape[i], i == ONE_LSN || i == AGAIN);
    never |= told_counts("merges", &of_merge, 0) || !of_merge.renumbered || !of_shape[AGAIN].renumbered;
    printf("  merges that change the held hints: %" PRIu64 ", that do not: %" PRIu64 "; of another list with marks: %" PRIu64 "\n", brings, brings_none, others_marks);
    printf("  saved and loaded: %" PRIu64 ", with marks %" PRIu64 ", thinned %" PRIu64 ", both %" PRIu64 "; other calls on a copy: %" PRIu64 "\n", loaded, load_marked, load_thinned,
           load_both, beside);
    for (i = 0; i < SPOILS; i++) {
        printf("  tables with %s: %" PRIu64 "\n", spoils[i], spoilt[i]);
        never |= spoilt[i] == 0;
    }
    printf("  such tables, one byte short: %" PRIu64 "\n", short_first);
    never |= tell_answers() || !brings || !brings_none || !others_marks || !load_both || !beside || !short_first || !large_calls;
    printf(never ? "something never occurred\n" : "");
    return never;
}

int main(int argc, char **argv)
{
    uint64_t count = argc > 1 ? strtoull(argv[1], NULL, 10) : 0;
    int p, large = 0;
    state = 88172645463325252u + (argc > 2 ? strtoull(argv[2], NULL, 10) : 1) * 0x9e3779b97f4a7c15u;
    arrivals = room(sizeof *arrivals * HELD);
    both = room(sizeof *both * HELD);
    pairs = room(sizeof *pairs * HELD);
    gone = room(HELD);
    given = room(sizeof *given * (GIVEN + 8));
    bytes = room(8 * (size_t)(GIVEN + 8));
    file = room(8 * (size_t)HELD);
    saved = room(8 * (size_t)HELD);
    recorder_memory = room(MEMORY);
    for (p = 0; p < PLACES; p++)
        memory[p] = room(MEMORY);
    for (p = 0; p < LISTS; p++) {
        models[p].held = room(sizeof(hint) * HELD);
        shots[p].table = room(8 * (size_t)HELD);
        shots[p].lsn = room(4 * (size_t)HELD);
    }
    for (done = 0; done < count; done++) {
        if (done % CALLS == 0)
            new_area(large = done / CALLS % 2000 == 400);
        one(large);
    }
    return count && tell(count);
}
