/* lacks COUNT [SEED]: what another list holds and the own one does not, COUNT random pairs through seek_lacks and through a model of it; stops with status 1
 * at the first difference.
 *
 * Of a random reading each list has the first checkpoints, some parts, hints, confirmations, a budget and a hint limit of its own, and is saved in the layout
 * of docs/FILE.md and loaded, some with a limit. Pairs: two such lists; a list and a limited copy of it; a list and a copy that holds less; equal lists; lists
 * of other areas, ids or checkpoints; and lists whose head, tables or table lengths are spoilt in a way that 1 to 4 refuse. The model reads both lists from their tables
 * and looks for each thing of the other among all things of the own one.
 * Where nothing is lacking but image id and room, what is then promised is asked of the library and looked up in the tables: no jump starts earlier, a part that
 * the other names is named with the same bytes, hints and confirmations are the own list's, the hint to begin at is confirmed or not lower, a merge changes no
 * byte but the image id, and what a third list covers so goes too. After every accepted merge: what the merged list can lack. */
#include <inttypes.h>
#include <stdio.h>
#include <stdlib.h>
#include <string.h>

#include "seek.h"

enum { MOST_CHECKPOINTS = 12, MOST_PARTS = 12, MOST_FRAME = 60, MOST_HINTS = 24, MOST_CONFIRMED = 10, MOST_MALFORMED = 6, FILE_MOST = 16384, MEMORY = 4 << 20 };

/* ---- random numbers (xorshift64*) */
static uint64_t state;

static uint64_t random64(void)
{
    state ^= state >> 12;
    state ^= state << 25;
    state ^= state >> 27;
    return state * 0x2545f4914f6cdd1du;
}

static unsigned below(unsigned n) { return (unsigned)(random64() >> 33) % n; }
static int chance(unsigned percent) { return below(100) < percent; }

/* ---- values: a list as arrays */
typedef struct { uint32_t threshold, back; uint64_t malformed, digest; } checkpoint;
typedef struct { uint32_t at, number, kind; int32_t remaining; uint32_t start, len; uint8_t bytes[MOST_FRAME]; } part;
typedef struct { uint32_t lsn, number; } hint;
typedef struct { uint32_t lsn, threshold; uint64_t digest; } confirmation;

typedef struct {
    uint32_t slot, channels, key_start, key_end, interval, spacing, most;
    uint64_t sectors, budget;
    unsigned checkpoints, parts, malformed, hints, confirmed;
    checkpoint checkpoint_at[MOST_CHECKPOINTS];
    part part_at[MOST_PARTS];
    uint32_t malformed_at[MOST_MALFORMED];
    hint hint_at[MOST_HINTS];
    confirmation confirmed_at[MOST_CONFIRMED];
    int complete, stated;
    uint32_t end_threshold;
    uint64_t end_malformed, fingerprint;
} values;

/* ---- a reading */
static uint32_t boundaries(const values *v) { return (v->key_end + 1 - v->key_start + v->interval - 1) / v->interval; }
static uint32_t lsn_of(const values *v, unsigned j) { return v->key_start + j * v->interval; }

static void make_parts(values *v)
{
    unsigned j;
    v->parts = 0;
    for (j = 1; j < v->checkpoints; j++) {
        part *p = &v->part_at[v->parts];
        unsigned k;
        if (!v->checkpoint_at[j].back)
            continue;
        p->at = j;
        p->start = lsn_of(v, j) - v->checkpoint_at[j].back;
        if (v->parts > 0 && p->start < p[-1].start)
            continue;
        p->number = 10 * j + below(3);
        p->kind = below(2);
        p->remaining = (int32_t)below(7) - 3;
        p->len = 1 + below(MOST_FRAME - 1);
        for (k = 0; k < p->len; k++)
            p->bytes[k] = (uint8_t)below(3);
        if (v->parts > 0 && p[-1].start == p->start) {
            /* of one frame: its bytes go on */
            p->number = p[-1].number;
            p->kind = p[-1].kind;
            if (p->len < p[-1].len)
                p->len = p[-1].len;
            memcpy(p->bytes, p[-1].bytes, p[-1].len);
        }
        v->parts++;
    }
}

static void make_hinting(values *v)
{
    uint32_t lsn = v->key_start;
    unsigned i;
    v->spacing = chance(80) ? 8 : below(20);
    v->most = chance(70) ? 2048 : below(30);
    v->hints = v->confirmed = 0;
    for (i = 0; i < MOST_HINTS && i < v->most; i++) {
        lsn += 1 + below(20);
        if (lsn > v->key_end)
            break;
        v->hint_at[v->hints].lsn = lsn;
        v->hint_at[v->hints++].number = (lsn - v->key_start) / 2 + below(6);
    }
    lsn = v->key_start;
    for (i = 0; v->stated && i < MOST_CONFIRMED && i < v->most; i++) {
        lsn = v->hints && chance(70) ? v->hint_at[below(v->hints)].lsn : lsn + 1 + below(30);
        if (lsn > v->key_end || (v->confirmed && lsn <= v->confirmed_at[v->confirmed - 1].lsn))
            continue;
        v->confirmed_at[v->confirmed].lsn = lsn;
        v->confirmed_at[v->confirmed].threshold = below(200);
        v->confirmed_at[v->confirmed++].digest = below(3);
    }
}

static void make_reading(values *v)
{
    uint32_t threshold = 0, sectors = 40 + below(400), j;
    memset(v, 0, sizeof *v);
    v->slot = below(2);
    v->channels = 2 + below(4);
    v->key_start = 1000 + below(3);
    v->key_end = v->key_start + sectors - 1;
    v->sectors = v->key_end + 1 + below(500);
    v->interval = sectors / (1 + below(MOST_CHECKPOINTS - 1)) + 1;
    v->budget = 4096;
    v->stated = chance(60);
    v->fingerprint = v->stated ? 70 + below(3) : 0;
    v->checkpoints = boundaries(v);
    for (j = 0; j < v->checkpoints; j++) {
        checkpoint *c = &v->checkpoint_at[j];
        uint32_t most = j * v->interval;
        c->threshold = threshold;
        threshold += below(60);
        c->back = j > 0 && chance(70) ? 1 + below(most < 120 ? most : 120) : 0;
        if (j > 1 && chance(30) && v->checkpoint_at[j - 1].back)
            c->back = v->checkpoint_at[j - 1].back + v->interval;
        c->digest = below(4);
    }
    /* malformed sectors, and how many lie before each checkpoint */
    for (j = 0; j < MOST_MALFORMED && chance(40); j++) {
        uint32_t lsn = (j ? v->malformed_at[j - 1] : v->key_start) + 1 + below(sectors / 4 + 1);
        if (lsn > v->key_end)
            break;
        v->malformed_at[v->malformed++] = lsn;
    }
    for (j = 0; j < v->checkpoints; j++) {
        unsigned i, n = 0;
        for (i = 0; i < v->malformed; i++)
            n += v->malformed_at[i] < lsn_of(v, j);
        v->checkpoint_at[j].malformed = n;
    }
    v->complete = 1;
    v->end_threshold = threshold;
    v->end_malformed = v->malformed;
    make_parts(v);
    make_hinting(v);
}

/* ---- lists of a reading */
static void drop_at(void *array, size_t size, unsigned *n, unsigned i)
{
    uint8_t *a = array;
    memmove(a + i * size, a + (i + 1) * size, (*n - i - 1) * size);
    --*n;
}

/* A list cut from v: fewer checkpoints, and of the rest some. */
static void cut(values *v, unsigned percent)
{
    unsigned i, n = 0, keep = chance(50) ? v->checkpoints : below(v->checkpoints + 1);
    if (keep < v->checkpoints || chance(40)) {
        v->complete = 0;
        v->end_threshold = 0;
        v->end_malformed = 0;
    }
    v->checkpoints = keep;
    while (v->parts > 0 && v->part_at[v->parts - 1].at >= keep)
        v->parts--;
    if (!v->complete) {
        uint32_t frontier = keep ? lsn_of(v, keep - 1) : v->key_start;
        while (n < v->malformed && v->malformed_at[n] < frontier)
            n++;
        v->malformed = n;
    }
    for (i = v->parts; i-- > 0;)
        if (chance(percent))
            drop_at(v->part_at, sizeof *v->part_at, &v->parts, i);
    for (i = v->hints; i-- > 0;)
        if (chance(percent))
            drop_at(v->hint_at, sizeof *v->hint_at, &v->hints, i);
    for (i = v->confirmed; i-- > 0;)
        if (chance(percent))
            drop_at(v->confirmed_at, sizeof *v->confirmed_at, &v->confirmed, i);
    if (chance(20) && v->confirmed == 0)
        v->stated = 0, v->fingerprint = 0;
    if (chance(20))
        v->budget = below(400);
}

/* One thing of v another. */
static void change(values *v)
{
    unsigned i;
    switch (below(10)) {
    case 0:
        if (v->parts)
            i = below(v->parts), v->part_at[i].bytes[below(v->part_at[i].len)] ^= 1;
        break;
    case 1:
        if (v->parts)
            v->part_at[below(v->parts)].remaining++;
        break;
    case 2:
        if (v->parts)
            v->part_at[below(v->parts)].kind ^= 1;
        break;
    case 3:
        if (v->parts)
            v->part_at[below(v->parts)].number++;
        break;
    case 4:
        if (v->hints)
            v->hint_at[below(v->hints)].number += below(2) ? 1 : 70;
        break;
    case 5:
        if (v->confirmed)
            v->confirmed_at[below(v->confirmed)].threshold = below(200);
        break;
    case 6:
        if (v->confirmed)
            v->confirmed_at[below(v->confirmed)].digest = below(3);
        break;
    case 7:
        if (v->malformed && v->malformed_at[v->malformed - 1] < v->key_end)
            v->malformed_at[v->malformed - 1] += below(2);
        break;
    case 8:
        if (v->parts && v->part_at[i = below(v->parts)].len > 1)
            v->part_at[i].len--;
        break;
    default:
        v->most = v->most > 40 ? v->most - 1 : v->most + 1;
    }
}

/* A checkpoint or the end state another. */
static void differ(values *v)
{
    checkpoint *last = &v->checkpoint_at[v->checkpoints - 1];
    if (v->complete && chance(50))
        v->end_threshold++;
    else if (chance(30))
        last->threshold += !v->complete;
    else if (chance(30))
        last->back += last->back == 0 && v->checkpoints > 1;
    else
        v->checkpoint_at[below(v->checkpoints)].digest ^= 1;
}

/* ---- the file of docs/FILE.md */
static uint8_t *at_file;

static void put(uint64_t v, unsigned width)
{
    while (width-- > 0) {
        *at_file++ = (uint8_t)v;
        v >>= 8;
    }
}

/* The frames of v's parts: parts of one start that agree share one. used is their bytes. */
static unsigned frames_of(const values *v, unsigned *first, uint64_t *used)
{
    unsigned i, n = 0;
    *used = 0;
    for (i = 0; i < v->parts; i++) {
        const part *p = &v->part_at[i];
        int shares = i > 0 && p[-1].start == p->start && p[-1].number == p->number && p[-1].kind == p->kind && p[-1].len <= p->len &&
                     memcmp(p[-1].bytes, p->bytes, p[-1].len) == 0;
        if (!shares)
            first[n++] = i;
        *used += shares ? p->len - p[-1].len : p->len;
    }
    return n;
}

static size_t write_file(const values *v, uint8_t *file)
{
    unsigned i, j, k, first[MOST_PARTS + 1], frames;
    uint64_t used;
    int hinting = v->confirmed || v->stated || v->hints || v->spacing != 8 || v->most != 2048;
    frames = frames_of(v, first, &used);
    first[frames] = v->parts;
    at_file = file;
    memcpy(at_file, "SBSEEKIX", 8);
    at_file += 8;
    put(v->confirmed ? 3 : hinting ? 2 : 1, 4);
    put(v->slot, 1);
    put(v->channels, 1);
    put((v->complete ? 1 : 0) | (hinting && v->stated ? 2 : 0), 1);
    put(0, 1);
    put(v->key_start, 4);
    put(v->key_end, 4);
    put(v->sectors, 8);
    put(v->interval, 4);
    put(v->checkpoints, 4);
    put(frames, 4);
    put(v->parts, 4);
    put(v->malformed, 4);
    put(0, 4);
    put(v->budget, 8);
    put(v->end_threshold, 4);
    put(0, 4);
    put(v->end_malformed, 8);
    for (j = 0; j < v->checkpoints; j++) {
        const checkpoint *c = &v->checkpoint_at[j];
        put(c->threshold, 4);
        put(c->back, 4);
        put(c->malformed, 8);
        put(c->digest, 8);
    }
    for (i = 0; i < frames; i++) {
        const part *last = &v->part_at[first[i + 1] - 1];
        put(last->start, 4);
        put(last->len, 4);
        memcpy(at_file, last->bytes, last->len);
        at_file += last->len;
    }
    for (i = 0; i < frames; i++)
        for (k = first[i]; k < first[i + 1]; k++) {
            const part *p = &v->part_at[k];
            put(p->at, 4);
            put(i, 4);
            put(p->len, 4);
            put(p->number, 4);
            put((uint32_t)p->remaining, 4);
            put(p->kind, 4);
        }
    for (i = 0; i < v->malformed; i++)
        put(v->malformed_at[i], 4);
    if (hinting) {
        put(v->fingerprint, 8);
        put(v->spacing, 4);
        put(v->most, 4);
        put(v->hints, 4);
        put(0, 4);
        for (i = 0; i < v->hints; i++)
            put(v->hint_at[i].lsn, 4), put(v->hint_at[i].number, 4);
    }
    if (v->confirmed) {
        put(v->confirmed, 4);
        put(0, 4);
        for (i = 0; i < v->confirmed; i++) {
            put(v->confirmed_at[i].lsn, 4);
            put(v->confirmed_at[i].threshold, 4);
            put(v->confirmed_at[i].digest, 8);
        }
    }
    {
        uint64_t sum = UINT64_C(0xcbf29ce484222325);
        const uint8_t *b;
        for (b = file; b < at_file; b++)
            sum = (sum ^ *b) * UINT64_C(0x100000001b3);
        put(sum, 8);
    }
    return (size_t)(at_file - file);
}

/* ---- a list in the library's tables */
enum { PLACES = 5 };
static uint8_t *memory[PLACES];
static seek_list lists[PLACES];
static seek_table_sizes sizes[PLACES];
static uint64_t not_loaded;

static seek_table *table(seek_list *l, int k)
{
    seek_table *all[7] = {&l->checkpoints, &l->frames, &l->store, &l->parts, &l->malformed, &l->hints, &l->confirmed};
    return all[k];
}

/* Loads v; 0 where the library refuses it. Some then have a checked fingerprint, some an image id. */
static int load(int place, const values *v, uint64_t limit)
{
    static uint8_t file[FILE_MOST];
    size_t n = write_file(v, file);
    seek_area a;
    seek_list *l = &lists[place];
    if (seek_file_area(file, n, &a) || seek_file_sizes(&a, file, n, limit, &sizes[place]) || !seek_carve(l, &sizes[place], memory[place], MEMORY))
        return 0;
    if (seek_load(SEEK_WORKSHOP, l, &a, file, n, limit))
        return 0;
    if (v->stated && chance(50) && seek_fingerprint(l, v->fingerprint))
        exit(2);
    if (chance(15)) {
        uint64_t image = 5 + below(2);
        unsigned k;
        l->head[8 * 22] = 1;
        for (k = 0; k < 8; k++)
            l->head[8 * 23 + k] = (uint8_t)(image >> 8 * k);
    }
    return 1;
}

static uint64_t get(const uint8_t *at, unsigned width)
{
    uint64_t v = 0;
    while (width-- > 0)
        v = v << 8 | at[width];
    return v;
}

/* The bytes of table k that a list takes up. */
static size_t used(const seek_list *l, int k)
{
    uint64_t i, n = 0;
    switch (k) {
    case 0: return 24 * seek_checkpoint_count(l);
    case 1: return 8 * seek_frame_count(l);
    case 2:
        for (i = 0; i < seek_frame_count(l); i++)
            n += get(l->frames.at + 8 * i + 4, 4);
        return n;
    case 3: return 24 * seek_part_count(l);
    case 4: return 4 * seek_malformed_count(l);
    case 5: return 8 * seek_hint_count(l);
    default: return 16 * seek_confirmation_count(l);
    }
}

/* A copy of a list in its own memory. */
static void copy(int to, int from)
{
    int k;
    sizes[to] = sizes[from];
    if (!seek_carve(&lists[to], &sizes[to], memory[to], MEMORY))
        exit(2);
    memcpy(lists[to].head, lists[from].head, SEEK_BLOCK);
    for (k = 0; k < 7; k++)
        memcpy(table(&lists[to], k)->at, table(&lists[from], k)->at, used(&lists[from], k));
}

/* ---- the model: everything is read from the tables */

static const uint8_t *part_in(const seek_list *l, uint64_t j) { return l->parts.at + 24 * j; }

static const uint8_t *bytes_in(const seek_list *l, const uint8_t *p)
{
    uint64_t frame = get(p + 4, 4), k, at = 0;
    for (k = 0; k < frame; k++)
        at += get(l->frames.at + 8 * k + 4, 4);
    return l->store.at + at;
}

static int same_part(const seek_list *own, const uint8_t *p, const seek_list *other, const uint8_t *q)
{
    return get(p, 4) == get(q, 4) && get(p + 8, 4) == get(q + 8, 4) && get(p + 12, 4) == get(q + 12, 4) && get(p + 16, 4) == get(q + 16, 4) &&
           get(p + 20, 4) == get(q + 20, 4) && memcmp(bytes_in(own, p), bytes_in(other, q), get(p + 8, 4)) == 0;
}

static uint64_t lacking_parts(const seek_list *own, const seek_list *other)
{
    uint64_t i, k, n = 0;
    for (i = 0; i < seek_part_count(other); i++) {
        for (k = 0; k < seek_part_count(own) && !same_part(own, part_in(own, k), other, part_in(other, i)); k++)
            ;
        n += k == seek_part_count(own);
    }
    return n;
}

static uint64_t lacking_records(const seek_table *own, uint64_t m, const seek_table *other, uint64_t n, unsigned width)
{
    uint64_t i, k, lacking = 0;
    for (i = 0; i < n; i++) {
        for (k = 0; k < m && memcmp(own->at + width * k, other->at + width * i, width) != 0; k++)
            ;
        lacking += k == m;
    }
    return lacking;
}

static int confirms(const uint8_t *c, const uint8_t *d) { return get(c, 4) == get(d, 4) && get(c + 8, 8) == get(d + 8, 8) && get(c + 4, 4) <= get(d + 4, 4); }

static uint64_t lacking_confirmed(const seek_list *own, const seek_list *other)
{
    uint64_t i, k, n = 0;
    for (i = 0; i < seek_confirmation_count(other); i++) {
        for (k = 0; k < seek_confirmation_count(own) && !confirms(own->confirmed.at + 16 * k, other->confirmed.at + 16 * i); k++)
            ;
        n += k == seek_confirmation_count(own);
    }
    return n;
}

static void model_lacks(const seek_list *own, const seek_list *other, seek_lacking *r)
{
    uint64_t m = seek_checkpoint_count(own), n = seek_checkpoint_count(other);
    r->checkpoints = n > m ? n - m : 0;
    r->end_state = seek_is_complete(other) && !seek_is_complete(own);
    r->parts = lacking_parts(own, other);
    r->malformed = lacking_records(&own->malformed, seek_malformed_count(own), &other->malformed, seek_malformed_count(other), 4);
    r->hints = lacking_records(&own->hints, seek_hint_count(own), &other->hints, seek_hint_count(other), 8);
    r->confirmations = lacking_confirmed(own, other);
    r->fingerprint = seek_has_fingerprint(other) && !seek_has_fingerprint(own);
    r->image = seek_has_image(other) && !seek_has_image(own);
    r->budget = seek_budget(other) > seek_budget(own);
    r->most = seek_hint_limit(other) > seek_hint_limit(own);
}

/* 41 to 43 */
static uint32_t model_refuses(const seek_list *own, const seek_list *other)
{
    uint64_t m = seek_checkpoint_count(own), n = seek_checkpoint_count(other), common = m < n ? m : n;
    if (memcmp(own->head, other->head, 8 * 8) != 0)
        return 41;
    if ((seek_has_image(own) && seek_has_image(other) && seek_image_value(own) != seek_image_value(other)) ||
        (seek_has_fingerprint(own) && seek_has_fingerprint(other) && seek_fingerprint_value(own) != seek_fingerprint_value(other)))
        return 42;
    if (common && memcmp(own->checkpoints.at, other->checkpoints.at, 24 * common) != 0)
        return 43;
    if (seek_is_complete(own) && seek_is_complete(other) && memcmp(own->head + 8 * 18, other->head + 8 * 18, 16) != 0)
        return 43;
    return 0;
}

/* ---- counts of what was met */
static uint64_t answered[64], nothing, room_alone, kinds[10], merges, merge_lacks, transitive, hints_asked, jumps, confirmed_hints;

static int fail(const char *what)
{
    fprintf(stderr, "lacks: %s\n", what);
    return 0;
}

static int same_lacking(const seek_lacking *a, const seek_lacking *b) { return memcmp(a, b, sizeof *a) == 0; }

/* ---- what "nothing is lacking" promises, asked of the library and looked up in the tables */
static int confirmed_for(const seek_list *l, uint64_t lsn, uint32_t first)
{
    uint64_t i;
    for (i = 0; seek_fingerprint_checked(l) && i < seek_confirmation_count(l); i++)
        if (get(l->confirmed.at + 16 * i, 4) == lsn && get(l->confirmed.at + 16 * i + 4, 4) <= first)
            return 1;
    return 0;
}

static uint64_t start_of(const seek_list *l, const seek_jump *j)
{
    seek_area a;
    seek_area_of(l, &a);
    return j->where == SEEK_AT_START ? a.start : j->where == SEEK_AT_END ? a.end : j->lsn;
}

static int look_jumps(const seek_list *own, const seek_list *other)
{
    uint32_t t;
    for (t = 0; t < 700; t += 1 + below(60)) {
        seek_jump j, k;
        if (seek_plan(own, t, &j) || seek_plan(other, t, &k))
            return fail("plan refuses");
        jumps++;
        if (start_of(own, &j) < start_of(other, &k))
            return fail("a jump starts earlier");
        if (j.where == SEEK_AT_CHECKPOINT && k.where == SEEK_AT_CHECKPOINT && j.number == k.number && k.held) {
            const uint8_t *mine = seek_part(own, &j), *theirs = seek_part(other, &k);
            if (!j.held || j.kind != k.kind || j.frame != k.frame || j.remaining != k.remaining || j.length != k.length || mine == NULL || theirs == NULL ||
                memcmp(mine, theirs, j.length) != 0)
                return fail("a part that the other names is another");
        }
    }
    return 1;
}

static int look_hints(const seek_list *own, const seek_list *other)
{
    unsigned i;
    if (seek_fingerprint_checked(other) && !seek_fingerprint_checked(own))
        return 1;
    for (i = 0; i < 6; i++) {
        uint32_t first = below(260), end = first + below(80);
        seek_hinted a, b;
        int sure, not_lower;
        if (seek_hint(own, first, end, 300, &a) || seek_hint(other, first, end, 300, &b))
            return fail("hint refuses");
        if (!b.found)
            continue;
        hints_asked++;
        if (!a.found)
            return fail("a hint is lost");
        sure = confirmed_for(own, a.lsn, first);
        confirmed_hints += (uint64_t)sure;
        not_lower = a.number > b.number || (a.number == b.number && a.lsn >= b.lsn);
        if (confirmed_for(other, b.lsn, first) && (!sure || !not_lower))
            return fail("a confirmed hint is lost");
        if (!sure && !not_lower)
            return fail("a hint is lower");
    }
    return 1;
}

/* A merge leaves every byte of the list but the image id. */
static int look_merge(int own, int other)
{
    seek_list *l = &lists[own];
    int k;
    copy(4, own);
    if (seek_merge(SEEK_WORKSHOP, &lists[4], &lists[other]))
        return fail("the merge is refused");
    if (!seek_has_image(l))
        memcpy(lists[4].head + 8 * 22, l->head + 8 * 22, 16);
    if (memcmp(lists[4].head, l->head, SEEK_BLOCK) != 0)
        return fail("a merge changes the head");
    for (k = 0; k < 7; k++)
        if (memcmp(table(&lists[4], k)->at, table(l, k)->at, used(l, k)) != 0)
            return fail("a merge changes a table");
    return 1;
}

static int look_nothing(int own, int other)
{
    nothing++;
    if (seek_is_complete(&lists[other]) && !seek_is_complete(&lists[own]))
        return fail("the own list is not complete");
    return look_jumps(&lists[own], &lists[other]) && look_hints(&lists[own], &lists[other]) && look_merge(own, other);
}

/* ---- what a merged list can lack */
/* Of how many hints of l has the other list another number? */
static uint64_t renumbered(const seek_list *l, const seek_list *other)
{
    uint64_t i, j, n = 0;
    uint32_t lsn, number, at, to;
    for (i = 0; seek_hint_at(l, i, &lsn, &number); i++)
        for (j = 0; seek_hint_at(other, j, &at, &to); j++)
            n += at == lsn && to != number;
    return n;
}

static int look_merged(int own, int other)
{
    seek_lacking a, b;
    uint64_t most = seek_hint_limit(&lists[own]);
    copy(3, own);
    if (seek_merge(SEEK_WORKSHOP, &lists[3], &lists[other]))
        return fail("a merge is refused that lacks accepts");
    merges++;
    if (seek_lacks(&lists[3], &lists[own], &a) || seek_lacks(&lists[3], &lists[other], &b))
        return fail("the merged list is refused");
    if (a.checkpoints || a.end_state || a.parts || a.fingerprint || a.image || a.budget || a.most)
        return fail("the merged list lacks something of the own");
    if (b.checkpoints || b.end_state || b.fingerprint || b.image)
        return fail("the merged list lacks something of the other");
    if (seek_hint_count(&lists[3]) != most - most / 4 && a.hints != (most ? renumbered(&lists[own], &lists[other]) : 0))
        return fail("own hints are lacking, and others than those whose number is replaced, though nothing is thinned");
    if (b.hints && seek_hint_count(&lists[3]) != most - most / 4)
        return fail("a hint of the other is lacking though nothing is thinned");
    if (b.confirmations && seek_fingerprint_checked(&lists[own]) && seek_hint_limit(&lists[own]) && seek_confirmation_count(&lists[3]) != seek_hint_limit(&lists[3]))
        return fail("a confirmation of the other is lacking though there is room");
    merge_lacks += !seek_lacks_nothing(&a) || !seek_lacks_nothing(&b);
    return 1;
}

/* ---- a pair, both ways */
static int look(int own, int other)
{
    seek_lacking told, expected = {0, 0, 0, 0, 0, 0, 0, 0, 0, 0};
    uint32_t number = seek_lacks(&lists[own], &lists[other], &told), must = model_refuses(&lists[own], &lists[other]);
    unsigned k;
    uint64_t words[10];
    answered[number < 64 ? number : 63]++;
    if (number != must) {
        fprintf(stderr, "lacks: %" PRIu32 ", and the model %" PRIu32 "\n", number, must);
        return 0;
    }
    if (!number)
        model_lacks(&lists[own], &lists[other], &expected);
    if (!same_lacking(&told, &expected))
        return fail("the counts differ");
    memcpy(words, &told, sizeof words);
    for (k = 0; k < 10; k++)
        kinds[k] += words[k] != 0;
    if (number)
        return 1;
    room_alone += seek_lacks_nothing(&told) && (told.budget || told.most);
    if (seek_lacks_nothing(&told) && !look_nothing(own, other))
        return 0;
    return look_merged(own, other);
}

/* a covers b and b covers c: so does a c, where the image ids do not differ */
static int look_three(void)
{
    seek_lacking x;
    if (seek_lacks(&lists[0], &lists[1], &x) || !seek_lacks_nothing(&x) || seek_lacks(&lists[1], &lists[2], &x) || !seek_lacks_nothing(&x))
        return 1;
    if (seek_has_image(&lists[0]) && seek_has_image(&lists[2]) && seek_image_value(&lists[0]) != seek_image_value(&lists[2]))
        return 1;
    transitive++;
    if (seek_lacks(&lists[0], &lists[2], &x) || !seek_lacks_nothing(&x))
        return fail("what the covered list covers is not covered");
    return 1;
}

/* ---- 1 to 4: a list is spoilt, and the number is known */
static uint32_t spoil(seek_list *l)
{
    int k;
    switch (below(6)) {
    case 0:
        l->head[0] = (uint8_t)(2 + below(250));
        return 1;
    case 1:
        memset(l->head + 8 * 7, 0, 8);
        return 2;
    case 2:
        for (k = (int)below(7); table(l, k)->length == 0; k = (k + 1) % 7)
            ;
        table(l, k)->length--;
        return 3;
    case 3:
        if (!seek_part_count(l))
            return 0;
        l->parts.at[24 * below((unsigned)seek_part_count(l)) + 20] = 2;
        return 4;
    case 4:
        if (!seek_hint_count(l))
            return 0;
        memset(l->hints.at, 0, 4);
        return 4;
    default:
        if (!seek_confirmation_count(l))
            return 0;
        memset(l->head + 8 * 20, 0, 16);
        return 4;
    }
}

static int look_spoilt(void)
{
    uint32_t a, b = 0, must, number;
    seek_lacking told, none = {0, 0, 0, 0, 0, 0, 0, 0, 0, 0};
    a = spoil(&lists[0]);
    if (!a || chance(40))
        b = spoil(&lists[1]);
    must = !a ? b : !b ? a : a < b ? a : b;
    if (!must)
        return 1;
    number = seek_lacks(&lists[0], &lists[1], &told);
    answered[number < 64 ? number : 63]++;
    if (number != must) {
        fprintf(stderr, "lacks: %" PRIu32 ", and the spoilt list is refused by %" PRIu32 "\n", number, must);
        return 0;
    }
    return same_lacking(&told, &none) || fail("a refusal tells counts");
}

/* ---- pairs */
static uint64_t limit(void) { return chance(60) ? UINT64_MAX : below(4) ? below(600) : 0; }

static int pair(void)
{
    values reading, v[3];
    unsigned i, kind = below(10);
    make_reading(&reading);
    for (i = 0; i < 3; i++) {
        v[i] = i > 0 && kind < 4 ? v[i - 1] : reading;
        if (kind == 9 && i == 1)
            v[i] = reading, v[i].slot ^= (uint32_t)below(2), v[i].interval += 1 - v[i].slot, v[i].parts = v[i].malformed = 0, v[i].complete = 0, v[i].end_threshold = 0,
            v[i].end_malformed = 0, v[i].checkpoints = 0;
        if (i == 0 || kind > 1)
            cut(&v[i], kind < 4 ? 10 : 30);
        if (kind == 8 && i == 1 && v[i].checkpoints)
            differ(&v[i]);
        if (kind == 7 && i == 1 && v[i].stated)
            v[i].fingerprint += below(2);
        if (kind > 2 && kind < 7 && chance(50))
            change(&v[i]);
    }
    for (i = 0; i < 3; i++) {
        uint64_t used;
        unsigned first[MOST_PARTS + 1];
        frames_of(&v[i], first, &used);
        if (used > v[i].budget)
            v[i].budget = used;
        if (v[i].most < v[i].hints)
            v[i].most = v[i].hints;
        if (v[i].most < v[i].confirmed)
            v[i].most = v[i].confirmed;
        if (!load((int)i, &v[i], kind == 0 || (i == 0 && kind < 4) ? UINT64_MAX : limit())) {
            not_loaded++;
            return 1;
        }
    }
    if (!(look(0, 1) && look(1, 0) && look(0, 0) && look_three()))
        return 0;
    return chance(80) || look_spoilt();
}

int main(int argc, char **argv)
{
    uint64_t count = argc > 1 ? strtoull(argv[1], NULL, 10) : 0, seed = argc > 2 ? strtoull(argv[2], NULL, 10) : 1, i;
    static const char *const names[10] = {"checkpoints", "end state", "parts", "malformed", "hints", "confirmations", "fingerprint", "image", "budget", "hint limit"};
    int k;
    if (count == 0) {
        fprintf(stderr, "usage: lacks COUNT [SEED]\n");
        return 2;
    }
    for (k = 0; k < PLACES; k++)
        if ((memory[k] = calloc(1, MEMORY)) == NULL)
            return 2;
    for (i = 0; i < count; i++) {
        state = (seed * UINT64_C(0x9e3779b97f4a7c15) + i + 1) * UINT64_C(0xd1342543de82ef95) | 1;
        random64();
        if (!pair()) {
            fprintf(stderr, "lacks: pair %" PRIu64 " of seed %" PRIu64 "\n", i, seed);
            return 1;
        }
    }
    printf("lacks: %" PRIu64 " pairs with seed %" PRIu64 ", no difference; %" PRIu64 " not made\n", count, seed, not_loaded);
    for (k = 0; k < 64; k++)
        if (answered[k])
            printf("  answered %d: %" PRIu64 "\n", k, answered[k]);
    for (k = 0; k < 10; k++)
        printf("  lacking %s: %" PRIu64 "\n", names[k], kinds[k]);
    printf("  nothing lacking but image id and room: %" PRIu64 ", of these with more room: %" PRIu64 "\n", nothing, room_alone);
    printf("  jumps compared: %" PRIu64 ", hints: %" PRIu64 " (%" PRIu64 " confirmed), three lists: %" PRIu64 "\n", jumps, hints_asked, confirmed_hints, transitive);
    printf("  merges: %" PRIu64 ", of these lacking something: %" PRIu64 "\n", merges, merge_lacks);
    for (k = 0; k < 10; k++)
        if (kinds[k] == 0)
            return fail("a kind of thing was never lacking"), 1;
    return nothing == 0 || transitive == 0 || merge_lacks == 0 || confirmed_hints == 0 ? (fail("a case never occurred"), 1) : 0;
}
