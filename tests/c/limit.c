/* Hint limits up to 262,144 and version 4 of the file (change request 12). Lists full of hints are made, saved, loaded, merged, thinned and saved again; each file is held to
 * the bytes of a model that knows docs/FILE.md alone. Answers status 1 at the first wrong answer. */
#include <stdio.h>
#include <stdlib.h>
#include <string.h>

#include "seek_file.h"

#define HOLDS(test) \
    do { \
        if (!(test)) { \
            printf("line %d: not %s\n", __LINE__, #test); \
            exit(1); \
        } \
    } while (0)

enum { MOST = 262144, SHORT = 65536, SECTORS = 1100000, INTERVAL = 65536 };

static const seek_area area = {0, 2, 0, SECTORS - 1, SECTORS, 0, SECTORS};

/* ---- the model */
typedef struct {
    uint32_t lsn, number;
} hint;

typedef struct {
    uint32_t most, hints, confirmed;
    int stated; /* has it a fingerprint? It is 9. */
    hint hint[2 * MOST];
    uint32_t lsn[MOST]; /* of the confirmations: threshold and digest follow from it */
} model;

static uint8_t bytes[120 + 24 * MOST];

static uint8_t *put(uint8_t *at, uint64_t v, unsigned width)
{
    for (; width > 0; width--, v >>= 8)
        *at++ = (uint8_t)v;
    return at;
}

/* The file of a model, in bytes; its length. */
static size_t written(const model *m)
{
    unsigned version = m->most > SHORT ? 4 : m->confirmed ? 3 : 2;
    uint64_t sum = 0xcbf29ce484222325u;
    uint8_t *at = bytes, *b;
    uint32_t i;
    memcpy(at, "SBSEEKIX", 8);
    at = put(put(put(put(at + 8, version, 4), 0, 1), 2, 1), m->stated ? 2 : 0, 2);
    at = put(put(put(put(at, 0, 4), SECTORS - 1, 4), SECTORS, 8), INTERVAL, 4);
    memset(at, 0, 44);
    at = put(put(put(put(put(at + 44, m->stated ? 9 : 0, 8), 8, 4), m->most, 4), m->hints, 4), 0, 4);
    for (i = 0; i < m->hints; i++)
        at = put(put(at, m->hint[i].lsn, 4), m->hint[i].number, 4);
    if (version > 2)
        at = put(put(at, m->confirmed, 4), 0, 4);
    for (i = 0; i < m->confirmed; i++)
        at = put(put(put(at, m->lsn[i], 4), m->lsn[i] / 8, 4), m->lsn[i] + 7, 8);
    for (b = bytes; b < at; b++)
        sum = (sum ^ *b) * 0x100000001b3u;
    return (size_t)(put(at, sum, 8) - bytes);
}

typedef struct {
    uint32_t gap, place;
} ranked;

static int by_rank(const void *a, const void *b)
{
    const ranked *x = (const ranked *)a, *y = (const ranked *)b;
    return x->gap != y->gap ? (x->gap < y->gap ? -1 : 1) : x->place < y->place ? -1 : x->place > y->place;
}

/* Those with the smallest (gap, place) go, until so many are left. */
static void thin(model *m, uint32_t left)
{
    static ranked r[2 * MOST];
    static uint8_t gone[2 * MOST];
    uint32_t i, n = 0;
    if (m->hints <= left)
        return;
    for (i = 0; i < m->hints; i++) {
        int rises = i > 0 && m->hint[i].number > m->hint[i - 1].number;
        r[i].gap = rises ? m->hint[i].number - m->hint[i - 1].number : 4294967295u;
        r[i].place = i;
    }
    qsort(r, m->hints, sizeof *r, by_rank);
    memset(gone, 0, sizeof gone);
    for (i = 0; i < m->hints - left; i++)
        gone[r[i].place] = 1;
    for (i = 0; i < m->hints; i++)
        if (!gone[i])
            m->hint[n++] = m->hint[i];
    m->hints = n;
}

/* What a load limit leaves. */
static void limit_to(model *m, uint64_t limit)
{
    uint64_t last;
    m->most = limit / 8 < m->most ? (uint32_t)(limit / 8) : m->most;
    thin(m, m->most);
    last = limit / 16 < m->most ? limit / 16 : m->most;
    if (m->confirmed > last) {
        memmove(m->lsn, m->lsn + (m->confirmed - last), (size_t)last * sizeof *m->lsn);
        m->confirmed = (uint32_t)last;
    }
}

/* The own hints and the other's, of different LSNs; above the limit they are thinned to three quarters of it. */
static void join(model *m, const model *other)
{
    static hint both[2 * MOST];
    uint32_t i = 0, j = 0, n = 0;
    while (i < m->hints || j < other->hints)
        both[n++] = j == other->hints || (i < m->hints && m->hint[i].lsn < other->hint[j].lsn) ? m->hint[i++] : other->hint[j++];
    memcpy(m->hint, both, n * sizeof *both);
    m->hints = n;
    if (n > m->most)
        thin(m, m->most - m->most / 4);
}

/* n hints from LSN first on, every fourth sector; their numbers rise by 1 to 7, but for some that fall. */
static void fill(model *m, uint32_t most, uint32_t n, uint32_t first, uint32_t seed)
{
    uint32_t i, number = 0;
    memset(m, 0, sizeof *m);
    m->most = most;
    m->hints = n;
    for (i = 0; i < n; i++) {
        seed = seed * 1103515245u + 12345u;
        number = seed >> 20 == 5 ? number / 2 : number + 1 + (seed >> 16) % 7;
        m->hint[i].lsn = first + 4 * i;
        m->hint[i].number = number % 1166881;
    }
}

/* ---- the library beside it */
static void saves(const seek_list *l, const model *m)
{
    uint8_t *file;
    size_t length, n = written(m);
    HOLDS(seek_saved(SEEK_WORKSHOP, l, &file, &length) == 0);
    HOLDS(length == n && memcmp(file, bytes, n) == 0);
    free(file);
}

static void begun(seek_list *l, uint32_t most)
{
    HOLDS(seek_begin(&area, INTERVAL, 0, 8, most, l) == 0);
}

/* The hints of a model, in deliveries of at most 65,536, each backwards. */
static void delivered(seek_list *l, const model *m)
{
    static uint8_t list[8 * SHORT];
    uint32_t from, i, n;
    for (from = 0; from < m->hints; from += n) {
        uint8_t *at = list;
        n = m->hints - from < SHORT ? m->hints - from : SHORT;
        for (i = n; i > 0; i--)
            at = put(put(at, m->hint[from + i - 1].lsn, 4), m->hint[from + i - 1].number, 4);
        HOLDS(seek_add_hints(l, list, 8 * (size_t)n) == 0);
    }
}

static model own, other, kept;

/* The model's file loaded with a limit is saved as the limited model's. */
static void loads(const model *m, uint64_t limit)
{
    seek_list l;
    HOLDS(seek_open_bytes(SEEK_WORKSHOP, bytes, written(m), &area, limit, &l) == 0);
    kept = *m;
    limit_to(&kept, limit);
    saves(&l, &kept);
    seek_close(&l);
}

static void limits(void)
{
    static const struct {
        uint32_t given, kept;
    } cases[] = {{0, 0}, {SHORT, SHORT}, {SHORT + 1, SHORT + 1}, {MOST - 1, MOST - 1}, {MOST, MOST}, {MOST + 1, MOST}, {4294967295u, MOST}};
    seek_list l;
    size_t k;
    for (k = 0; k < sizeof cases / sizeof *cases; k++) {
        begun(&l, cases[k].given);
        HOLDS(seek_hint_limit(&l) == cases[k].kept);
        fill(&own, cases[k].kept, 0, 0, 1);
        saves(&l, &own);
        loads(&own, UINT64_MAX);
        loads(&own, 524296);
        loads(&own, 524295);
        loads(&own, 0);
        l.hints.length -= 8;
        HOLDS(seek_saved_length(&l) == SEEK_NO_ROOM);
        seek_close(&l);
    }
}

static void full(void)
{
    seek_list l, o, small;
    begun(&l, MOST);
    fill(&own, MOST, MOST, 0, 1);
    delivered(&l, &own);
    saves(&l, &own);
    loads(&own, UINT64_MAX);
    loads(&own, 8 * (uint64_t)MOST - 1);
    loads(&own, 524296);
    loads(&own, 524295);
    loads(&own, 0);
    begun(&o, MOST);
    fill(&other, MOST, MOST, 1, 2);
    delivered(&o, &other);
    saves(&o, &other);
    /* a small list takes what its own limit allows, and stays of version 2 */
    begun(&small, SHORT);
    HOLDS(seek_merge(SEEK_WORKSHOP, &small, &o) == 0);
    fill(&kept, SHORT, 0, 0, 1);
    join(&kept, &other);
    saves(&small, &kept);
    /* 524,288 hints are thinned to 196,608 */
    HOLDS(seek_merge(SEEK_WORKSHOP, &l, &o) == 0);
    join(&own, &other);
    HOLDS(own.hints == MOST - MOST / 4 && seek_hint_count(&l) == own.hints);
    saves(&l, &own);
    loads(&own, UINT64_MAX);
    HOLDS(seek_merge(SEEK_WORKSHOP, &l, &small) == 0 && seek_hint_limit(&l) == MOST);
    seek_close(&l);
    seek_close(&o);
    seek_close(&small);
}

/* As many confirmations as the limit allows, beside as many hints and a fingerprint. */
static void confirmed(uint32_t most)
{
    uint32_t i;
    fill(&own, most, most, 2, 3);
    own.stated = 1;
    for (i = 0; i < most; i++)
        own.lsn[i] = 4 * i;
    own.confirmed = most;
    loads(&own, UINT64_MAX);
    loads(&own, 16 * (uint64_t)most - 1);
    loads(&own, 524296);
    loads(&own, 524295);
    loads(&own, 0);
    own.confirmed = 0;
    loads(&own, UINT64_MAX);
}

int main(void)
{
    limits();
    full();
    confirmed(SHORT);
    confirmed(SHORT + 1);
    confirmed(MOST);
    return 0;
}
