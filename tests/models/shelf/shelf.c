/* shelf COUNT SEED: so many sequences of 150 calls on a shelf (change request 9) through a model and through the library; status 1 at the first difference.
 *
 * A sequence has a table of 64 to 100 records, 5 to 90 areas, and a limit that is 0, 1, 2^64 - 1, or a few lengths. Half of them begin with lists that are
 * present. The count begins at 0, at a random number or near 2^64. Between calls the caller may set stamps, lengths, an area or the numbers of the shelf at random; now and then fewer records are lent, or the
 * area given is none. After each call every record of the table is compared, past the present ones too, and the answer. It fails as well where a refusal
 * number, an absent area, a drop, a drop among equal stamps, a full shelf or an own record that is removed never occurred. */
#include <inttypes.h>
#include <stdio.h>
#include <stdlib.h>
#include <string.h>

#include "seek.h"

#define CALLS 150
#define MOST 100

/* ---- the model, from the request's words: records in an array, sums in pairs of 64 bits */
typedef struct {
    uint64_t high, low;
} wide;

static void add(wide *w, uint64_t n)
{
    w->low += n;
    w->high += w->low < n;
}

static int above(wide w, uint64_t limit) { return w.high > 0 || w.low > limit; }

static wide sum_of(const seek_shelf_record *r, size_t n)
{
    wide w = {0, 0};
    while (n-- > 0)
        add(&w, r[n].length);
    return w;
}

static int same_area(const seek_shelf_record *a, const seek_shelf_record *b)
{
    return a->slot == b->slot && a->channels == b->channels && a->key_start == b->key_start && a->key_end == b->key_end && a->sectors == b->sectors &&
           a->start == b->start && a->end == b->end;
}

static uint64_t seen_equal, seen_drop, seen_own, seen_full;

static uint32_t model_asks(const seek_shelf_record *table, size_t records, const seek_shelf *x, const seek_shelf_record *g)
{
    size_t i, j;
    if (g->slot > 1 || g->start > g->end || g->end > 4294967295u)
        return 1;
    if (records < 64)
        return 3;
    if (x->present > 64)
        return 4;
    for (i = 0; i < x->present; i++)
        for (j = 0; j < i; j++)
            if (same_area(&table[i], &table[j]))
                return 4;
    if (above(sum_of(table, x->present), x->limit))
        return 4;
    return x->count == UINT64_MAX ? 51 : 0;
}

static void remove_at(seek_shelf_record *r, size_t *n, size_t i)
{
    for (--*n; i < *n; i++)
        r[i] = r[i + 1];
}

static seek_shelf_answer model_enter(seek_shelf_record *table, size_t records, seek_shelf x, seek_shelf_record g)
{
    seek_shelf_answer a = {model_asks(table, records, &x, &g), 0, x.present, x.count};
    seek_shelf_record now[64];
    size_t n, i, oldest;
    if (a.number == 0 && g.length > x.limit)
        a.number = 50;
    if (a.number != 0)
        return a;
    n = (size_t)x.present;
    memcpy(now, table, n * sizeof *now);
    seen_full += n == 64;
    for (i = 0; i < n; i++)
        if (same_area(&now[i], &g)) {
            remove_at(now, &n, i);
            seen_own++;
            break;
        }
    for (;;) {
        wide w = sum_of(now, n);
        add(&w, g.length);
        if (n < 64 && !above(w, x.limit))
            break;
        for (oldest = 0, i = 1; i < n; i++)
            if (now[i].stamp < now[oldest].stamp)
                oldest = i;
        for (i = 0; i < n; i++)
            seen_equal += i != oldest && now[i].stamp == now[oldest].stamp;
        remove_at(now, &n, oldest);
        seen_drop++;
    }
    g.stamp = x.count + 1;
    now[n++] = g;
    memcpy(table, now, n * sizeof *now);
    a.present = n;
    a.count = x.count + 1;
    return a;
}

static seek_shelf_answer model_jump(seek_shelf_record *table, size_t records, seek_shelf x, seek_shelf_record g)
{
    seek_shelf_answer a = {model_asks(table, records, &x, &g), 0, x.present, x.count};
    size_t i;
    if (a.number != 0)
        return a;
    for (i = 0; i < x.present; i++)
        if (same_area(&table[i], &g)) {
            table[i].stamp = a.count = x.count + 1;
            return a;
        }
    a.absent = 1;
    return a;
}

/* ---- random numbers (xorshift64*) */
static uint64_t state;

static uint64_t random64(void)
{
    state ^= state >> 12;
    state ^= state << 25;
    state ^= state >> 27;
    return state * 0x2545f4914f6cdd1du;
}

static uint64_t below(uint64_t n) { return random64() % n; }

/* ---- a sequence */
static uint64_t sequence, refused[64], absents, accepted;

static void differ(unsigned call, const char *what, uint64_t model, uint64_t library)
{
    printf("sequence %" PRIu64 ", call %u differs\nthe first difference found: %s: the model says %" PRIu64 ", the library %" PRIu64 "\n", sequence, call, what,
           model, library);
    exit(1);
}

/* Areas differ in one of the seven numbers, each in its turn. */
static seek_shelf_record area(uint64_t k)
{
    seek_shelf_record r = {0, 2, 7, 9, 9000, 10, 5000, 0, 0};
    switch (k % 7) {
    case 0: r.start += k; break;
    case 1: r.end += k; break;
    case 2: r.channels = (uint8_t)(r.channels + k); break;
    case 3: r.key_start += (uint32_t)k; break;
    case 4: r.key_end += (uint32_t)k; break;
    case 5: r.sectors += k; break;
    default: r.slot = 1; r.start += k; break;
    }
    return r;
}

static void one_sequence(void)
{
    static seek_shelf_record table[MOST], model[MOST];
    size_t records = 64 + (size_t)below(MOST - 63), i;
    uint64_t areas = 5 + below(86), unit = below(2) ? 1 + below(50) : UINT64_C(1) << below(63);
    seek_shelf x = {0, 0, 0};
    unsigned call;
    switch (below(6)) {
    case 0: x.limit = 0; break;
    case 1: x.limit = 1; break;
    case 2: x.limit = UINT64_MAX; break;
    default: x.limit = unit * (1 + below(100)); break;
    }
    switch (below(4)) {
    case 0: x.count = UINT64_MAX - below(160); break;
    case 1: x.count = random64(); break;
    default: break;
    }
    for (i = 0; i < MOST; i++) {
        table[i] = area(below(areas));
        table[i].stamp = random64();
    }
    /* half of them begin with lists that are present */
    if (below(2)) {
        x.present = below(4) ? below(65) : 64;
        if (areas < x.present)
            areas = x.present;
        for (i = 0; i < x.present; i++) {
            table[i] = area(i);
            table[i].length = below(4) ? 0 : x.limit / 64;
            table[i].stamp = below(3) ? below(200) : random64();
        }
    }
    for (call = 0; call < CALLS; call++) {
        seek_shelf_record g = area(below(areas));
        size_t lent = below(40) ? records : (size_t)below(records + 1);
        seek_shelf_answer a, b;
        int jump = below(3) == 0;
        g.length = below(3) == 0 ? 0 : below(4) ? below(unit) : below(8) ? x.limit - below(3) : random64();
        g.stamp = random64();
        if (below(50) == 0) {
            switch (below(3)) {
            case 0: g.slot = 2; break;
            case 1: g.start = g.end + 1; break;
            default: g.end = 4294967296u; break;
            }
        }
        switch (below(30)) {
        case 0: table[below(records)].stamp = x.count - below(3); break;
        case 1: table[below(records)].stamp = random64(); break;
        case 2: if (x.present > 1 && x.present <= 64) table[below(x.present)].stamp = table[below(x.present)].stamp; break;
        case 3: if (below(4) == 0) x.present = below(2) ? 65 : random64(); break;
        case 4: if (below(4) == 0) x.count = UINT64_MAX - below(2); break;
        case 5: if (below(4) == 0) table[below(records)].length = random64(); break;
        case 6: if (below(4) == 0) table[below(records)] = table[below(records)]; break;
        case 7: table[below(records)].slot = 2; break;
        default: break;
        }
        memcpy(model, table, sizeof model);
        a = (jump ? model_jump : model_enter)(model, lent, x, g);
        b = (jump ? seek_raw_shelf_jump : seek_raw_shelf_enter)(table, lent, x, g);
        if (a.number != b.number)
            differ(call, "the number", a.number, b.number);
        if (a.absent != b.absent)
            differ(call, "absent", a.absent, b.absent);
        if (a.present != b.present)
            differ(call, "the present ones", a.present, b.present);
        if (a.count != b.count)
            differ(call, "the count", a.count, b.count);
        for (i = 0; i < MOST; i++)
            if (!same_area(&model[i], &table[i]) || model[i].length != table[i].length || model[i].stamp != table[i].stamp)
                differ(call, "record number, and its stamp", i, table[i].stamp);
        if (a.number != 0)
            refused[a.number]++;
        else if (a.absent)
            absents++;
        else
            accepted++;
        x.present = b.present;
        x.count = b.count;
        /* a shelf that refuses is mended, now and then */
        if (a.number == 4 && below(2))
            x.present = 0;
        if (a.number == 51 && below(4) == 0)
            x.count = below(1000);
    }
}

int main(int argc, char **argv)
{
    static const unsigned numbers[] = {1, 3, 4, 50, 51};
    uint64_t count;
    size_t i;
    if (argc != 3)
        return 2;
    count = strtoull(argv[1], NULL, 10);
    state = strtoull(argv[2], NULL, 10) * 0x9e3779b97f4a7c15u + 1;
    for (sequence = 0; sequence < count; sequence++)
        one_sequence();
    printf("shelf: %" PRIu64 " sequences of %d calls agree with the model: %" PRIu64 " accepted, %" PRIu64 " in absent areas, %" PRIu64 " records dropped, %" PRIu64
           " own ones removed, %" PRIu64 " entries on a full shelf\n",
           count, CALLS, accepted, absents, seen_drop, seen_own, seen_full);
    for (i = 0; i < sizeof numbers / sizeof *numbers; i++) {
        printf("shelf: refused with %u: %" PRIu64 "\n", numbers[i], refused[numbers[i]]);
        if (refused[numbers[i]] == 0)
            return 1;
    }
    return accepted && absents && seen_drop && seen_equal && seen_own && seen_full ? 0 : 1;
}
