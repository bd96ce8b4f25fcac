/* coarse COUNT [SEED]: a coarser list from a finer one, COUNT random lists through seek_raw_coarse and through a model of it; stops with status 1 at the first
 * difference.
 *
 * A list is of a random reading: its first checkpoints, some with a part of a frame, some of these of one frame, frames with bytes that no part has, malformed
 * sectors counted as they lie, hints, confirmations, a fingerprint, an image id, an end state. Some lists have malformed sectors moved up to the frontier, so that
 * a checkpoint counts sectors behind it; some count more than 4,096. The list is saved in the layout of docs/FILE.md and loaded. Ratios are 1, 2, 3, 40 and others;
 * wider intervals that are none, too wide or no multiple; tables of exactly the sizes that are needed, longer ones, and one that is a byte short. Some lists are spoilt
 * in a way that 1 to 4 refuse.
 * The model works on the arrays of the list, not on its tables, from the sentences of change request 6 and of the part rule. The head and every table of the coarser
 * list are compared byte for byte, with what lay there before behind the records; the finer list's are the same afterwards; where the call refuses, so are all. */
#include <inttypes.h>
#include <stdio.h>
#include <stdlib.h>
#include <string.h>

#include "../lists.h"
#include "seek.h"

enum { MEMORY = 4 << 20 };

/* ---- the model */
/* A part of l's frame bytes for checkpoint number at, into the store of y, by the part rule. */
static void hand_over(list *y, uint32_t at, const list *x, const part *p)
{
    const frame *from = &x->frame_at[p->frame];
    frame *f = y->frames ? &y->frame_at[y->frames - 1] : NULL;
    part *last = y->parts ? &y->part_at[y->parts - 1] : NULL, *q = &y->part_at[y->parts];
    int opens = !last || f->start < from->start;
    uint32_t both = f && f->len < p->len ? f->len : p->len;
    uint64_t grows = opens ? p->len : p->len > f->len ? p->len - f->len : 0;
    if (p->len > 65536 || bytes_of(y) + grows > y->budget)
        return;
    if (!opens &&
        (f->start != from->start || last->number != p->number || last->kind != p->kind || last->len > p->len || memcmp(f->bytes, from->bytes, both) != 0))
        return;
    if (opens) {
        f = &y->frame_at[y->frames++];
        f->start = from->start;
        f->len = 0;
    }
    if (f->len < p->len)
        memcpy(f->bytes + f->len, from->bytes + f->len, p->len - f->len), f->len = p->len;
    *q = *p;
    q->at = at;
    q->frame = y->frames - 1;
    y->parts++;
}

/* The list of x at the interval k, which is a multiple of its own. */
static void make_coarser(list *y, const list *x, uint32_t k)
{
    uint32_t r = k / x->interval;
    uint64_t counted;
    unsigned i;
    *y = *x;
    y->interval = k;
    y->checkpoints = y->frames = y->parts = 0;
    for (i = 0; i < x->checkpoints; i++)
        if (i % r == 0)
            y->checkpoint_at[y->checkpoints++] = x->checkpoint_at[i];
    for (i = 0; i < x->parts; i++)
        if (x->part_at[i].at % r == 0)
            hand_over(y, x->part_at[i].at / r, x, &x->part_at[i]);
    counted = x->complete ? x->end_malformed : y->checkpoints ? y->checkpoint_at[y->checkpoints - 1].malformed : 0;
    y->malformed = counted < 4096 ? (unsigned)counted : 4096;
}

/* What of question 4 a coarser list can break: malformed sectors rise below the frontier, as many as are counted; checkpoints rise; parts are those of their
 * checkpoints. */
static int holds(const list *y)
{
    unsigned i;
    for (i = 0; i < y->malformed; i++)
        if (y->malformed_at[i] >= frontier(y) || y->malformed_at[i] < y->start || (i && y->malformed_at[i] <= y->malformed_at[i - 1]))
            return 0;
    for (i = 0; i < y->checkpoints; i++)
        if (y->checkpoint_at[i].back > i * y->interval || (i && y->checkpoint_at[i].threshold < y->checkpoint_at[i - 1].threshold) ||
            (i && y->checkpoint_at[i].malformed < y->checkpoint_at[i - 1].malformed))
            return 0;
    for (i = 0; i < y->parts; i++) {
        const part *p = &y->part_at[i];
        if (p->at >= y->checkpoints || y->frame_at[p->frame].start + (uint64_t)y->checkpoint_at[p->at].back != y->start + (uint64_t)p->at * y->interval)
            return 0;
    }
    return bytes_of(y) <= y->budget;
}

/* ---- a list in the library's tables */
static uint8_t *memory[2], *before[2], expected[MEMORY / 8];
static seek_list lists[2];
static uint64_t answered[64], others[8], not_loaded;
enum { SHORT_FINE, SHORT_COARSE, NO_HEAD, SHARED, SURPLUS, CAPPED, RATIO_40, OTHERS };
static const char *const names[OTHERS] = {"3 of the finer list's tables", "3 of the coarser list's tables", "3 of a block", "kept parts that share a frame", "surplus bytes",
                                          "more than 4,096 counted", "ratio 40"};

static char found[160];

static int fail(const char *what)
{
    fprintf(stderr, "coarse: %s\n", what);
    return 0;
}

static seek_table *table(seek_list *l, int k)
{
    seek_table *all[7] = {&l->checkpoints, &l->frames, &l->store, &l->parts, &l->malformed, &l->hints, &l->confirmed};
    return all[k];
}

static int load(const list *v)
{
    static uint8_t file[FILE_MOST];
    size_t n = write_file(v, file);
    seek_area a;
    seek_table_sizes s;
    seek_list *l = &lists[0];
    if (seek_file_area(file, n, &a) || seek_file_sizes(&a, file, n, UINT64_MAX, &s) || !seek_carve(l, &s, memory[0], MEMORY) ||
        seek_load(SEEK_WORKSHOP, l, &a, file, n, UINT64_MAX) || (v->checked && seek_fingerprint(l, 77)))
        return 0;
    at_out = expected;
    put_head(v);
    if (v->image)
        memcpy(l->head + 8 * 22, expected + 8 * 22, 16);
    return memcmp(l->head, expected, SEEK_BLOCK) == 0 || (fail("a loaded head differs"), exit(1), 0);
}

/* Tables for the interval k, with bytes of before in them; some longer than they need be. */
static void carve(const list *v, uint32_t k)
{
    uint32_t b = k ? boundaries(v->start, v->end, k) : 0;
    uint64_t sizes[7] = {24u * b, 8u * b, v->budget, 24u * b, 4 * 4096, 8 * (50 + 262144), 16 * (50 + 1)}, at = 0;
    int t;
    for (t = 0; t < 7; t++) {
        table(&lists[1], t)->at = memory[1] + at;
        table(&lists[1], t)->length = (size_t)(sizes[t] + (chance(20) ? below(50) : 0));
        at += table(&lists[1], t)->length;
    }
    for (t = 0; t < 4; t++)
        memset(table(&lists[1], t)->at, 0xa0 + t, table(&lists[1], t)->length);
    memset(table(&lists[1], 4)->at, 0xa4, table(&lists[1], 4)->length);
    memset(table(&lists[1], 5)->at, 0xa5, 256);
    memset(table(&lists[1], 6)->at, 0xa6, table(&lists[1], 6)->length);
    for (t = 0; t < SEEK_BLOCK; t++)
        lists[1].head[t] = (uint8_t)below(256);
}

/* Makes the list one that 1 to 4 refuse; the number, 0 where it stays. */
static uint32_t spoil(const list *v, size_t *head)
{
    seek_list *l = &lists[0];
    int k;
    switch (below(8)) {
    case 0: l->head[0] = (uint8_t)(2 + below(250)); return 1;
    case 1: memset(l->head + 8 * 7, 0, 8); return 2;
    case 2:
        for (k = (int)below(7); table(l, k)->length == 0; k = (k + 1) % 7)
            ;
        table(l, k)->length--;
        others[SHORT_FINE]++;
        return 3;
    case 3:
        if (v->parts == 0)
            return 0;
        l->parts.at[24 * below(v->parts) + 20] = 2;
        return 4;
    case 4:
        if (v->checkpoints == 0)
            return 0;
        l->checkpoints.at[4] = 1;
        return 4;
    case 5:
        if (v->hints == 0)
            return 0;
        memset(l->hints.at, 0, 4);
        return 4;
    case 6: *head = SEEK_BLOCK - 1; others[NO_HEAD]++; return 3;
    default: l->head[8 * 22] = 2; others[NO_HEAD]++; return 3;
    }
}

static uint32_t wider(const list *v)
{
    static const uint32_t ratios[] = {1, 2, 3, 40, 2, 3, 4, 7};
    switch (below(12)) {
    case 0: return 0;
    case 1: return 65537;
    case 2: return v->interval + 1 + below(2 * v->interval);
    case 3: return (65536 / v->interval + 1 + below(3)) * v->interval;
    case 4: return 65536 / v->interval * v->interval;
    case 5: return v->interval * (1 + below(CHECKPOINTS));
    default: return v->interval * ratios[below(8)];
    }
}

/* What the coarser list's tables must be: its records, and behind them what lay there. */
static int same_tables(const list *y)
{
    static void (*const writers[7])(const list *) = {put_checkpoints, NULL, put_store, put_parts, put_malformed, put_hints, put_confirmed};
    int k;
    for (k = 0; k < 7; k++) {
        const seek_table *t = table(&lists[1], k);
        size_t n, whole = k == 5 ? 256 : t->length;
        at_out = expected;
        if (k == 1)
            put_frames(y, 0);
        else
            writers[k](y);
        n = (size_t)(at_out - expected);
        if (n > t->length || memcmp(t->at, expected, n) != 0 || memcmp(t->at + n, before[1] + (t->at - memory[1]) + n, whole - n) != 0)
            return fprintf(stderr, "coarse: table %d differs\n", k), 0;
    }
    at_out = expected;
    put_head(y);
    return memcmp(lists[1].head, expected, SEEK_BLOCK) == 0 || fail("the head differs");
}

static void count(const list *x, const list *y, uint32_t k)
{
    unsigned i, shared = 0;
    for (i = 1; i < y->parts; i++)
        shared |= y->part_at[i].frame == y->part_at[i - 1].frame;
    others[SHARED] += shared;
    others[SURPLUS] += k == x->interval && bytes_of(y) < bytes_of(x);
    others[CAPPED] += y->malformed == 4096 && (x->complete ? x->end_malformed : y->checkpoint_at[y->checkpoints - 1].malformed) > 4096;
    others[RATIO_40] += k / x->interval == 40 && y->checkpoints > 1;
}

static int one(void)
{
    static list x, y;
    uint32_t k, number, must = 0;
    size_t block = SEEK_BLOCK, head = SEEK_BLOCK, first = 0;
    uint8_t heads[2][SEEK_BLOCK];
    int t, s;
    make_list(&x);
    if (!load(&x))
        return not_loaded++, 1;
    k = wider(&x);
    carve(&x, k);
    if (chance(12))
        must = spoil(&x, &head);
    s = (int)below(7);
    if (chance(12) && table(&lists[1], s)->length)
        table(&lists[1], s)->length = chance(30) ? 0 : below((unsigned)table(&lists[1], s)->length);
    if (chance(2))
        block = below(SEEK_BLOCK), must = 3, others[NO_HEAD]++;
    if (!must && (k == 0 || k > 65536 || k % x.interval != 0))
        must = 47;
    if (!must) {
        make_coarser(&y, &x, k);
        if (!holds(&y))
            must = 48;
    }
    if (!must) {
        uint32_t b = boundaries(x.start, x.end, k);
        const uint64_t needs[7] = {24u * b, 8u * b, x.budget, 24u * b, 4 * 4096, 8 * (50 + 262144), 16 * (50 + 1)};
        for (t = 0; t < 7; t++)
            if (table(&lists[1], t)->length < needs[t])
                must = 3;
        others[SHORT_COARSE] += must == 3;
    }
    snprintf(found, sizeof found, "%u checkpoints, %u parts, %u malformed, interval %" PRIu32 " to %" PRIu32, x.checkpoints, x.parts, x.malformed, x.interval, k);
    for (t = 0; t < 7; t++)
        first = (size_t)(table(&lists[0], t)->at + table(&lists[0], t)->length - memory[0]);
    memcpy(before[0], memory[0], first);
    for (t = 0; t < 7; t++)
        memcpy(before[1] + (table(&lists[1], t)->at - memory[1]), table(&lists[1], t)->at, t == 5 && table(&lists[1], t)->length > 256 ? 256 : table(&lists[1], t)->length);
    memcpy(heads[0], lists[0].head, SEEK_BLOCK);
    memcpy(heads[1], lists[1].head, SEEK_BLOCK);
#define LENT(l, t) (l).t.at, (l).t.length
#define SEVEN(l) LENT(l, checkpoints), LENT(l, frames), LENT(l, store), LENT(l, parts), LENT(l, malformed), LENT(l, hints), LENT(l, confirmed)
    {
        seek_list *f = &lists[0], *c = &lists[1];
        number = head == SEEK_BLOCK && block == SEEK_BLOCK ? seek_coarse(f, k, c)
                                                          : seek_raw_coarse(f->head, head, k, c->head, block, SEVEN(*f), SEVEN(*c));
    }
    answered[number < 64 ? number : 63]++;
    if (number != must)
        return fprintf(stderr, "coarse: %" PRIu32 ", and the model %" PRIu32 " (interval %" PRIu32 " to %" PRIu32 ")\n", number, must, x.interval, k), 0;
    if (memcmp(before[0], memory[0], first) != 0 || memcmp(heads[0], lists[0].head, SEEK_BLOCK) != 0)
        return fail("the finer list is changed");
    if (number == 0)
        return count(&x, &y, k), same_tables(&y);
    for (t = 0; t < 7; t++) {
        const seek_table *u = table(&lists[1], t);
        if (memcmp(u->at, before[1] + (u->at - memory[1]), t == 5 && u->length > 256 ? 256 : u->length) != 0)
            return fail("refused, and a table is changed");
    }
    return memcmp(heads[1], lists[1].head, SEEK_BLOCK) == 0 || fail("refused, and the head is changed");
}

int main(int argc, char **argv)
{
    static const int all[] = {0, 1, 2, 3, 4, 47, 48};
    uint64_t count_ = argc > 1 ? strtoull(argv[1], NULL, 10) : 0, seed = argc > 2 ? strtoull(argv[2], NULL, 10) : 1, i;
    int k, lost = 0;
    if (count_ == 0) {
        fprintf(stderr, "usage: coarse COUNT [SEED]\n");
        return 2;
    }
    for (k = 0; k < 2; k++)
        if ((memory[k] = calloc(1, MEMORY)) == NULL || (before[k] = calloc(1, MEMORY)) == NULL)
            return 2;
    for (i = 0; i < count_; i++) {
        state = (seed * UINT64_C(0x9e3779b97f4a7c15) + i + 1) * UINT64_C(0xd1342543de82ef95) | 1;
        random64();
        if (!one()) {
            printf("list %" PRIu64 " of seed %" PRIu64 " differs\nthe first list found: %s\n", i, seed, found);
            return 1;
        }
    }
    printf("coarse: %" PRIu64 " lists with seed %" PRIu64 ", no difference; %" PRIu64 " not made\n", count_, seed, not_loaded);
    for (k = 0; k < 7; k++) {
        printf("  answered %d: %" PRIu64 "\n", all[k], answered[all[k]]);
        lost |= answered[all[k]] == 0;
    }
    for (k = 0; k < OTHERS; k++) {
        printf("  %s: %" PRIu64 "\n", names[k], others[k]);
        lost |= others[k] == 0;
    }
    return lost ? (fail("a case never occurred"), 1) : 0;
}
