/* view COUNT [SEED]: the views of COUNT random lists (tests/models/lists.h) through seek_raw_view and through a model of it, and role 52 at every operation that takes
 * a role; stops with status 1 at the first difference.
 *
 * The model writes a view from the list's arrays by docs/VIEW.md. Each list is viewed as listener and workshop with outputs of 0, 87, 88, one byte too few, exact and
 * longer; the bytes behind the view must be those of before, and all of them where the call refuses. The header's readers read the fields back. Beside each list stands
 * one that is alike to a listener and different in all else: its listener's view must be the same bytes. Every operation that takes a role is called with roles that it
 * refuses, over lists that nothing else is right of: 52, and no byte of a block, table or output changes. */
#include <inttypes.h>
#include <stdio.h>
#include <stdlib.h>

#include "../lists.h"
#include "seek.h"

enum { MEMORY = 4 << 20, OUT = 1 << 15 };

static uint8_t *memory[2], out[OUT + 64], expected[OUT], first[OUT];
static seek_list lists[2];
static uint64_t answered[64], accepted[3], alike, cut_short;

static int fail(const char *what)
{
    fprintf(stderr, "view: %s\n", what);
    return 0;
}

/* ---- lists in the library's tables */
/* Some hints are kept, at most a quarter of the limit. */
static int keep(seek_list *l, const list *v, uint8_t *marks)
{
    unsigned i, n = 0;
    memset(marks, 0, SOME);
    for (i = 0; i < v->hints; i++)
        if (n < 50 / 4 && chance(25)) {
            if (seek_keep_hint(l, v->hint_at[i][0]))
                return fail("a hint is not kept");
            marks[i] = 1;
            n++;
        }
    return 1;
}

static int load(int k, const list *v, uint8_t *marks)
{
    static uint8_t file[FILE_MOST];
    size_t n = write_file(v, file);
    seek_area a;
    seek_table_sizes s;
    seek_list *l = &lists[k];
    if (seek_file_area(file, n, &a) || seek_file_sizes(&a, file, n, UINT64_MAX, &s) || !seek_carve(l, &s, memory[k], MEMORY) ||
        seek_load(SEEK_WORKSHOP, l, &a, file, n, UINT64_MAX))
        return 0;
    return keep(l, v, marks);
}

/* Alike to a listener, different in all that its view omits. */
static void make_alike(list *y, const list *x)
{
    unsigned j;
    *y = *x;
    y->frames = y->parts = y->malformed = y->hints = y->confirmed = 0;
    y->budget = below(1000);
    y->stated = !x->stated;
    y->end_threshold = x->complete ? x->end_threshold + 1 + below(5) : 0;
    y->end_malformed = 0;
    for (j = 0; j < y->checkpoints; j++) {
        y->checkpoint_at[j].back = 0;
        y->checkpoint_at[j].malformed = 0;
        y->checkpoint_at[j].digest = random64();
    }
}

/* ---- the model */
static size_t write_view(const list *v, const uint8_t *marks, uint32_t role)
{
    unsigned i;
    at_out = expected;
    put(role, 8), put(v->slot, 8), put(2, 8), put(v->start, 8), put(v->end - 1, 8), put(v->sectors, 8), put(v->start, 8), put(v->end, 8);
    put(v->interval, 8), put((uint64_t)v->complete, 8), put(v->checkpoints, 8);
    for (i = 0; i < v->checkpoints; i++)
        put(v->start + i * v->interval, 4), put(v->checkpoint_at[i].threshold, 4);
    if (role == 2) {
        put(v->malformed, 8), put(v->parts, 8), put(v->hints, 8), put((uint64_t)v->stated, 8), put(v->stated ? 77 : 0, 8), put(v->confirmed, 8);
        for (i = 0; i < v->checkpoints; i++)
            put(v->checkpoint_at[i].back, 4), put(v->checkpoint_at[i].digest, 8);
        put_malformed(v);
        for (i = 0; i < v->parts; i++)
            put(v->part_at[i].at, 4), put(v->part_at[i].len, 4);
        put_hints(v);
        for (i = 0; i < v->hints; i++)
            put(marks[i], 1);
        put_confirmed(v);
    }
    return (size_t)(at_out - expected);
}

/* The view of list k into an output of so many bytes, against what is expected. */
static int same_view(int k, uint32_t role, size_t length, size_t n)
{
    uint64_t answer, wanted = length < n ? 40 : n;
    size_t i;
    memset(out, 0xc3, sizeof out);
    answer = seek_view(role, &lists[k], out, length);
    answered[answer < 64 ? answer : 0]++;
    if (answer != wanted)
        return fail("an answer differs");
    if (answer == n && memcmp(out, expected, n) != 0)
        return fail("a view differs");
    for (i = answer == n ? n : 0; i < sizeof out; i++)
        if (out[i] != 0xc3)
            return fail("a byte behind the view was written, or an output that is refused");
    accepted[role] += answer == n;
    return 1;
}

static int views_of(int k, const list *v, const uint8_t *marks)
{
    uint32_t role;
    for (role = 1; role <= 2; role++) {
        size_t n = write_view(v, marks, role), lengths[6] = {0, 87, 88, n - 1, n, n + 33}, i;
        if (seek_view_length(role, &lists[k]) != n)
            return fail("a length differs");
        for (i = 0; i < 6; i++)
            if (!same_view(k, role, lengths[i], n))
                return 0;
    }
    return 1;
}

/* ---- the header's readers */
static int read_checkpoints(const list *v, const seek_viewed *w)
{
    uint32_t i, lsn, threshold, back;
    uint64_t digest;
    for (i = 0; i < v->checkpoints; i++) {
        const checkpoint *c = &v->checkpoint_at[i];
        if (!seek_view_checkpoint_at(w, i, &lsn, &threshold) || lsn != v->start + i * v->interval || threshold != c->threshold)
            return 0;
        if (seek_view_back_at(w, i, &back, &digest) != (w->role == 2) || (w->role == 2 && (back != c->back || digest != c->digest)))
            return 0;
    }
    return !seek_view_checkpoint_at(w, v->checkpoints, &lsn, &threshold);
}

static int read_workshop(const list *v, const uint8_t *marks, const seek_viewed *w)
{
    uint64_t fingerprint;
    uint32_t i, a, b;
    int kept;
    seek_confirmation c;
    for (i = 0; i < v->malformed; i++)
        if (!seek_view_malformed_at(w, i, &a) || a != v->malformed_at[i])
            return 0;
    for (i = 0; i < v->parts; i++)
        if (!seek_view_held_at(w, i, &a, &b) || a != v->part_at[i].at || b != v->part_at[i].len)
            return 0;
    for (i = 0; i < v->hints; i++)
        if (!seek_view_hint_at(w, i, &a, &b, &kept) || a != v->hint_at[i][0] || b != v->hint_at[i][1] || kept != marks[i])
            return 0;
    for (i = 0; i < v->confirmed; i++)
        if (!seek_view_confirmation_at(w, i, &c) || c.lsn != v->confirmed_at[i][0] || c.threshold != v->confirmed_at[i][1] || c.digest != 7 * i)
            return 0;
    return seek_view_fingerprint(w, &fingerprint) == v->stated && fingerprint == (v->stated ? 77u : 0u) && !seek_view_malformed_at(w, v->malformed, &a) &&
           !seek_view_held_at(w, v->parts, &a, &b) && !seek_view_hint_at(w, v->hints, &a, &b, &kept) && !seek_view_confirmation_at(w, v->confirmed, &c);
}

static int fields_back(const list *v, const uint8_t *marks)
{
    uint32_t role;
    for (role = 1; role <= 2; role++) {
        size_t n = write_view(v, marks, role);
        seek_viewed w;
        seek_area a;
        if (!seek_view_read(&w, expected, n))
            return fail("a view is not read");
        a = seek_view_area(&w);
        if (a.slot != v->slot || a.channels != 2 || a.key_start != v->start || a.key_end != v->end - 1 || a.sectors != v->sectors || a.start != v->start ||
            a.end != v->end || seek_view_interval(&w) != v->interval || seek_view_is_complete(&w) != v->complete || w.checkpoints != v->checkpoints)
            return fail("a field of a view differs");
        if (!read_checkpoints(v, &w) || (role == 2 && !read_workshop(v, marks, &w)))
            return fail("a record of a view differs");
        /* cut short, longer, another role */
        if (seek_view_read(&w, expected, below((unsigned)n)) || seek_view_read(&w, expected, n + 1 + below(9)))
            return fail("a view of another length is read");
        cut_short += 2;
        expected[0] = (uint8_t)(role == 1 ? 0 : 3);
        if (seek_view_read(&w, expected, n) || w.bytes)
            return fail("a view of another role is read");
    }
    return 1;
}

/* ---- roles */
static const uint32_t no_roles[] = {0, 1, 3, UINT32_MAX};

/* Every operation that takes a role, with one that it refuses, over lists as they are, over no list, and over blocks that are too short. */
static int all_refused(uint32_t role)
{
    seek_list none = SEEK_ABSENT, *l = chance(50) ? &lists[0] : &none, *m = chance(50) ? &lists[1] : &none;
    seek_area a = {9, 0, 0, 0, 0, 5, 4};
    int present[2] = {0, 0}, k;
    uint64_t n[9] = {0};
    size_t block = chance(50) ? SEEK_BLOCK : SEEK_BLOCK - 1, room = chance(50) ? sizeof out : below(100);
    n[0] = seek_load(role, l, &a, out, room, 0);
    n[1] = seek_save(role, l, out, room);
    n[2] = seek_merge(role, l, m);
    n[3] = seek_disc_load(role, l, m, &a, &a, out, room, 0, present);
    n[4] = seek_disc_save(role, l, NULL, out, room);
    n[5] = seek_disc_save(role, l, m, out, room);
    n[6] = seek_raw_save(role, l->head, block, NULL, 0, NULL, 0, NULL, 0, NULL, 0, NULL, 0, NULL, 0, NULL, 0, out, room);
    n[7] = seek_merge_all(role, l, out, room, NULL, 0, 0, m);
    n[8] = role == 1 ? 52 : seek_view(role, l, out, room);
    for (k = 0; k < 9; k++)
        if (n[k] != 52)
            return fail("another answer than 52");
    answered[52] += role == 1 ? 8 : 9;
    return role == 1 || seek_view_length(role, l) == 52 || fail("another answer than 52 for the length");
}

static int roles_refused(void)
{
    static uint8_t before[2][MEMORY], heads[2][SEEK_BLOCK];
    size_t i;
    int k;
    for (k = 0; k < 2; k++) {
        memcpy(before[k], memory[k], MEMORY);
        memcpy(heads[k], lists[k].head, SEEK_BLOCK);
    }
    memset(out, 0x3c, sizeof out);
    for (i = 0; i < sizeof no_roles / sizeof *no_roles; i++)
        if (!all_refused(no_roles[i]))
            return 0;
    for (i = 0; i < sizeof out; i++)
        if (out[i] != 0x3c)
            return fail("a refused role writes");
    for (k = 0; k < 2; k++)
        if (memcmp(before[k], memory[k], MEMORY) != 0 || memcmp(heads[k], lists[k].head, SEEK_BLOCK) != 0)
            return fail("a refused role changes a list");
    return 1;
}

/* 1 to 4 come behind 52 and before 40. */
static int content_first(const list *v)
{
    uint8_t was;
    uint64_t answer;
    if (v->checkpoints == 0)
        return 1;
    was = lists[0].checkpoints.at[4];
    lists[0].checkpoints.at[4] = 1;
    answer = seek_view(1 + below(2), &lists[0], out, below(60));
    lists[0].checkpoints.at[4] = was;
    answered[4] += answer == 4;
    return answer == 4 || fail("4 is not asked before 40");
}

static int one(int roles)
{
    static list x, y;
    uint8_t marks[SOME], others[SOME];
    size_t n;
    make_list(&x);
    make_alike(&y, &x);
    if (!load(0, &x, marks) || !load(1, &y, others))
        return fail("a list does not load");
    if (!views_of(0, &x, marks) || !views_of(1, &y, others) || !fields_back(&x, marks) || !content_first(&x))
        return 0;
    n = (size_t)seek_view(1, &lists[0], first, sizeof first);
    if (seek_view(1, &lists[1], out, sizeof first) != n || memcmp(first, out, n) != 0)
        return fail("lists alike to a listener have other views");
    alike++;
    return !roles || roles_refused();
}

int main(int argc, char **argv)
{
    uint64_t i, n = argc > 1 ? strtoull(argv[1], NULL, 10) : 0;
    state = argc > 2 ? strtoull(argv[2], NULL, 10) * 2 + 1 : 1;
    memory[0] = calloc(2, MEMORY);
    if (!memory[0])
        return 2;
    memory[1] = memory[0] + MEMORY;
    for (i = 0; i < n; i++)
        if (!one(i % 50 == 0)) {
            fprintf(stderr, "view: list %" PRIu64 "\n", i);
            return 1;
        }
    printf("view: %" PRIu64 " lists, no difference: %" PRIu64 " listener's and %" PRIu64 " workshop's views, %" PRIu64 " pairs alike to a listener; 40 %" PRIu64 ", 4 %" PRIu64
           ", 52 %" PRIu64 "; %" PRIu64 " lengths that are no view's\n",
           n, accepted[1], accepted[2], alike, answered[40], answered[4], answered[52], cut_short);
    return 0;
}
