/* The lists of any number of files, sorted: by area and interval, by what can be merged with what, and by what holds all that another holds. Every comparison
 * is the call lacks. */
#include "desk.h"

#include <stdlib.h>
#include <string.h>

const Beside *beside(const Drawer *d, int own, int other) { return &d->pairs[(size_t)own * (size_t)d->n + (size_t)other]; }

/* ---- lists that hold all that others hold */
int covers(const Drawer *d, int own, int other)
{
    return own != other && d->items[own].group == d->items[other].group && beside(d, own, other)->covered;
}

int same(const Drawer *d, int a, int b) { return covers(d, a, b) && covers(d, b, a); }

/* Which of two lists that hold the same has more room: hints first, then held parts. */
int roomier(const List *a, const List *b)
{
    uint64_t m = seek_hint_limit(&a->list), k = seek_hint_limit(&b->list);
    return m != k ? m > k : seek_budget(&a->list) > seek_budget(&b->list);
}

/* Is one list as good as the other to keep? */
static int equal(const Drawer *d, int a, int b)
{
    const List *x = d->items[a].list, *y = d->items[b].list;
    return a == b || (same(d, a, b) && !roomier(x, y) && !roomier(y, x));
}

/* Is there no list that holds more, or the same with more room? */
static int is_best(const Drawer *d, int i)
{
    int j;
    for (j = 0; j < d->n; j++)
        if (covers(d, j, i) && (!covers(d, i, j) || roomier(d->items[j].list, d->items[i].list)))
            return 0;
    return 1;
}

/* ---- which files are kept */
/* Is a list kept that is as good as this one? */
static int is_kept(const Drawer *d, int i)
{
    int j;
    for (j = 0; j < d->n; j++)
        if (equal(d, i, j) && d->sorted[d->items[j].file].kept)
            return 1;
    return 0;
}

static int is_alone(const Drawer *d, int i)
{
    int j;
    for (j = 0; j < d->n; j++)
        if (j != i && equal(d, i, j))
            return 0;
    return 1;
}

/* Each of a file's lists for which a file is still to be kept. */
static int wanted(const Drawer *d, int file)
{
    int i, n = 0;
    for (i = 0; i < d->n; i++)
        n += d->items[i].file == file && d->items[i].best && !is_kept(d, i);
    return n;
}

/* Kept are the files of lists that no other is as good as; then, of lists that hold the same, the file that is kept anyway, else one that is kept for both its
 * lists, else the first given. */
static void choose(Drawer *d)
{
    int i, f, least;
    for (i = 0; i < d->n; i++)
        d->items[i].best = is_best(d, i);
    for (i = 0; i < d->n; i++)
        if (d->items[i].best && is_alone(d, i))
            d->sorted[d->items[i].file].kept = 1;
    for (least = 2; least > 0; least--)
        for (f = 0; f < d->files; f++)
            if (wanted(d, f) >= least)
                d->sorted[f].kept = 1;
}

/* Of two lists, the one whose file's name comes first: so the answer does not depend on the order of the arguments. */
static int sooner(const Drawer *d, int a, int b) { return strcmp(d->items[a].list->file, d->items[b].list->file) < 0; }

/* With how many lists of its group it can be merged. */
static int agreeing(const Drawer *d, int i)
{
    int j, n = 0;
    for (j = 0; j < d->n; j++)
        n += d->items[j].group == d->items[i].group && !beside(d, i, j)->number;
    return n;
}

/* Is a the better one of two kept lists to name for list i: one that holds the same, then one with which more lists agree? */
static int better_keeper(const Drawer *d, int i, int a, int b)
{
    if (b < 0 || same(d, i, a) != same(d, i, b))
        return b < 0 || same(d, i, a);
    if (agreeing(d, a) != agreeing(d, b))
        return agreeing(d, a) > agreeing(d, b);
    return sooner(d, a, b);
}

/* The kept list that holds all that this one holds; -1 where there is none. */
static int keeper(const Drawer *d, int i)
{
    int j, found = -1;
    for (j = 0; j < d->n; j++)
        if (covers(d, j, i) && d->sorted[d->items[j].file].kept && better_keeper(d, i, j, found))
            found = j;
    return found;
}

/* Of a file that goes, each list has a kept one that holds all that it holds, by the call itself. */
static void find_keepers(Drawer *d)
{
    int i;
    for (i = 0; i < d->n; i++) {
        d->items[i].keeper = keeper(d, i);
        if (d->items[i].keeper < 0)
            d->sorted[d->items[i].file].kept = 1;
    }
}

/* Does list i hold less beside a than beside b? */
static int nearer(const Drawer *d, int i, int a, int b)
{
    uint64_t x = all_of(&beside(d, a, i)->more), y = b < 0 ? 0 : all_of(&beside(d, b, i)->more);
    return b < 0 || x < y || (x == y && sooner(d, a, b));
}

/* The list beside which a kept one is told: the kept one beside which it holds least; else the only other one. */
static int nearest(const Drawer *d, int i)
{
    int j, found = -1, others = 0, last = -1;
    for (j = 0; j < d->n; j++) {
        if (j == i || d->items[j].group != d->items[i].group || beside(d, j, i)->number)
            continue;
        others++;
        last = j;
        if (d->sorted[d->items[j].file].kept && !covers(d, j, i) && nearer(d, i, j, found))
            found = j;
    }
    return found >= 0 ? found : others == 1 ? last : -1;
}

/* ---- groups and sets */
/* Lists of one area and interval: those that 41 does not keep apart. */
static void find_groups(Drawer *d)
{
    int i, j;
    for (i = 0; i < d->n; i++) {
        d->items[i].group = -1;
        for (j = 0; j < i && d->items[i].group < 0; j++)
            if (d->items[j].group == j && ask_beside(d->items[j].list, d->items[i].list).number != SEEK_NO_MERGE_AREA)
                d->items[i].group = j;
        if (d->items[i].group < 0)
            d->items[i].group = i;
    }
}

/* Each pair of a group. A list beside itself lacks nothing, as the cleared answer says. */
static void ask_all(Drawer *d)
{
    int i, j;
    for (i = 0; i < d->n; i++)
        for (j = 0; j < d->n; j++)
            if (i != j && d->items[i].group == d->items[j].group)
                d->pairs[(size_t)i * (size_t)d->n + (size_t)j] = ask_beside(d->items[i].list, d->items[j].list);
}

/* Two lists of a group are of one set if they can be merged, and with the same others. */
static int one_set(const Drawer *d, int a, int b)
{
    int j, alike = d->items[a].group == d->items[b].group && !beside(d, a, b)->number;
    for (j = 0; j < d->n && alike; j++)
        alike = d->items[j].group != d->items[a].group || !beside(d, a, j)->number == !beside(d, b, j)->number;
    return alike;
}

static void find_sets(Drawer *d)
{
    int i, j;
    for (i = 0; i < d->n; i++) {
        d->items[i].set = i;
        for (j = 0; j < i && d->items[i].set == i; j++)
            if (d->items[j].set == j && one_set(d, i, j))
                d->items[i].set = j;
    }
}

/* Files whose lists share a group are of one section, and so are the two lists of a disc file. */
static void find_sections(Drawer *d)
{
    int i, j, moved = 1;
    for (i = 0; i < d->files; i++)
        d->sorted[i].section = i;
    while (moved)
        for (moved = 0, i = 0; i < d->n; i++)
            for (j = 0; j < i; j++) {
                int *a = &d->sorted[d->items[i].file].section, *b = &d->sorted[d->items[j].file].section;
                if (d->items[i].group == d->items[j].group && *a != *b) {
                    *a = *b = *a < *b ? *a : *b;
                    moved = 1;
                }
            }
}

/* ---- all of it */
static void take_items(Drawer *d, File *f)
{
    int i, s;
    for (i = 0; i < d->files; i++)
        for (s = 0; s < 2 && !f[i].unread && !f[i].number; s++)
            if (f[i].present[s]) {
                Item *x = &d->items[d->n++];
                x->list = &f[i].list[s];
                x->file = i;
                d->sorted[i].lists++;
            }
}

int sort_files(Drawer *d, File *f, int n)
{
    int i;
    memset(d, 0, sizeof *d);
    d->files = n;
    d->sorted = calloc((size_t)n, sizeof *d->sorted);
    d->items = calloc((size_t)n * 2, sizeof *d->items);
    if (!d->sorted || !d->items)
        return complain("not enough memory");
    take_items(d, f);
    d->pairs = calloc((size_t)d->n * (size_t)d->n + 1, sizeof *d->pairs);
    if (!d->pairs)
        return complain("not enough memory");
    find_groups(d);
    ask_all(d);
    find_sets(d);
    find_sections(d);
    choose(d);
    find_keepers(d);
    for (i = 0; i < d->n; i++)
        d->items[i].nearest = nearest(d, i);
    return DONE;
}

void free_drawer(Drawer *d)
{
    free(d->sorted);
    free(d->items);
    free(d->pairs);
}
