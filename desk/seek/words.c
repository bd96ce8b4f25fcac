/* The sentences on sorted lists, for compare and report. */
#include "desk.h"

#include <string.h>

/* ---- times */
/* The frame at the end of a list's area, where it or a list that can be merged with it is complete; 0 where that is not known. */
uint64_t end_frame(const Drawer *d, int i)
{
    int j;
    for (j = 0; j < d->n; j++)
        if (d->items[j].group == d->items[i].group && seek_is_complete(&d->items[j].list->list) && !beside(d, i, j)->number)
            return seek_end_threshold(&d->items[j].list->list);
    return 0;
}

/* "04:33 of 09:05", "09:05, the end", or "04:33". */
void up_to(Text *t, const Drawer *d, int i)
{
    const List *l = d->items[i].list;
    uint64_t end = end_frame(d, i);
    add(t, "%s", clock_of(frontier_frame(l)));
    if (seek_is_complete(&l->list))
        add(t, ", the end");
    else if (end)
        add(t, " of %s", clock_of(end));
}

/* ---- why a list is kept, or may go */
/* Do two files hold the same, list for list? */
static int twins(const Drawer *d, int file, int other)
{
    int i, j, n = 0;
    for (i = 0; i < d->n; i++)
        for (j = 0; j < d->n; j++)
            n += d->items[i].file == file && d->items[j].file == other && same(d, i, j);
    return n == d->sorted[file].lists && n == d->sorted[other].lists;
}

/* List j holds the same as list i. */
static void the_same(Text *t, const Drawer *d, int i, int j)
{
    add(t, "%s holds the same%s", d->items[j].list->name, twins(d, d->items[i].file, d->items[j].file) ? "; either may go while the other is kept" : "");
}

/* What the kept list j says for list i, which it covers. */
static void covered(Text *t, const Drawer *d, int i, int j, const char *subject)
{
    const List *own = d->items[j].list, *other = d->items[i].list;
    const seek_lacking *l = &beside(d, j, i)->more;
    if (!same(d, i, j)) {
        add(t, "%s holds all that %s holds", own->name, subject);
        if (l->budget || l->most) {
            add(t, ", with less room: %s has ", subject);
            room(t, other, own);
        }
    } else if (roomier(own, other)) {
        add(t, "%s holds the same and has ", own->name);
        room(t, own, other);
    } else
        the_same(t, d, i, j);
}

/* How many lists there are beside list i in its group, with how many it can be merged, and how many it covers. */
static void count_others(const Drawer *d, int i, int *others, int *merged, int *below)
{
    int j;
    *others = *merged = *below = 0;
    for (j = 0; j < d->n; j++)
        if (j != i && d->items[j].group == d->items[i].group) {
            ++*others;
            *merged += !beside(d, i, j)->number;
            *below += covers(d, i, j);
        }
}

static void kept_beside(Text *t, const Drawer *d, int i)
{
    int j = d->items[i].nearest;
    const List *own = d->items[i].list, *other = d->items[j].list;
    if (!covers(d, j, i)) {
        add(t, "beside %s it holds ", other->name);
        holds(t, own, &beside(d, j, i)->more, end_frame(d, i));
    } else if (roomier(own, other)) {
        add(t, "%s holds the same and has less room; this one has ", other->name);
        room(t, own, other);
    } else
        the_same(t, d, i, j);
}

static int same_area(const seek_area *a, const seek_area *b)
{
    return a->slot == b->slot && a->channels == b->channels && a->key_start == b->key_start && a->key_end == b->key_end && a->sectors == b->sectors
           && a->start == b->start && a->end == b->end;
}

/* Is there a list of the same area with another interval? */
static int other_interval(const Drawer *d, int i)
{
    int j;
    for (j = 0; j < d->n; j++)
        if (d->items[j].group != d->items[i].group && same_area(&d->items[i].list->area, &d->items[j].list->area))
            return 1;
    return 0;
}

/* Which command makes two lists of one area alike, where the interval of one is a multiple of the other's. */
int made_alike(Text *t, const List *a, const List *b)
{
    uint64_t k = seek_interval(&a->list), w = seek_interval(&b->list), fine = k < w ? k : w, wide = k < w ? w : k;
    if (!same_area(&a->area, &b->area) || k == w || wide % fine != 0)
        return 0;
    add(t, "seek coarse --interval %" PRIu64 " -o OUT FILE makes of a list of interval %s one of interval %s", wide, grouped(fine), grouped(wide));
    return 1;
}

/* The first list of the area that can be made alike with list i, or i with it. */
static void alike(Text *t, const Drawer *d, int i)
{
    int j;
    Text u = {0};
    for (j = 0; j < d->n && !made_alike(&u, d->items[i].list, d->items[j].list);)
        j++;
    if (j < d->n)
        add(t, "; %s", text_of(&u));
    free_text(&u);
}

/* subject: the file, or "this list" where a file has two. */
void why(Text *t, const Drawer *d, int i, const char *subject)
{
    int others, merged, below;
    count_others(d, i, &others, &merged, &below);
    if (d->items[i].keeper >= 0)
        covered(t, d, i, d->items[i].keeper, subject);
    else if (!others && other_interval(d, i)) {
        add(t, "the other lists of this area have another interval and cannot be merged with it (41)");
        alike(t, d, i);
    } else if (!others)
        add(t, "no other of these files is of this area");
    else if (!merged)
        add(t, "no other of these files can be merged with it");
    else if (d->items[i].nearest >= 0)
        kept_beside(t, d, i);
    else if (below == merged)
        add(t, "it holds all that the other %d hold", below);
    else
        add(t, "no other of these files holds all that it holds");
}

/* The verdict on a file, then, where it has two lists, a line for each. line: the n-th of them; 0 where there is none. */
int verdict(Text *t, const Drawer *d, const File *f, int file, int line)
{
    const char *name = shown(f->name);
    int i, at = 0, two = d->sorted[file].lists > 1;
    if (line == 0)
        add(t, d->sorted[file].kept ? "Keep %s:" : "%s may be deleted:", name);
    if (line == 0 && two)
        return 1;
    for (i = 0; i < d->n; i++) {
        if (d->items[i].file != file || (two && ++at != line))
            continue;
        if (two)
            add(t, "%s: ", area_word(d->items[i].list->area.slot));
        else if (line)
            return 0;
        else
            add(t, " ");
        why(t, d, i, two ? "this list" : name);
        add(t, ".");
        return 1;
    }
    return 0;
}

/* ---- an area, and what keeps its lists apart */
void area_title(Text *t, const Drawer *d, int i)
{
    const List *l = d->items[i].list;
    uint64_t end = end_frame(d, i);
    add(t, "%s area, sectors %s to %s of an image of %s", l->area.slot ? "Multichannel" : "Two-channel", grouped(l->area.start), grouped(l->area.end),
        grouped(l->area.sectors));
    if (end)
        add(t, ", %s long", clock_of(end));
    add(t, ", a checkpoint every %s", counted(seek_interval(&l->list), "sector", "sectors"));
}

/* The first common checkpoint in which two lists differ; -1 where none does. */
int differ_at(const List *a, const List *b)
{
    uint64_t n = seek_checkpoint_count(&a->list), m = seek_checkpoint_count(&b->list), j;
    for (j = 0; j < n && j < m; j++)
        if (memcmp(a->list.checkpoints.at + 24 * j, b->list.checkpoints.at + 24 * j, 24))
            return (int)j;
    return -1;
}

/* Why two lists cannot be merged, and from where on they differ. */
void apart(Text *t, const List *a, const List *b, uint32_t number)
{
    int j = differ_at(a, b);
    add(t, "cannot be merged (%u): ", number);
    if (number != SEEK_NO_MERGE_CHECKPOINTS)
        add(t, "%s", seek_text(number));
    else if (j < 0)
        add(t, "they agree about every checkpoint and differ about the end of the area (%s and %s)", clock_of(seek_end_threshold(&a->list)),
            clock_of(seek_end_threshold(&b->list)));
    else
        add(t, "they differ from checkpoint %s on, sector %s (%s)", grouped((uint64_t)j), grouped(a->area.start + (uint64_t)j * seek_interval(&a->list)),
            clock_of(threshold_at(a, (uint64_t)j)));
}
