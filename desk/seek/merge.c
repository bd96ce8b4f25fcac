/* merge: list files into a list file; where a disc file is among them, slot by slot into a disc file: all of them or none. Afterwards each input is asked what
 * the merged list lacks of it. */
#include "desk.h"

#include <stdlib.h>
#include <string.h>

/* The merged list of a slot, in memory of its own, and the list file that is made of it. */
typedef struct {
    int there;
    List own, written;
    Output file;
} Merged;

/* A file's list of a slot, NULL where it has none; with slot -1 the list of a list file. */
static List *list_of(File *f, int slot) { return slot < 0 ? only_list(f) : f->present[slot] ? &f->list[slot] : NULL; }

/* ---- the list to begin with */
/* Does a merge into a lose less than one into b? The larger M, then the larger budget, then more held parts. */
static int loses_less(const List *a, const List *b)
{
    if (roomier(a, b) || roomier(b, a))
        return roomier(a, b);
    return seek_part_count(&a->list) > seek_part_count(&b->list);
}

static List *to_begin_with(File *f, int n, int slot)
{
    List *begin = NULL;
    int i;
    for (i = 0; i < n; i++) {
        List *l = list_of(&f[i], slot);
        if (l && (!begin || loses_less(l, begin)))
            begin = l;
    }
    return begin;
}

/* The list to begin with, then those to take in, in the order given: where it is not the first, it is taken in again at its place, so that of two frame numbers
 * of a sector that of the list given later stays. */
static List **lists_to_merge(File *f, int n, int slot, int *count)
{
    List **all = calloc((size_t)n + 1, sizeof *all), *first = NULL;
    int i;
    *count = 0;
    if (!all)
        return NULL;
    all[0] = to_begin_with(f, n, slot);
    for (i = 0; i < n; i++) {
        List *l = list_of(&f[i], slot);
        first = first ? first : l;
        if (l && (l != first || l != all[0]))
            all[++*count] = l;
    }
    return all;
}

/* Confirmations are merged only where the disc's fingerprint was stated, and no file keeps that mark: the fingerprint that the lists hold is stated, as by a
 * player with the disc. */
static uint32_t state_fingerprint(List *own, List *const *all, int n)
{
    int i;
    for (i = 0; i <= n; i++)
        if (seek_has_fingerprint(&all[i]->list))
            return seek_fingerprint(&own->list, seek_fingerprint_value(&all[i]->list));
    return 0;
}

static void begun_with(const List *begin, const List *first)
{
    Text t = {0};
    if (opt.json || begin == first)
        return;
    if (roomier(begin, first)) {
        add(&t, "has ");
        room(&t, begin, first);
    } else
        add(&t, "has more held parts");
    say(0, 2, "The merge begins with %s, which %s.", begin->name, text_of(&t));
    free_text(&t);
}

/* A list that is merged, in memory of its own: at first the one to begin with. */
static int begin(List *own, List *const *all, int n)
{
    int status = copy_list(own, all[0]);
    if (status != DONE)
        return status;
    own->number = state_fingerprint(own, all, n);
    return own->number ? refused_list(own) : DONE;
}

/* ---- all of them, or none */
static int told_beside(const List *l, const List *beside, uint32_t number)
{
    refused_json(l->file, l->in_disc ? l->area.slot : -1, beside->file, number);
    return REFUSED;
}

/* A file of the set is refused under the area of the list that the merge began with: each is asked again. */
static int cannot_load(List *const *all, int n, uint32_t number)
{
    seek_table_sizes sizes;
    int i = 1;
    while (i < n && seek_file_sizes(&all[0]->area, all[i]->bytes, all[i]->length, UINT64_MAX, &sizes) != number)
        i++;
    if (opt.json)
        return told_beside(all[i], all[0], number);
    say(0, 2, "%s is refused beside %s (%u): %s. %s", all[i]->name, all[0]->name, number, seek_text(number), advice(number));
    return REFUSED;
}

/* Two lists cannot be merged: each pair is asked again, by the earlier list, then by the later. */
static int cannot_join(List *const *all, int n, uint32_t number)
{
    Text t = {0}, u = {0};
    int i = 0, j = 1;
    while (i < n && ask_beside(all[i], all[j]).number != number) {
        if (++j > n)
            j = ++i + 1;
    }
    if (j > n)
        i = 0, j = 1;
    if (opt.json)
        return told_beside(all[j], all[i], number);
    add(&t, "%s and %s ", all[i]->name, all[j]->name);
    apart(&t, all[i], all[j], number);
    add(&t, ". %s", advice(number));
    if (number == SEEK_NO_MERGE_AREA && made_alike(&u, all[i], all[j]))
        add(&t, " Or merge them at the wider interval: %s.", text_of(&u));
    say(0, 2, "%s", text_of(&t));
    free_text(&t);
    free_text(&u);
    return REFUSED;
}

/* Takes in the lists behind the first, in sets of 16. */
static int take_in(List *own, List *const *all, int n)
{
    int i, status = DONE;
    for (i = 0; i < n && status == DONE; i += SEEK_MOST_FILES) {
        uint32_t number = 0;
        status = merge_set(own, all + 1 + i, n - i < SEEK_MOST_FILES ? n - i : SEEK_MOST_FILES, &number);
        if (number)
            status = number < SEEK_NO_MERGE_AREA ? cannot_load(all, n, number) : cannot_join(all, n, number);
    }
    return status;
}

/* ---- what each brought */
/* What of a list was lacking before and is not afterwards. */
static seek_lacking taken(const seek_lacking *before, const seek_lacking *after)
{
    seek_lacking l = {0};
    l.checkpoints = before->checkpoints - after->checkpoints;
    l.end_state = before->end_state - after->end_state;
    l.parts = before->parts - after->parts;
    l.malformed = before->malformed > after->malformed ? before->malformed - after->malformed : 0;
    l.hints = before->hints > after->hints ? before->hints - after->hints : 0;
    l.confirmations = before->confirmations > after->confirmations ? before->confirmations - after->confirmations : 0;
    l.fingerprint = before->fingerprint - after->fingerprint;
    return l;
}

/* again: the list that the merge began with. */
static void tell_one(List *own, const List *other, int again)
{
    Beside before = ask_beside(own, other), after;
    seek_lacking l;
    Text t = {0};
    if (before.number || seek_merge(SEEK_WORKSHOP, &own->list, &other->list))
        return;
    after = ask_beside(own, other);
    l = taken(&before.more, &after.more);
    if (!again || all_of(&l)) {
        add(&t, again ? "%s, taken in again at its place, brought " : "%s brought ", other->name);
        if (all_of(&l))
            holds(&t, other, &l, 0);
        else
            add(&t, "nothing new");
        say(0, 2, "%s.", text_of(&t));
    }
    free_text(&t);
}

/* What each list of an accepted set brings to those before it, told by a second list that takes in one after the other. */
static int tell_brought(List *const *all, int n)
{
    List own = {0};
    int i, status = begin(&own, all, n);
    for (i = 1; i <= n && status == DONE; i++)
        tell_one(&own, all[i], all[i] == all[0]);
    free(own.memory);
    return status;
}

/* Merges the files' lists of a slot, with slot -1 the lists of list files. */
static int merge_lists(File *f, int n, int slot, Merged *m)
{
    int count, i = 0, status = DONE;
    List **all = lists_to_merge(f, n, slot, &count);
    if (!all)
        return complain("not enough memory");
    m->there = all[0] != NULL;
    if (m->there) {
        while (!list_of(&f[i], slot))
            i++;
        begun_with(all[0], list_of(&f[i], slot));
        status = begin(&m->own, all, count);
        if (status == DONE)
            status = take_in(&m->own, all, count);
        if (status == DONE && !opt.json)
            status = tell_brought(all, count);
    }
    free(all);
    return status;
}

/* The merged list as its file will be read. */
static int read_back(Merged *m)
{
    int status;
    m->file.name = opt.out;
    status = save_list(&m->own, &m->file);
    if (status != DONE)
        return status;
    m->written = m->own;
    m->written.memory = NULL;
    m->written.in_disc = 0;
    m->written.bytes = m->file.bytes;
    m->written.length = m->file.length;
    status = load_list(&m->written);
    return status == DONE && m->written.number ? refused_list(&m->written) : status;
}

/* ---- what was not taken */
static void lacking_json(const List *l, const Beside *b)
{
    fputc('{', opt.told);
    json_name("file", l->file);
    json_number("slot", l->area.slot);
    json_number("refused", 0);
    fprintf(opt.told, ",\"taken\":%s", truth(b->covered));
    beside_json(&b->more);
    fputs("}\n", opt.told);
}

static void lacking_words(Text *t, const List *l, const Beside *b)
{
    if (b->covered)
        add(t, "%s holds all that it holds", shown(opt.out));
    else {
        add(t, "%s has not taken ", shown(opt.out));
        holds(t, l, &b->more, 0);
    }
}

/* One file: may it be deleted once the merged file is kept? */
static int tell_file(File *f, const Merged *merged, int discs)
{
    Beside b[2];
    int s, all = 1, two = f->present[0] && f->present[1];
    memset(b, 0, sizeof b);
    for (s = 0; s < 2; s++)
        if (f->present[s]) {
            b[s] = ask_beside(&merged[discs ? s : 0].written, &f->list[s]);
            all &= b[s].covered;
            if (opt.json)
                lacking_json(&f->list[s], &b[s]);
        }
    if (opt.json)
        return all;
    if (two)
        say(0, 2, all ? "%s may be deleted once %s is kept:" : "Keep %s beside %s:", shown(f->name), shown(opt.out));
    for (s = 0; s < 2; s++)
        if (f->present[s]) {
            Text t = {0};
            lacking_words(&t, &f->list[s], &b[s]);
            if (two)
                say(2, 4, "%s: %s.", area_word(s), text_of(&t));
            else
                say(0, 2, all ? "%s may be deleted once %s is kept: %s." : "Keep %s beside %s: %s.", shown(f->name), shown(opt.out), text_of(&t));
            free_text(&t);
        }
    return all;
}

static void tell_json(const File *f, int all)
{
    fputc('{', opt.told);
    json_name("file", f->name);
    json_number("refused", 0);
    fprintf(opt.told, ",\"verdict\":\"%s\",\"may_be_deleted\":%s}\n", all ? "delete" : "keep", truth(all));
}

static int tell_all(File *f, int n, const Merged *merged, int discs)
{
    int i, status = DONE;
    for (i = 0; i < n; i++) {
        int all = tell_file(&f[i], merged, discs);
        if (opt.json)
            tell_json(&f[i], all);
        if (!all)
            status = REFUSED;
    }
    return status;
}

/* ---- the command */
static int save_merged(Merged *m, int discs, Output *out)
{
    uint32_t number = 0;
    int status;
    if (!discs)
        return save_list(&m[0].own, out);
    status = save_disc(m[0].there ? &m[0].own : &m[1].own, m[0].there && m[1].there ? &m[1].own : NULL, out, &number);
    if (number)
        refused(out->name, number);
    return status;
}

/* All slots merged, written and read back in memory; not yet a file. */
static int merge_all(File *f, int n, int discs, Merged *m, Output *out)
{
    int s, status = DONE;
    for (s = 0; s < (discs ? 2 : 1) && status == DONE; s++)
        status = merge_lists(f, n, discs ? s : -1, &m[s]);
    for (s = 0; s < 2 && status == DONE; s++)
        if (m[s].there)
            status = read_back(&m[s]);
    return status == DONE ? save_merged(m, discs, out) : status;
}

static int merge_files(File *f, int n)
{
    Merged m[2];
    Output out = {NULL, NULL, 0};
    int s, discs = any_disc(f, n), status, lost = DONE;
    memset(m, 0, sizeof m);
    out.name = opt.out;
    status = merge_all(f, n, discs, m, &out);
    if (status == DONE)
        lost = tell_all(f, n, m, discs);
    if (lost != DONE && !opt.partial) {
        complain("not all was taken; --partial writes %s all the same", shown(opt.out));
        status = lost;
    }
    if (status == DONE)
        status = write_files(&out, 1);
    for (s = 0; s < 2; s++) {
        if (status == DONE && m[s].there)
            written(out.name, &m[s].own, discs);
        free(m[s].own.memory);
        free(m[s].written.memory);
        free(m[s].file.bytes);
    }
    free(out.bytes);
    if (status != DONE)
        complain("nothing was written");
    return status != DONE ? status : lost;
}

int merge(char **names, int n)
{
    File *f = calloc((size_t)n, sizeof *f);
    int status;
    if (!f)
        return complain("not enough memory");
    status = open_files(f, names, n);
    if (status == DONE)
        status = may_write(opt.out, f, n, "this file is one of those to merge");
    if (status == DONE)
        status = merge_files(f, n);
    else
        complain("nothing was written");
    close_files(f, n);
    return status;
}
