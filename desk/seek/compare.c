/* compare: which files may be deleted, and which are to be kept? */
#include "desk.h"

#include <stdlib.h>
#include <string.h>

/* ---- sets of lists that cannot be merged with each other */
/* The number of a list's set in its group, from 1 on. */
static int set_number(const Drawer *d, int i)
{
    int j, n = 0;
    for (j = 0; j <= d->items[i].set; j++)
        n += d->items[j].group == d->items[i].group && d->items[j].set == j;
    return n;
}

static int sets_of(const Drawer *d, int group)
{
    int i, n = 0;
    for (i = 0; i < d->n; i++)
        n += d->items[i].group == group && d->items[i].set == i;
    return n;
}

int lists_of(const Drawer *d, int group)
{
    int i, n = 0;
    for (i = 0; i < d->n; i++)
        n += d->items[i].group == group;
    return n;
}

/* "Set 1: a, b" */
static void set_names(Text *t, const Drawer *d, int set)
{
    int i, n = 0;
    add(t, "Set %d: ", set_number(d, set));
    for (i = 0; i < d->n; i++)
        if (d->items[i].set == set)
            add(t, "%s%s", n++ ? ", " : "", d->items[i].list->name);
    add(t, ".");
}

/* "Set 2 and sets 3, 4 and 9", of those marked; with two lists their names. */
static void sets_named(Text *t, const Drawer *d, int set, const int *marked, const char *between)
{
    int i, n = 0, last = -1;
    if (lists_of(d, d->items[set].group) == 2) {
        for (i = 0; i < d->n && !marked[i];)
            i++;
        add(t, "%s%s%s", d->items[set].list->name, between, d->items[i].list->name);
        return;
    }
    for (i = 0; i < d->n; i++)
        if (marked[i]) {
            n++;
            last = i;
        }
    add(t, "Set %d%s%s ", set_number(d, set), between, n > 1 ? "sets" : "set");
    for (n = 0, i = 0; i < d->n; i++)
        if (marked[i])
            add(t, "%s%d", !n++ ? "" : i == last ? " and " : ", ", set_number(d, i));
}

/* What is said of two sets: that they agree, or why they cannot be merged. */
static void said_of(Text *t, const Drawer *d, int a, int b)
{
    uint32_t number = beside(d, a, b)->number;
    if (number)
        apart(t, d->items[a].list, d->items[b].list, number);
    else
        add(t, "agree");
}

/* Of the later sets of its group, those of which the same is said as of the first that is not yet marked done. */
static int said_alike(const Drawer *d, int set, int *done, int *marked, Text *t)
{
    int j, first = -1;
    for (j = set + 1; j < d->n; j++) {
        Text u = {0};
        marked[j] = 0;
        if (d->items[j].group != d->items[set].group || d->items[j].set != j || done[j])
            continue;
        said_of(&u, d, set, j);
        if (first < 0) {
            first = j;
            add(t, "%s", text_of(&u));
        }
        marked[j] = done[j] = !strcmp(text_of(&u), text_of(t));
        free_text(&u);
    }
    return first >= 0;
}

static void set_beside_others(const Drawer *d, int set, int *done, int *marked, void (*line)(const char *text))
{
    memset(done, 0, (size_t)d->n * sizeof *done);
    for (;;) {
        Text t = {0}, u = {0};
        memset(marked, 0, (size_t)d->n * sizeof *marked);
        if (!said_alike(d, set, done, marked, &t))
            return;
        sets_named(&u, d, set, marked, " and ");
        add(&u, " %s.", text_of(&t));
        line(text_of(&u));
        free_text(&t);
        free_text(&u);
    }
}

/* Is a pair of the group's lists refused with this number? */
static int refused_with(const Drawer *d, int group, uint32_t number)
{
    int i, j;
    for (i = 0; i < d->n; i++)
        for (j = 0; j < i && d->items[i].group == group; j++)
            if (d->items[j].group == group && beside(d, i, j)->number == number)
                return 1;
    return 0;
}

static void what_to_do(const Drawer *d, int group, uint32_t number, void (*line)(const char *text))
{
    Text t = {0};
    if (refused_with(d, group, number)) {
        add(&t, "(%u) %s", number, advice(number));
        line(text_of(&t));
    }
    free_text(&t);
}

static void each_set(const Drawer *d, int group, void (*line)(const char *text))
{
    int i;
    for (i = 0; i < d->n && lists_of(d, group) > 2; i++)
        if (d->items[i].group == group && d->items[i].set == i) {
            Text t = {0};
            set_names(&t, d, i);
            line(text_of(&t));
            free_text(&t);
        }
}

/* Each line on what keeps the lists of a group apart: which lists agree with each other, then each set beside the later ones, then what to do. */
void each_apart(const Drawer *d, int group, void (*line)(const char *text))
{
    int *done = sets_of(d, group) > 1 ? calloc((size_t)d->n * 2, sizeof *done) : NULL, i;
    if (!done)
        return;
    each_set(d, group, line);
    for (i = 0; i < d->n; i++)
        if (d->items[i].group == group && d->items[i].set == i)
            set_beside_others(d, i, done, done + d->n, line);
    what_to_do(d, group, SEEK_NO_MERGE_IDS, line);
    what_to_do(d, group, SEEK_NO_MERGE_CHECKPOINTS, line);
    free(done);
}

/* ---- text */
static int indent;

static void line_of(const char *text) { say(indent, indent + 2, "%s", text); }

static void file_words(const Drawer *d, const File *f, int file)
{
    int n;
    for (n = 0;; n++) {
        Text t = {0};
        int there = verdict(&t, d, &f[file], file, n);
        if (there)
            say(n ? indent + 2 : indent, n ? indent + 4 : indent + 2, "%s", text_of(&t));
        free_text(&t);
        if (!there)
            return;
    }
}

int files_of(const Drawer *d, int section)
{
    int f, n = 0;
    for (f = 0; f < d->files; f++)
        n += d->sorted[f].section == section && d->sorted[f].lists > 0;
    return n;
}

/* Is this the first list of a group of the section, of this slot? */
int is_group(const Drawer *d, int i, int section, int slot)
{
    return d->items[i].group == i && d->items[i].list->area.slot == slot && d->sorted[d->items[i].file].section == section;
}

/* The areas of a section, each with what keeps its lists apart. */
static void section_areas(const Drawer *d, int section, int titled)
{
    int i, slot;
    for (slot = 0; slot < 2; slot++)
        for (i = 0; i < d->n; i++) {
            Text t = {0};
            if (!is_group(d, i, section, slot))
                continue;
            area_title(&t, d, i);
            if (titled)
                say(0, 2, "%s: %s", text_of(&t), counted((uint64_t)lists_of(d, i), "list", "lists"));
            free_text(&t);
            each_apart(d, i, line_of);
        }
}

static void section_words(const Drawer *d, const File *f, int section, int titled)
{
    int file, kept;
    indent = titled ? 2 : 0;
    section_areas(d, section, titled);
    for (kept = 1; kept >= 0; kept--)
        for (file = 0; file < d->files; file++)
            if (d->sorted[file].section == section && d->sorted[file].lists && d->sorted[file].kept == kept)
                file_words(d, f, file);
}

/* ---- JSON */
static void json_or_null(const char *key, const char *name)
{
    fputc(',', opt.told);
    if (name)
        json_name(key, name);
    else
        fprintf(opt.told, "\"%s\":null", key);
}

static void item_json(const Drawer *d, int i)
{
    const Item *x = &d->items[i];
    fputc('{', opt.told);
    json_name("file", x->list->file);
    json_number("slot", x->list->area.slot);
    json_number("refused", 0);
    json_number("group", (uint64_t)x->group + 1);
    json_number("set", (uint64_t)set_number(d, i));
    json_or_null("covered_by", x->keeper >= 0 ? d->items[x->keeper].list->file : NULL);
    json_or_null("beside", x->keeper < 0 && x->nearest >= 0 ? d->items[x->nearest].list->file : NULL);
    if (x->keeper < 0 && x->nearest >= 0)
        beside_json(&beside(d, x->nearest, i)->more);
    json_time("frontier_time", 1, frontier_frame(x->list));
    json_time("end_time", end_frame(d, i) != 0, end_frame(d, i));
    fputs("}\n", opt.told);
}

/* Two sets of a group that cannot be merged. */
static void pair_json(const Drawer *d, int a, int b)
{
    const List *x = d->items[a].list;
    uint32_t number = beside(d, a, b)->number;
    int j = differ_at(x, d->items[b].list);
    if (!number)
        return;
    fprintf(opt.told, "{\"group\":%d,\"set\":%d,\"other_set\":%d", d->items[a].group + 1, set_number(d, a), set_number(d, b));
    json_number("refused", number);
    fputc(',', opt.told);
    json_name("meaning", seek_text(number));
    if (number == SEEK_NO_MERGE_CHECKPOINTS && j >= 0) {
        json_number("checkpoint", (uint64_t)j);
        json_number("sector", x->area.start + (uint64_t)j * seek_interval(&x->list));
        json_time("time", 1, threshold_at(x, (uint64_t)j));
    }
    fputs("}\n", opt.told);
}

static void drawer_json(const Drawer *d, const File *f)
{
    int i, j;
    for (i = 0; i < d->n; i++)
        item_json(d, i);
    for (i = 0; i < d->n; i++)
        for (j = 0; j < i; j++)
            if (d->items[i].group == d->items[j].group && d->items[i].set == i && d->items[j].set == j)
                pair_json(d, j, i);
    for (i = 0; i < d->files; i++)
        if (d->sorted[i].lists) {
            fputc('{', opt.told);
            json_name("file", f[i].name);
            json_number("refused", 0);
            fprintf(opt.told, ",\"verdict\":\"%s\",\"may_be_deleted\":%s}\n", d->sorted[i].kept ? "keep" : "delete", truth(!d->sorted[i].kept));
        }
}

/* ---- the command */
/* Opens all; a file that cannot be read or is refused has its line, and so has one that is given twice. The status of the worst. */
int open_drawer(File *f, char **names, int n)
{
    int i, j, status = DONE;
    for (i = 0; i < n; i++) {
        int one = open_file(&f[i], names[i]);
        for (j = 0; j < i && one == DONE; j++)
            if (!f[j].unread && same_file(&f[i].bytes.known, &f[j].bytes.known)) {
                one = complain("%s and %s are the same file; it is taken once", shown(names[j]), shown(names[i]));
                f[i].unread = 1;
            }
        if (one == DONE && f[i].number)
            one = refused_file(&f[i]);
        status = one > status ? one : status;
    }
    return status;
}

static int sections(const Drawer *d)
{
    int f, n = 0;
    for (f = 0; f < d->files; f++)
        n += d->sorted[f].section == f && d->sorted[f].lists > 0;
    return n;
}

/* Of two files: may the second be deleted? Of more: is one file kept in each section? */
static int answer(const Drawer *d)
{
    int f, kept = 0;
    if (d->files == 2)
        return d->sorted[1].lists && !d->sorted[1].kept ? DONE : REFUSED;
    for (f = 0; f < d->files; f++)
        kept += d->sorted[f].lists && d->sorted[f].kept;
    return kept == sections(d) ? DONE : REFUSED;
}

/* "8 files: 5 may be deleted, 3 are to be kept; 1 more was not sorted." */
void summary(Text *t, const Drawer *d)
{
    int f, gone = 0, right = 0;
    for (f = 0; f < d->files; f++) {
        right += d->sorted[f].lists > 0;
        gone += d->sorted[f].lists && !d->sorted[f].kept;
    }
    add(t, "%s: %d may be deleted, %d %s to be kept", counted((uint64_t)right, "file", "files"), gone, right - gone,
        plural((uint64_t)(right - gone), "is", "are"));
    if (right < d->files)
        add(t, "; %d more %s not sorted", d->files - right, plural((uint64_t)(d->files - right), "was", "were"));
    add(t, ".");
}

static void drawer_words(const Drawer *d, const File *f)
{
    int s, any = 0, titled = d->files > 2 || sections(d) > 1;
    Text t = {0};
    for (s = 0; s < d->files; s++)
        if (files_of(d, s) > 0) {
            section_words(d, f, s, titled);
            any = 1;
        }
    summary(&t, d);
    if (titled && any)
        say(0, 2, "%s", text_of(&t));
    free_text(&t);
}

int compare(char **names, int n)
{
    File *f = calloc((size_t)n, sizeof *f);
    Drawer d;
    int status, sorted;
    if (!f)
        return complain("not enough memory");
    status = open_drawer(f, names, n);
    sorted = sort_files(&d, f, n);
    if (sorted == DONE) {
        if (opt.json)
            drawer_json(&d, f);
        else
            drawer_words(&d, f);
        sorted = answer(&d);
    }
    free_drawer(&d);
    close_files(f, n);
    return sorted > status ? sorted : status;
}
