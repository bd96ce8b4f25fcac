/* Files and their lists: told apart by their first bytes, loaded. */
#include "desk.h"

#include <stdlib.h>
#include <string.h>

/* ---- a list */
/* The area that a list is loaded under: the one that its file tells, or that of --area, with the range of --range. A list in a disc file is of the slot that the
 * contents table says, and is held to --area where that names an area of this slot. */
static uint32_t area_of(List *l)
{
    uint8_t slot = l->area.slot;
    uint32_t number = seek_file_area(l->bytes, l->length, &l->area);
    if (l->in_disc)
        l->area.slot = slot;
    if (number)
        return number;
    if (l->area.slot < 2 && opt.known[l->area.slot])
        l->area = opt.wanted[l->area.slot];
    else if (!l->in_disc && (opt.known[0] || opt.known[1]))
        l->area = opt.wanted[opt.known[0] ? 0 : 1];
    if (opt.ranged) {
        l->area.start = opt.start;
        l->area.end = opt.end;
    }
    return 0;
}

/* The sizes of a list's tables, or its refusal. Where slot or range are those of no area (1), the questions up to 29, which do
 * not ask for the range, come first: a damaged file is told as such. */
static uint32_t sizes_of(List *l, seek_table_sizes *sizes)
{
    uint32_t number = area_of(l);
    if (number)
        return number;
    number = seek_file_sizes(&l->area, l->bytes, l->length, UINT64_MAX, sizes);
    if (number == SEEK_NO_AREA) {
        seek_area other = l->area;
        uint32_t sooner;
        other.slot = other.slot ? 1 : 0;
        other.start = other.end = 0;
        sooner = seek_file_sizes(&other, l->bytes, l->length, UINT64_MAX, sizes);
        if (sooner >= SEEK_NO_FILE_SHORT && sooner <= SEEK_NO_FILE_BUDGET)
            return sooner;
    }
    return number;
}

/* Memory of its own for a list's tables. */
static int make_tables(List *l, const seek_table_sizes *sizes)
{
    uint64_t total = seek_total(sizes);
    l->boundaries = sizes->checkpoints / 24;
    l->memory = total <= SIZE_MAX ? calloc(1, total ? (size_t)total : 1) : NULL;
    if (!l->memory)
        return complain("%s: not enough memory, its tables take %s bytes", l->name, grouped(total));
    seek_carve(&l->list, sizes, l->memory, total);
    return DONE;
}

int load_list(List *l)
{
    seek_table_sizes sizes;
    l->number = sizes_of(l, &sizes);
    if (l->number)
        return DONE;
    if (make_tables(l, &sizes) != DONE)
        return USAGE;
    l->number = seek_load(SEEK_WORKSHOP, &l->list, &l->area, l->bytes, l->length, UINT64_MAX);
    return DONE;
}

/* The same list once more, in memory of its own. */
int copy_list(List *to, const List *from)
{
    *to = *from;
    to->memory = NULL;
    return load_list(to);
}

/* The list at a wider interval, in memory of its own; its number is the refusal. */
int coarse_list(List *to, const List *from, uint32_t interval)
{
    static const seek_table_sizes none = {0, 0, 0, 0, 0, 0, 0};
    seek_table_sizes sizes;
    *to = *from;
    to->memory = NULL;
    /* an interval that has no sizes is refused by the call */
    if (seek_sizes(&from->area, interval, seek_budget(&from->list), (uint32_t)seek_hint_limit(&from->list), &sizes))
        sizes = none;
    if (make_tables(to, &sizes) != DONE)
        return USAGE;
    to->number = seek_coarse(&from->list, interval, &to->list);
    return DONE;
}

/* At most 16 list files merged into a list, all of them or none; number is the refusal. */
int merge_set(List *own, List *const *lists, int n, uint32_t *number)
{
    uint64_t lengths[SEEK_MOST_FILES];
    size_t total = 0;
    seek_table_sizes sizes;
    List work = {0};
    uint8_t *files;
    int i, status;
    for (i = 0; i < n; i++)
        total += lists[i]->length;
    files = malloc(total);
    if (!files)
        return complain("not enough memory, the files have %s bytes", grouped(total));
    for (i = 0, total = 0; i < n; i++) {
        memcpy(files + total, lists[i]->bytes, lists[i]->length);
        lengths[i] = lists[i]->length;
        total += lists[i]->length;
    }
    /* a file that has no sizes is refused by the call */
    (void)seek_set_sizes(&own->area, files, total, lengths, (size_t)n, UINT64_MAX, &sizes);
    work.name = own->name;
    status = make_tables(&work, &sizes);
    if (status == DONE)
        *number = seek_merge_all(SEEK_WORKSHOP, &own->list, files, total, lengths, (size_t)n, UINT64_MAX, &work.list);
    free(work.memory);
    free(files);
    return status;
}

/* The list's name as it is printed. */
static void name_list(File *f, int s, int in_disc)
{
    Text t = {0};
    List *l = &f->list[s];
    add(&t, in_disc ? "%s (%s)" : "%s", shown(f->name), area_word(s));
    free(f->names[s]);
    f->names[s] = t.at;
    l->file = f->name;
    l->name = f->names[s];
    l->in_disc = in_disc;
}

/* ---- a list file */
/* Is a list file that is refused for its sum right without its last bytes, a newline? */
static int newline_behind(const List *l)
{
    List shorter = *l;
    seek_table_sizes sizes;
    if (l->number != SEEK_NO_FILE_SUM || l->bytes[l->length - 1] != '\n')
        return 0;
    shorter.length -= l->bytes[l->length - 2] == '\r' ? 2 : 1;
    return sizes_of(&shorter, &sizes) == 0;
}

static int open_list(File *f)
{
    List l = {0};
    int s, status;
    l.name = shown(f->name);
    l.bytes = f->bytes.at;
    l.length = f->bytes.length;
    status = load_list(&l);
    s = !l.number && l.area.slot;
    if (status == DONE && !l.number && opt.slot >= 0 && s != opt.slot)
        status = complain("%s: this is a %s list (slot %d), and --slot asks for slot %d", shown(f->name), area_word(s), s, opt.slot);
    f->list[s] = l;
    f->length = newline_behind(&l) ? NEWLINE : 0;
    name_list(f, s, 0);
    f->number = l.number;
    f->present[s] = status == DONE && !l.number;
    f->at = l.number ? &f->list[s] : NULL;
    return status;
}

/* ---- a disc file */
static void find_list(File *f, int s, uint64_t offset, uint64_t length)
{
    List *l = &f->list[s];
    name_list(f, s, 1);
    f->present[s] = 1;
    l->area.slot = (uint8_t)s;
    l->bytes = f->bytes.at + offset;
    l->length = (size_t)length;
}

/* The disc file's list of the slot that --slot names, taken as a list file. */
static int take_slot(File *f)
{
    int status;
    if (!f->present[opt.slot])
        return complain("%s: this disc file has no %s list (slot %d)", shown(f->name), area_word(opt.slot), opt.slot);
    f->disc = f->present[!opt.slot] = 0;
    status = load_list(&f->list[opt.slot]);
    f->number = f->list[opt.slot].number;
    f->present[opt.slot] = status == DONE && !f->number;
    f->at = f->number ? &f->list[opt.slot] : NULL;
    return status;
}

/* A disc file whose contents table is refused: a list that lies whole where the table says can still be taken out, if it is right by itself. */
static int salvage(File *f)
{
    const uint8_t *table = f->bytes.at;
    uint64_t i, last = 0, n = f->bytes.length;
    seek_table_sizes sizes;
    f->disc = 1;
    for (i = 0; i < seek_bytes(table, 4) && 16 + 12 * i <= n; i++) {
        const uint8_t *entry = table + 4 + 12 * i;
        uint64_t s = seek_bytes(entry, 4), offset = seek_bytes(entry + 4, 4), length = seek_bytes(entry + 8, 4);
        last = offset + length > last ? offset + length : last;
        if (s > 1 || f->present[s] || offset + length > n)
            continue;
        find_list(f, (int)s, offset, length);
        f->list[s].number = sizes_of(&f->list[s], &sizes);
        f->present[s] = !f->list[s].number;
    }
    f->length = last > n ? CUT : last == n ? 0 : n - last <= 2 && table[n - 1] == '\n' ? NEWLINE : LONGER;
    return opt.slot >= 0 && f->present[opt.slot] ? take_slot(f) : DONE;
}

/* A refused disc file: the first list that is refused by itself, and its number. */
static void find_refused(File *f)
{
    seek_table_sizes sizes;
    int s;
    for (s = 1; s >= 0; s--) {
        List *l = &f->list[s];
        l->number = f->present[s] ? sizes_of(l, &sizes) : 0;
        if (l->number)
            f->at = l;
    }
    if (f->at)
        f->number = f->at->number;
}

static int load_disc(File *f)
{
    List *l = f->list;
    seek_table_sizes sizes[2];
    int s, loaded[2];
    for (s = 0; s < 2; s++)
        if (f->present[s])
            (void)area_of(&l[s]); /* where the area cannot be told, loading refuses the list with the same number */
    f->number = seek_disc_sizes(&l[0].area, &l[1].area, f->bytes.at, f->bytes.length, UINT64_MAX, &sizes[0], &sizes[1]);
    if (f->number) {
        find_refused(f);
        return DONE;
    }
    for (s = 0; s < 2; s++)
        if (f->present[s] && make_tables(&l[s], &sizes[s]) != DONE)
            return USAGE;
    f->number = seek_disc_load(SEEK_WORKSHOP, &l[0].list, &l[1].list, &l[0].area, &l[1].area, f->bytes.at, f->bytes.length, UINT64_MAX, loaded);
    return DONE;
}

static int open_disc(File *f)
{
    seek_contents c;
    int s;
    f->number = seek_disc_contents(f->bytes.at, f->bytes.length, &c);
    if (f->number)
        return salvage(f);
    f->disc = 1;
    for (s = 0; s < 2; s++) {
        f->list[s].area.slot = (uint8_t)s;
        if (c.present[s])
            find_list(f, s, c.offset[s], c.length[s]);
    }
    if (opt.slot >= 0)
        return take_slot(f);
    if (opt.ranged && f->present[0] && f->present[1])
        return complain("%s: --range is for one list, and this disc file has two; --slot says which", shown(f->name));
    return load_disc(f);
}

/* ---- files */
/* Fewer than 8 bytes are told as a list file that ends too early. */
static int is_list_file(const Bytes *b) { return b->length < 8 || memcmp(b->at, "SBSEEKIX", 8) == 0; }

int open_file(File *f, const char *name)
{
    int status;
    memset(f, 0, sizeof *f);
    f->name = name;
    status = read_bytes(name, &f->bytes);
    if (status == DONE && f->bytes.foreign)
        f->number = SEEK_NO_DISC;
    else if (status == DONE)
        status = is_list_file(&f->bytes) ? open_list(f) : open_disc(f);
    f->unread = status != DONE;
    if (status != DONE)
        close_file(f);
    return status;
}

void close_file(File *f)
{
    int s;
    for (s = 0; s < 2; s++) {
        free(f->list[s].memory);
        free(f->names[s]);
        f->list[s].memory = NULL;
        f->names[s] = NULL;
    }
    free(f->bytes.at);
    f->bytes.at = NULL;
}

/* Opens all; the status of the first that cannot be read or is refused. */
int open_files(File *f, char **names, int n)
{
    int i, status = DONE;
    for (i = 0; i < n; i++) {
        int s = open_file(&f[i], names[i]);
        if (s == DONE && f[i].number)
            s = refused_file(&f[i]);
        if (s > status)
            status = s;
    }
    return status;
}

void close_files(File *f, int n)
{
    int i;
    for (i = 0; i < n; i++)
        close_file(&f[i]);
    free(f);
}

/* The list of a list file. */
List *only_list(File *f) { return &f->list[f->present[0] ? 0 : 1]; }

int any_disc(const File *f, int n)
{
    int i, discs = 0;
    for (i = 0; i < n; i++)
        discs |= f[i].disc;
    return discs;
}

int same_file(const struct stat *a, const struct stat *b) { return a->st_dev == b->st_dev && a->st_ino == b->st_ino; }

/* A file that is given twice would be told that it may be deleted. */
int given_twice(const File *f, int n)
{
    int i, j;
    for (i = 0; i < n; i++)
        for (j = 0; j < i; j++)
            if (same_file(&f[i].bytes.known, &f[j].bytes.known))
                return complain("%s and %s are the same file", shown(f[j].name), shown(f[i].name));
    return DONE;
}
