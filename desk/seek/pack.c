/* pack: one list or both into a disc file. unpack: each list of a disc file into a list file. */
#include "desk.h"

#include <stdlib.h>
#include <string.h>

/* ---- pack */
/* Two lists of one slot, or too long ones. */
static int cannot_pack(const File *f, int n, uint32_t number)
{
    int one_slot = n == 2 && f[0].present[0] == f[1].present[0];
    if (opt.json || !one_slot)
        return refused(opt.out, number);
    say(0, 2, "%s and %s cannot be packed (%u): %s. Both are %s lists: seek merge makes one list of them; or give the list of the other area.",
        shown(f[0].name), shown(f[1].name), number, seek_text(number), area_word(f[0].present[1]));
    return REFUSED;
}

/* What was packed. */
static void packed(const List *l)
{
    if (opt.json) {
        fputc('{', opt.told);
        json_name("packed", l->file);
        fputc(',', opt.told);
        json_name("into", opt.out);
        json_number("slot", l->area.slot);
        json_number("image_sectors", l->area.sectors);
        fputs("}\n", opt.told);
    } else
        say(0, 2, "%s is the %s list, of an image of %s sectors.", l->name, area_word(l->area.slot), grouped(l->area.sectors));
}

static int pack_lists(File *f, int n, Output *out)
{
    List *l = only_list(&f[0]), *other = n == 2 ? only_list(&f[1]) : NULL;
    uint32_t number = 0;
    int i, s, status = save_disc(l, other, out, &number);
    if (number)
        cannot_pack(f, n, number);
    if (status == DONE)
        status = write_files(out, 1);
    for (i = 0; i < n && status == DONE; i++)
        packed(only_list(&f[i]));
    if (status == DONE && !opt.json && other && l->area.sectors != other->area.sectors)
        say(0, 2, "These are two images: ask the school whether both lists are of one disc.");
    for (s = 0; s < 2 && status == DONE; s++)
        for (i = 0; i < n; i++)
            if (f[i].present[s])
                written(out->name, &f[i].list[s], 1);
    return status;
}

/* pack takes list files, and two lists are of two areas. */
static int may_pack(const File *f, int n)
{
    int i;
    if (opt.ranged && n > 1)
        return complain("--range is for one list, and two are to be packed");
    for (i = 0; i < n; i++)
        if (f[i].disc)
            return complain("%s: this is a disc file already; seek merge joins it with others, and --slot takes one of its lists", shown(f[i].name));
    return DONE;
}

int pack(char **names, int n)
{
    File *f = calloc((size_t)n, sizeof *f);
    Output out = {NULL, NULL, 0};
    int status;
    if (!f)
        return complain("not enough memory");
    out.name = opt.out;
    status = open_files(f, names, n);
    if (status == DONE)
        status = may_pack(f, n);
    if (status == DONE)
        status = given_twice(f, n);
    if (status == DONE)
        status = may_write(opt.out, f, n, "this file is one of those to pack");
    if (status == DONE)
        status = pack_lists(f, n, &out);
    if (status != DONE)
        complain("nothing was written");
    free(out.bytes);
    close_files(f, n);
    return status;
}

/* ---- unpack */
/* The name of the list file of a slot: -o, or the disc file's name without its ending, with the area's word. */
static char *list_name(const char *disc, int s)
{
    const char *base = strrchr(disc, '/'), *end;
    size_t l = strlen(opt.out ? opt.out : disc);
    Text t = {0};
    base = base ? base + 1 : disc;
    end = strrchr(base, '.');
    if (!opt.out && end && end > base)
        l = (size_t)(end - disc);
    if (opt.out && to_output(opt.out))
        add(&t, "-");
    else
        add(&t, "%.*s-%s.sbx", (int)l, opt.out ? opt.out : disc, area_word(s));
    return t.at;
}

/* The list files of a disc file's lists, by slot, not yet written. */
typedef struct {
    int n;
    char *name[2];
    const List *list[2];
    Output out[2];
} Lists;

static int save_one(const File *f, int s, Lists *to)
{
    int i = to->n++, status;
    to->list[i] = &f->list[s];
    to->out[i].name = to->name[i] = list_name(f->name, s);
    status = may_write(to->name[i], f, 1, "this is the disc file itself");
    return status == DONE ? save_list(to->list[i], &to->out[i]) : status;
}

static int unpack_lists(const File *f)
{
    Lists to;
    int s, i, status = DONE;
    memset(&to, 0, sizeof to);
    for (s = 0; s < 2 && status == DONE; s++)
        if (f->present[s])
            status = save_one(f, s, &to);
    if (status == DONE)
        status = write_files(to.out, to.n);
    for (i = 0; i < to.n; i++) {
        if (status == DONE)
            written(to.name[i], to.list[i], opt.json);
        free(to.out[i].bytes);
        free(to.name[i]);
    }
    return status;
}

static int unpack_file(File *f)
{
    if (f->number)
        return refused_file(f);
    if (!only_list(f)->in_disc)
        return complain("%s: this is a list file, not a disc file", shown(f->name));
    if (opt.out && to_output(opt.out) && f->present[0] && f->present[1])
        return complain("%s: two lists do not go to standard output; --slot says which", shown(f->name));
    if (!opt.out && !strcmp(f->name, "-"))
        return complain("-o says what the names of the list files begin with, since standard input has no name");
    return unpack_lists(f);
}

int unpack(char **names, int n)
{
    File f;
    int status = n == 1 ? open_file(&f, names[0]) : USAGE;
    if (status == DONE) {
        status = unpack_file(&f);
        close_file(&f);
    }
    if (status != DONE)
        complain("nothing was written");
    return status;
}
