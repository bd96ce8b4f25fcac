/* coarse: of a list the list that the same reading would have given at a wider interval, a multiple of its own. */
#include "desk.h"

#include <stdlib.h>

static int cannot_coarsen(const List *fine, uint32_t number)
{
    List l = *fine;
    l.number = number;
    if (opt.json || number != SEEK_NO_COARSE_INTERVAL)
        return refused_list(&l);
    say(0, 2, "%s cannot be made coarser (%u): %s, which is %s.", fine->name, number, seek_text(number), grouped(seek_interval(&fine->list)));
    return REFUSED;
}

static int coarsen_list(const List *fine)
{
    Output out = {NULL, NULL, 0};
    List wide;
    int status = coarse_list(&wide, fine, (uint32_t)opt.interval);
    out.name = opt.out;
    if (status == DONE && wide.number)
        status = cannot_coarsen(fine, wide.number);
    if (status == DONE)
        status = save_list(&wide, &out);
    if (status == DONE)
        status = write_files(&out, 1);
    if (status == DONE)
        written(out.name, &wide, 0);
    free(wide.memory);
    free(out.bytes);
    return status;
}

static int coarsen_file(File *f)
{
    int status;
    if (f->number)
        return refused_file(f);
    if (f->present[0] && f->present[1])
        return complain("%s: this disc file has two lists; --slot says which", shown(f->name));
    status = may_write(opt.out, f, 1, "this file is the one to read");
    return status == DONE ? coarsen_list(only_list(f)) : status;
}

int coarse(char **names, int n)
{
    File f;
    int status = n == 1 ? open_file(&f, names[0]) : USAGE;
    if (status == DONE) {
        status = coarsen_file(&f);
        close_file(&f);
    }
    if (status != DONE)
        complain("nothing was written");
    return status;
}
