/* check: is each file right? */
#include "desk.h"

/* How many files are right, refused and not readable. */
typedef struct {
    int right, refused, unread;
} Tally;

static void right_text(const File *f)
{
    const List *l = &f->list[f->present[0] ? 0 : 1];
    if (f->present[0] && f->present[1])
        say(0, 2, "%s: right, a disc file of two lists", shown(f->name));
    else
        say(0, 2, "%s: right, %s, up to %s%s", shown(f->name), area_word(l->area.slot), clock_of(frontier_frame(l)),
            seek_is_complete(&l->list) ? ", the end" : "");
}

static const char *reason(const File *f)
{
    static const char *lengths[] = {NULL, "the file was cut", "a newline lies behind it", "something lies behind it"};
    if (f->bytes.foreign)
        return f->bytes.kind ? f->bytes.kind : "neither a list file nor a disc file";
    return f->length ? lengths[f->length] : f->number == SEEK_NO_DISC ? "its contents table breaks the rules" : seek_text(f->number);
}

static void refused_line(const File *f) { say(0, 2, "%s: refused (%u): %s", f->at ? f->at->name : shown(f->name), f->number, reason(f)); }

static void check_json(const File *f)
{
    fputc('{', opt.told);
    json_name("file", f->name);
    json_number("refused", f->number);
    fprintf(opt.told, ",\"verdict\":\"%s\"", f->number ? "refused" : "right");
    if (f->number) {
        fputc(',', opt.told);
        json_name("meaning", seek_text(f->number));
    }
    fputs("}\n", opt.told);
}

static void check_one(const char *name, Tally *t)
{
    File f;
    if (open_file(&f, name) != DONE) {
        t->unread++;
        return;
    }
    t->right += f.number == 0;
    t->refused += f.number != 0;
    if (opt.json)
        check_json(&f);
    else if (f.number)
        refused_line(&f);
    else
        right_text(&f);
    close_file(&f);
}

int check(char **names, int n)
{
    Tally t = {0, 0, 0};
    int i;
    for (i = 0; i < n; i++)
        check_one(names[i], &t);
    if (opt.json)
        fprintf(opt.told, "{\"files\":%d,\"right_files\":%d,\"refused_files\":%d,\"unread_files\":%d}\n", n, t.right, t.refused, t.unread);
    else if (t.refused || t.unread)
        say(0, 2, "%s: %d right, %d refused, %d not readable.", counted((uint64_t)n, "file", "files"), t.right, t.refused, t.unread);
    else
        say(0, 2, "%s: all right.", counted((uint64_t)n, "file", "files"));
    return t.unread ? USAGE : t.refused ? REFUSED : DONE;
}
