/* show: what each file holds. */
#include "desk.h"

#include <stdlib.h>

/* ---- one list */
static unsigned version(const List *l) { return l->bytes[8]; }

static void area_json(const List *in)
{
    json_number("slot", in->area.slot);
    json_number("key_start", in->area.key_start);
    json_number("key_end", in->area.key_end);
    json_number("channels", in->area.channels);
    json_number("image_sectors", in->area.sectors);
    json_number("start", in->area.start);
    json_number("end", in->area.end);
}

static void reading_json(const List *in)
{
    const seek_list *l = &in->list;
    json_number("checkpoints", seek_checkpoint_count(l));
    json_number("boundaries", in->boundaries);
    json_number("coverage", coverage(in));
    fprintf(opt.told, ",\"complete\":%s", truth(seek_is_complete(l)));
    json_number("frontier", frontier(in));
    json_time("frontier_time", 1, frontier_frame(in));
    if (seek_is_complete(l))
        json_number("end_threshold", seek_end_threshold(l));
    else
        fputs(",\"end_threshold\":null", opt.told);
    json_time("end_time", seek_is_complete(l), seek_end_threshold(l));
}

static void show_json(const List *in)
{
    const seek_list *l = &in->list;
    fputc('{', opt.told);
    json_name("file", in->file);
    fprintf(opt.told, "%s,\"refused\":0,\"verdict\":\"right\"", in->in_disc ? ",\"disc\":true" : "");
    area_json(in);
    json_number("version", version(in));
    json_number("length", in->length);
    json_number("interval", seek_interval(l));
    json_number("budget", seek_budget(l));
    reading_json(in);
    json_number("parts", seek_part_count(l));
    json_number("held_bytes", held_bytes(in));
    json_number("malformed", malformed_counted(in));
    json_number("malformed_listed", seek_malformed_count(l));
    json_number("hints", seek_hint_count(l));
    json_number("hint_limit", seek_hint_limit(l));
    json_number("hint_spacing", seek_spacing(l));
    if (seek_has_fingerprint(l))
        fprintf(opt.told, ",\"fingerprint\":\"%016" PRIx64 "\"", seek_fingerprint_value(l));
    else
        fputs(",\"fingerprint\":null", opt.told);
    json_number("confirmations", seek_confirmation_count(l));
    fputs("}\n", opt.told);
}

static void line(const char *what, const char *text) { say(2, 17, "%-14s %s", what, text); }

static void show_area(const List *in)
{
    Text t = {0};
    add(&t, "%s (slot %u), key %s to %s, %s, image of %s", area_word(in->area.slot), in->area.slot, grouped(in->area.key_start), grouped(in->area.key_end),
        counted(in->area.channels, "channel", "channels"), counted(in->area.sectors, "sector", "sectors"));
    line("area", kept_text(&t));
    t = (Text){0};
    add(&t, "sectors %s to %s (end excluded)", grouped(in->area.start), grouped(in->area.end));
    if (seek_is_complete(&in->list))
        add(&t, ", %s long", clock_of(seek_end_threshold(&in->list)));
    line("range", kept_text(&t));
    t = (Text){0};
    add(&t, "version %u, %s bytes, a checkpoint every %s", version(in), grouped(in->length), counted(seek_interval(&in->list), "sector", "sectors"));
    line("file", kept_text(&t));
}

static void show_checkpoints(const List *in)
{
    const seek_list *l = &in->list;
    uint64_t c = coverage(in), malformed = malformed_counted(in);
    Text t = {0};
    add(&t, "%s of %s (%" PRIu64 ".%02" PRIu64 " %%), up to %s", grouped(seek_checkpoint_count(l)), grouped(in->boundaries), c / 100, c % 100,
        clock_of(frontier_frame(in)));
    if (seek_is_complete(l))
        add(&t, ", the end of the %s area", area_word(in->area.slot));
    else
        add(&t, " (sector %s), not to the end of the %s area", grouped(frontier(in)), area_word(in->area.slot));
    line("checkpoints", kept_text(&t));
    t = (Text){0};
    add(&t, "%s, %s bytes of at most %s", grouped(seek_part_count(l)), grouped(held_bytes(in)), grouped(seek_budget(l)));
    line("held parts", kept_text(&t));
    t = (Text){0};
    add(&t, "%s", counted(malformed, "sector", "sectors"));
    if (seek_malformed_count(l) < malformed)
        add(&t, ", the first %s listed", grouped(seek_malformed_count(l)));
    line("malformed", kept_text(&t));
}

static void show_text(const List *in)
{
    const seek_list *l = &in->list;
    Text t = {0};
    say(0, 0, "%s", in->name);
    show_area(in);
    show_checkpoints(in);
    add(&t, "%s of at most %s", grouped(seek_hint_count(l)), grouped(seek_hint_limit(l)));
    line("hints", kept_text(&t));
    t = (Text){0};
    if (seek_has_fingerprint(l))
        add(&t, "%016" PRIx64 ", %s", seek_fingerprint_value(l), counted(seek_confirmation_count(l), "confirmation", "confirmations"));
    else
        add(&t, "none");
    line("fingerprint", kept_text(&t));
}

/* A list of a file: loaded with it, or of a refused disc file by itself. */
static int show_list(const File *f, List *l)
{
    if (l->number) {
        refused_list(l);
        right_lists(f);
        return REFUSED;
    }
    if (opt.json)
        show_json(l);
    else
        show_text(l);
    return DONE;
}

static int show_file(File *f)
{
    int s, status = DONE;
    if (f->unread)
        return USAGE;
    if (f->number && !(f->disc && f->at))
        return refused_file(f);
    if (f->disc && !opt.json)
        say(0, 2, "%s: a disc file of %s, %s bytes", shown(f->name), f->present[0] && f->present[1] ? "two lists" : "one list", grouped(f->bytes.length));
    for (s = 0; s < 2; s++)
        if (f->present[s]) {
            int one = show_list(f, &f->list[s]);
            status = one > status ? one : status;
        }
    return status;
}

/* ---- several files: a table, and bars under it */
typedef struct {
    const File *file;
    const List *list;      /* NULL: the file is refused, or could not be read */
} Row;

/* The rows of all files: one for each list, one for each file that is refused or could not be read. */
static int rows_of(File *f, int n, Row *rows)
{
    int i, s, r = 0;
    for (i = 0; i < n; i++) {
        if (f[i].unread || (f[i].number && !(f[i].disc && f[i].at)))
            rows[r++] = (Row){&f[i], NULL};
        else
            for (s = 0; s < 2; s++)
                if (f[i].present[s])
                    rows[r++] = (Row){&f[i], &f[i].list[s]};
    }
    return r;
}

/* The frame at the end of a list's area, where one of the lists shown is complete and can be merged with it; 0 where none is. */
static uint64_t end_known(const Row *rows, int n, const List *l)
{
    int i;
    for (i = 0; i < n; i++) {
        const List *k = rows[i].list;
        if (k && !k->number && seek_is_complete(&k->list) && !ask_beside(k, l).number)
            return seek_end_threshold(&k->list);
    }
    return 0;
}

/* "04:33 of 09:05", "09:05, the end", or "04:33" */
static const char *reach(const Row *rows, int n, const List *l)
{
    uint64_t end = end_known(rows, n, l);
    Text t = {0};
    add(&t, "%s", clock_of(frontier_frame(l)));
    if (seek_is_complete(&l->list))
        add(&t, ", the end");
    else if (end)
        add(&t, " of %s", clock_of(end));
    return kept_text(&t);
}

/* On a narrow terminal the columns of area, parts and hints are left out. */
static int is_narrow(void) { return width() < 74; }

static void table_line(const char *area, const char *reached, const char *parts, const char *hints)
{
    if (is_narrow())
        fprintf(opt.told, "%-14s  ", reached);
    else
        fprintf(opt.told, "%-12s  %-14s  %6s  %6s  ", area, reached, parts, hints);
}

static void table_row(const Row *rows, int n, int i, int name)
{
    const File *f = rows[i].file;
    const List *l = rows[i].list;
    uint32_t number = l ? l->number : f->number;
    const char *cell = fitted(shown(f->name), name);
    fprintf(opt.told, "%s%*s  ", cell, name - columns(cell), "");
    if (f->unread || number) {
        table_line(l ? area_word(l->area.slot) : "", "", "", "");
        fprintf(opt.told, f->unread ? "not readable\n" : "refused (%u)\n", number);
    } else {
        table_line(area_word(l->area.slot), reach(rows, n, l), grouped(seek_part_count(&l->list)), grouped(seek_hint_count(&l->list)));
        fputs("right\n", opt.told);
    }
}

/* The widest of the rows' names, and at least so many columns. */
static int widest(const Row *rows, int n, int least)
{
    int i;
    for (i = 0; i < n; i++) {
        int w = columns(shown(rows[i].file->name));
        least = w > least ? w : least;
    }
    return least;
}

static void show_table(const Row *rows, int n)
{
    int i, name = widest(rows, n, 4), most = width() - (is_narrow() ? 30 : 60);
    if (name > most)
        name = most > 12 ? most : 12;
    fprintf(opt.told, "%-*s  ", name, "file");
    table_line("area", "up to", "parts", "hints");
    fputs("verdict\n", opt.told);
    for (i = 0; i < n; i++)
        table_row(rows, n, i, name);
}

static void draw(const List *l, int bar)
{
    uint64_t width = l->area.end - l->area.start, read = (uint64_t)bar * (frontier(l) - l->area.start), i;
    fputs("  [", opt.told);
    for (i = 0; i < (uint64_t)bar; i++)
        fputc(seek_is_complete(&l->list) || (i + 1) * width <= read ? '#' : i * width < read ? '-' : '.', opt.told);
    fputs("]  ", opt.told);
}

static void show_bars(const Row *rows, int n)
{
    int i, drawn = 0, room = width() - 6, name = 0, bar;
    for (i = 0; i < n; i++)
        if (rows[i].list && !rows[i].list->number && columns(rows[i].list->name) > name)
            name = columns(rows[i].list->name);
    if (name > room - 24)
        name = room - 24;
    bar = room - name > 60 ? 60 : room - name;
    for (i = 0; i < n; i++) {
        const List *l = rows[i].list;
        if (!l || l->number)
            continue;
        if (!drawn++) {
            fputc('\n', opt.told);
            say(0, 0, "What was read (#; - in part), from the area's start to its end:");
        }
        draw(l, bar);
        fprintf(opt.told, "%s\n", fitted(l->name, name));
    }
}

/* Lists of refused disc files that are right by themselves are loaded too. */
static int load_right(File *f)
{
    int s, status = DONE;
    for (s = 0; s < 2 && status == DONE; s++)
        if (f->disc && f->at && f->present[s] && !f->list[s].number)
            status = load_list(&f->list[s]);
    return status;
}

static int show_files(File *f, int n, Row *rows)
{
    int i, r = rows_of(f, n, rows), status = DONE, table = n > 1 && r > 0 && !opt.json;
    if (table) {
        show_table(rows, r);
        show_bars(rows, r);
        fputc('\n', opt.told);
    }
    for (i = 0; i < n; i++) {
        int one = show_file(&f[i]);
        status = one > status ? one : status;
    }
    if (!table && !opt.json)
        show_bars(rows, r);
    return status;
}

int show(char **names, int n)
{
    File *f = calloc((size_t)n, sizeof *f);
    Row *rows = calloc((size_t)n * 2, sizeof *rows);
    int i, status = f && rows ? DONE : complain("not enough memory");
    for (i = 0; i < n && status == DONE; i++) {
        (void)open_file(&f[i], names[i]);
        if (!f[i].unread && f[i].number)
            status = load_right(&f[i]);
    }
    if (status == DONE)
        status = show_files(f, n, rows);
    free(rows);
    if (f)
        close_files(f, n);
    return status;
}
