/* view: what a listener or the workshop sees of a list. All that is printed is read from the view's bytes. */
#include "desk.h"

#include <stdlib.h>

enum { MARKS = 12 };          /* the most times on a page's axis */

/* Where the reading of a view ends: the area's end, else the last checkpoint, else the area's start. */
static uint64_t read_up_to(const seek_viewed *v)
{
    seek_area a = seek_view_area(v);
    uint32_t lsn, threshold;
    if (seek_view_is_complete(v))
        return a.end;
    return v->checkpoints && seek_view_checkpoint_at(v, v->checkpoints - 1, &lsn, &threshold) ? lsn : a.start;
}

static const char *role_word(uint32_t role) { return role == SEEK_LISTENER ? "listener" : "workshop"; }

/* ---- as text */
static void row(const char *what, const char *text) { say(2, 17, "%-14s %s", what, text); }

static void say_area(const seek_viewed *v)
{
    seek_area a = seek_view_area(v);
    Text t = {0};
    add(&t, "%s (slot %u), key %s to %s, %s, image of %s", area_word(a.slot), a.slot, grouped(a.key_start), grouped(a.key_end),
        counted(a.channels, "channel", "channels"), counted(a.sectors, "sector", "sectors"));
    row("area", kept_text(&t));
    t = (Text){0};
    add(&t, "sectors %s to %s (end excluded)", grouped(a.start), grouped(a.end));
    row("range", kept_text(&t));
    row("interval", counted(seek_view_interval(v), "sector", "sectors"));
    row("complete", seek_view_is_complete(v) ? "yes" : "no");
}

static void say_checkpoints(const seek_viewed *v)
{
    uint64_t j, digest;
    uint32_t lsn, threshold, back;
    row("checkpoints", grouped(v->checkpoints));
    for (j = 0; seek_view_checkpoint_at(v, j, &lsn, &threshold); j++)
        if (seek_view_back_at(v, j, &back, &digest))
            say(4, 6, "%" PRIu64 ": sector %" PRIu32 ", threshold %" PRIu32 " (%s), back %" PRIu32 ", digest %016" PRIx64, j, lsn, threshold, clock_of(threshold),
                back, digest);
        else
            say(4, 6, "%" PRIu64 ": sector %" PRIu32 ", threshold %" PRIu32 " (%s)", j, lsn, threshold, clock_of(threshold));
}

static void say_workshop(const seek_viewed *v)
{
    uint64_t i, fingerprint;
    uint32_t a, b;
    int kept;
    seek_confirmation c;
    Text t = {0};
    row("malformed", counted(v->malformed, "sector", "sectors"));
    for (i = 0; seek_view_malformed_at(v, i, &a); i++)
        say(4, 6, "sector %" PRIu32, a);
    row("held parts", grouped(v->parts));
    for (i = 0; seek_view_held_at(v, i, &a, &b); i++)
        say(4, 6, "checkpoint %" PRIu32 ": %s", a, counted(b, "byte", "bytes"));
    row("hints", grouped(v->hints));
    for (i = 0; seek_view_hint_at(v, i, &a, &b, &kept); i++)
        say(4, 6, "sector %" PRIu32 ": frame %" PRIu32 "%s", a, b, kept ? ", kept" : "");
    if (seek_view_fingerprint(v, &fingerprint))
        add(&t, "%016" PRIx64, fingerprint);
    else
        add(&t, "none");
    row("fingerprint", kept_text(&t));
    row("confirmations", grouped(v->confirmations));
    for (i = 0; seek_view_confirmation_at(v, i, &c); i++)
        say(4, 6, "sector %" PRIu32 ": threshold %" PRIu32 ", digest %016" PRIx64, c.lsn, c.threshold, c.digest);
}

static void say_view(const char *name, const seek_viewed *v)
{
    say(0, 0, "%s, as a %s sees it", name, role_word(v->role));
    say_area(v);
    say_checkpoints(v);
    if (v->role == SEEK_WORKSHOP)
        say_workshop(v);
}

/* ---- as JSON */
static void view_json(const List *l, const seek_viewed *v)
{
    seek_area a = seek_view_area(v);
    uint64_t j;
    uint32_t lsn, threshold;
    fputc('{', opt.told);
    json_name("file", l->file);
    json_name("role", role_word(v->role));
    json_number("slot", a.slot);
    json_number("channels", a.channels);
    json_number("key_start", a.key_start);
    json_number("key_end", a.key_end);
    json_number("image_sectors", a.sectors);
    json_number("start", a.start);
    json_number("end", a.end);
    json_number("interval", seek_view_interval(v));
    fprintf(opt.told, ",\"complete\":%s,\"checkpoints\":[", truth(seek_view_is_complete(v)));
    for (j = 0; seek_view_checkpoint_at(v, j, &lsn, &threshold); j++)
        fprintf(opt.told, "%s[%" PRIu32 ",%" PRIu32 "]", j ? "," : "", lsn, threshold);
    fputs("]", opt.told);
    if (v->role == SEEK_WORKSHOP) {
        json_number("malformed", v->malformed);
        json_number("parts", v->parts);
        json_number("hints", v->hints);
        json_number("confirmations", v->confirmations);
    }
    fputs("}\n", opt.told);
}

/* ---- as the page that a screen shows */
static double place(const seek_area *a, uint64_t lsn) { return LEFT + (a->end > a->start ? (double)WIDE * (double)(lsn - a->start) / (double)(a->end - a->start) : 0); }

static void draw_view(const seek_viewed *v)
{
    seek_area a = seek_view_area(v);
    uint64_t j, step = v->checkpoints / MARKS + 1, end = read_up_to(v);
    uint32_t lsn, threshold;
    add(&page, "<svg viewBox=\"0 0 1000 54\" role=\"img\" aria-label=\"What was read, over the area's sectors\">\n");
    add(&page, "<rect class=\"area\" x=\"%d\" y=\"2\" width=\"%d\" height=\"16\"/>\n", LEFT, WIDE);
    add(&page, "<rect class=\"read\" x=\"%d\" y=\"2\" width=\"%.1f\" height=\"16\"/>\n", LEFT, place(&a, end) - LEFT);
    if (seek_view_is_complete(v))
        add(&page, "<rect class=\"end\" x=\"%.1f\" y=\"0\" width=\"4\" height=\"20\"/>\n", place(&a, a.end) - 4);
    add(&page, "<path class=\"axis\" d=\"M%d 26h%d\"/>\n", LEFT, WIDE);
    for (j = 0; seek_view_checkpoint_at(v, j, &lsn, &threshold); j += step)
        add(&page, "<path class=\"axis\" d=\"M%.1f 26v5\"/><text class=\"time\" x=\"%.1f\" y=\"44\">%s</text>\n", place(&a, lsn), place(&a, lsn), clock_of(threshold));
    add(&page, "</svg>\n");
}

static void view_page(const seek_viewed *v)
{
    seek_area a = seek_view_area(v);
    uint32_t lsn = 0, threshold = 0;
    Text t = {0};
    page_head("Seek list");
    add(&t, "The %s area, sectors %s to %s, a checkpoint every %s.", area_word(a.slot), grouped(a.start), grouped(a.end),
        counted(seek_view_interval(v), "sector", "sectors"));
    paragraph(text_of(&t));
    free_text(&t);
    if (v->checkpoints)
        (void)seek_view_checkpoint_at(v, v->checkpoints - 1, &lsn, &threshold);
    add(&t, "%s, the last at %s; %s.", counted(v->checkpoints, "checkpoint", "checkpoints"), clock_of(threshold),
        seek_view_is_complete(v) ? "read to the end of the area" : "not read to the end of the area");
    paragraph(text_of(&t));
    free_text(&t);
    add(&page, "<p class=\"key\">");
    page_key("read", "M0 0h14v14h-14z", "was read");
    page_key("area", "M0 0h14v14h-14z", "was not read");
    page_key("end", "M5 0h4v14h-4z", "end of the area");
    add(&page, "</p>\n");
    draw_view(v);
}

/* ---- the command */
static int make_view(const List *l, Output *out)
{
    uint64_t n = seek_view_length(opt.role, &l->list);
    if (seek_refused(n))
        return refused(l->name, (uint32_t)n);
    out->bytes = calloc(1, (size_t)n);
    if (!out->bytes)
        return complain("not enough memory");
    n = seek_view(opt.role, &l->list, out->bytes, n);
    out->length = (size_t)n;
    return seek_refused(n) ? refused(l->name, (uint32_t)n) : DONE;
}

static int give_view(const List *l, const Output *out)
{
    seek_viewed v;
    int status = seek_view_read(&v, out->bytes, out->length) ? DONE : complain("%s: its view cannot be read back", l->name);
    if (status == DONE && opt.html) {
        view_page(&v);
        status = write_page(opt.out);
    } else if (status == DONE && opt.out)
        status = write_files(out, 1);
    if (status != DONE)
        return status;
    if (opt.out && !opt.json)
        say(0, 2, "%s: %s of %s, as a %s sees it.", to_output(opt.out) ? "standard output" : shown(opt.out), opt.html ? "a page" : "the view", l->name,
            role_word(v.role));
    else if (opt.json)
        view_json(l, &v);
    else
        say_view(l->name, &v);
    return DONE;
}

static int view_file(File *f)
{
    Output out = {NULL, NULL, 0};
    int status;
    if (f->number)
        return refused_file(f);
    if (f->present[0] && f->present[1])
        return complain("%s: this disc file has two lists; --slot says which", shown(f->name));
    out.name = opt.out;
    status = opt.out ? may_write(opt.out, f, 1, "this file is the one to read") : DONE;
    if (status == DONE)
        status = make_view(only_list(f), &out);
    if (status == DONE)
        status = give_view(only_list(f), &out);
    free(out.bytes);
    free_text(&page);
    return status;
}

int view(char **names, int n)
{
    File f;
    int status;
    if (opt.html && !opt.out)
        return complain("--html needs -o PAGE");
    status = n == 1 ? open_file(&f, names[0]) : USAGE;
    if (status == DONE) {
        status = view_file(&f);
        close_file(&f);
    }
    return status;
}
