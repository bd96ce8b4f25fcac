/* report: one HTML page with bars over time, tables, and the verdicts in compare's words. It needs nothing from elsewhere. */
#include "desk.h"

#include <stdlib.h>
#include <string.h>

enum { ROW = 54, BINS = 240 };

/* ---- times */
/* The frame at a sector: between the thresholds of the checkpoints around it. */
static uint64_t frame_at(const List *l, uint64_t lsn)
{
    uint64_t interval = seek_interval(&l->list), n = seek_checkpoint_count(&l->list), j, from, to;
    if (lsn < l->area.start || n == 0)
        return 0;
    j = (lsn - l->area.start) / interval;
    if (j >= n)
        return frontier_frame(l);
    from = threshold_at(l, j);
    to = j + 1 < n ? threshold_at(l, j + 1) : frontier_frame(l);
    return from + (to - from) * (lsn - l->area.start - j * interval) / interval;
}

static uint64_t last_hint(const List *l)
{
    uint64_t i;
    uint32_t lsn, number, most = 0;
    for (i = 0; seek_hint_at(&l->list, i, &lsn, &number); i++)
        most = number > most ? number : most;
    return most;
}

/* Where a list would end if it went on as it began. */
static uint64_t end_guessed(const List *l)
{
    uint64_t read = frontier(l) - l->area.start, frames = frontier_frame(l), hint = last_hint(l);
    uint64_t guess = read ? frames * (l->area.end - l->area.start) / read : 0;
    return guess > hint ? guess : hint;
}

/* The length of a group's axis, in frames: the known end; else, *known being 0, a guess. */
static uint64_t axis_of(const Drawer *d, int group, int *known)
{
    uint64_t most = 0;
    int i;
    *known = 0;
    for (i = 0; i < d->n; i++)
        if (d->items[i].group == group) {
            const List *l = d->items[i].list;
            uint64_t end = seek_is_complete(&l->list) ? seek_end_threshold(&l->list) : frontier_frame(l), hint = last_hint(l);
            *known |= seek_is_complete(&l->list);
            end = hint > end ? hint : end;
            most = end > most ? end : most;
        }
    for (i = 0; i < d->n && !*known; i++)
        if (d->items[i].group == group && end_guessed(d->items[i].list) > most)
            most = end_guessed(d->items[i].list);
    return most ? most : 75;
}

/* ---- a bar */
static double place(uint64_t frame, uint64_t axis) { return LEFT + (double)WIDE * (double)(frame < axis ? frame : axis) / (double)axis; }

static void mark_part(double x, int y) { add(&page, "<rect class=\"part\" x=\"%.1f\" y=\"%d\" width=\"2\" height=\"16\"/>\n", x, y); }

/* Held parts at their checkpoints, malformed sectors: one mark for each column. */
static void draw_parts(const List *l, uint64_t axis, int y)
{
    uint64_t i;
    double last = 0;
    seek_held part;
    for (i = 0; seek_held_at(&l->list, i, &part); i++) {
        double x = place(threshold_at(l, part.checkpoint), axis);
        if (x >= last + 1)
            mark_part(last = x, y);
    }
}

static void draw_malformed(const List *l, uint64_t axis, int y)
{
    uint64_t i;
    double last = 0;
    uint32_t lsn;
    for (i = 0; seek_malformed_at(&l->list, i, &lsn); i++) {
        double x = place(frame_at(l, lsn), axis);
        if (x >= last + 1)
            add(&page, "<path class=\"bad\" d=\"M%.1f %dl-4 -6h8z\"/>\n", last = x, y);
    }
}

/* Hints as a density: the more in a stretch, the darker. */
static void draw_hints(const List *l, uint64_t axis, int y)
{
    unsigned bins[BINS] = {0}, most = 1, b;
    uint64_t i;
    uint32_t lsn, number;
    for (i = 0; seek_hint_at(&l->list, i, &lsn, &number); i++) {
        b = number >= axis ? BINS - 1 : (unsigned)((uint64_t)number * BINS / axis);
        most = ++bins[b] > most ? bins[b] : most;
    }
    for (b = 0; b < BINS; b++)
        if (bins[b])
            add(&page, "<rect class=\"hint\" x=\"%.1f\" y=\"%d\" width=\"%.1f\" height=\"6\" fill-opacity=\"%.2f\"/>\n", LEFT + (double)WIDE * b / BINS, y,
                (double)WIDE / BINS, 0.2 + 0.8 * bins[b] / most);
}

static void draw_list(const Drawer *d, int i, uint64_t axis, int y)
{
    const List *l = d->items[i].list;
    Text t = {0};
    up_to(&t, d, i);
    add(&page, "<text x=\"%d\" y=\"%d\">", LEFT, y + 12);
    escape(l->name);
    add(&page, " <tspan class=\"small\">up to %s%s</tspan></text>\n", text_of(&t), d->sorted[d->items[i].file].kept ? "" : ", may be deleted");
    free_text(&t);
    add(&page, "<rect class=\"area\" x=\"%d\" y=\"%d\" width=\"%d\" height=\"16\"/>\n", LEFT, y + 24, WIDE);
    add(&page, "<rect class=\"read\" x=\"%d\" y=\"%d\" width=\"%.1f\" height=\"16\"/>\n", LEFT, y + 24, place(frontier_frame(l), axis) - LEFT);
    draw_parts(l, axis, y + 24);
    if (seek_is_complete(&l->list))
        add(&page, "<rect class=\"end\" x=\"%.1f\" y=\"%d\" width=\"4\" height=\"20\"/>\n", place(seek_end_threshold(&l->list), axis) - 4, y + 22);
    draw_hints(l, axis, y + 41);
    draw_malformed(l, axis, y + 24);
}

/* Marks on the axis: at most twelve, at full seconds or minutes. */
static uint64_t step_of(uint64_t axis)
{
    static const uint64_t seconds[] = {1, 2, 5, 10, 15, 30, 60, 120, 300, 600, 900, 1800, 3600};
    size_t i = 0;
    while (i + 1 < sizeof seconds / sizeof *seconds && axis / (75 * seconds[i]) > 12)
        i++;
    return 75 * seconds[i];
}

static void draw_axis(uint64_t axis, int y)
{
    uint64_t t, step = step_of(axis);
    add(&page, "<path class=\"axis\" d=\"M%d %dh%d\"/>\n", LEFT, y, WIDE);
    for (t = 0; t <= axis; t += step)
        add(&page, "<path class=\"axis\" d=\"M%.1f %dv5\"/><text class=\"time\" x=\"%.1f\" y=\"%d\">%s</text>\n", place(t, axis), y, place(t, axis), y + 18,
            clock_of(t));
}

static void draw_group(const Drawer *d, int group)
{
    int i, known, y = 0, rows = lists_of(d, group);
    uint64_t axis = axis_of(d, group, &known);
    add(&page, "<svg viewBox=\"0 0 1000 %d\" role=\"img\" aria-label=\"What each list has read, over time\">\n", rows * ROW + 30);
    for (i = 0; i < d->n; i++)
        if (d->items[i].group == group) {
            draw_list(d, i, axis, y);
            y += ROW;
        }
    draw_axis(axis, y + 6);
    add(&page, "</svg>\n");
    if (!known)
        paragraph("No list of this area runs to its end: the length of the axis is a guess.");
}

/* ---- the table */
static void cell(const char *text, int number)
{
    add(&page, number ? "<td class=\"n\">" : "<td>");
    escape(text);
    add(&page, "</td>");
}

static void table_row(const Drawer *d, int i)
{
    const List *l = d->items[i].list;
    Text t = {0};
    add(&page, "<tr>");
    cell(l->name, 0);
    up_to(&t, d, i);
    cell(text_of(&t), 0);
    free_text(&t);
    add(&t, "%s of %s", grouped(seek_checkpoint_count(&l->list)), grouped(l->boundaries));
    cell(text_of(&t), 1);
    free_text(&t);
    cell(grouped(seek_part_count(&l->list)), 1);
    cell(grouped(malformed_counted(l)), 1);
    cell(grouped(seek_hint_count(&l->list)), 1);
    cell(grouped(seek_confirmation_count(&l->list)), 1);
    cell(d->sorted[d->items[i].file].kept ? "keep" : "may be deleted", 0);
    add(&page, "</tr>\n");
}

static void table_of(const Drawer *d, int group)
{
    int i;
    add(&page, "<table>\n<tr><th>list</th><th>up to</th><th>checkpoints</th><th>held parts</th><th>malformed</th><th>hints</th><th>confirmations</th>"
               "<th>file</th></tr>\n");
    for (i = 0; i < d->n; i++)
        if (d->items[i].group == group)
            table_row(d, i);
    add(&page, "</table>\n");
}

/* ---- the page */
static void legend(void)
{
    add(&page, "<p class=\"key\">");
    page_key("read", "M0 0h14v14h-14z", "was read");
    page_key("area", "M0 0h14v14h-14z", "was not read");
    page_key("part", "M5 0h4v14h-4z", "held part");
    page_key("hint", "M0 4h14v6h-14z", "hints, the darker the more");
    page_key("bad", "M7 12l-6 -9h12z", "malformed sector");
    page_key("end", "M5 0h4v14h-4z", "end of the area");
    add(&page, "</p>\n");
}

static void verdict_of(const Drawer *d, const File *f, int file)
{
    int n;
    for (n = 0;; n++) {
        Text t = {0};
        int there = verdict(&t, d, &f[file], file, n);
        if (there && n == 0)
            add(&page, "<li>");
        if (there && n > 0)
            add(&page, "<br>");
        if (there)
            escape(text_of(&t));
        free_text(&t);
        if (!there)
            break;
    }
    add(&page, "</li>\n");
}

static void section_of(const Drawer *d, const File *f, int section)
{
    int i, slot, kept;
    add(&page, "<section>\n");
    for (slot = 0; slot < 2; slot++)
        for (i = 0; i < d->n; i++)
            if (is_group(d, i, section, slot)) {
                Text t = {0};
                area_title(&t, d, i);
                element("h2", text_of(&t));
                free_text(&t);
                draw_group(d, i);
                table_of(d, i);
                each_apart(d, i, paragraph);
            }
    add(&page, "<ul>\n");
    for (kept = 1; kept >= 0; kept--)
        for (i = 0; i < d->files; i++)
            if (d->sorted[i].section == section && d->sorted[i].lists && d->sorted[i].kept == kept)
                verdict_of(d, f, i);
    add(&page, "</ul>\n</section>\n");
}

/* Files that were refused or could not be read. */
static void others_of(const File *f, int n)
{
    int i, any = 0;
    for (i = 0; i < n; i++) {
        Text t = {0};
        if (!f[i].number && !f[i].unread)
            continue;
        if (!any++)
            add(&page, "<section>\n<h2>Files that are not sorted</h2>\n<ul>\n");
        if (f[i].unread)
            add(&t, "%s: it could not be read, or was given twice.", shown(f[i].name));
        else if (f[i].bytes.kind)
            add(&t, "%s: this is %s, no list file and no disc file (%u).", shown(f[i].name), f[i].bytes.kind, f[i].number);
        else
            add(&t, "%s: refused (%u): %s. %s", f[i].at ? f[i].at->name : shown(f[i].name), f[i].number, seek_text(f[i].number), advice(f[i].number));
        element("li", text_of(&t));
        free_text(&t);
    }
    if (any)
        add(&page, "</ul>\n</section>\n");
}

static int report_page(const Drawer *d, const File *f, int n)
{
    Text t = {0};
    int s;
    page_head("Seek lists");
    summary(&t, d);
    paragraph(text_of(&t));
    free_text(&t);
    legend();
    for (s = 0; s < n; s++)
        if (files_of(d, s) > 0)
            section_of(d, f, s);
    others_of(f, n);
    return write_page(opt.out);
}

static void told_page(int n)
{
    if (opt.json) {
        fputc('{', opt.told);
        json_name("written", opt.out);
        json_number("files", (uint64_t)n);
        fputs("}\n", opt.told);
    } else
        say(0, 2, "%s: a page on %s.", to_output(opt.out) ? "standard output" : shown(opt.out), counted((uint64_t)n, "file", "files"));
}

int report(char **names, int n)
{
    File *f = calloc((size_t)n, sizeof *f);
    Drawer d;
    int status, done;
    if (!f)
        return complain("not enough memory");
    status = open_drawer(f, names, n);
    done = sort_files(&d, f, n);
    if (done == DONE)
        done = may_write(opt.out, f, n, "this file is one of those to report on");
    if (done == DONE)
        done = report_page(&d, f, n);
    if (done != DONE)
        complain("nothing was written");
    else
        told_page(n);
    free_text(&page);
    free_drawer(&d);
    close_files(f, n);
    return done > status ? done : status;
}
