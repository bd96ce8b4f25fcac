/* hint: where a read for a range of frames begins, and where it ends. */
#include "desk.h"

static void hint_json(const List *l, const uint32_t *v, const seek_hinted *h)
{
    static const char *const chosen[] = {"", "confirmed", "nearest"}, *const ends[] = {"", "later_hint", "local_spacing", "average", "area_end"};
    fputc('{', opt.told);
    json_name("file", l->file);
    if (l->in_disc)
        json_number("slot", l->area.slot);
    json_number("refused", 0);
    json_number("first", v[0]);
    json_number("end", v[1]);
    json_number("playtime", v[2]);
    fprintf(opt.told, ",\"found\":%s", truth(h->found));
    if (h->found) {
        json_number("sector", h->lsn);
        json_number("frame", h->number);
        json_number("upper", h->upper);
        fprintf(opt.told, ",\"later\":%s,\"chosen\":\"%s\",\"end_by\":\"%s\"", truth(h->later), chosen[h->start], ends[h->end]);
    }
    fputs("}\n", opt.told);
}

static void hint_text(const uint32_t *v, const seek_hinted *h)
{
    static const char *const chosen[] = {"", "confirmed: a read from this hint was right before", "nearest: no hint in reach is confirmed"};
    static const char *const ends[] = {"", "a later hint gives the end", "the spacing of the hints there gives the end", "the area's average gives the end",
                                       "the read ends where the area ends"};
    if (!h->found) {
        say(0, 2, "%u to %u: no hint is near", v[0], v[1]);
        return;
    }
    say(0, 2, "%u to %u: from sector %s, frame %s, up to sector %s", v[0], v[1], grouped(h->lsn), grouped(h->number), grouped(h->upper));
    say(2, 4, "why: %s; %s", chosen[h->start], ends[h->end]);
}

static int hint_in(File *f, const uint32_t *v)
{
    List *l = only_list(f);
    seek_hinted h;
    if (f->present[0] && f->present[1])
        return complain("%s: this disc file has two lists; --slot 0 asks the two-channel area's, --slot 1 the multichannel area's", shown(f->name));
    if (opt.checked && !seek_has_fingerprint(&l->list))
        return complain("%s: --checked: this list has no fingerprint to state", l->name);
    if (opt.checked)
        l->number = seek_fingerprint(&l->list, seek_fingerprint_value(&l->list));
    if (!l->number)
        l->number = seek_hint(&l->list, v[0], v[1], v[2], &h);
    if (l->number)
        return refused_list(l);
    if (opt.json)
        hint_json(l, v, &h);
    else
        hint_text(v, &h);
    return DONE;
}

int hint(char **words, int n)
{
    File f;
    uint32_t v[3];
    int i, status;
    for (i = 1; i < n; i++)
        if (frame_of(words[i], &v[i - 1]))
            return complain("%s: neither a frame number, minutes:seconds nor minutes:seconds:frames", shown(words[i]));
    if (v[1] < v[0])
        return complain("%s: the range ends before it begins, at %s", words[2], words[1]);
    status = open_file(&f, words[0]);
    if (status != DONE)
        return status;
    status = f.number ? refused_file(&f) : hint_in(&f, v);
    close_file(&f);
    return status;
}
