/* Refusals: the number, what it means and what to do. */
#include "desk.h"

/* What to do about a refused file. */
const char *advice(uint32_t number)
{
    if (opt.ranged && number >= SEEK_NO_FILE_COUNTS && number <= SEEK_NO_FILE_CONFIRMATIONS)
        return "See that --range gives the sectors of this disc; else keep the file, and have the disc read again.";
    switch (number) {
    case SEEK_NO_AREA: return "Give the right sectors with --range.";
    case SEEK_NO_FILE_SHORT:
    case SEEK_NO_FILE_SUM:
    case SEEK_NO_FILE_LEFT_OVER: return "Ask the school to send it again. If it comes the same, have the disc read again; the player makes a new list.";
    case SEEK_NO_FILE_MAGIC: return "Ask the school for the list file; this is something else, or only a piece of it.";
    case SEEK_NO_FILE_VERSION: return "A newer player wrote it. Keep it, and use a newer version of this program.";
    case SEEK_NO_FILE_AREA: return "It belongs to another disc or to the other area of this disc. Keep it there.";
    case SEEK_NO_MERGE_AREA: return "They belong to different areas or discs, or were recorded with different intervals. Keep both.";
    case SEEK_NO_MERGE_IDS: return "They were made from different discs or pressings. Keep both, each with its disc.";
    case SEEK_NO_MERGE_CHECKPOINTS: return "One of them is false for this disc. Keep both, and have the disc read again.";
    case SEEK_NO_ROOM: return "There is not enough memory for this list.";
    case SEEK_NO_DISC: return "It begins neither as a list file nor as a right disc file. Ask the school whether it is the right file; if so, to send it again.";
    default: return "Keep the file, and have the disc read again; the player makes a new list.";
    }
}

/* slot: -1 where the list is no disc file's; beside: the file that it cannot be merged with, NULL for none. */
void refused_json(const char *file, int slot, const char *beside, uint32_t number)
{
    fputc('{', opt.told);
    json_name("file", file);
    if (slot >= 0)
        json_number("slot", (uint64_t)slot);
    if (beside) {
        fputc(',', opt.told);
        json_name("beside", beside);
    }
    json_number("refused", number);
    fputs(",\"verdict\":\"refused\",", opt.told);
    json_name("meaning", seek_text(number));
    fputs("}\n", opt.told);
}

/* name: as it is printed. */
static void refused_text(const char *name, uint32_t number, const char *what_to_do)
{
    say(0, 0, "%s", name);
    say(2, 2, "refused (%u): %s.", number, seek_text(number));
    say(2, 2, "%s", what_to_do);
}

int refused(const char *name, uint32_t number)
{
    if (opt.json)
        refused_json(name, -1, NULL, number);
    else
        refused_text(shown(name), number, advice(number));
    return REFUSED;
}

int refused_list(const List *l)
{
    if (opt.json)
        refused_json(l->file, l->in_disc ? l->area.slot : -1, NULL, l->number);
    else if (l->in_disc && l->number == SEEK_NO_FILE_AREA && !opt.area)
        refused_text(l->name, l->number, "The contents table names it under the wrong area. Ask the school for the list file itself, or have the disc read again.");
    else
        refused_text(l->name, l->number, advice(l->number));
    return REFUSED;
}

/* A disc file is taken whole or not at all: where one of its lists is right by itself, how to take it out. */
void right_lists(const File *f)
{
    int s;
    for (s = 0; s < 2 && !opt.json; s++)
        if (f->disc && f->present[s] && !f->list[s].number)
            say(2, 2, "The %s list in it is right: seek unpack --slot %d takes it out.", area_word(s), s);
}

/* What is wrong with the file's length, where that can be told. */
static void wrong_length(const File *f)
{
    static const char *const texts[] = {NULL, "The file was cut: it ends before its last list does.",
                                        "A newline lies behind its last list, as an editor or a text transfer adds it.", "Something lies behind its last list."};
    say(0, 0, "%s", shown(f->name));
    say(2, 2, "refused (%u): %s.", f->number, seek_text(f->number));
    say(2, 2, "%s Ask the school to send it again.", texts[f->length]);
}

int refused_file(const File *f)
{
    if (f->bytes.kind && !opt.json) {
        say(0, 2, "%s: this is %s, no list file and no disc file (%u).", shown(f->name), f->bytes.kind, f->number);
        return REFUSED;
    }
    if (f->length && !opt.json)
        wrong_length(f);
    else if (f->at)
        refused_list(f->at);
    else
        refused(f->name, f->number);
    right_lists(f);
    return REFUSED;
}
