/* plan: where a jump to a frame starts. */
#include "desk.h"

/* A number, minutes:seconds, or minutes:seconds:frames at 75 a second. */
int frame_of(const char *s, uint32_t *frame)
{
    uint64_t a, b, c = 0;
    if (digits(&s, &a))
        return -1;
    if (*s == ':') {
        s++;
        if (digits(&s, &b) || b > 59)
            return -1;
        if (*s == ':' && (s++, digits(&s, &c) || c > 74))
            return -1;
        a = (a * 60 + b) * 75 + c;
    }
    if (*s || a > UINT32_MAX)
        return -1;
    *frame = (uint32_t)a;
    return 0;
}

/* The rules of a plan, by number. */
static const char *const rules[] = {"", "area_start", "checkpoint", "held_part", "end_state"};

/* Is the checkpoint of the plan the list's last? */
static int is_last(const List *l, const seek_jump *j) { return j->where == SEEK_AT_CHECKPOINT && j->number + 1 == seek_checkpoint_count(&l->list); }

static void plan_json(const List *l, uint32_t frame, uint64_t lsn, const seek_jump *j)
{
    fputc('{', opt.told);
    json_name("file", l->file);
    if (l->in_disc)
        json_number("slot", l->area.slot);
    json_number("refused", 0);
    json_number("frame", frame);
    json_time("frame_time", 1, frame);
    json_number("start", lsn);
    json_time("start_time", 1, j->where == SEEK_AT_START ? 0 : j->threshold);
    fprintf(opt.told, ",\"where\":\"%s\"", j->where == SEEK_AT_START ? "start" : j->where == SEEK_AT_END ? "end" : "checkpoint");
    json_number("held_bytes", j->held ? j->length : 0);
    fprintf(opt.told, ",\"rule\":\"%s\"", rules[j->rule]);
    json_number("back", j->back);
    fprintf(opt.told, ",\"last\":%s}\n", truth(is_last(l, j)));
}

/* How many frames lie between the end of the list and the frame; 0 where the list goes on, or runs to the end. */
static uint64_t beyond(const List *l, uint32_t frame, const seek_jump *j)
{
    uint64_t n = seek_checkpoint_count(&l->list), from = j->where == SEEK_AT_CHECKPOINT ? j->threshold : 0;
    int last = is_last(l, j) || (j->where == SEEK_AT_START && n == 0);
    return last && !seek_is_complete(&l->list) && frame > from ? frame - from : 0;
}

static void plan_text(const List *l, const char *word, uint32_t frame, uint64_t lsn, const seek_jump *j)
{
    uint64_t slow = beyond(l, frame, j);
    Text t = {0};
    add(&t, "%s (%02u:%02u:%02u): sector %s", word, frame / 4500, frame / 75 % 60, frame % 75, grouped(lsn));
    if (j->where == SEEK_AT_START)
        add(&t, " (%s), the area's start", clock_of(0));
    else if (j->where == SEEK_AT_END)
        add(&t, " (%s), the area's end: the frame lies at or past the end of the %s area", clock_of(j->threshold), area_word(l->area.slot));
    else
        add(&t, " (%s), checkpoint %s", clock_of(j->threshold), grouped(j->number));
    if (j->where == SEEK_AT_CHECKPOINT && j->held)
        add(&t, ", with %s held bytes of frame %s", grouped(j->length), grouped(j->frame));
    if (slow >= 75)
        add(&t, ". The jump is slow: the list ends there, and the player reads %s of sound to reach the frame", clock_of(slow));
    say(0, 2, "%s", text_of(&t));
    free_text(&t);
}

/* Why the jump starts there, by its rule. */
static void plan_why(const List *l, const seek_jump *j)
{
    Text t = {0};
    if (j->rule == SEEK_RULE_AREA_START)
        add(&t, "no checkpoint of this list lies at or before the frame; the player reads from the area's start");
    else if (j->rule == SEEK_RULE_END_STATE)
        add(&t, "the list runs to the end of the disc, and the frame lies at or past it");
    else
        add(&t, "checkpoint %s is the last at or before the frame", grouped(j->number));
    if (j->rule == SEEK_RULE_HELD_PART)
        add(&t, ", and %s of the frame under assembly %s held there: nothing is read again", counted(j->length, "byte", "bytes"), j->length == 1 ? "is" : "are");
    else if (j->rule == SEEK_RULE_CHECKPOINT && j->back)
        add(&t, "; nothing of the frame under assembly is held, so the player reads again from %s before it", counted(j->back, "sector", "sectors"));
    if (is_last(l, j) && !seek_is_complete(&l->list))
        add(&t, "; the list ends there: what lies behind it was not recorded");
    say(2, 4, "why: %s", text_of(&t));
    free_text(&t);
}

static int plan_one(List *l, const char *word)
{
    uint32_t frame = 0;
    uint64_t lsn;
    seek_jump j;
    frame_of(word, &frame);
    l->number = seek_plan(&l->list, frame, &j);
    if (l->number)
        return refused_list(l);
    lsn = j.where == SEEK_AT_START ? l->area.start : j.where == SEEK_AT_END ? l->area.end : j.lsn;
    if (opt.json)
        plan_json(l, frame, lsn, &j);
    else {
        plan_text(l, word, frame, lsn, &j);
        plan_why(l, &j);
    }
    return DONE;
}

static int plan_frames(File *f, char **words, int n)
{
    List *l = only_list(f);
    int i, status = DONE;
    if (f->present[0] && f->present[1])
        return complain("%s: this disc file has two lists; --slot 0 plans in the two-channel area, --slot 1 in the multichannel area", shown(f->name));
    if (l->in_disc && !opt.json)
        say(0, 0, "%s", l->name);
    for (i = 0; i < n && status == DONE; i++)
        status = plan_one(l, words[i]);
    return status;
}

int plan(char **words, int n)
{
    File f;
    int i, status;
    for (i = 1; i < n; i++) {
        uint32_t frame;
        if (frame_of(words[i], &frame))
            return complain("%s: neither a frame number, minutes:seconds nor minutes:seconds:frames", shown(words[i]));
    }
    status = open_file(&f, words[0]);
    if (status != DONE)
        return status;
    status = f.number ? refused_file(&f) : plan_frames(&f, words + 1, n - 1);
    close_file(&f);
    return status;
}
