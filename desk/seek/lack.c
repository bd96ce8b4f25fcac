/* What a list holds beside another, by the call lacks. */
#include "desk.h"

Beside ask_beside(const List *own, const List *other)
{
    Beside b;
    b.number = seek_lacks(&own->list, &other->list, &b.more);
    b.covered = !b.number && seek_lacks_nothing(&b.more);
    return b;
}

/* How many things it holds. */
uint64_t all_of(const seek_lacking *l)
{
    return l->checkpoints + l->end_state + l->parts + l->malformed + l->hints + l->confirmations + l->fingerprint;
}

/* The checkpoints that it holds, how far they go, and the end of the area. end: its frame, 0 where it is not known. */
static int checkpoints_and_end(Text *t, const List *other, const seek_lacking *l, uint64_t end)
{
    if (l->checkpoints)
        add(t, "%s up to %s", counted(l->checkpoints, "checkpoint", "checkpoints"), clock_of(frontier_frame(other)));
    if (l->checkpoints && end && !seek_is_complete(&other->list))
        add(t, " of %s", clock_of(end));
    if (l->end_state)
        add(t, "%sthe end of the %s area", l->checkpoints ? ", " : "", area_word(other->area.slot));
    if (l->end_state && !l->checkpoints)
        add(t, " (%s)", clock_of(frontier_frame(other)));
    return l->checkpoints || l->end_state;
}

/* "121 checkpoints up to 09:15, the end of the multichannel area, 3 held parts and 40 hints" */
void holds(Text *t, const List *other, const seek_lacking *l, uint64_t end)
{
    const char *things[6];
    int n = 0, i, first = checkpoints_and_end(t, other, l, end);
    if (l->parts)
        things[n++] = counted(l->parts, "held part", "held parts");
    if (l->malformed)
        things[n++] = counted(l->malformed, "malformed sector", "malformed sectors");
    if (l->hints)
        things[n++] = counted(l->hints, "hint", "hints");
    if (l->confirmations)
        things[n++] = counted(l->confirmations, "confirmation", "confirmations");
    if (l->fingerprint)
        things[n++] = "the disc's fingerprint";
    for (i = 0; i < n; i++)
        add(t, "%s%s", i + 1 == n && first ? ", and " : i + 1 == n && i ? " and " : first || i ? ", " : "", things[i]);
}

/* The room that one of two lists has and the other has not: "room for 2,048 hints (not 0)". */
void room(Text *t, const List *own, const List *other)
{
    uint64_t m = seek_hint_limit(&own->list), k = seek_hint_limit(&other->list), b = seek_budget(&own->list), c = seek_budget(&other->list);
    add(t, "room for ");
    if (m > k)
        add(t, "%s (not %s)", counted(m, "hint", "hints"), grouped(k));
    if (m > k && b > c)
        add(t, " and ");
    if (b > c)
        add(t, "%s of held parts (not %s)", counted(b, "byte", "bytes"), grouped(c));
}

void beside_json(const seek_lacking *l)
{
    json_number("more_checkpoints", l->checkpoints);
    json_number("more_end_states", l->end_state);
    json_number("more_parts", l->parts);
    json_number("more_malformed", l->malformed);
    json_number("more_hints", l->hints);
    json_number("more_confirmations", l->confirmations);
    json_number("more_fingerprints", l->fingerprint);
    fprintf(opt.told, ",\"more_budget\":%s,\"more_hint_limit\":%s", truth(l->budget != 0), truth(l->most != 0));
}
