/* What a list holds: numbers that show, compare and report tell. */
#include "desk.h"

/* The threshold of checkpoint number j; 0 where there is none. */
uint64_t threshold_at(const List *l, uint64_t j)
{
    seek_checkpoint c;
    seek_checkpoint_at(&l->list, j, &c);
    return c.threshold;
}

/* Where a jump to the last frame starts: the frame there, and the malformed sectors counted up to it. */
static void reached(const List *l, uint64_t *frame, uint64_t *malformed)
{
    seek_jump j;
    *frame = *malformed = 0;
    if (seek_plan(&l->list, UINT32_MAX, &j) || j.where == SEEK_AT_START)
        return;
    *frame = j.threshold;
    *malformed = j.malformed;
}

uint64_t frontier(const List *l) { return seek_frontier(&l->list); }

uint64_t frontier_frame(const List *l)
{
    uint64_t frame, malformed;
    reached(l, &frame, &malformed);
    return frame;
}

uint64_t malformed_counted(const List *l)
{
    uint64_t frame, malformed;
    reached(l, &frame, &malformed);
    return malformed;
}

uint64_t held_bytes(const List *l)
{
    uint64_t i, sum = 0;
    for (i = 0; i < seek_frame_count(&l->list); i++)
        sum += seek_bytes(l->list.frames.at + 8 * i + 4, 4);
    return sum;
}

/* The checkpoints among the boundaries, in ten-thousandths; an area without boundaries is covered. */
uint64_t coverage(const List *l) { return l->boundaries ? seek_checkpoint_count(&l->list) * 10000 / l->boundaries : 10000; }
