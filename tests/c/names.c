/* The rules that seek_plan and seek_hint name, and their texts: each name once, in the lists of change request 7. Answers status 1 at the first wrong answer. */
#include <stdio.h>
#include <stdlib.h>

#include "sample.h"

#define HOLDS(test) \
    do { \
        if (!(test)) { \
            printf("line %d: not %s\n", __LINE__, #test); \
            exit(1); \
        } \
    } while (0)

static uint8_t file[SAMPLE_LONGEST];

static void carve(seek_list *l, const seek_table_sizes *s)
{
    uint8_t *memory = (uint8_t *)calloc(1, seek_total(s) + 1);
    HOLDS(memory != NULL);
    seek_carve(l, s, memory, seek_total(s));
}

/* The rule of a plan in a sample list: n checkpoints, complete or not. */
static int plan_rule(unsigned n, int complete, uint64_t limit, uint32_t frame)
{
    seek_area area;
    seek_table_sizes s;
    seek_list l;
    seek_jump j;
    size_t length = sample_file(file, n, complete, 0);
    HOLDS(seek_file_area(file, length, &area) == 0 && seek_file_sizes(&area, file, length, limit, &s) == 0);
    carve(&l, &s);
    HOLDS(seek_load(SEEK_WORKSHOP, &l, &area, file, length, limit) == 0);
    HOLDS(seek_plan(&l, frame, &j) == 0);
    return j.rule;
}

/* The hint for frames 45 to 75 in an area 0..1000 of 500 frames: hints as pairs up to an LSN of 0; a confirmation where its LSN is not 0. */
static seek_hinted hinted(const uint32_t *pairs, uint64_t lsn, uint32_t threshold)
{
    seek_area area = {0, 2, 0, 999, 1000, 0, 1000};
    seek_table_sizes s;
    seek_list l;
    seek_hinted h;
    uint8_t list[64];
    size_t n = 0;
    int kept;
    HOLDS(seek_sizes(&area, 100, 0, 2048, &s) == 0);
    carve(&l, &s);
    HOLDS(seek_new(&l, &area, 100, 0, 8, 2048) == 0);
    for (; pairs[2 * n] != 0; n++) {
        sample_put(list + 8 * n, pairs[2 * n], 4);
        sample_put(list + 8 * n + 4, pairs[2 * n + 1], 4);
    }
    HOLDS(seek_add_hints(&l, list, 8 * n) == 0);
    HOLDS(lsn == 0 || (seek_fingerprint(&l, 9) == 0 && seek_keep_confirmation(&l, lsn, threshold, 1, &kept) == 0 && kept));
    HOLDS(seek_hint(&l, 45, 75, 500, &h) == 0);
    return h;
}

static int named(const uint32_t *pairs, uint64_t lsn, uint32_t threshold, uint64_t upper, int start, int end)
{
    seek_hinted h = hinted(pairs, lsn, threshold);
    return h.found && h.upper == upper && h.start == start && h.end == end;
}

int main(void)
{
    static const uint32_t equal[] = {100, 10, 160, 40, 0}, average[] = {100, 10, 159, 40, 0}, at_end[] = {100, 10, 160, 40, 999, 80, 0},
                          later[] = {100, 10, 160, 40, 998, 80, 0}, two[] = {100, 30, 160, 40, 0}, none[] = {0};
    seek_hinted h = hinted(none, 0, 0);
    int i;
    HOLDS(plan_rule(0, 0, UINT64_MAX, 5) == SEEK_RULE_AREA_START);
    HOLDS(plan_rule(5, 0, UINT64_MAX, 0) == SEEK_RULE_CHECKPOINT);
    HOLDS(plan_rule(5, 0, UINT64_MAX, 160) == SEEK_RULE_HELD_PART);
    HOLDS(plan_rule(5, 0, 100, 160) == SEEK_RULE_CHECKPOINT);
    HOLDS(plan_rule(8, 1, UINT64_MAX, 700) == SEEK_RULE_END_STATE);
    HOLDS(named(equal, 0, 0, 251, SEEK_START_NEAREST, SEEK_END_LOCAL));
    HOLDS(named(average, 0, 0, 250, SEEK_START_NEAREST, SEEK_END_AVERAGE));
    HOLDS(named(later, 0, 0, 999, SEEK_START_NEAREST, SEEK_END_LATER));
    HOLDS(named(at_end, 0, 0, 1000, SEEK_START_NEAREST, SEEK_END_AREA));
    HOLDS(named(two, 100, 45, 426, SEEK_START_CONFIRMED, SEEK_END_LOCAL));
    HOLDS(named(two, 160, 45, 426, SEEK_START_CONFIRMED, SEEK_END_LOCAL));
    HOLDS(named(two, 160, 46, 426, SEEK_START_NEAREST, SEEK_END_LOCAL));
    HOLDS(!h.found && h.start == 0 && h.end == 0);
    for (i = -1; i < 6; i++)
        printf("%d: %s / %s / %s\n", i, seek_rule_text(i), seek_start_text(i), seek_end_text(i));
    return 0;
}
