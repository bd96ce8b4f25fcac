/* The disc files of two sample lists through the functions of seek.h: saved, listed, sized and loaded, and refused. Answers status 1 at the first wrong answer. */
#include <stdio.h>
#include <stdlib.h>

#include "sample.h"

static uint8_t files[2][SAMPLE_LONGEST], disc[2 * SAMPLE_LONGEST + 28], again[sizeof disc];
static size_t lengths[2];
static seek_area areas[2];

#define HOLDS(test) \
    do { \
        if (!(test)) { \
            printf("line %d: not %s\n", __LINE__, #test); \
            exit(1); \
        } \
    } while (0)

static void carve(seek_list *l, const seek_table_sizes *s)
{
    uint8_t *memory = (uint8_t *)calloc(1, seek_total(s) + 1);
    HOLDS(memory != NULL);
    seek_carve(l, s, memory, seek_total(s));
}

/* The list of slot k, from its own file. */
static void load(seek_list *l, int k)
{
    seek_table_sizes s;
    lengths[k] = sample_file(files[k], 3 + (unsigned)k, 0, 10 * (unsigned)k);
    files[k][12] = (uint8_t)k;
    sample_put(files[k] + lengths[k] - 8, seek_sum(files[k], lengths[k] - 8), 8);
    HOLDS(seek_file_area(files[k], lengths[k], &areas[k]) == 0 && areas[k].slot == k);
    HOLDS(seek_file_sizes(&areas[k], files[k], lengths[k], UINT64_MAX, &s) == 0);
    carve(l, &s);
    HOLDS(seek_load(SEEK_WORKSHOP, l, &areas[k], files[k], lengths[k], UINT64_MAX) == 0);
}

/* The disc file of n bytes loads as the lists that are there, and they save as it. */
static void loads(size_t n, int first, int second)
{
    seek_table_sizes s[2];
    seek_list l[2];
    int present[2];
    HOLDS(seek_disc_sizes(&areas[0], &areas[1], disc, n, UINT64_MAX, &s[0], &s[1]) == 0);
    HOLDS((seek_total(&s[0]) != 0) == first && (seek_total(&s[1]) != 0) == second);
    carve(&l[0], &s[0]);
    carve(&l[1], &s[1]);
    HOLDS(seek_disc_load(SEEK_WORKSHOP, &l[0], &l[1], &areas[0], &areas[1], disc, n, UINT64_MAX, present) == 0);
    HOLDS(present[0] == first && present[1] == second);
    HOLDS(seek_disc_save(SEEK_WORKSHOP, first ? &l[0] : &l[1], first && second ? &l[1] : NULL, again, sizeof again) == n && memcmp(disc, again, n) == 0);
}

int main(void)
{
    seek_list l[2];
    seek_contents c;
    seek_table_sizes s[2];
    size_t n;
    load(&l[0], 0);
    load(&l[1], 1);

    n = (size_t)seek_disc_saved_length(&l[0], NULL);
    HOLDS(n == 16 + lengths[0] && seek_disc_save(SEEK_WORKSHOP, &l[0], NULL, disc, n) == n);
    loads(n, 1, 0);
    HOLDS(seek_disc_save(SEEK_WORKSHOP, &l[1], NULL, disc, sizeof disc) == 16 + lengths[1]);
    loads(16 + lengths[1], 0, 1);

    n = (size_t)seek_disc_saved_length(&l[1], &l[0]);
    HOLDS(n == 28 + lengths[0] + lengths[1]);
    HOLDS(seek_disc_save(SEEK_WORKSHOP, &l[1], &l[0], disc, n - 1) == SEEK_NO_OUTPUT && seek_disc_save(SEEK_WORKSHOP, &l[1], &l[0], disc, n) == n);
    HOLDS(seek_disc_contents(disc, n, &c) == 0 && c.present[0] && c.present[1]);
    HOLDS(c.offset[0] == 28 && c.length[0] == lengths[0] && c.offset[1] == 28 + lengths[0] && c.length[1] == lengths[1]);
    HOLDS(memcmp(disc + c.offset[0], files[0], lengths[0]) == 0 && memcmp(disc + c.offset[1], files[1], lengths[1]) == 0);
    loads(n, 1, 1);

    HOLDS(seek_disc_save(SEEK_WORKSHOP, &l[0], &l[0], disc, n) == SEEK_NO_DISC && seek_disc_saved_length(&l[0], &l[0]) == SEEK_NO_DISC);
    HOLDS(seek_disc_contents(disc, n - 1, &c) == SEEK_NO_DISC && !c.present[0] && !c.present[1]);
    HOLDS(seek_disc_sizes(&areas[1], &areas[0], disc, n, UINT64_MAX, &s[0], &s[1]) == SEEK_NO_AREA);
    disc[n - 1] ^= 1;
    HOLDS(seek_disc_sizes(&areas[0], &areas[1], disc, n, UINT64_MAX, &s[0], &s[1]) == SEEK_NO_FILE_SUM);
    return 0;
}
