/* cost: what each call of seek.h takes in time and in bytes of the stack, for a complete list of an area of 1,000,000 sectors with the usual numbers (interval 64, budget
 * 1,048,576, spacing 8, hint limit 2,048): 15,625 checkpoints and 2,048 hints. Prints the table of docs/PLAYER.md. The time is the shortest of some runs; the stack is what a
 * painted stack shows after one call, less that of a call of nothing. */
#define _POSIX_C_SOURCE 200809L
#define _XOPEN_SOURCE 700
#include <stdio.h>
#include <stdlib.h>
#include <string.h>
#include <time.h>
#include <ucontext.h>

#include "seek_file.h"

enum { STACK = 1 << 18, SECTORS = 1000000, INTERVAL = 64, PAINT = 0xa5 };
static uint8_t stack[STACK], sector[2048], *file, *disc, many[8 * 65536];
static size_t length, disc_length, disc_room;
static seek_list list, copy, fresh;
static seek_recorder recorder, kept;
static seek_hint_recorder hinter;
static const seek_area area = {0, 2, 0, SECTORS - 1, SECTORS, 0, SECTORS}, second = {1, 6, 0, SECTORS - 1, SECTORS, 0, SECTORS};
static ucontext_t here, there;
static void (*doing)(void);

static void nothing(void) {}
static void do_sum(void) { seek_sum(sector, sizeof sector); }
static void do_sum32(void) { seek_sum32(sector, sizeof sector); }
static void do_fold32(void) { uint32_t f; seek_fold32(0xbf9cf968, 24, &f); }
static void do_fold64(void) { uint64_t f; seek_fold64(0x85944171f73967e8, 48, &f); }
static void do_first(void) { seek_first f; seek_first_record(sector, sizeof sector, &f); }
static void do_sizes(void) { seek_table_sizes s; seek_sizes(&area, INTERVAL, 1048576, 2048, &s); }
static void do_file_area(void) { seek_area a; seek_file_area(file, length, &a); }
static void do_file_sizes(void) { seek_table_sizes s; seek_file_sizes(&area, file, length, UINT64_MAX, &s); }
static void do_new(void) { seek_new(&fresh, &area, INTERVAL, 1048576, 8, 2048); }
static void do_load(void) { seek_load(SEEK_WORKSHOP, &copy, &area, file, length, UINT64_MAX); }
static void do_length(void) { seek_saved_length(&list); }
static void do_save(void) { seek_save(SEEK_WORKSHOP, &list, file, length); }
static void do_plan(void) { seek_jump j; seek_plan(&list, 500000, &j); }
static void do_fingerprint(void) { seek_fingerprint(&list, 7); }
static void do_merge(void) { seek_merge(SEEK_WORKSHOP, &list, &copy); }
static void do_adds(void) { seek_brings b; seek_adds(&list, &copy, &b); }
static void do_lacks(void) { seek_lacking m; seek_lacks(&list, &copy, &m); }
static void do_hint(void) { seek_hinted h; seek_hint(&list, 5000, 5075, 300000, &h); }
static void do_few(void) { seek_add_hints(&copy, many, 800); }
static void do_many(void) { seek_add_hints(&copy, many, sizeof many); }
static void do_keep_hint(void) { seek_keep_hint(&list, 48271); }
static void do_keep(void) { int k; seek_keep_confirmation(&list, 64, 3, 5, &k); }
static void do_recorder(void) { seek_recorder_of(&list, 0, &kept); }
static void do_record(void) { memcpy(kept.block, recorder.block, SEEK_BLOCK); seek_record(&kept, 0, 0, 0, NULL, sector, sizeof sector); }
static void do_due(void) { uint64_t n; seek_due(&recorder, &n); }
static void do_boundary(void) { uint64_t n; seek_boundary(&list, 5, &n); }
static void do_finish(void) { seek_finish(&recorder, 0, 0); }
static void do_absorb(void) { seek_absorb(&list, &kept, NULL, NULL, 0); }
static void do_hint_recorder(void) { int m; seek_hint_recorder_of(&list, &hinter, &m); }
static void do_see(void) { seek_see(&hinter, 5, sector, sizeof sector, NULL); }
static void do_flush(void) { seek_flush(&hinter); }
static void do_take(void) { size_t n; seek_take(&hinter, &n); }
static void do_contents(void) { seek_contents c; seek_disc_contents(disc, disc_length, &c); }
static void do_disc_sizes(void) { seek_table_sizes s, t; seek_disc_sizes(&area, &second, disc, disc_length, UINT64_MAX, &s, &t); }
static void do_disc_load(void) { int p[2]; seek_disc_load(SEEK_WORKSHOP, &copy, NULL, &area, NULL, disc, disc_length, UINT64_MAX, p); }
static void do_disc_length(void) { seek_disc_saved_length(&list, NULL); }
static void do_disc_save(void) { seek_disc_save(SEEK_WORKSHOP, &list, NULL, disc, disc_room); }

static const struct {
    const char *name;
    void (*run)(void);
} calls[] = {
    {"`seek_sum` of a sector", do_sum},
    {"`seek_sum32` of a sector", do_sum32},
    {"`seek_fold32`", do_fold32},
    {"`seek_fold64`", do_fold64},
    {"`seek_first_record`", do_first},
    {"`seek_sizes`", do_sizes},
    {"`seek_file_area`", do_file_area},
    {"`seek_file_sizes`", do_file_sizes},
    {"`seek_new`", do_new},
    {"`seek_load`", do_load},
    {"`seek_saved_length`", do_length},
    {"`seek_save`", do_save},
    {"`seek_plan`", do_plan},
    {"`seek_fingerprint`", do_fingerprint},
    {"`seek_merge`, of a list that brings nothing", do_merge},
    {"`seek_adds`", do_adds},
    {"`seek_lacks`", do_lacks},
    {"`seek_hint`", do_hint},
    {"`seek_add_hints`, 100 that rise", do_few},
    {"`seek_add_hints`, 65,536 in no order", do_many},
    {"`seek_keep_hint`", do_keep_hint},
    {"`seek_keep_confirmation`", do_keep},
    {"`seek_recorder_of`", do_recorder},
    {"`seek_record`, the first", do_record},
    {"`seek_due`", do_due},
    {"`seek_boundary`", do_boundary},
    {"`seek_finish`", do_finish},
    {"`seek_absorb`, of a stopped recorder", do_absorb},
    {"`seek_hint_recorder_of`", do_hint_recorder},
    {"`seek_see`", do_see},
    {"`seek_flush`", do_flush},
    {"`seek_take`", do_take},
    {"`seek_disc_contents`", do_contents},
    {"`seek_disc_sizes`", do_disc_sizes},
    {"`seek_disc_load`, one list", do_disc_load},
    {"`seek_disc_saved_length`", do_disc_length},
    {"`seek_disc_save`, one list", do_disc_save},
};

static void entry(void)
{
    doing();
    swapcontext(&there, &here);
}

/* The bytes of the stack that a call of f has written. */
static size_t used(void (*f)(void))
{
    size_t low = 0;
    memset(stack, PAINT, sizeof stack);
    doing = f;
    getcontext(&there);
    there.uc_stack.ss_sp = stack;
    there.uc_stack.ss_size = sizeof stack;
    there.uc_link = &here;
    makecontext(&there, entry, 0);
    swapcontext(&here, &there);
    while (low < sizeof stack && stack[low] == PAINT)
        low++;
    return sizeof stack - low;
}

static double seconds(void)
{
    struct timespec t;
    clock_gettime(CLOCK_PROCESS_CPUTIME_ID, &t);
    return (double)t.tv_sec + 1e-9 * (double)t.tv_nsec;
}

/* Microseconds of one call: the shortest of 15 rounds of about two milliseconds. */
static double took(void (*f)(void))
{
    double best = 1e9, t;
    long n = 1, i;
    int k;
    for (k = 0; k < 15; k++) {
        t = seconds();
        for (i = 0; i < n; i++)
            f();
        t = seconds() - t;
        if (t < 0.002 && n < 1000000)
            n *= 4;
        else if (t / (double)n < best)
            best = t / (double)n;
    }
    return 1e6 * best;
}

static int begin(void)
{
    uint64_t due, n = 1;
    int made;
    if (seek_begin(&area, INTERVAL, 1048576, 8, 2048, &list) || seek_begin(&area, INTERVAL, 1048576, 8, 2048, &fresh) || seek_begin_recorder(&list, 0, &recorder)
        || seek_begin_recorder(&list, 0, &kept) || seek_begin_hint_recorder(&list, &hinter, &made) || !made)
        return 0;
    while (seek_due(&kept, &due)) {
        if (seek_record(&kept, due, (uint32_t)(due / 8), 0, NULL, sector, sizeof sector) || (n++ % 64 == 0 && seek_absorb(&list, &kept, NULL, NULL, 0)))
            return 0;
    }
    for (n = 0; n < 65536; n++) {
        uint64_t lsn = n * 48271 % 999983, v = lsn | (lsn / 8) << 32;
        int k;
        for (k = 0; k < 8; k++)
            many[8 * n + (uint64_t)k] = (uint8_t)(v >> 8 * k);
    }
    if (seek_finish(&kept, 200000, 0) || seek_absorb(&list, &kept, NULL, NULL, 0) || seek_add_hints(&list, many, 8 * 2048) || seek_fingerprint(&list, 7)
        || seek_saved(SEEK_WORKSHOP, &list, &file, &length) || seek_open_bytes(SEEK_WORKSHOP, file, length, &area, UINT64_MAX, &copy))
        return 0;
    for (n = 0; n < 100; n++) /* 100 that rise, at the start of the list of many */
        memset(many + 8 * n, 0, 8), many[8 * n] = (uint8_t)n;
    disc_length = (size_t)seek_disc_saved_length(&list, NULL);
    disc_room = disc_length + 65536; /* confirmations are kept meanwhile */
    disc = (uint8_t *)calloc(1, disc_room);
    return disc != NULL && !seek_refused(seek_disc_save(SEEK_WORKSHOP, &list, NULL, disc, disc_length));
}

int main(void)
{
    size_t k, floor;
    if (!begin())
        return 1;
    floor = used(nothing);
    printf("| call | microseconds | bytes of the stack |\n|---|---|---|\n");
    for (k = 0; k < sizeof calls / sizeof *calls; k++)
        printf("| %s | %.*f | %zu |\n", calls[k].name, took(calls[k].run) < 1 ? 3 : 1, took(calls[k].run), used(calls[k].run) - floor);
    return 0;
}
