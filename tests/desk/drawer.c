/* drawer DIR: writes list files into a folder, as players of one school would have saved them: of three areas, each made up here; each file holds what its line
 * in the table below says. drawer DIR FILE: writes DIR/limited.sbx, the list of a file as a player saves it that loaded it with a limit of 0. */
#include <stdio.h>
#include <stdlib.h>
#include <string.h>

#include "seek.h"

enum { SECTOR = 2048, INTERVAL = 50, STEP = 4500, HELD = 300, ALL = 8 };

/* Two areas of one disc, the area of another, and one without a sector. */
static const seek_area areas[4] = {
    {0, 2, 1000, 1399, 3000, 1000, 1400},
    {1, 5, 2000, 2399, 3000, 2000, 2400},
    {0, 2, 1000, 1399, 1400, 1000, 1400},
    {0, 2, 1000, 1399, 1000, 1000, 1000},
};

/* What a list holds. The defaults, 0, are those of the whole list: ALL checkpoints to the end, held parts at 2, 4 and 6, ten hints, two confirmations. */
typedef struct {
    const char *name;
    int area;
    int checkpoints;          /* how many, -1 for none */
    int unended;              /* every checkpoint, no end state */
    int other_sector;         /* from this checkpoint on another reading of the disc */
    int other_end;            /* another end state */
    int other_part;           /* other bytes of the part at this checkpoint */
    int hints;                /* how many, -1 for none */
    int later_hints;          /* this many sectors later */
    int other_number;         /* this one, counted from 1, has the next frame number */
    int confirmations;        /* how many, -1 for none */
    int lower;                /* thresholds of confirmations, lower by so much */
    uint64_t fingerprint;     /* 1 none; 0 that of the disc */
    uint64_t budget;          /* 1 none; 0 stands for 4,096 */
    uint32_t most;            /* 1 none; 0 stands for 2,048 */
    uint64_t limit;           /* loaded once more with this limit, less 1 */
} Spec;

static const Spec specs[] = {
    {.name = "whole"},
    {.name = "copy", .limit = 1},
    {.name = "again"},
    {.name = "half", .checkpoints = 4},
    {.name = "unended", .unended = 1},
    {.name = "more-room", .budget = 8192, .most = 4096},
    {.name = "less-room", .budget = 1000, .most = 100},
    {.name = "more-hint-room", .budget = 1000, .most = 4096},
    {.name = "no-parts", .budget = 1},
    {.name = "no-hints", .hints = -1},
    {.name = "most-0", .hints = -1, .confirmations = -1, .most = 1},
    {.name = "other-part", .other_part = 4},
    {.name = "later-hints", .later_hints = 3},
    {.name = "renumbered", .other_number = 4},
    {.name = "renumbered-more-room", .other_number = 4, .most = 4096},
    {.name = "confirmed", .confirmations = 5},
    {.name = "lower", .lower = 7},
    {.name = "no-fingerprint", .fingerprint = 1, .confirmations = -1},
    {.name = "small", .most = 4, .hints = 4},
    {.name = "false-3", .other_sector = 3},
    {.name = "false-3-half", .other_sector = 3, .checkpoints = 5},
    {.name = "false-6", .other_sector = 6},
    {.name = "short", .checkpoints = 2, .hints = -1, .confirmations = -1},
    {.name = "short-more-room", .checkpoints = 2, .hints = -1, .confirmations = -1, .most = 4096},
    {.name = "false-end", .other_end = 1},
    {.name = "pressing", .fingerprint = 77},
    {.name = "multichannel", .area = 1},
    {.name = "multichannel-half", .area = 1, .checkpoints = 4},
    {.name = "other-disc", .area = 2},
    {.name = "other-disc-half", .area = 2, .checkpoints = 3},
    {.name = "empty", .area = 3, .checkpoints = -1, .hints = -1, .confirmations = -1},
    {.name = "empty-ended", .area = 3, .hints = -1, .confirmations = -1},
};

static void stop(const char *name, const char *why)
{
    fprintf(stderr, "drawer: %s: %s\n", name, why);
    exit(1);
}

static void accepted(const char *name, uint32_t number)
{
    if (number)
        stop(name, seek_text(number));
}

/* ---- memory */
static uint8_t *memory_of(const char *name, uint64_t n)
{
    uint8_t *memory = (uint8_t *)calloc(1, (size_t)n + 1);
    if (!memory)
        stop(name, "not enough memory");
    return memory;
}

/* ---- what a list holds */
/* The frame under assembly at an even checkpoint; its bytes. */
static void frame_of(const Spec *s, const seek_area *a, int j, seek_frame *f, uint8_t *bytes)
{
    int i;
    for (i = 0; i < HELD; i++)
        bytes[i] = (uint8_t)(i + j + (s->other_part == j ? 1 : 0));
    f->start = a->start + (uint64_t)j * INTERVAL - 40;
    f->number = (uint32_t)(STEP * j - 1);
    f->kind = 1;
    f->remaining = 1;
    f->bytes = bytes;
    f->length = HELD;
}

static void record_all(const Spec *s, const seek_area *a, seek_list *l, seek_recorder *r)
{
    uint8_t sector[SECTOR], bytes[HELD], malformed[4] = {(uint8_t)(a->start + 3), (uint8_t)((a->start + 3) >> 8)};
    int j, boundaries = a->end > a->start ? ALL : 0, n = s->checkpoints < 0 ? 0 : s->checkpoints ? s->checkpoints : boundaries;
    accepted(s->name, seek_recorder_of(l, a->start, r));
    for (j = 0; j < n; j++) {
        seek_frame f;
        int held = j && j % 2 == 0;
        memset(sector, j + (s->other_sector && j >= s->other_sector ? 100 : 0), SECTOR);
        frame_of(s, a, j, &f, bytes);
        accepted(s->name, seek_record(r, a->start + (uint64_t)j * INTERVAL, (uint32_t)(STEP * j), j > 0, held ? &f : NULL, sector, SECTOR));
    }
    if (n == boundaries && s->checkpoints == 0 && !s->unended)
        accepted(s->name, seek_finish(r, (uint32_t)(STEP * n + (s->other_end ? 75 : 0)), n > 1));
    accepted(s->name, seek_absorb(l, r, NULL, malformed, n > 1 ? 4 : 0));
}

static void put(uint8_t *at, uint64_t v)
{
    int i;
    for (i = 0; i < 4; i++)
        at[i] = (uint8_t)(v >> 8 * i);
}

static void add_all(const Spec *s, const seek_area *a, seek_list *l)
{
    uint8_t hints[8 * 512];
    int i, kept, n = s->hints < 0 ? 0 : s->hints ? s->hints : 10, c = s->confirmations < 0 ? 0 : s->confirmations ? s->confirmations : 2;
    for (i = 0; i < n; i++) {
        put(hints + 8 * i, a->start + 5 + (uint64_t)i + (uint64_t)s->later_hints);
        put(hints + 8 * i + 4, (uint64_t)(450 + 90 * i + (i + 1 == s->other_number)));
    }
    accepted(s->name, seek_add_hints(l, hints, 8 * (size_t)n));
    if (s->fingerprint != 1)
        accepted(s->name, seek_fingerprint(l, s->fingerprint ? s->fingerprint : 1000 + (uint64_t)s->area));
    for (i = 0; i < c; i++)
        accepted(s->name, seek_keep_confirmation(l, a->start + 20 + (uint64_t)i, (uint32_t)(900 + 10 * i - s->lower), 5, &kept));
}

/* ---- files */
static void write_list(const char *folder, const char *name, const seek_list *l)
{
    uint64_t length = seek_saved_length(l);
    uint8_t *bytes = memory_of(name, length);
    char path[4096];
    FILE *out;
    snprintf(path, sizeof path, "%s/%s.sbx", folder, name);
    if (length < 88 || seek_save(SEEK_WORKSHOP, l, bytes, (size_t)length) != length)
        stop(path, "cannot be saved");
    out = fopen(path, "wb");
    if (!out || fwrite(bytes, 1, (size_t)length, out) != length || fclose(out))
        stop(path, "cannot be written");
    free(bytes);
}

/* The list as a player loads it from its file with a limit. */
static void load_again(const Spec *s, const seek_area *a, seek_list *l, uint8_t **memory)
{
    uint64_t length = seek_saved_length(l);
    uint8_t *bytes = memory_of(s->name, length);
    seek_table_sizes sizes;
    seek_save(SEEK_WORKSHOP, l, bytes, (size_t)length);
    accepted(s->name, seek_file_sizes(a, bytes, (size_t)length, s->limit - 1, &sizes));
    *memory = memory_of(s->name, seek_total(&sizes));
    seek_carve(l, &sizes, *memory, seek_total(&sizes));
    accepted(s->name, seek_load(SEEK_WORKSHOP, l, a, bytes, (size_t)length, s->limit - 1));
    free(bytes);
}

static void make(const char *folder, const Spec *s)
{
    const seek_area *a = &areas[s->area];
    uint64_t budget = s->budget == 1 ? 0 : s->budget ? s->budget : 4096;
    uint32_t most = s->most == 1 ? 0 : s->most ? s->most : 2048;
    seek_table_sizes sizes;
    seek_list l;
    seek_recorder r;
    uint8_t *memory, *recorder, *again = NULL;
    accepted(s->name, seek_sizes(a, INTERVAL, budget, most, &sizes));
    memory = memory_of(s->name, seek_total(&sizes));
    recorder = memory_of(s->name, seek_recorder_total(&sizes) + 1);
    seek_carve(&l, &sizes, memory, seek_total(&sizes));
    seek_carve_recorder(&r, &sizes, recorder, seek_recorder_total(&sizes) + 1);
    accepted(s->name, seek_new(&l, a, INTERVAL, budget, 8, most));
    record_all(s, a, &l, &r);
    add_all(s, a, &l);
    if (s->limit)
        load_again(s, a, &l, &again);
    write_list(folder, s->name, &l);
    free(memory);
    free(recorder);
    free(again);
}

/* 200 files of three areas: of each area, the later the more hints; the last of each holds all that the others hold. */
static void make_many(const char *folder)
{
    int i;
    for (i = 0; i < 200; i++) {
        char name[64];
        Spec s;
        memset(&s, 0, sizeof s);
        snprintf(name, sizeof name, "many/%03d", i);
        s.name = name;
        s.area = i % 3;
        s.hints = 1 + i / 3;
        make(folder, &s);
    }
}

static void make_limited(const char *folder, const char *file)
{
    static uint8_t bytes[65536];
    FILE *in = fopen(file, "rb");
    size_t length = in ? fread(bytes, 1, sizeof bytes, in) : 0;
    seek_area a;
    seek_table_sizes sizes;
    seek_list l;
    uint8_t *memory;
    if (!in || fclose(in))
        stop(file, "cannot be read");
    accepted(file, seek_file_area(bytes, length, &a));
    accepted(file, seek_file_sizes(&a, bytes, length, 0, &sizes));
    memory = memory_of(file, seek_total(&sizes));
    seek_carve(&l, &sizes, memory, seek_total(&sizes));
    accepted(file, seek_load(SEEK_WORKSHOP, &l, &a, bytes, length, 0));
    write_list(folder, "limited", &l);
    free(memory);
}

int main(int argc, char **argv)
{
    size_t i;
    if (argc != 2 && argc != 3)
        return 2;
    if (argc == 3) {
        make_limited(argv[1], argv[2]);
        return 0;
    }
    for (i = 0; i < sizeof specs / sizeof *specs; i++)
        make(argv[1], &specs[i]);
    make_many(argv[1]);
    return 0;
}
