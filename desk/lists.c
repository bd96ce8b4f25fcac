/* lists DIR: writes the example lists into the folders DIR/school1 to DIR/school3, each by a pass over an area that is made up here: recorder, record, finish,
 * absorb; hints seen and taken; the fingerprint stated; saved. Schools 1 and 2 have a list of a whole area and one of a pass that was broken off, school 3
 * small lists of both areas of one disc. */
#include <stdio.h>
#include <stdlib.h>

#include "seek.h"

enum { SECTOR = 2048, INTERVAL = 1024, BUDGET = 65536, SPACING = 500, MOST = 2048, LATE = 40, HELD = 300 };

/* ---- areas of discs */
typedef struct {
    seek_area area;
    uint64_t per_frame;   /* sectors of a frame */
    uint64_t fingerprint;
} Disc;

static const Disc discs[4] = {
    {{0, 2, 1000, 164499, 330000, 1000, 164500}, 4, 0x5ac0d15c00000001},
    {{1, 5, 170000, 419999, 420000, 170000, 420000}, 6, 0x5ac0d15c00000002},
    {{0, 2, 1000, 5499, 12000, 1000, 5500}, 4, 0x5ac0d15c00000003},
    {{1, 5, 6000, 11499, 12000, 6000, 11500}, 6, 0x5ac0d15c00000003},
};

static uint64_t lsn_of(const Disc *d, unsigned j) { return d->area.start + (uint64_t)j * INTERVAL; }

static unsigned boundaries(const Disc *d) { return (unsigned)((d->area.end - d->area.start + INTERVAL - 1) / INTERVAL); }

/* Before every 40th checkpoint, from number 20 on, lies a malformed sector, and a frame that began 40 sectors before is still under assembly. */
static int is_late(unsigned j) { return j % 40 == 20; }

static unsigned malformed_before(unsigned n) { return n ? (n + 19) / 40 : 0; }

/* The number of the frame that a sector belongs to. */
static uint32_t frame_at(const Disc *d, uint64_t lsn) { return (uint32_t)((lsn - d->area.start) / d->per_frame); }

/* A sector: where a frame starts in it, a header with its time; then bytes that depend on disc and sector. */
static void read_sector(const Disc *d, uint64_t lsn, uint8_t *sector)
{
    uint64_t v = d->fingerprint + lsn * 0x9e3779b97f4a7c15u;
    uint32_t frame = frame_at(d, lsn);
    unsigned i;
    for (i = 0; i < SECTOR; i++) {
        v ^= v << 13, v ^= v >> 7, v ^= v << 17;
        sector[i] = (uint8_t)v;
    }
    sector[0] = (lsn - d->area.start) % d->per_frame ? 0x20 : 0x24;
    sector[3] = (uint8_t)(frame / 4500);
    sector[4] = (uint8_t)(frame / 75 % 60);
    sector[5] = (uint8_t)(frame % 75);
}

/* The frame under assembly at a checkpoint; 0 where there is none. */
static int under_assembly(const Disc *d, unsigned j, seek_frame *f)
{
    static uint8_t bytes[HELD];
    uint64_t lsn = lsn_of(d, j), back = is_late(j) ? LATE : (lsn - d->area.start) % d->per_frame;
    unsigned i;
    for (i = 0; i < HELD; i++)
        bytes[i] = (uint8_t)(j + i);
    f->start = lsn - back;
    f->number = frame_at(d, f->start);
    f->kind = d->area.slot ? 0 : 1;
    f->remaining = 1;
    f->bytes = bytes;
    f->length = HELD;
    return back != 0;
}

/* ---- a pass over the first n checkpoints, to the end where they are all */
static uint32_t record_all(const Disc *d, unsigned n, seek_list *l, seek_recorder *r)
{
    uint8_t sector[SECTOR], malformed[4 * 16] = {0};
    unsigned j, m = 0, i;
    uint32_t no = seek_recorder_of(l, d->area.start, r);
    for (j = 0; j < n && no == 0; j++) {
        seek_frame f;
        int has = under_assembly(d, j, &f);
        read_sector(d, lsn_of(d, j), sector);
        no = seek_record(r, lsn_of(d, j), has ? f.number : frame_at(d, lsn_of(d, j)), malformed_before(j + 1), has ? &f : NULL, sector, SECTOR);
        if (is_late(j))
            for (i = 0; i < 4; i++)
                malformed[4 * m + i] = (uint8_t)((lsn_of(d, j) - LATE / 2) >> 8 * i);
        m = malformed_before(j + 1);
    }
    if (no == 0 && n == boundaries(d))
        no = seek_finish(r, frame_at(d, d->area.end), m);
    return no ? no : seek_absorb(l, r, NULL, malformed, 4 * m);
}

static uint32_t see_all(const Disc *d, unsigned n, seek_list *l, seek_hint_recorder *h)
{
    uint8_t sector[SECTOR];
    size_t length = 0;
    unsigned j;
    int made;
    uint32_t no = seek_hint_recorder_of(l, h, &made);
    for (j = 0; j < n && no == 0; j++) {
        read_sector(d, lsn_of(d, j), sector);
        no = seek_see(h, lsn_of(d, j), sector, SECTOR, NULL);
    }
    if (no == 0)
        no = seek_flush(h);
    if (no == 0)
        no = seek_take(h, &length);
    return no ? no : seek_add_hints(l, h->list.at, length);
}

/* ---- files */
static void stop(const char *name, const char *why)
{
    fprintf(stderr, "lists: %s: %s\n", name, why);
    exit(1);
}

static void write_list(const seek_list *l, const char *name)
{
    uint64_t length = seek_saved_length(l);
    uint8_t *bytes = (uint8_t *)calloc(1, (size_t)length);
    FILE *out = fopen(name, "wb");
    if (!bytes || length < 88 || seek_save(SEEK_WORKSHOP, l, bytes, (size_t)length) != length)
        stop(name, "cannot be saved");
    if (!out || fwrite(bytes, 1, (size_t)length, out) != length || fclose(out))
        stop(name, "cannot be written");
    free(bytes);
}

static void make(const Disc *d, unsigned n, const char *folder, const char *file)
{
    seek_table_sizes sizes;
    seek_list l;
    seek_recorder r;
    seek_hint_recorder h;
    char name[4096];
    uint64_t list, recorder;
    uint8_t *memory;
    uint32_t no = seek_sizes(&d->area, INTERVAL, BUDGET, MOST, &sizes);
    snprintf(name, sizeof name, "%s/%s", folder, file);
    if (no)
        stop(name, seek_text(no));
    list = seek_total(&sizes);
    recorder = seek_recorder_total(&sizes);
    memory = (uint8_t *)calloc(1, (size_t)(list + recorder + SEEK_HINT_LIST));
    if (!memory)
        stop(name, "not enough memory");
    seek_carve(&l, &sizes, memory, list);
    seek_carve_recorder(&r, &sizes, memory + list, recorder);
    seek_carve_hint_recorder(&h, memory + list + recorder, SEEK_HINT_LIST);
    if ((no = seek_new(&l, &d->area, INTERVAL, BUDGET, SPACING, MOST)) != 0 || (no = record_all(d, n, &l, &r)) != 0 || (no = see_all(d, n, &l, &h)) != 0
        || (no = seek_fingerprint(&l, d->fingerprint)) != 0)
        stop(name, seek_text(no));
    write_list(&l, name);
    free(memory);
}

int main(int argc, char **argv)
{
    if (argc != 2)
        return 2;
    make(&discs[0], boundaries(&discs[0]), argv[1], "school1/first.sbx");
    make(&discs[0], 81, argv[1], "school1/second.sbx");
    make(&discs[1], 124, argv[1], "school2/first.sbx");
    make(&discs[1], boundaries(&discs[1]), argv[1], "school2/second.sbx");
    make(&discs[2], boundaries(&discs[2]), argv[1], "school3/two-channel.sbx");
    make(&discs[3], 3, argv[1], "school3/multichannel.sbx");
    return 0;
}
