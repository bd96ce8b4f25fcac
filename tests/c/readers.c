/* What seek.h tells of a list by number, and what it makes of lists that are absent, sizes of 0, areas of zeros, NULL with length 0, a recorder's block given as a
 * list's head, a frame of no kind, and sets of files that do not fit; where the time bytes of a sector lie; hints that are kept. Answers status 1 at the first wrong
 * answer. */
#include <stdio.h>
#include <stdlib.h>

#include "sample.h"
#include "seek_file.h"

#define HOLDS(test) \
    do { \
        if (!(test)) { \
            printf("line %d: not %s\n", __LINE__, #test); \
            exit(1); \
        } \
    } while (0)

static uint8_t file[SAMPLE_LONGEST], sector[2048];

/* The sample of 5 checkpoints, a part and 3 hints, with a confirmation and the numbers of its head. */
static void records(void)
{
    seek_list l;
    seek_checkpoint c;
    seek_held h;
    seek_jump j;
    seek_confirmation f;
    uint32_t lsn, number, made = 0;
    uint64_t at;
    int kept;
    size_t n = sample_file(file, 5, 0, 3);
    HOLDS(seek_open_bytes(SEEK_WORKSHOP, file, n, NULL, UINT64_MAX, &l) == 0);
    HOLDS(seek_budget(&l) == SAMPLE_BUDGET && seek_hint_limit(&l) == 2048 && seek_spacing(&l) == 8 && seek_interval(&l) == SAMPLE_INTERVAL);
    HOLDS(seek_frontier(&l) == 1200 && !seek_has_image(&l) && !seek_is_complete(&l));
    HOLDS(seek_checkpoint_at(&l, 2, &c) && c.lsn == 1100 && c.threshold == 150 && c.back == 40 && c.malformed == 0);
    HOLDS(c.digest == 2 * UINT64_C(0x9e3779b97f4a7c15));
    HOLDS(seek_checkpoint_at(&l, 4, &c) && c.lsn == 1200 && !seek_checkpoint_at(&l, 5, &c) && c.lsn == 0 && !seek_checkpoint_at(&l, UINT64_MAX, &c));
    HOLDS(seek_boundary(&l, 7, &at) && at == 1350 && !seek_boundary(&l, 8, &at) && at == 0 && !seek_boundary(&l, UINT32_MAX, &at));
    HOLDS(seek_held_at(&l, 0, &h) && h.checkpoint == 2 && h.start == 1060 && h.length == SAMPLE_PART && h.number == 149 && h.remaining == -7);
    HOLDS(h.kind == SEEK_DSD && !seek_held_at(&l, 1, &h) && h.length == 0);
    HOLDS(seek_plan(&l, 150, &j) == 0 && j.held && j.length == SAMPLE_PART && seek_part(&l, &j) == l.store.at + j.offset);
    j.offset = l.store.length - j.length;
    HOLDS(seek_part(&l, &j) == l.store.at + j.offset);
    j.offset++; /* one byte past the store, and sums past 2^64 */
    HOLDS(seek_part(&l, &j) == NULL);
    j.offset = UINT64_MAX;
    HOLDS(seek_part(&l, &j) == NULL);
    j.offset = 1, j.length = UINT64_MAX;
    HOLDS(seek_part(&l, &j) == NULL);
    HOLDS(seek_hint_at(&l, 1, &lsn, &number) && lsn == 1003 && number == 4 && !seek_hint_at(&l, 3, &lsn, &number) && lsn == 0 && number == 0);
    HOLDS(!seek_malformed_at(&l, 0, &made) && made == 0 && !seek_confirmation_at(&l, 0, &f));
    HOLDS(seek_fingerprint(&l, 9) == 0 && seek_keep_confirmation(&l, 1003, 4, 11, &kept) == 0 && kept);
    HOLDS(seek_confirmation_at(&l, 0, &f) && f.lsn == 1003 && f.threshold == 4 && f.digest == 11 && !seek_confirmation_at(&l, 1, &f));
    l.checkpoints.length = 24 * 2; /* a table that is shorter than the head says */
    HOLDS(!seek_checkpoint_at(&l, 2, &c) && seek_plan(&l, 3, &(seek_jump){0}) == SEEK_NO_ROOM);
    seek_close(&l);

    n = sample_file(file, 8, 1, 0);
    HOLDS(seek_open_bytes(SEEK_WORKSHOP, file, n, NULL, UINT64_MAX, &l) == 0 && seek_is_complete(&l) && seek_frontier(&l) == 1400 && seek_end_threshold(&l) == 600);
    seek_close(&l);
}

/* A reading with a malformed sector, the due sectors, and frames of kinds 1, 2 and 255. */
static void reading(void)
{
    const seek_area area = {0, 2, 1000, 1399, 1550, 1000, 1400};
    const uint8_t malformed[4] = {0xeb, 3, 0, 0}; /* 1003 */
    const uint8_t kinds[] = {2, 255};
    seek_list l;
    seek_recorder r, other;
    seek_frame f = {1010, 5, 0, 0, NULL, 0};
    uint64_t due;
    uint32_t lsn, k;
    HOLDS(seek_begin(&area, 50, 4096, 8, 2048, &l) == 0 && seek_frontier(&l) == 1000 && seek_begin_recorder(&l, 1399, &r) == 0);
    HOLDS(seek_due(&r, &due) && due == 1000 && seek_record(&r, 1000, 0, 0, NULL, sector, sizeof sector) == 0);
    HOLDS(seek_due(&r, &due) && due == 1050 && seek_absorb(&l, &r, NULL, NULL, 0) == SEEK_NO_ABSORB_JOINS); /* from lies above the frontier */
    seek_close_recorder(&r);
    HOLDS(seek_begin_recorder(&l, 1000, &r) == 0 && seek_record(&r, 1000, 0, 0, NULL, sector, sizeof sector) == 0);
    for (k = 0; k < 2; k++) {
        f.kind = kinds[k];
        HOLDS(seek_record(&r, 1050, 5, 1, &f, sector, sizeof sector) == SEEK_NO_RECORD_FRAME && seek_recorded_count(&r) == 1);
        HOLDS(seek_record(&r, 1051, 5, 1, &f, sector, sizeof sector) == SEEK_NO_RECORD_DUE);   /* 5 and 6 come before 7 */
        HOLDS(seek_record(&r, 1050, 5, 99, &f, sector, sizeof sector) == SEEK_NO_RECORD_FALLS);
    }
    f.kind = SEEK_DSD;
    HOLDS(seek_record(&r, 1050, 5, 1, &f, sector, sizeof sector) == 0 && seek_absorb(&l, &r, NULL, malformed, 4) == 0);
    HOLDS(seek_malformed_at(&l, 0, &lsn) && lsn == 1003 && seek_frontier(&l) == 1050);
    HOLDS(seek_due(&r, &due) && due == 1100 && seek_begin_recorder(&l, 1050, &other) == 0 && seek_due(&other, &due) && due == 1100);
    seek_close_recorder(&other);
    for (k = 2; k < 8; k++)
        HOLDS(seek_due(&r, &due) && due == 1000 + 50 * k && seek_record(&r, due, 5, 1, NULL, sector, sizeof sector) == 0);
    HOLDS(!seek_due(&r, &due) && due == 0 && seek_finish(&r, 5, 1) == 0 && !seek_due(&r, &due) && seek_absorb(&l, &r, NULL, malformed, 4) == 0);
    HOLDS(seek_recorder_stopped(&r) && !seek_due(&r, &due) && seek_is_complete(&l));
    seek_close_recorder(&r);
    seek_close(&l);
}

static int is_first(const seek_first *f, int found, uint64_t number, uint64_t offset, int why)
{
    return f->found == found && f->number == number && f->offset == offset && f->why == why;
}

/* A sector that begins with this header byte, the time bytes 1, 2, 3 where its packets end, and is so long. */
static int tells(uint8_t header, size_t length, int found, uint64_t offset, int why)
{
    static uint8_t shown[2049];
    seek_first f;
    unsigned at = 1 + 2 * (unsigned)(header >> 5), i;
    memset(shown, 0, sizeof shown);
    shown[0] = header;
    for (i = 0; i < 3; i++)
        shown[at + i] = (uint8_t)(i + 1);
    return seek_first_record(shown, length, &f) == 0 && is_first(&f, found, found ? 4653 : 0, offset, why);
}

/* Where the time bytes lie, or why there are none; what see passes through; words 7 to 10 of a hint recorder's block. */
static void first_records(void)
{
    static const size_t lengths[] = {3, 4, 17, 18, 2047, 2048, 2049};
    static uint8_t shown[2048] = {0x24, 0, 0, 1, 2, 3}, block[SEEK_BLOCK], answer[SEEK_BLOCK - 1];
    const seek_area area = {0, 2, 1000, 1399, 1550, 1000, 1400};
    seek_list l;
    seek_hint_recorder h, g;
    seek_first f;
    size_t i;
    int made;
    for (i = 0; i < sizeof lengths / sizeof *lengths; i++) {
        size_t n = lengths[i];
        HOLDS(n < 4 ? tells(0x04, n, 0, 0, SEEK_BYTES_MISSING) : tells(0x04, n, 1, 1, 0));
        HOLDS(n < 18 ? tells(0xe4, n, 0, 0, SEEK_BYTES_MISSING) : tells(0xe4, n, 1, 15, 0));
        HOLDS(tells(0xe3, n, 0, 0, SEEK_NO_FRAME));
    }
    HOLDS(tells(0x04, 0, 0, 0, SEEK_BYTES_MISSING) && tells(0, 0, 0, 0, SEEK_BYTES_MISSING) && tells(0, 1, 0, 0, SEEK_NO_FRAME));
    HOLDS(tells(0xe0, 1, 0, 0, SEEK_NO_FRAME) && tells(0x04, 1, 0, 0, SEEK_BYTES_MISSING) && tells(0x24, 6, 1, 3, 0) && tells(0x1c, 4, 1, 1, 0));
    HOLDS(strcmp(seek_first_text(SEEK_NO_FRAME), "no frame starts there") == 0 && strcmp(seek_first_text(SEEK_BYTES_MISSING), "bytes are missing") == 0);
    HOLDS(strcmp(seek_first_text(0), "none") == 0 && strcmp(seek_first_text(3), "none") == 0 && strcmp(seek_first_text(-1), "none") == 0);

    /* a block of 191 bytes: 3, and nothing is told */
    HOLDS(seek_raw_first_record(shown, sizeof shown, answer, sizeof answer) == SEEK_NO_ROOM && seek_word(answer, 0) == 0 && seek_word(answer, 3) == 0);

    HOLDS(seek_begin(&area, 50, 4096, 75, 2048, &l) == 0 && seek_begin_hint_recorder(&l, &h, &made) == 0 && made);
    HOLDS(seek_raw_see(h.block, SEEK_BLOCK - 1, 1000, shown, sizeof shown, h.list.at, h.list.length) == SEEK_NO_ROOM && seek_word(h.block, 7) == 0);
    HOLDS(seek_see(&h, 1000, shown, sizeof shown, &f) == 0 && is_first(&f, 1, 4653, 3, 0) && seek_seen_count(&h) == 1);
    shown[5] = 4; /* not spaced: the tail */
    HOLDS(seek_see(&h, 1001, shown, sizeof shown, &f) == 0 && is_first(&f, 1, 4654, 3, 0) && seek_seen_count(&h) == 1 && seek_word(h.block, 5) == 4654);
    shown[5] = 5; /* passed over: an LSN above 32 bits */
    HOLDS(seek_see(&h, UINT64_C(4294967296), shown, sizeof shown, &f) == 0 && is_first(&f, 1, 4655, 3, 0) && seek_word(h.block, 5) == 4654);
    HOLDS(seek_see(&h, 1002, shown, 1, &f) == 0 && is_first(&f, 0, 0, 0, SEEK_BYTES_MISSING) && seek_word(h.block, 5) == 4654);
    HOLDS(seek_see(&h, 1002, NULL, 0, &f) == 0 && is_first(&f, 0, 0, 0, SEEK_BYTES_MISSING));
    shown[0] = 0x20;
    HOLDS(seek_see(&h, 1002, shown, sizeof shown, &f) == 0 && is_first(&f, 0, 0, 0, SEEK_NO_FRAME) && seek_word(h.block, 10) == SEEK_NO_FRAME);

    /* what words 7 to 10 are has no effect, and flush writes 0 there */
    g = h;
    memset(g.block + 8 * 7, 0xff, 8 * 4);
    shown[0] = 0x24;
    memcpy(block, g.block, sizeof block);
    g.list.length = 8; /* refused: all is 0, and the block is as it was */
    HOLDS(seek_see(&g, 1003, shown, sizeof shown, &f) == SEEK_NO_ROOM && is_first(&f, 0, 0, 0, 0) && memcmp(block, g.block, sizeof block) == 0);
    g.list.length = h.list.length;
    HOLDS(seek_see(&g, 1003, shown, sizeof shown, &f) == 0 && is_first(&f, 1, 4655, 3, 0));
    HOLDS(seek_see(&h, 1003, shown, sizeof shown, NULL) == 0 && memcmp(g.block, h.block, sizeof block) == 0);
    memset(g.block + 8 * 7, 0xff, 8 * 4);
    HOLDS(seek_flush(&g) == 0 && seek_seen_count(&g) == 2 && seek_word(g.block, 7) == 0 && seek_word(g.block, 10) == 0);
    seek_close_hint_recorder(&h);
    seek_close(&l);
}

/* n hints from a sector and a frame number on, each ten sectors and one frame behind the one before. */
static uint32_t add_run(seek_list *l, uint32_t lsn, uint32_t number, uint32_t n)
{
    uint8_t list[80];
    uint32_t i;
    for (i = 0; i < n; i++)
        sample_put(sample_put(list + 8 * i, lsn + 10 * i, 4), number + i, 4);
    return seek_add_hints(l, list, 8 * n);
}

/* How many hints can be kept under a limit of M, of ten. */
static uint32_t most_kept(uint32_t most)
{
    const seek_area area = {0, 2, 1000, 1399, 1550, 1000, 1400};
    seek_list l;
    uint32_t i, n = 0, lsn, number;
    HOLDS(seek_begin(&area, 50, 0, 8, most, &l) == 0 && add_run(&l, 1000, 100, 10) == 0);
    for (i = 0; seek_hint_at(&l, i, &lsn, &number); i++)
        n += seek_keep_hint(&l, lsn) == 0;
    HOLDS(seek_kept_count(&l) == n);
    seek_close(&l);
    return n;
}

/* Marks by number, 53, a thinning that passes over them, what a merge and a file do with them. */
static void kept(void)
{
    const seek_area area = {0, 2, 1000, 1399, 1550, 1000, 1400};
    static const uint32_t left[] = {1000, 1010, 1020, 1060, 1070, 1080};
    seek_list l, other;
    seek_brings b;
    uint8_t *bytes;
    size_t length;
    uint32_t i, lsn, number;
    HOLDS(seek_begin(&area, 50, 0, 8, 8, &l) == 0 && seek_begin(&area, 50, 0, 8, 8, &other) == 0 && add_run(&l, 1000, 100, 8) == 0);
    HOLDS(seek_kept_count(&l) == 0 && seek_keep_hint(&l, 1010) == 0 && seek_hint_kept_at(&l, 1) && !seek_hint_kept_at(&l, 0) && !seek_hint_kept_at(&l, 8));
    HOLDS(l.hints.at[15] == 1 && seek_hint_at(&l, 1, &lsn, &number) && lsn == 1010 && number == 101 && seek_kept_count(&l) == 1);
    HOLDS(seek_keep_hint(&l, 1011) == SEEK_NO_KEEP && seek_keep_hint(&l, 999) == SEEK_NO_KEEP && seek_keep_hint(&l, 1400) == SEEK_NO_KEEP);
    HOLDS(seek_keep_hint(&l, UINT64_C(4294967296) + 1020) == SEEK_NO_KEEP && seek_keep_hint(&l, UINT64_MAX) == SEEK_NO_KEEP && seek_kept_count(&l) == 1);
    HOLDS(seek_keep_hint(&l, 1020) == 0 && seek_keep_hint(&l, 1030) == SEEK_NO_KEEP && seek_keep_hint(&l, 1010) == 0 && seek_kept_count(&l) == 2);

    /* nine hints are thinned to six: gaps of 1, and the first two of them are kept */
    HOLDS(add_run(&l, 1080, 108, 1) == 0 && seek_hint_count(&l) == 6 && seek_kept_count(&l) == 2);
    for (i = 0; i < 6; i++)
        HOLDS(seek_hint_at(&l, i, &lsn, &number) && lsn == left[i] && seek_hint_kept_at(&l, i) == (lsn == 1010 || lsn == 1020));
    HOLDS(add_run(&l, 1010, 1166880, 1) == 0 && seek_hint_at(&l, 1, &lsn, &number) && number == 1166880 && seek_hint_kept_at(&l, 1));

    /* the other list's marks are not taken */
    HOLDS(add_run(&other, 1000, 5, 2) == 0 && seek_keep_hint(&other, 1000) == 0 && seek_adds(&l, &other, &b) == 0 && b.hints && seek_merge(SEEK_WORKSHOP, &l, &other) == 0);
    HOLDS(seek_hint_at(&l, 0, &lsn, &number) && number == 5 && !seek_hint_kept_at(&l, 0) && seek_kept_count(&l) == 2);
    HOLDS(seek_hint_at(&l, 1, &lsn, &number) && number == 6 && seek_hint_kept_at(&l, 1));
    HOLDS(seek_adds(&l, &other, &b) == 0 && !b.hints);

    /* a file holds no mark; a hint's last byte in a file is that of its number */
    HOLDS(seek_saved(SEEK_WORKSHOP, &l, &bytes, &length) == 0);
    seek_close(&other);
    HOLDS(seek_open_bytes(SEEK_WORKSHOP, bytes, length, NULL, UINT64_MAX, &other) == 0 && seek_hint_count(&other) == 6 && seek_kept_count(&other) == 0);
    free(bytes);

    /* a mark of 2, three marks under a limit of 8, and a number of 1,166,881 with a mark are no list */
    l.hints.at[7] = 2;
    HOLDS(seek_keep_hint(&l, 1010) == SEEK_NO_CONTENT && seek_refused(seek_saved_length(&l)) && seek_merge(SEEK_WORKSHOP, &other, &l) == SEEK_NO_CONTENT);
    l.hints.at[7] = 1;
    HOLDS(seek_kept_count(&l) == 3 && seek_keep_hint(&l, 1010) == SEEK_NO_CONTENT && seek_merge(SEEK_WORKSHOP, &l, &other) == SEEK_NO_CONTENT);
    l.hints.at[7] = 0;
    sample_put(l.hints.at + 12, 1166881, 3);
    HOLDS(seek_keep_hint(&l, 1010) == SEEK_NO_CONTENT && l.hints.length-- > 0 && seek_keep_hint(&l, 1) == SEEK_NO_ROOM);
    seek_close(&other);
    seek_close(&l);
    HOLDS(most_kept(0) == 0 && most_kept(3) == 0 && most_kept(4) == 1 && most_kept(7) == 1 && most_kept(8) == 2 && most_kept(2048) == 10);
}

/* Lists without memory, sizes of 0, areas of zeros, NULL with length 0. */
static void nothing(void)
{
    seek_list none = SEEK_ABSENT, l, m;
    seek_recorder r = {{0}, {NULL, 0}, {NULL, 0}, {NULL, 0}, {NULL, 0}};
    seek_hint_recorder hr = {{0}, {NULL, 0}};
    const seek_table_sizes zero = {0, 0, 0, 0, 0, 0, 0};
    const seek_area empty = {0, 0, 0, 0, 0, 0, 0};
    seek_table_sizes s[2];
    seek_contents c;
    seek_area area;
    seek_jump j;
    seek_brings b;
    seek_hinted h;
    uint8_t disc[SAMPLE_LONGEST + 28], *bytes;
    uint64_t number;
    size_t n = sample_file(file, 5, 0, 0), length;
    int present[2], made;
    seek_first first;
    HOLDS(seek_carve(&l, &zero, NULL, 0) && l.store.at == NULL && l.hints.length == 0 && seek_carve_recorder(&r, &zero, NULL, 0));
    HOLDS(seek_plan(&none, 0, &j) == SEEK_NO_NUMBERS && j.where == SEEK_AT_START && seek_part(&none, &j) == NULL && seek_frontier(&none) == 0);
    HOLDS(seek_saved_length(&none) == SEEK_NO_NUMBERS && seek_refused(seek_save(SEEK_WORKSHOP, &none, NULL, 0)) && seek_fingerprint(&none, 1) == SEEK_NO_NUMBERS);
    HOLDS(seek_merge(SEEK_WORKSHOP, &none, &l) == SEEK_NO_NUMBERS && seek_adds(&none, &l, &b) == SEEK_NO_NUMBERS && seek_hint(&none, 0, 0, 0, &h) == SEEK_NO_NUMBERS);
    HOLDS(seek_keep_hint(&none, 0) == SEEK_NO_NUMBERS && seek_kept_count(&none) == 0 && !seek_hint_kept_at(&none, 0));
    HOLDS(seek_add_hints(&none, NULL, 0) == SEEK_NO_NUMBERS && seek_recorder_of(&none, 0, &r) == SEEK_NO_NUMBERS);
    HOLDS(seek_hint_recorder_of(&none, &hr, &made) == SEEK_NO_NUMBERS && !made && seek_see(&hr, 0, NULL, 0, NULL) == SEEK_NO_ROOM);
    HOLDS(seek_flush(&hr) == SEEK_NO_ROOM && seek_take(&hr, &length) == SEEK_NO_ROOM && length == 0);
    HOLDS(seek_record(&r, 0, 0, 0, NULL, NULL, 0) == SEEK_NO_NUMBERS && seek_finish(&r, 0, 0) == SEEK_NO_NUMBERS && !seek_due(&r, &number));
    HOLDS(seek_absorb(&none, &r, NULL, NULL, 0) == SEEK_NO_NUMBERS && seek_keep_confirmation(&none, 0, 0, 0, &made) == SEEK_NO_NUMBERS);
    HOLDS(seek_file_area(NULL, 0, &area) == SEEK_NO_FILE_SHORT && seek_load(SEEK_WORKSHOP, &l, &empty, NULL, 0, 0) == SEEK_NO_FILE_SHORT);
    HOLDS(seek_file_sizes(&empty, NULL, 0, 0, &s[0]) == SEEK_NO_FILE_SHORT && seek_total(&s[0]) == 0 && seek_new(&l, &empty, 1, 0, 0, 0) == SEEK_NO_ROOM);
    HOLDS(seek_disc_contents(NULL, 0, &c) == SEEK_NO_DISC && seek_disc_load(SEEK_WORKSHOP, NULL, NULL, NULL, NULL, NULL, 0, 0, present) == SEEK_NO_DISC);
    HOLDS(seek_first_record(NULL, 0, &first) == 0 && is_first(&first, 0, 0, 0, SEEK_BYTES_MISSING) && seek_sum(NULL, 0) == UINT64_C(0xcbf29ce484222325));
    HOLDS(seek_saved(SEEK_WORKSHOP, &none, &bytes, &length) == SEEK_NO_NUMBERS && bytes == NULL && seek_open(SEEK_WORKSHOP, "", NULL, 0, &l) == SEEK_NO_READ);
    seek_close(&none); /* an absent list has nothing to give back */

    /* a disc file of one list: the other slot has no area, no list and no memory */
    HOLDS(seek_open_bytes(SEEK_WORKSHOP, file, n, NULL, UINT64_MAX, &l) == 0);
    HOLDS((length = (size_t)seek_disc_save(SEEK_WORKSHOP, &l, NULL, disc, sizeof disc)) == n + 16);
    seek_area_of(&l, &area);
    HOLDS(seek_disc_sizes(&area, &empty, disc, length, UINT64_MAX, &s[0], &s[1]) == 0 && seek_total(&s[1]) == 0);
    HOLDS(seek_disc_sizes(&area, NULL, disc, length, UINT64_MAX, &s[0], &s[1]) == 0 && (bytes = (uint8_t *)calloc(1, (size_t)seek_total(&s[0]))) != NULL);
    HOLDS(seek_carve(&m, &s[0], bytes, seek_total(&s[0])) && seek_carve(&none, &s[1], NULL, 0));
    HOLDS(seek_disc_load(SEEK_WORKSHOP, &m, &none, &area, &empty, disc, length, UINT64_MAX, present) == 0 && present[0] && !present[1]);
    HOLDS(seek_disc_load(SEEK_WORKSHOP, &m, NULL, &area, NULL, disc, length, UINT64_MAX, present) == 0 && seek_checkpoint_count(&m) == 5);
    HOLDS(seek_disc_load(SEEK_WORKSHOP, NULL, &m, NULL, &area, disc, length, UINT64_MAX, present) == SEEK_NO_AREA);     /* slot 0's area for slot 1 */
    HOLDS(seek_disc_load(SEEK_WORKSHOP, &m, NULL, NULL, NULL, disc, length, UINT64_MAX, present) == SEEK_NO_FILE_AREA && !present[0]);
    free(bytes);

    /* a recorder's block as a list's head, and the other way round */
    HOLDS(seek_begin_recorder(&l, 1000, &r) == 0);
    m = l;
    memcpy(m.head, r.block, SEEK_BLOCK);
    HOLDS(seek_plan(&m, 0, &j) != 0 || seek_checkpoint_count(&m) == 0);
    memcpy(r.block, l.head, SEEK_BLOCK);
    HOLDS(seek_record(&r, 1000, 0, 0, NULL, sector, sizeof sector) != 0);
    seek_close_recorder(&r);

    /* heads that hold what no call writes: 2^32 + 5 checkpoints, an interval of 2^32 more, a slot of 256, marks that there are not, a number behind a mark of 0 */
    HOLDS(seek_begin_recorder(&l, 1000, &r) == 0 && seek_due(&r, &number));
    {
        const uint64_t words[][2] = {{11, 4294967301u}, {7, seek_interval(&l) + 4294967296u}, {0, 256}, {17, 2}, {20, 3}, {22, 2}, {23, 1}};
        size_t i;
        for (i = 0; i < sizeof words / sizeof *words; i++) {
            m = l;
            sample_put(m.head + 8 * words[i][0], words[i][1], 8);
            HOLDS(seek_plan(&m, 0, &j) == SEEK_NO_ROOM && seek_saved_length(&m) == SEEK_NO_ROOM && seek_merge(SEEK_WORKSHOP, &m, &l) == SEEK_NO_ROOM);
            HOLDS(seek_merge(SEEK_WORKSHOP, &l, &m) == SEEK_NO_ROOM && seek_fingerprint(&m, 1) == SEEK_NO_ROOM && seek_word(m.head, (unsigned)words[i][0]) == words[i][1]);
        }
        sample_put(r.block + 8 * 14, 3, 8);
        HOLDS(!seek_due(&r, &number) && seek_record(&r, 1000, 0, 0, NULL, sector, sizeof sector) == SEEK_NO_ROOM && seek_absorb(&l, &r, NULL, NULL, 0) == SEEK_NO_ROOM);
    }
    seek_close_recorder(&r);
    seek_close(&l);
}

/* Sets of files: counts, lengths that do not fit, a working list without room, and what is left of the own list where a set is refused. */
static void sets(void)
{
    static uint8_t files[16 * SAMPLE_LONGEST];
    static const unsigned counts[3] = {2, SAMPLE_BOUNDARIES, 5};
    uint64_t lengths[40] = {0}, right[3], saved;
    seek_list own, before, work = SEEK_ABSENT;
    seek_table_sizes s, t;
    seek_area area;
    uint8_t *memory;
    size_t n = sample_file(file, 1, 0, 0), total = 0, i;
    HOLDS(seek_open_bytes(SEEK_WORKSHOP, file, n, NULL, UINT64_MAX, &own) == 0);
    before = own;
    seek_area_of(&own, &area);
    for (i = 0; i < 3; i++)
        total += (size_t)(right[i] = lengths[i] = sample_file(files + total, counts[i], i == 1, 3));
    HOLDS(seek_set_sizes(&area, files, total, lengths, 3, UINT64_MAX, &s) == 0 && seek_file_sizes(&area, files, (size_t)right[0], UINT64_MAX, &t) == 0);
    HOLDS(memcmp(&s, &t, sizeof s) == 0 && (memory = (uint8_t *)calloc(1, (size_t)seek_total(&s))) != NULL);
    HOLDS(seek_merge_all(SEEK_WORKSHOP, &own, files, total, lengths, 3, UINT64_MAX, &work) == SEEK_NO_ROOM && seek_carve(&work, &s, memory, seek_total(&s)));
    HOLDS(seek_merge_all(SEEK_WORKSHOP, &own, NULL, 0, NULL, 0, 0, &work) == SEEK_NO_SET && seek_merge_all(SEEK_WORKSHOP, &own, files, total, lengths, 17, 0, &work) == SEEK_NO_SET);
    HOLDS(seek_merge_all(SEEK_WORKSHOP, &own, files, total, lengths, 40, 0, &work) == SEEK_NO_SET && seek_merge_all(SEEK_WORKSHOP, &work, files, total, lengths, 0, 0, &own) == SEEK_NO_NUMBERS);
    own = before; /* lent as a working list it was none afterwards */
    HOLDS(seek_set_sizes(&area, NULL, 0, NULL, 0, 0, &t) == 0 && seek_total(&t) == 0);
    {
        /* a byte past the buffer, no bytes, all that there are, and such that the sum of all wraps to 88 */
        const uint64_t wrong[] = {right[2] + 1, 0, UINT64_MAX, UINT64_MAX - right[0] - right[1] + 1 + 88};
        for (i = 0; i < 4; i++) {
            lengths[2] = wrong[i];
            HOLDS(seek_merge_all(SEEK_WORKSHOP, &own, files, total, lengths, 3, UINT64_MAX, &work) == SEEK_NO_FILE_SHORT);
            HOLDS(seek_set_sizes(&area, files, total, lengths, 3, UINT64_MAX, &t) == SEEK_NO_FILE_SHORT && seek_total(&t) == seek_total(&s));
        }
    }
    HOLDS(seek_raw_merge_all(SEEK_WORKSHOP, own.head, SEEK_BLOCK, files, 8, files, total, 0, NULL, 0, NULL, 0, NULL, 0, NULL, 0, NULL, 0, NULL, 0, NULL, 0, NULL, 0, NULL, 0, NULL, 0,
                             NULL, 0, NULL, 0, NULL, 0, NULL, 0) == SEEK_NO_ROOM);
    HOLDS(memcmp(&before, &own, sizeof own) == 0 && seek_save(SEEK_WORKSHOP, &own, sector, sizeof sector) == n && memcmp(sector, file, n) == 0);
    HOLDS(seek_merge_all(SEEK_WORKSHOP, &own, files, total, right, 3, UINT64_MAX, &work) == 0 && seek_is_complete(&own) && seek_hint_count(&own) == 3);
    for (i = 0, total = 0; i < 16; i++)
        total += (size_t)(lengths[i] = sample_file(files + total, 0, 0, 0));
    saved = seek_saved_length(&own);
    HOLDS(total == 16 * 88 && seek_merge_all(SEEK_WORKSHOP, &own, files, total, lengths, 16, 0, &work) == 0 && seek_saved_length(&own) == saved && seek_word(work.head, 7) == 0);
    free(memory);
    seek_close(&own);
}

int main(void)
{
    HOLDS(seek_version() == SEEK_VERSION && !seek_refused(88) && seek_refused(87) && SEEK_DST == 0 && SEEK_DSD == 1);
    records();
    reading();
    first_records();
    kept();
    nothing();
    sets();
    return 0;
}
