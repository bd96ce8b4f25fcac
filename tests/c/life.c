/* life A B FRAME OUT: a player's life in C99, written from seek.h and seek_file.h alone. It loads two list files, merges them, plans a jump and asks for a hint;
 * then it records a simulated disc, absorbs the reading and saves its list. */
#include <inttypes.h>
#include <stdio.h>
#include <stdlib.h>

#include "seek_file.h"

enum { START = 1000, END = 1400, SECTOR = 2048 };

static int accepted(const char *what, uint32_t no)
{
    if (no)
        printf("%s: refused with %" PRIu32 ": %s\n", what, no, seek_file_text(no));
    return no == 0;
}

/* The merged list: where a jump starts, and where reading begins for the frames past its frontier. */
static int jump(const seek_list *l, uint32_t frame)
{
    seek_jump j;
    seek_hinted h;
    if (!accepted("plan", seek_plan(l, frame, &j)) || !accepted("hint", seek_hint(l, frame, frame + 75, 600, &h)))
        return 0;
    if (j.where == SEEK_AT_CHECKPOINT)
        printf("frame %" PRIu32 ": sector %" PRIu64 ", %" PRIu64 " bytes held\n", frame, j.lsn, j.length);
    printf("frontier %" PRIu64 ", hint %s\n", seek_frontier(l), h.found ? "found" : "none");
    return 1;
}

static void read_sector(uint64_t lsn, uint8_t *sector)
{
    uint64_t n = lsn - START;
    sector[0] = 0x24;
    sector[3] = (uint8_t)(n / 75 / 60);
    sector[4] = (uint8_t)(n / 75 % 60);
    sector[5] = (uint8_t)(n % 75);
}

/* Reads the disc once; the frame under assembly at each boundary started 40 sectors before. */
static int read_disc(seek_recorder *r, seek_hint_recorder *h)
{
    static uint8_t sector[SECTOR], bytes[400];
    uint64_t lsn, due;
    for (lsn = START; lsn < END; lsn++) {
        read_sector(lsn, sector);
        if (seek_due(r, &due) && due == lsn) {
            seek_frame f = {0, 0, SEEK_DST, 3, NULL, sizeof bytes};
            f.start = lsn - 40;
            f.number = (uint32_t)(lsn - START);
            f.bytes = bytes;
            if (!accepted("record", seek_record(r, lsn, (uint32_t)(lsn - START), 0, lsn == START ? NULL : &f, sector, SECTOR)))
                return 0;
        }
        if (!accepted("see", seek_see(h, lsn, sector, SECTOR, NULL)))
            return 0;
    }
    return !seek_due(r, &due) && accepted("finish", seek_finish(r, END - START, 0)) && accepted("flush", seek_flush(h));
}

static int record(const char *name)
{
    const seek_area area = {0, 2, START, END - 1, END + 150, START, END};
    const uint64_t image = 1;
    seek_list l;
    seek_recorder r;
    seek_hint_recorder h;
    size_t length = 0;
    int made = 0, done = 0;
    if (!accepted("begin", seek_begin(&area, 50, 1048576, 8, 2048, &l)))
        return 0;
    if (accepted("recorder", seek_begin_recorder(&l, START, &r))) {
        if (accepted("hint recorder", seek_begin_hint_recorder(&l, &h, &made)) && made) {
            done = read_disc(&r, &h) && accepted("absorb", seek_absorb(&l, &r, &image, NULL, 0)) && accepted("take", seek_take(&h, &length))
                   && accepted("add hints", seek_add_hints(&l, h.list.at, length)) && accepted("save", seek_save_file(SEEK_WORKSHOP, &l, name));
            seek_close_hint_recorder(&h);
        }
        seek_close_recorder(&r);
    }
    if (done)
        printf("%" PRIu64 " checkpoints, %" PRIu64 " hints, %s\n", seek_checkpoint_count(&l), seek_hint_count(&l), seek_is_complete(&l) ? "complete" : "open");
    seek_close(&l);
    return done;
}

int main(int argc, char **argv)
{
    seek_list own, other;
    int done = 0;
    if (argc != 5 || seek_version() < SEEK_VERSION)
        return 2;
    if (accepted(argv[1], seek_open(SEEK_WORKSHOP, argv[1], NULL, UINT64_MAX, &own))) {
        if (accepted(argv[2], seek_open(SEEK_WORKSHOP, argv[2], NULL, UINT64_MAX, &other))) {
            done = accepted("merge", seek_merge(SEEK_WORKSHOP, &own, &other)) && jump(&own, (uint32_t)strtoul(argv[3], NULL, 10));
            seek_close(&other);
        }
        seek_close(&own);
    }
    return done && record(argv[4]) ? 0 : 1;
}
