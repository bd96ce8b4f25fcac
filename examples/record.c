/* record OUT: a reading becomes a list. It reads a disc from its first sector to its last, records a checkpoint at every boundary and a hint where frames
 * start, and saves the list. The disc is made up by read_sector: its frame n starts in sector n of the area. */
#include <stdio.h>
#include <stdlib.h>

#include "seek.h"

enum { START = 1000, END = 1400, INTERVAL = 50, BUDGET = 4096, SPACING = 8, HINTS = 2048, SECTOR = 2048, BACK = 40, PART = 10 * BACK };

static void read_sector(uint64_t lsn, uint8_t *sector)
{
    unsigned n = (unsigned)(lsn - START), i;
    for (i = 0; i < SECTOR; i++)
        sector[i] = (uint8_t)(lsn + i);
    sector[0] = 0x24;                     /* one frame starts here; its time code lies at byte 3 */
    sector[3] = (uint8_t)(n / 75 / 60);
    sector[4] = (uint8_t)(n / 75 % 60);
    sector[5] = (uint8_t)(n % 75);
}

static int accepted(const char *what, uint32_t no)
{
    if (no)
        fprintf(stderr, "%s: refused with %u: %s\n", what, no, seek_text(no));
    return no == 0;
}

/* The checkpoint at a boundary. Behind the first one a frame is under assembly that started 40 sectors before. */
static int record(seek_recorder *r, uint64_t lsn, const uint8_t *sector, const uint8_t *bytes)
{
    seek_frame frame = {lsn - BACK, 0, 0, 0, NULL, PART};
    frame.number = (uint32_t)(lsn - BACK - START);
    frame.bytes = bytes;
    return accepted("record", seek_record(r, lsn, (uint32_t)(lsn - START), 0, lsn == START ? NULL : &frame, sector, SECTOR));
}

/* Reads the whole area. */
static int read_disc(seek_recorder *r, seek_hint_recorder *h)
{
    static uint8_t sector[SECTOR], bytes[PART];
    uint64_t lsn;
    for (lsn = START; lsn < END; lsn++) {
        read_sector(lsn, sector);
        if ((lsn - START) % INTERVAL == 0 && !record(r, lsn, sector, bytes))
            return 0;
        if (!accepted("see", seek_see(h, lsn, sector, SECTOR, NULL)))
            return 0;
    }
    return accepted("finish", seek_finish(r, END - START, 0)) && accepted("flush", seek_flush(h));
}

/* What was read goes into the list. */
static int take_in(seek_list *l, seek_recorder *r, seek_hint_recorder *h)
{
    const uint64_t image = 1;
    size_t length = 0;
    return accepted("absorb", seek_absorb(l, r, &image, NULL, 0)) && accepted("take", seek_take(h, &length))
           && accepted("add hints", seek_add_hints(l, h->list.at, length));
}

static int save(const seek_list *l, const char *name)
{
    uint64_t length = seek_saved_length(l);
    uint8_t *out = length < 88 ? NULL : (uint8_t *)calloc(1, (size_t)length);
    FILE *file = out ? fopen(name, "wb") : NULL;
    int done = file && seek_save(SEEK_WORKSHOP, l, out, (size_t)length) == length && fwrite(out, 1, (size_t)length, file) == length;
    if (file && fclose(file) != 0)
        done = 0;
    free(out);
    return done;
}

int main(int argc, char **argv)
{
    const seek_area area = {0, 2, START, END - 1, END + 150, START, END};
    seek_table_sizes sizes;
    seek_list list;
    seek_recorder recorder;
    seek_hint_recorder hinter;
    uint8_t *memory;
    uint64_t own, total;
    int made = 0, done;
    if (argc != 2 || !accepted("sizes", seek_sizes(&area, INTERVAL, BUDGET, HINTS, &sizes)))
        return 2;
    own = seek_total(&sizes);
    total = own + seek_recorder_total(&sizes) + SEEK_HINT_LIST;
    memory = (uint8_t *)calloc(1, (size_t)total);
    if (!memory || !seek_carve(&list, &sizes, memory, own) || !seek_carve_recorder(&recorder, &sizes, memory + own, seek_recorder_total(&sizes))
        || !seek_carve_hint_recorder(&hinter, memory + total - SEEK_HINT_LIST, SEEK_HINT_LIST))
        return 2;
    done = accepted("new", seek_new(&list, &area, INTERVAL, BUDGET, SPACING, HINTS)) && accepted("recorder", seek_recorder_of(&list, START, &recorder))
           && accepted("hint recorder", seek_hint_recorder_of(&list, &hinter, &made)) && made && read_disc(&recorder, &hinter)
           && take_in(&list, &recorder, &hinter) && save(&list, argv[1]);
    if (done)
        printf("%u checkpoints, %u held parts, %u hints, %s\n", (unsigned)seek_checkpoint_count(&list), (unsigned)seek_part_count(&list),
               (unsigned)seek_hint_count(&list), seek_is_complete(&list) ? "to the end of the area" : "not to the end of the area");
    free(memory);
    return done ? 0 : 1;
}
