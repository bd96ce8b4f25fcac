/* player A B FRAME OUT [LSN]: a player's life. It opens two list files of one disc, merges the second into the first, plans a jump to a frame, reads the
 * bytes of the held part, and saves the merged list. With LSN there is a lesson before: in a list of few hints the hint of that sector is kept. */
#include <stdio.h>
#include <stdlib.h>

#include "seek.h"

/* ---- files */
static uint8_t *read_file(const char *name, size_t *length)
{
    FILE *in = fopen(name, "rb");
    uint8_t *bytes = NULL;
    long end;
    if (in && fseek(in, 0, SEEK_END) == 0 && (end = ftell(in)) >= 0 && fseek(in, 0, SEEK_SET) == 0) {
        bytes = (uint8_t *)malloc((size_t)end + 1);
        if (bytes && fread(bytes, 1, (size_t)end, in) != (size_t)end) {
            free(bytes);
            bytes = NULL;
        }
        *length = (size_t)end;
    }
    if (in)
        fclose(in);
    if (!bytes)
        fprintf(stderr, "%s: cannot be read\n", name);
    return bytes;
}

static int write_file(const char *name, const uint8_t *bytes, size_t length)
{
    FILE *out = fopen(name, "wb");
    int done = out && fwrite(bytes, 1, length, out) == length;
    if (out && fclose(out) != 0)
        done = 0;
    if (!done)
        fprintf(stderr, "%s: cannot be written\n", name);
    return done;
}

static int refused(const char *what, uint64_t number)
{
    fprintf(stderr, "%s: refused with %u: %s\n", what, (unsigned)number, seek_text((uint32_t)number));
    return 0;
}

/* ---- lists */
/* Loads a list file into one block of memory, which is the caller's to free. */
static uint8_t *open_list(seek_list *list, const char *name)
{
    size_t length = 0;
    uint8_t *file = read_file(name, &length), *memory = NULL;
    seek_area area;
    seek_table_sizes sizes;
    uint32_t no;
    if (!file)
        return NULL;
    if ((no = seek_file_area(file, length, &area)) != 0 || (no = seek_file_sizes(&area, file, length, UINT64_MAX, &sizes)) != 0) {
        refused(name, no);
    } else if ((memory = (uint8_t *)calloc(1, (size_t)seek_total(&sizes))) == NULL) {
        fprintf(stderr, "%s: no memory\n", name);
    } else {
        seek_carve(list, &sizes, memory, seek_total(&sizes));
        if ((no = seek_load(SEEK_WORKSHOP, list, &area, file, length, UINT64_MAX)) != 0) {
            refused(name, no);
            free(memory);
            memory = NULL;
        }
    }
    free(file);
    return memory;
}

static int jump(const seek_list *list, uint32_t frame)
{
    seek_jump j;
    const uint8_t *part;
    uint32_t no = seek_plan(list, frame, &j);
    if (no)
        return refused("plan", no);
    if (j.where == SEEK_AT_CHECKPOINT)
        printf("frame %u: from sector %llu\n", frame, (unsigned long long)j.lsn);
    else
        printf("frame %u: from the area's %s\n", frame, j.where == SEEK_AT_START ? "start" : "end");
    part = seek_part(list, &j);
    if (part)
        printf("  with %llu bytes of frame %llu, the first %u, the last %u\n", (unsigned long long)j.length, (unsigned long long)j.frame,
               j.length ? part[0] : 0u, j.length ? part[j.length - 1] : 0u);
    return 1;
}

static int save(const seek_list *list, const char *name)
{
    uint64_t length = seek_saved_length(list);
    uint8_t *out;
    int done;
    if (length < 88)
        return refused("save", length);
    out = (uint8_t *)calloc(1, (size_t)length);
    if (!out)
        return 0;
    length = seek_save(SEEK_WORKSHOP, list, out, (size_t)length);
    done = length < 88 ? refused("save", length) : write_file(name, out, (size_t)length);
    free(out);
    return done;
}

/* ---- a lesson */
enum { LESSON_READ = 50, LESSON_HINTS = 64 };

/* The hints of a reading from one sector up to another: two frames start in each. */
static uint32_t read_on(seek_list *list, uint64_t start, uint64_t from, uint64_t to)
{
    uint32_t no = 0;
    for (; no == 0 && from < to; from++) {
        uint64_t v = from | (from - start) * 2 % 1000000 << 32;
        uint8_t hint[8];
        unsigned k;
        for (k = 0; k < 8; k++)
            hint[k] = (uint8_t)(v >> 8 * k);
        no = seek_add_hints(list, hint, sizeof hint);
    }
    return no;
}

/* Hints come in, the teacher marks that of a sector, and a long reading brings more hints than there is room for. */
static int lesson(const seek_area *area, uint64_t lsn)
{
    seek_table_sizes sizes;
    seek_list list;
    uint64_t middle = area->end - area->start < LESSON_READ ? area->end : area->start + LESSON_READ, i;
    uint32_t no = seek_sizes(area, 1024, 0, LESSON_HINTS, &sizes), at, number;
    uint8_t *memory = no ? NULL : (uint8_t *)calloc(1, (size_t)seek_total(&sizes));
    int kept = 0;
    if (!memory)
        return no ? refused("sizes", no) : 0;
    seek_carve(&list, &sizes, memory, seek_total(&sizes));
    if ((no = seek_new(&list, area, 1024, 0, 1, LESSON_HINTS)) == 0 && (no = read_on(&list, area->start, area->start, middle)) == 0
        && (no = seek_keep_hint(&list, lsn)) == 0 && (no = read_on(&list, area->start, middle, area->end)) == 0)
        for (i = 0; seek_hint_at(&list, i, &at, &number); i++)
            kept |= at == lsn && seek_hint_kept_at(&list, i);
    if (no)
        refused("lesson", no);
    else
        printf("sector %llu: the hint is %s; %u hints, %u kept\n", (unsigned long long)lsn, kept ? "still there" : "gone", (unsigned)seek_hint_count(&list),
               (unsigned)seek_kept_count(&list));
    free(memory);
    return no == 0;
}

int main(int argc, char **argv)
{
    seek_list own, other;
    seek_area area;
    uint8_t *first, *second = NULL;
    uint32_t no;
    int done = 0;
    if (argc != 5 && argc != 6) {
        fprintf(stderr, "player A B FRAME OUT [LSN]\n");
        return 2;
    }
    first = open_list(&own, argv[1]);
    if (first)
        second = open_list(&other, argv[2]);
    if (first && second) {
        no = seek_merge(SEEK_WORKSHOP, &own, &other);
        seek_area_of(&own, &area);
        if (no)
            refused("merge", no);
        else
            done = (argc < 6 || lesson(&area, strtoul(argv[5], NULL, 10))) && jump(&own, (uint32_t)strtoul(argv[3], NULL, 10)) && save(&own, argv[4]);
    }
    free(second);
    free(first);
    return done ? 0 : 1;
}
