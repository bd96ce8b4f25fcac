/* drawer OUT OWN FILE..: a school sends up to 16 list files of one disc. They are merged into the player's list OWN, all of them or none, and the list is saved
 * over OUT. */
#include <stdio.h>
#include <stdlib.h>
#include <string.h>

#include "seek_file.h"

static int refused(const char *what, uint32_t number)
{
    fprintf(stderr, "%s: %u: %s\n", what, (unsigned)number, seek_file_text(number));
    return 0;
}

/* The files, end to end in one block. */
typedef struct {
    uint8_t *bytes;
    size_t length, count;
    uint64_t lengths[SEEK_MOST_FILES + 1];
} Files;

static int add_file(Files *f, const char *name)
{
    uint8_t *file, *more;
    size_t length;
    uint32_t no = seek_read_file(name, &file, &length);
    if (no)
        return refused(name, no);
    more = (uint8_t *)realloc(f->bytes, f->length + length + 1);
    if (more) {
        memcpy(more + f->length, file, length);
        f->bytes = more;
        f->length += length;
        f->lengths[f->count++] = length;
    }
    free(file);
    return more ? 1 : refused(name, SEEK_NO_MEMORY);
}

/* The call, with a working list whose tables have room for each of the files. */
static int merge_files(seek_list *own, const Files *f)
{
    seek_area area;
    seek_table_sizes sizes;
    seek_list work = SEEK_ABSENT;
    uint8_t *memory;
    uint32_t no;
    seek_area_of(own, &area);
    /* where a file is refused, seek_merge_all says so too */
    (void)seek_set_sizes(&area, f->bytes, f->length, f->lengths, f->count, UINT64_MAX, &sizes);
    memory = (uint8_t *)calloc(1, (size_t)seek_total(&sizes) + 1);
    if (!memory)
        return refused("the working list", SEEK_NO_MEMORY);
    seek_carve(&work, &sizes, memory, seek_total(&sizes));
    no = seek_merge_all(SEEK_WORKSHOP, own, f->bytes, f->length, f->lengths, f->count, UINT64_MAX, &work);
    free(memory);
    return no ? refused("the files", no) : 1;
}

int main(int argc, char **argv)
{
    Files files = {NULL, 0, 0, {0}};
    seek_list own = SEEK_ABSENT;
    uint32_t no;
    int i, done = 1;
    if (argc < 3) {
        fprintf(stderr, "drawer OUT OWN FILE..\n");
        return 2;
    }
    if ((no = seek_open(SEEK_WORKSHOP, argv[2], NULL, UINT64_MAX, &own)) != 0)
        done = refused(argv[2], no);
    /* one above 16, and the call refuses the set */
    for (i = 3; i < argc && i < 3 + SEEK_MOST_FILES + 1 && done; i++)
        done = add_file(&files, argv[i]);
    if (done)
        done = merge_files(&own, &files);
    if (done && (no = seek_save_file(SEEK_WORKSHOP, &own, argv[1])) != 0)
        done = refused(argv[1], no);
    if (done)
        printf("%llu checkpoints%s\n", (unsigned long long)seek_checkpoint_count(&own), seek_is_complete(&own) ? ", to the end of the area" : "");
    free(files.bytes);
    seek_close(&own);
    return done ? 0 : 1;
}
