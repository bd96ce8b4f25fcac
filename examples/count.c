/* count FILE: how many checkpoints a list file holds. The first program of docs/PLAYER.md. */
#include <stdio.h>

#include "seek.h"

static uint8_t file[1 << 24], memory[1 << 26];

int main(int argc, char **argv)
{
    FILE *in = argc > 1 ? fopen(argv[1], "rb") : stdin;
    size_t n = in ? fread(file, 1, sizeof file, in) : sizeof file;
    seek_area area;
    seek_table_sizes sizes;
    seek_list list;
    uint32_t no = n < sizeof file ? seek_file_area(file, n, &area) : (uint32_t)SEEK_NO_ROOM; /* the area that the file says it is of */
    if (no == 0)
        no = seek_file_sizes(&area, file, n, UINT64_MAX, &sizes);                            /* how much memory its list takes */
    if (no == 0)
        no = seek_carve(&list, &sizes, memory, sizeof memory) ? seek_load(SEEK_WORKSHOP, &list, &area, file, n, UINT64_MAX) : (uint32_t)SEEK_NO_ROOM;
    if (no == 0)
        printf("%llu checkpoints\n", (unsigned long long)seek_checkpoint_count(&list));
    else
        printf("refused with %u: %s\n", no, seek_text(no));
    return no != 0;
}
