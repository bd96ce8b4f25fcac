/* screen FILE: shows a listener's view, from the bytes that seek_view wrote. It needs seek.h alone: no list and no library. */
#include <stdio.h>

#include "seek.h"

int main(int argc, char **argv)
{
    static uint8_t bytes[1 << 20];
    FILE *in = argc > 1 ? fopen(argv[1], "rb") : NULL;
    size_t length = in ? fread(bytes, 1, sizeof bytes, in) : 0;
    seek_viewed view;
    uint32_t lsn, threshold;
    uint64_t j;
    if (!seek_view_read(&view, bytes, length)) {
        puts("this is no view");
        return 1;
    }
    printf("sectors %llu to %llu, %s\n", (unsigned long long)seek_view_area(&view).start, (unsigned long long)seek_view_area(&view).end,
           seek_view_is_complete(&view) ? "read to the end" : "not read to the end");
    for (j = 0; seek_view_checkpoint_at(&view, j, &lsn, &threshold); j++)
        printf("sector %u from frame %u on (%u:%02u)\n", lsn, threshold, threshold / 75 / 60, threshold / 75 % 60);
    return 0;
}
