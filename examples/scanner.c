/* scanner FILE.. | -: the first bytes of each sector in hex, its three time bytes in brackets, and the time of its first frame as minutes:seconds:frames, or
 * why there is none. A FILE of sectors has 2,048 bytes each; the last may be shorter. - is the sample below. */
#include <stdio.h>
#include <string.h>

#include "seek.h"

enum { SECTOR = 2048, SHOWN = 20 };

static void scan(const uint8_t *sector, size_t length)
{
    seek_first first;
    size_t i, last = length < SHOWN ? length : (size_t)SHOWN;
    if (seek_first_record(sector, length, &first) != 0)
        return;
    for (i = 0; i < last; i++)
        printf("%s%s%02x%s", i ? " " : "", first.found && i == first.offset ? "[" : "", sector[i], first.found && i == first.offset + 2 ? "]" : "");
    if (first.found) {
        uint64_t t = first.number;
        printf("%s %u:%02u:%02u\n", length > SHOWN ? " ..:" : ":", (unsigned)(t / 75 / 60), (unsigned)(t / 75 % 60), (unsigned)(t % 75));
    } else
        printf("%s %s\n", length > SHOWN ? " ..:" : ":", seek_first_text(first.why));
}

static void sample(void)
{
    static const uint8_t whole[] = {0x04, 1, 2, 3}, behind[] = {0x24, 0, 0, 1, 2, 3}, frameless[] = {0xe0}, cut[] = {0x04, 1, 2};
    scan(whole, sizeof whole);
    scan(behind, sizeof behind);
    scan(frameless, sizeof frameless);
    scan(cut, sizeof cut);
    scan(NULL, 0);
}

int main(int argc, char **argv)
{
    static uint8_t sector[SECTOR];
    int i;
    for (i = 1; i < argc; i++) {
        FILE *file;
        size_t n;
        if (strcmp(argv[i], "-") == 0) {
            sample();
            continue;
        }
        file = fopen(argv[i], "rb");
        if (!file)
            return 2;
        while ((n = fread(sector, 1, SECTOR, file)) > 0)
            scan(sector, n);
        fclose(file);
    }
    return argc > 1 ? 0 : 2;
}
