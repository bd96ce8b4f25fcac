/* samples DIR: writes the sample list files short.list, long.list, whole.list, hints.list and changed.list into a directory. */
#include <stdio.h>

#include "sample.h"

static int put(const char *dir, const char *name, const uint8_t *bytes, size_t length)
{
    char path[4096];
    FILE *out;
    snprintf(path, sizeof path, "%s/%s", dir, name);
    out = fopen(path, "wb");
    return out && fwrite(bytes, 1, length, out) == length && fclose(out) == 0;
}

int main(int argc, char **argv)
{
    static uint8_t file[SAMPLE_LONGEST];
    size_t n;
    int ok;
    if (argc != 2)
        return 2;
    ok = put(argv[1], "short.list", file, sample_file(file, 2, 0, 0));
    ok = put(argv[1], "long.list", file, sample_file(file, 5, 0, 0)) && ok;
    ok = put(argv[1], "whole.list", file, sample_file(file, SAMPLE_BOUNDARIES, 1, 0)) && ok;
    ok = put(argv[1], "hints.list", file, sample_file(file, 5, 0, 100)) && ok;
    /* a file with a wrong sum */
    n = sample_file(file, 5, 0, 0);
    file[n - 1] ^= 1;
    ok = put(argv[1], "changed.list", file, n) && ok;
    return ok ? 0 : 1;
}
