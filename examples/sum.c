/* sum TEXT: the short sum of a message, folded to 24 bits, as a link with room for three bytes sends it. */
#include <stdio.h>
#include <string.h>

#include "seek.h"

int main(int argc, char **argv)
{
    const char *message = argc > 1 ? argv[1] : "";
    uint32_t sum = seek_sum32((const uint8_t *)message, strlen(message)), folded, no = seek_fold32(sum, 24, &folded);
    if (no == 0)
        printf("%06x\n", folded);
    return no != 0;
}
