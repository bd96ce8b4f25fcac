/* List files of one small disc, written from docs/FILE.md, for the examples and the tests. */
#ifndef SAMPLE_H
#define SAMPLE_H

#include <string.h>

#include "seek.h"

/* The disc's area: 400 sectors from 1,000 on, a checkpoint every 50 sectors. */
#define SAMPLE_START 1000
#define SAMPLE_SECTORS 400
#define SAMPLE_INTERVAL 50
#define SAMPLE_BOUNDARIES 8
#define SAMPLE_BUDGET 4096
#define SAMPLE_PART 300     /* the bytes of the part held for checkpoint 2 */
#define SAMPLE_LONGEST 4096 /* no sample file is longer */

static uint8_t *sample_put(uint8_t *at, uint64_t v, unsigned width)
{
    unsigned i;
    for (i = 0; i < width; i++)
        *at++ = (uint8_t)(v >> 8 * i);
    return at;
}

/* A file of the first n checkpoints (at most 8), complete where whole is not 0, with s hints. Answers its length. */
static size_t sample_file(uint8_t *file, unsigned n, int whole, unsigned s)
{
    uint8_t *at = file;
    unsigned j, parts = n > 2 ? 1 : 0;
    memcpy(at, "SBSEEKIX", 8);
    at = sample_put(at + 8, s ? 2 : 1, 4);
    at = sample_put(at, 0, 1);
    at = sample_put(at, 2, 1);
    at = sample_put(at, whole ? 1 : 0, 1);
    at = sample_put(at, 0, 1);
    at = sample_put(at, SAMPLE_START, 4);
    at = sample_put(at, SAMPLE_START + SAMPLE_SECTORS - 1, 4);
    at = sample_put(at, SAMPLE_START + SAMPLE_SECTORS + 150, 8);
    at = sample_put(at, SAMPLE_INTERVAL, 4);
    at = sample_put(at, n, 4);
    at = sample_put(at, parts, 4);
    at = sample_put(at, parts, 4);
    at = sample_put(at, 0, 4);
    at = sample_put(at, 0, 4);
    at = sample_put(at, SAMPLE_BUDGET, 8);
    at = sample_put(at, whole ? 75 * 8 : 0, 4);
    at = sample_put(at, 0, 4);
    at = sample_put(at, 0, 8);
    for (j = 0; j < n; j++) {
        at = sample_put(at, 75 * j, 4);
        at = sample_put(at, j == 2 ? 40 : 0, 4);
        at = sample_put(at, 0, 8);
        at = sample_put(at, j * 0x9e3779b97f4a7c15u, 8);
    }
    if (parts) {
        at = sample_put(at, SAMPLE_START + 2 * SAMPLE_INTERVAL - 40, 4);
        at = sample_put(at, SAMPLE_PART, 4);
        for (j = 0; j < SAMPLE_PART; j++)
            *at++ = (uint8_t)j;
        at = sample_put(at, 2, 4);
        at = sample_put(at, 0, 4);
        at = sample_put(at, SAMPLE_PART, 4);
        at = sample_put(at, 149, 4);
        at = sample_put(at, (uint32_t)-7, 4);
        at = sample_put(at, 1, 4);
    }
    if (s) {
        at = sample_put(at, 0, 8);
        at = sample_put(at, 8, 4);
        at = sample_put(at, 2048, 4);
        at = sample_put(at, s, 4);
        at = sample_put(at, 0, 4);
        for (j = 0; j < s; j++) {
            at = sample_put(at, SAMPLE_START + 3 * j, 4);
            at = sample_put(at, 4 * j, 4);
        }
    }
    at = sample_put(at, seek_sum(file, (size_t)(at - file)), 8);
    return (size_t)(at - file);
}

#endif
