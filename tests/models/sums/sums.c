/* sums FOLDS SUMS SEED: so many folds and short sums (change request 8) through a model and through the library; status 1 at the first difference.
 *
 * Folds: each k from 0 to 70 and at the ends of 32 bits, of the numbers 0, 1, all bits set and random ones, at both widths. Sums: of 0 to 70,000 random bytes.
 * Before them the bounds: vectors of the hash text, no bytes at NULL, a folded sum of 49, and answer blocks of 0, 191 and 192 bytes. */
#include <inttypes.h>
#include <stdio.h>
#include <stdlib.h>
#include <string.h>

#include "seek.h"

/* ---- the model, from the request's words */
static uint32_t model_sum(const uint8_t *bytes, size_t length)
{
    uint32_t h = 0x811c9dc5;
    while (length-- > 0)
        h = (h ^ *bytes++) * 0x01000193u;
    return h;
}

static int model_folds(unsigned width, uint32_t k) { return width / 2 <= k && k <= width - 1; }
static uint64_t model_fold(uint64_t sum, uint32_t k) { return sum >> k ^ (sum & ((UINT64_C(1) << k) - 1)); }

/* ---- random numbers (xorshift64*) */
static uint64_t state;

static uint64_t random64(void)
{
    state ^= state >> 12;
    state ^= state << 25;
    state ^= state >> 27;
    return state * 0x2545f4914f6cdd1du;
}

/* what is run, and its number */
static const char *kind = "bound";
static uint64_t run;

static void differ(const char *what, uint64_t a, uint64_t b, uint64_t model, uint64_t library)
{
    printf("%s %" PRIu64 " differs\nthe first difference found: %s of %" PRIu64 " and %" PRIu64 ": the model says %" PRIu64 ", the library %" PRIu64 "\n", kind, run,
           what, a, b, model, library);
    exit(1);
}

/* ---- one case */
static void sum(const uint8_t *bytes, size_t length)
{
    uint32_t model = model_sum(bytes, length), library = seek_sum32(bytes, length);
    if (model != library)
        differ("the sum", length, length ? bytes[0] : 0, model, library);
}

/* The sum as 32 bits where the width is 32. */
static void fold(unsigned width, uint64_t s, uint32_t k)
{
    uint32_t number = model_folds(width, k) ? 0 : SEEK_NO_FOLD, no, short_fold = 77;
    uint64_t folded = number ? 0 : model_fold(s, k), long_fold = 77;
    if (width == 32) {
        no = seek_fold32((uint32_t)s, k, &short_fold);
        long_fold = short_fold;
    } else {
        no = seek_fold64(s, k, &long_fold);
    }
    if (no != number)
        differ(width == 32 ? "the number of fold32" : "the number of fold64", s, k, number, no);
    if (long_fold != folded)
        differ(width == 32 ? "fold32" : "fold64", s, k, folded, long_fold);
}

/* An answer block of so many bytes: 3 where it is shorter than 192, asked before 49; a refusal leaves it. */
static void block(unsigned width, uint64_t s, uint32_t k, size_t length)
{
    uint8_t answer[SEEK_BLOCK + 8], before[SEEK_BLOCK + 8];
    uint32_t number = length < SEEK_BLOCK ? SEEK_NO_ROOM : model_folds(width, k) ? 0 : SEEK_NO_FOLD, no;
    memset(answer, 0xa5, sizeof answer);
    memset(before, 0xa5, sizeof before);
    if (number == 0) {
        unsigned i;
        memset(before, 0, SEEK_BLOCK);
        for (i = 0; i < 8; i++)
            before[i] = (uint8_t)(model_fold(s, k) >> 8 * i);
    }
    no = width == 32 ? seek_raw_fold32((uint32_t)s, k, answer, length) : seek_raw_fold64(s, k, answer, length);
    if (no != number || memcmp(answer, before, sizeof answer) != 0)
        differ("a block", length, k, number, no);
}

static void bounds(void)
{
    static const struct {
        const char *text;
        size_t length;
        uint32_t sum;
    } vectors[] = {{"", 0, 0x811c9dc5},   {"a", 1, 0xe40c292c},   {"foobar", 6, 0xbf9cf968},
                   {"\0", 1, 0x050c5d1f}, {"a\0", 2, 0x2b24d044}, {"foobar\0", 7, 0x0c1c9eb8}};
    static const uint32_t ks[] = {0, 15, 16, 24, 31, 32, 48, 63, 64, 4294967295u};
    static const size_t lengths[] = {0, 1, 191, 192, 200};
    size_t i, j;
    uint32_t folded;
    for (i = 0; i < sizeof vectors / sizeof *vectors; i++)
        if (seek_sum32((const uint8_t *)vectors[i].text, vectors[i].length) != vectors[i].sum)
            differ("a vector", i, vectors[i].length, vectors[i].sum, seek_sum32((const uint8_t *)vectors[i].text, vectors[i].length));
    if (seek_sum32(NULL, 0) != 0x811c9dc5)
        differ("no bytes", 0, 0, 0x811c9dc5, seek_sum32(NULL, 0));
    if (seek_fold32(seek_sum32((const uint8_t *)"\xe8\xc8", 2), 16, &folded) != 0 || folded != 49)
        differ("the folded sum 49", 2, 16, 49, folded);
    for (i = 0; i < sizeof ks / sizeof *ks; i++)
        for (j = 0; j < sizeof lengths / sizeof *lengths; j++) {
            block(32, UINT32_MAX - i, ks[i], lengths[j]);
            block(64, UINT64_MAX - i, ks[i], lengths[j]);
        }
}

static void run_folds(uint64_t folds)
{
    kind = "fold";
    for (run = 0; run < folds; run++) {
        unsigned width = run & 1 ? 64 : 32;
        uint64_t s = run % 16 < 2 ? 0 : run % 16 < 4 ? 1 : run % 16 < 6 ? UINT64_MAX : random64();
        /* 77 is odd, so every k meets every kind of number: 0 to 70, and the ends of 32 bits */
        uint32_t at = (uint32_t)(run / 2 % 77), k = at <= 70 ? at : at <= 73 ? UINT32_MAX - (at - 71) : (UINT32_C(1) << 31) - (at - 74);
        fold(width, width == 32 ? s & UINT32_MAX : s, k);
    }
}

/* Each length up to 1,024, the longest, and then short ones more often than long ones. How many bytes were read. */
static uint64_t run_sums(uint64_t sums)
{
    static uint8_t bytes[70000];
    uint64_t read = 0;
    size_t i;
    kind = "sum";
    for (i = 0; i < sizeof bytes; i++)
        bytes[i] = (uint8_t)random64();
    for (run = 0; run < sums; run++) {
        size_t length = run <= 1024 ? (size_t)run : run == 1025 ? sizeof bytes : (size_t)(random64() % (sizeof bytes + 1) >> random64() % 16);
        size_t from = (size_t)(random64() % (sizeof bytes - length + 1));
        bytes[random64() % sizeof bytes] = (uint8_t)random64();
        sum(bytes + from, length);
        read += length;
    }
    return read;
}

int main(int argc, char **argv)
{
    uint64_t folds = argc > 1 ? strtoull(argv[1], NULL, 10) : 0, sums = argc > 2 ? strtoull(argv[2], NULL, 10) : 0, read;
    state = (argc > 3 ? strtoull(argv[3], NULL, 10) : 1) * 0x9e3779b97f4a7c15u | 1;
    bounds();
    run_folds(folds);
    read = run_sums(sums);
    printf("short sums: %" PRIu64 " folds and %" PRIu64 " sums of %" PRIu64 " bytes in all, no difference\n", folds, sums, read);
    return 0;
}
