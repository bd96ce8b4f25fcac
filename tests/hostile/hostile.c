/* hostile COUNT [SEED]: calls every function of seek.h with hostile arguments, COUNT calls in all, and stops with status 1 at the first wrong one.
 *
 * Every buffer lies between canaries and has a length of 0, 1, one short of what is needed, exactly that, or an odd number more. Blocks, tables and files hold
 * random bytes, zeros, a real list, or a real list with a few bytes changed. After each call: the canaries are whole, a buffer that is only read is as
 * it was, and so is every buffer where the call refused; absorb's 8 may write the recorder, and merge_all the working tables; a block that is read and is no head is refused with 3, and
 * one that an accepted call wrote is a head (but for a disc file's, whose list may be absent). Before the random calls each word of each block that a call
 * reads is made too wide, each mark a foreign one. */
#include <inttypes.h>
#include <stdio.h>
#include <stdlib.h>
#include <string.h>

#include "sample.h"

/* ---- random numbers (xorshift64*) */
static uint64_t state = 1;

static uint64_t random64(void)
{
    state ^= state >> 12;
    state ^= state << 25;
    state ^= state >> 27;
    return state * 0x2545f4914f6cdd1du;
}

static uint64_t below(uint64_t n) { return random64() % n; }

/* A number of any size: small, at a limit, or random. */
static uint64_t number(void)
{
    static const uint64_t limits[] = {0, 1, 2, 8, 32, 50, 75, 255, 300, 1000, 1166880, 1166881, 1400, 65535, 65536, 262144, 524296, 4294967295u, 4294967296u, UINT64_MAX};
    switch (below(4)) {
    case 0: return below(16);
    case 1: return limits[below(sizeof limits / sizeof *limits)] + below(3) - 1;
    case 2: return random64() >> below(64);
    default: return limits[below(sizeof limits / sizeof *limits)];
    }
}

/* ---- buffers */
enum { CANARY = 32, SHORT = 4096, WINDOW = 512 };

/* at has length bytes, behind and before them canaries; copy is what it held before the call. need is the length that a real list takes. */
typedef struct {
    const char *name;
    uint8_t *memory, *at, *copy;
    size_t need, most, length, compared;
    int written;
} buffer;

enum {
    HEAD, OTHER, ANSWER, FILE_, OUT, LIST, CHECKPOINTS, FRAMES, STORE, PARTS, MALFORMED, HINTS, CONFIRMED, CHECKPOINTS2, FRAMES2, STORE2, PARTS2, MALFORMED2,
    HINTS2, CONFIRMED2, RECORDER, FINISHING, CHECKPOINTS3, FRAMES3, STORE3, PARTS3, BYTES, SECTOR, HINTER, SEEN, GIVEN, HEAD4, CHECKPOINTS4, FRAMES4, STORE4,
    PARTS4, MALFORMED4, HINTS4, CONFIRMED4, DISC, DISC_OUT, SHELF, FILES, LENGTHS, BUFFERS
};
static buffer all[BUFFERS];
static uint8_t *real[BUFFERS];

static void make(int k, const char *name, size_t need)
{
    buffer *b = &all[k];
    b->name = name;
    b->need = need;
    b->most = need + 64;
    b->memory = (uint8_t *)calloc(1, b->most + 2 * CANARY);
    b->copy = (uint8_t *)calloc(1, b->most);
    real[k] = (uint8_t *)calloc(1, b->most);
    if (!b->memory || !b->copy || !real[k])
        exit(2);
    b->at = b->memory + CANARY;
    memset(b->memory, 0xc5, CANARY);
}

static size_t length_for(const buffer *b, int wild)
{
    if (!wild)
        return b->need;
    switch (below(6)) {
    case 0: return 0;
    case 1: return 1;
    case 2: return b->need ? b->need - 1 : 0;
    case 3: return b->need + 1 + 2 * below(20);
    case 4: return (size_t)below(b->need + 1);
    default: return b->need;
    }
}

/* What a buffer holds: a real list, the same with a few bytes changed, random bytes, or what the last call left. */
static void fill(int k, int wild)
{
    buffer *b = &all[k];
    size_t n = b->length < SHORT ? b->length : SHORT, i;
    if (!wild || below(3)) {
        memcpy(b->at, real[k], n);
        for (i = wild ? below(4) : 0; i > 0 && n > 0; i--)
            b->at[below(n)] = (uint8_t)number();
        if (wild && n >= 8 && below(2))
            sample_put(b->at + 8 * below(n / 8), number(), 8);
    } else if (below(2)) {
        for (i = 0; i < n; i++)
            b->at[i] = (uint8_t)random64();
    }
}

static void lend(int k, int wild, int written, int whole)
{
    buffer *b = &all[k];
    b->length = length_for(b, wild && below(3) == 0);
    fill(k, wild && below(2));
    b->written = written;
    memset(b->at + b->length, 0xc5, CANARY);
    /* long tables are compared in full in few calls, else at both ends */
    b->compared = whole || b->length < 2 * WINDOW ? b->length : WINDOW;
    memcpy(b->copy, b->at, b->compared);
    if (b->compared < b->length)
        memcpy(b->copy + b->length - WINDOW, b->at + b->length - WINDOW, WINDOW);
}

static int same(const buffer *b)
{
    return memcmp(b->copy, b->at, b->compared) == 0
           && (b->compared == b->length || memcmp(b->copy + b->length - WINDOW, b->at + b->length - WINDOW, WINDOW) == 0);
}

static int canaries(const buffer *b)
{
    size_t i;
    for (i = 0; i < CANARY; i++)
        if (b->memory[i] != 0xc5 || b->at[b->length + i] != 0xc5)
            return 0;
    return 1;
}

/* ---- calls */
static seek_area area, area1; /* of slot 0, and of slot 1 */
static uint64_t v[8];

#define LENT(k) all[k].at, all[k].length
#define TABLES LENT(CHECKPOINTS), LENT(FRAMES), LENT(STORE), LENT(PARTS), LENT(MALFORMED), LENT(HINTS), LENT(CONFIRMED)
#define OTHERS LENT(CHECKPOINTS2), LENT(FRAMES2), LENT(STORE2), LENT(PARTS2), LENT(MALFORMED2), LENT(HINTS2), LENT(CONFIRMED2)
#define FOUR LENT(CHECKPOINTS3), LENT(FRAMES3), LENT(STORE3), LENT(PARTS3)
#define SLOT1 LENT(CHECKPOINTS4), LENT(FRAMES4), LENT(STORE4), LENT(PARTS4), LENT(MALFORMED4), LENT(HINTS4), LENT(CONFIRMED4)
#define AREA1 area1.slot, area1.channels, area1.key_start, area1.key_end, area1.sectors, area1.start, area1.end
#define ROLE ((uint32_t)(v[7] + SEEK_WORKSHOP)) /* the workshop's, for the usual numbers */
#define AREA area.slot, area.channels, area.key_start, area.key_end, area.sectors, area.start, area.end

static uint64_t call_sum(void) { return seek_raw_sum(LENT(FILE_)), 0; }
static uint64_t call_first(void) { return seek_raw_first_record(LENT(FILE_), LENT(ANSWER)); }
static uint64_t call_sizes(void) { return seek_raw_sizes(AREA, (uint32_t)v[0], v[1], (uint32_t)v[2], LENT(ANSWER)); }
static uint64_t call_file_area(void) { return seek_raw_file_area(LENT(FILE_), LENT(ANSWER)); }
static uint64_t call_file_sizes(void) { return seek_raw_file_sizes(AREA, LENT(FILE_), v[0], LENT(ANSWER)); }
static uint64_t call_new(void) { return seek_raw_new(LENT(HEAD), AREA, (uint32_t)v[0], v[1], (uint32_t)v[2], (uint32_t)v[3], TABLES); }
static uint64_t call_load(void) { return seek_raw_load(ROLE, LENT(HEAD), AREA, LENT(FILE_), v[0], TABLES); }
static uint64_t call_length(void) { return seek_raw_saved_length(LENT(HEAD), TABLES); }
static uint64_t call_save(void) { return seek_raw_save(ROLE, LENT(HEAD), TABLES, LENT(OUT)); }
static uint64_t call_view_length(void) { return seek_raw_view_length(ROLE, LENT(HEAD), TABLES); }
static uint64_t call_view(void) { return seek_raw_view(ROLE, LENT(HEAD), TABLES, LENT(OUT)); }
static uint64_t call_plan(void) { return seek_raw_plan(LENT(HEAD), (uint32_t)v[0], LENT(ANSWER), TABLES); }
static uint64_t call_part(void) { return seek_raw_part(LENT(STORE), v[0], v[1]), 0; }
static uint64_t call_fingerprint(void) { return seek_raw_fingerprint(LENT(HEAD), v[0], TABLES); }
static uint64_t call_merge(void) { return seek_raw_merge(ROLE, LENT(HEAD), LENT(OTHER), TABLES, OTHERS); }
static uint64_t call_adds(void) { return seek_raw_adds(LENT(HEAD), LENT(OTHER), LENT(ANSWER), TABLES, OTHERS); }
static uint64_t call_lacks(void) { return seek_raw_lacks(LENT(HEAD), LENT(OTHER), LENT(ANSWER), TABLES, OTHERS); }
static uint64_t call_coarse(void) { return seek_raw_coarse(LENT(HEAD), (uint32_t)v[0], LENT(OTHER), TABLES, OTHERS); }
static uint64_t call_merge_all(void) { return seek_raw_merge_all(ROLE, LENT(HEAD), LENT(LENGTHS), LENT(FILES), v[0], TABLES, OTHERS); }
static uint64_t call_add_hints(void) { return seek_raw_add_hints(LENT(HEAD), LENT(LIST), TABLES); }
static uint64_t call_keep_hint(void) { return seek_raw_keep_hint(LENT(HEAD), v[0], TABLES); }
static uint64_t call_recorder(void) { return seek_raw_recorder(LENT(HEAD), v[0], LENT(RECORDER), TABLES); }
static uint64_t call_record(void)
{
    return seek_raw_record(LENT(RECORDER), v[0], (uint32_t)v[1], v[2], (uint8_t)v[3], v[4], (uint32_t)v[5], (uint8_t)v[6], (int32_t)(uint32_t)v[7], LENT(BYTES),
                           LENT(SECTOR), FOUR);
}
static uint64_t call_finish(void) { return seek_raw_finish(LENT(FINISHING), (uint32_t)v[0], v[1], FOUR); }
static uint64_t call_absorb(void) { return seek_raw_absorb(LENT(HEAD), LENT(RECORDER), (uint8_t)v[0], v[1], LENT(GIVEN), TABLES, FOUR); }
static uint64_t call_hint_recorder(void) { return seek_raw_hint_recorder(LENT(HEAD), LENT(HINTER), TABLES); }
static uint64_t call_see(void) { return seek_raw_see(LENT(HINTER), v[0], LENT(SECTOR), LENT(SEEN)); }
static uint64_t call_flush(void) { return seek_raw_flush(LENT(HINTER), LENT(SEEN)); }
static uint64_t call_take(void) { return seek_raw_take(LENT(HINTER), LENT(ANSWER), LENT(SEEN)); }
static uint64_t call_keep(void) { return seek_raw_keep_confirmation(LENT(HEAD), v[0], (uint32_t)v[1], v[2], LENT(ANSWER), TABLES); }
static uint64_t call_hint(void) { return seek_raw_hint(LENT(HEAD), (uint32_t)v[0], (uint32_t)v[1], (uint32_t)v[2], LENT(ANSWER), TABLES); }
static uint64_t call_due(void) { return seek_raw_due(LENT(RECORDER), LENT(ANSWER)); }
static uint64_t call_frontier(void) { return seek_raw_frontier(LENT(HEAD), LENT(ANSWER)); }
static uint64_t call_boundary(void) { return seek_raw_boundary(LENT(HEAD), (uint32_t)v[0], LENT(ANSWER)); }

static uint64_t call_contents(void) { return seek_raw_disc_contents(LENT(DISC), LENT(ANSWER)); }
static uint64_t call_disc_sizes(void) { return seek_raw_disc_sizes(AREA, AREA1, LENT(DISC), v[0], LENT(ANSWER)); }
static uint64_t call_disc_load(void)
{
    return seek_raw_disc_load(ROLE, LENT(HEAD), LENT(HEAD4), AREA, AREA1, LENT(DISC), v[0], LENT(ANSWER), TABLES, SLOT1);
}
static uint64_t call_disc_length(void) { return seek_raw_disc_saved_length(LENT(HEAD), TABLES); }
static uint64_t call_disc_length_both(void) { return seek_raw_disc_saved_length_both(LENT(HEAD), LENT(HEAD4), TABLES, SLOT1); }
static uint64_t call_disc_save(void) { return seek_raw_disc_save(ROLE, LENT(HEAD), TABLES, LENT(DISC_OUT)); }
static uint64_t call_disc_save_both(void) { return seek_raw_disc_save_both(ROLE, LENT(HEAD), LENT(HEAD4), TABLES, SLOT1, LENT(DISC_OUT)); }
static uint64_t call_sum32(void) { return seek_raw_sum32(LENT(FILE_)), 0; }
static uint64_t call_fold32(void) { return seek_raw_fold32((uint32_t)v[0], (uint32_t)v[1], LENT(ANSWER)); }
static uint64_t call_fold64(void) { return seek_raw_fold64(v[0], (uint32_t)v[1], LENT(ANSWER)); }

/* A shelf's numbers, and the list of the area with a file of so many bytes; the table's records begin where the buffer does. An absent area changes nothing. */
#define SHELF_TABLE (seek_shelf_record *)(void *)all[SHELF].at, all[SHELF].length / sizeof(seek_shelf_record)
static uint64_t shelf_answer(seek_shelf_answer r) { return r.number == 0 && r.absent != 0 && !same(&all[SHELF]) ? 99 : r.number; }
static uint64_t call_shelf(int jump)
{
    seek_shelf x = {v[0], v[1], v[2]};
    return shelf_answer((jump ? seek_raw_shelf_jump : seek_raw_shelf_enter)(SHELF_TABLE, x, seek_shelf_record_(&area, v[3])));
}
static uint64_t call_shelf_enter(void) { return call_shelf(0); }
static uint64_t call_shelf_jump(void) { return call_shelf(1); }

#define BIT(k) (UINT64_C(1) << (k))
#define SEVEN (BIT(CHECKPOINTS) | BIT(FRAMES) | BIT(STORE) | BIT(PARTS) | BIT(MALFORMED) | BIT(HINTS) | BIT(CONFIRMED))

#define SEVEN2 (SEVEN << 7)
#define FOUR3 (BIT(CHECKPOINTS3) | BIT(FRAMES3) | BIT(STORE3) | BIT(PARTS3))
#define SEVEN4 (SEVEN << (CHECKPOINTS4 - CHECKPOINTS))

/* The buffers that a call is lent, those it writes, whether its answer is a length (from 88 on) instead of 0, and numbers that it accepts with the real
 * lists. */
static const struct {
    const char *name;
    uint64_t (*run)(void);
    uint64_t lent, written;
    int lengths;
    uint64_t usual[8];
} calls[] = {
    {"sum", call_sum, BIT(FILE_), 0, 0, {0}},
    {"first_record", call_first, BIT(FILE_) | BIT(ANSWER), BIT(ANSWER), 0, {0}},
    {"sizes", call_sizes, BIT(ANSWER), BIT(ANSWER), 0, {50, 4096, 2048}},
    {"file_area", call_file_area, BIT(FILE_) | BIT(ANSWER), BIT(ANSWER), 0, {0}},
    {"file_sizes", call_file_sizes, BIT(FILE_) | BIT(ANSWER), BIT(ANSWER), 0, {4096}},
    {"new", call_new, BIT(HEAD) | SEVEN, BIT(HEAD), 0, {50, 4096, 8, 2048}},
    {"load", call_load, BIT(HEAD) | BIT(FILE_) | SEVEN, BIT(HEAD) | SEVEN, 0, {4096}},
    {"saved_length", call_length, BIT(HEAD) | SEVEN, 0, 1, {0}},
    {"save", call_save, BIT(HEAD) | BIT(OUT) | SEVEN, BIT(OUT), 1, {0}},
    {"view_length", call_view_length, BIT(HEAD) | SEVEN, 0, 1, {0}},
    {"view", call_view, BIT(HEAD) | BIT(OUT) | SEVEN, BIT(OUT), 1, {0}},
    {"plan", call_plan, BIT(HEAD) | BIT(ANSWER) | SEVEN, BIT(ANSWER), 0, {160}},
    {"part", call_part, BIT(STORE), 0, 0, {0, SAMPLE_PART}},
    {"fingerprint", call_fingerprint, BIT(HEAD) | SEVEN, BIT(HEAD), 0, {7}},
    {"merge", call_merge, BIT(HEAD) | BIT(OTHER) | SEVEN | SEVEN2, BIT(HEAD) | SEVEN, 0, {0}},
    {"adds", call_adds, BIT(HEAD) | BIT(OTHER) | BIT(ANSWER) | SEVEN | SEVEN2, BIT(ANSWER), 0, {0}},
    {"lacks", call_lacks, BIT(HEAD) | BIT(OTHER) | BIT(ANSWER) | SEVEN | SEVEN2, BIT(ANSWER), 0, {0}},
    {"coarse", call_coarse, BIT(HEAD) | BIT(OTHER) | SEVEN | SEVEN2, BIT(OTHER) | SEVEN2, 0, {100}},
    {"merge_all", call_merge_all, BIT(HEAD) | BIT(LENGTHS) | BIT(FILES) | SEVEN | SEVEN2, BIT(HEAD) | SEVEN | SEVEN2, 0, {4096}},
    {"add_hints", call_add_hints, BIT(HEAD) | BIT(LIST) | SEVEN, BIT(HEAD) | BIT(HINTS), 0, {0}},
    {"keep_hint", call_keep_hint, BIT(HEAD) | SEVEN, BIT(HINTS), 0, {1003}},
    {"recorder", call_recorder, BIT(HEAD) | BIT(RECORDER) | SEVEN, BIT(RECORDER), 0, {SAMPLE_START}},
    {"record", call_record, BIT(RECORDER) | BIT(BYTES) | BIT(SECTOR) | FOUR3, BIT(RECORDER) | FOUR3, 0, {1200, 300, 0, 1, 1150, 280, 1, 5}},
    {"finish", call_finish, BIT(FINISHING) | FOUR3, BIT(FINISHING), 0, {600, 0}},
    {"absorb", call_absorb, BIT(HEAD) | BIT(RECORDER) | BIT(GIVEN) | SEVEN | FOUR3,
     BIT(HEAD) | BIT(RECORDER) | BIT(CHECKPOINTS) | BIT(FRAMES) | BIT(STORE) | BIT(PARTS) | BIT(MALFORMED), 0, {1, 5}},
    {"hint_recorder", call_hint_recorder, BIT(HEAD) | BIT(HINTER) | SEVEN, BIT(HINTER), 0, {0}},
    {"see", call_see, BIT(HINTER) | BIT(SECTOR) | BIT(SEEN), BIT(HINTER) | BIT(SEEN), 0, {1300}},
    {"flush", call_flush, BIT(HINTER) | BIT(SEEN), BIT(HINTER) | BIT(SEEN), 0, {0}},
    {"take", call_take, BIT(HINTER) | BIT(ANSWER) | BIT(SEEN), BIT(HINTER) | BIT(ANSWER), 0, {0}},
    {"keep_confirmation", call_keep, BIT(HEAD) | BIT(ANSWER) | SEVEN, BIT(HEAD) | BIT(ANSWER) | BIT(CONFIRMED), 0, {1100, 150, 9}},
    {"hint", call_hint, BIT(HEAD) | BIT(ANSWER) | SEVEN, BIT(ANSWER), 0, {30, 60, 600}},
    {"disc_contents", call_contents, BIT(DISC) | BIT(ANSWER), BIT(ANSWER), 0, {0}},
    {"disc_sizes", call_disc_sizes, BIT(DISC) | BIT(ANSWER), BIT(ANSWER), 0, {4096}},
    {"disc_load", call_disc_load, BIT(HEAD) | BIT(HEAD4) | BIT(DISC) | BIT(ANSWER) | SEVEN | SEVEN4, BIT(HEAD) | BIT(HEAD4) | BIT(ANSWER) | SEVEN | SEVEN4, 0, {4096}},
    {"disc_saved_length", call_disc_length, BIT(HEAD) | SEVEN, 0, 1, {0}},
    {"disc_saved_length_both", call_disc_length_both, BIT(HEAD) | BIT(HEAD4) | SEVEN | SEVEN4, 0, 1, {0}},
    {"disc_save", call_disc_save, BIT(HEAD) | BIT(DISC_OUT) | SEVEN, BIT(DISC_OUT), 1, {0}},
    {"disc_save_both", call_disc_save_both, BIT(HEAD) | BIT(HEAD4) | BIT(DISC_OUT) | SEVEN | SEVEN4, BIT(DISC_OUT), 1, {0}},
    {"sum32", call_sum32, BIT(FILE_), 0, 0, {0}},
    {"fold32", call_fold32, BIT(ANSWER), BIT(ANSWER), 0, {0xbf9cf968, 24}},
    {"fold64", call_fold64, BIT(ANSWER), BIT(ANSWER), 0, {0x85944171f73967e8, 48}},
    {"shelf_enter", call_shelf_enter, BIT(SHELF), BIT(SHELF), 0, {3, 9, 100, 60}},
    {"shelf_jump", call_shelf_jump, BIT(SHELF), BIT(SHELF), 0, {3, 9, 100}},
    {"due", call_due, BIT(RECORDER) | BIT(ANSWER), BIT(ANSWER), 0, {0}},
    {"boundary", call_boundary, BIT(HEAD) | BIT(ANSWER), BIT(ANSWER), 0, {3}},
    {"frontier", call_frontier, BIT(HEAD) | BIT(ANSWER), BIT(ANSWER), 0, {3}},
};
enum { CALLS = sizeof calls / sizeof *calls };

/* ---- heads
 * The widest number of each word of a list's, a recorder's and a hint recorder's head; 0 where the word is always 0. */
#define ONE 255
#define TWO 4294967295u
#define ALL UINT64_MAX
static const uint64_t widest[3][24] = {
    {ONE, ONE, TWO, TWO, ALL, ALL, ALL, TWO, ALL, TWO, TWO, TWO, TWO, TWO, TWO, TWO, TWO, 1, TWO, ALL, 2, ALL, 1, ALL},
    {ONE, ONE, TWO, TWO, ALL, ALL, ALL, TWO, ALL, TWO, ALL, TWO, TWO, TWO, 2, TWO, ALL},
    {TWO, 1, TWO, 1, TWO, TWO, TWO, ALL, ALL, ALL, ALL},
};
/* Of each of them a mark, the mark with which numbers stand behind it (a fingerprint's does with 1 and 2), and the words behind it. */
static const struct {
    unsigned kind, mark, only, from, to;
} marks[] = {{0, 17, 1, 18, 20}, {0, 20, 0, 21, 22}, {0, 22, 1, 23, 24}, {1, 14, 1, 15, 17}, {2, 1, 1, 2, 3}, {2, 3, 1, 4, 6}};
enum { MARKS = sizeof marks / sizeof *marks };

static unsigned kind_of(int k) { return k == RECORDER || k == FINISHING ? 1 : k == HINTER ? 2 : 0; }

static int is_head(int k, const uint8_t *block, size_t length)
{
    unsigned kind = kind_of(k), i, j;
    if (length < SEEK_BLOCK)
        return 0;
    for (i = 0; i < 24; i++)
        if (seek_word(block, i) > widest[kind][i])
            return 0;
    for (i = 0; i < MARKS; i++) {
        uint64_t mark = seek_word(block, marks[i].mark);
        if (marks[i].kind != kind || (marks[i].only ? mark == marks[i].only : mark != 0))
            continue;
        for (j = marks[i].from; j < marks[i].to; j++)
            if (seek_word(block, j) != 0)
                return 0;
    }
    return 1;
}

#define BLOCKS (BIT(HEAD) | BIT(OTHER) | BIT(HEAD4) | BIT(RECORDER) | BIT(FINISHING) | BIT(HINTER))

/* The blocks that a call reads: all that it is lent but those of what it makes. */
static uint64_t heads(unsigned c)
{
    uint64_t (*run)(void) = calls[c].run;
    uint64_t made = run == call_new || run == call_load || run == call_disc_load ? BIT(HEAD) | BIT(HEAD4)
                    : run == call_coarse                                         ? BIT(OTHER)
                    : run == call_recorder                                       ? BIT(RECORDER)
                    : run == call_hint_recorder                                  ? BIT(HINTER)
                                                                                 : 0;
    return calls[c].lent & BLOCKS & ~made;
}

static int no_head(unsigned c)
{
    int k;
    for (k = 0; k < BUFFERS; k++)
        if (heads(c) >> k & 1 && !is_head(k, all[k].copy, all[k].length))
            return 1;
    return 0;
}

/* Is the role one that the call refuses? */
static int no_role(unsigned c)
{
    uint64_t (*const workshop[])(void) = {call_load, call_save, call_merge, call_merge_all, call_disc_load, call_disc_save, call_disc_save_both};
    size_t i;
    for (i = 0; i < sizeof workshop / sizeof *workshop; i++)
        if (calls[c].run == workshop[i])
            return ROLE != SEEK_WORKSHOP;
    return (calls[c].run == call_view || calls[c].run == call_view_length) && ROLE != SEEK_LISTENER && ROLE != SEEK_WORKSHOP;
}

static int check(unsigned c, uint64_t answer)
{
    int refused = calls[c].lengths ? answer < 88 : answer != 0, k;
    if (refused && (answer == 0 || (answer > 44 && answer != SEEK_NO_COARSE_INTERVAL && answer != SEEK_NO_COARSE_CONTENT && answer != SEEK_NO_FOLD && answer != SEEK_NO_SHELF_LIST &&
                                    answer != SEEK_NO_SHELF_COUNT && answer != SEEK_NO_ROLE && answer != SEEK_NO_KEEP && answer != SEEK_NO_DISC))) {
        fprintf(stderr, "%s: %" PRIu64 " is no refusal number\n", calls[c].name, answer);
        return 0;
    }
    if (no_role(c) != (answer == SEEK_NO_ROLE)) {
        fprintf(stderr, "%s: answered %" PRIu64 " for the role %" PRIu32 "\n", calls[c].name, answer, ROLE);
        return 0;
    }
    if (no_head(c) && answer != SEEK_NO_ROOM && answer != SEEK_NO_ROLE) {
        fprintf(stderr, "%s: answered %" PRIu64 " for a block that is no head\n", calls[c].name, answer);
        return 0;
    }
    if (!refused && calls[c].run == call_record && (uint8_t)v[3] != 0 && (uint8_t)v[6] > 1) {
        fprintf(stderr, "record: accepted a frame of kind %u\n", (unsigned)(uint8_t)v[6]);
        return 0;
    }
    for (k = 0; k < BUFFERS; k++) {
        const buffer *b = &all[k];
        if (!(calls[c].lent >> k & 1))
            continue;
        if (!refused && calls[c].run != call_disc_load && (BLOCKS & calls[c].written) >> k & 1 && !is_head(k, b->at, b->length)) {
            fprintf(stderr, "%s: left %s that is no head\n", calls[c].name, b->name);
            return 0;
        }
        if (!canaries(b)) {
            fprintf(stderr, "%s: wrote outside %s\n", calls[c].name, b->name);
            return 0;
        }
        if (((refused && !(answer == 8 && k == RECORDER) && !(calls[c].run == call_merge_all && SEVEN2 >> k & 1)) || !b->written) && !same(b)) {
            fprintf(stderr, "%s: %s, and %s changed\n", calls[c].name, refused ? "refused" : "accepted", b->name);
            return 0;
        }
    }
    return 1;
}

/* ---- the real lists, which the buffers begin with */
/* A sample of n checkpoints and s hints for a slot, loaded into the real tables from first on, with its head. */
static seek_list begin_list(int head, int first, unsigned n, unsigned s, uint8_t slot, seek_area *a)
{
    static uint8_t file[SAMPLE_LONGEST];
    static const char *const names[] = {"checkpoints", "frames", "store", "parts", "malformed", "hints", "confirmed"};
    size_t length = sample_file(file, n, 0, s);
    seek_table_sizes z;
    seek_list l;
    seek_table *tables[] = {&l.checkpoints, &l.frames, &l.store, &l.parts, &l.malformed, &l.hints, &l.confirmed};
    int k;
    file[12] = slot;
    sample_put(file + length - 8, seek_sum(file, length - 8), 8);
    if (seek_file_area(file, length, a) || seek_file_sizes(a, file, length, UINT64_MAX, &z))
        exit(2);
    {
        const uint64_t sizes[] = {z.checkpoints, z.frames, z.store, z.parts, z.malformed, z.hints, z.confirmed};
        for (k = 0; k < 7; k++) {
            make(first + k, names[k], (size_t)sizes[k]);
            tables[k]->at = real[first + k];
            tables[k]->length = all[first + k].need;
        }
    }
    memset(l.head, 0, sizeof l.head);
    if (seek_load(SEEK_WORKSHOP, &l, a, file, length, UINT64_MAX) || seek_fingerprint(&l, 7))
        exit(2);
    make(head, "head", SEEK_BLOCK);
    memcpy(real[head], l.head, SEEK_BLOCK);
    if (head == HEAD) {
        make(FILE_, "file", length);
        memcpy(real[FILE_], file, length);
        make(OUT, "out", length);
    }
    return l;
}

/* A sector in which the frame 4,653 starts. */
static void begin_sector(void)
{
    make(SECTOR, "sector", 2048);
    memcpy(real[SECTOR], "\x24\0\0\1\2\3", 6);
}

/* The recorder of a list, with one checkpoint and a part, its tables from first on; and the block of one that has only to finish. */
static void begin_recorder(const seek_list *l)
{
    seek_recorder r;
    seek_table *tables[] = {&r.checkpoints, &r.frames, &r.store, &r.parts};
    const seek_table *own[] = {&l->checkpoints, &l->frames, &l->store, &l->parts};
    seek_frame f = {1110, 200, 1, -3, NULL, 0};
    int k;
    for (k = 0; k < 4; k++) {
        make(CHECKPOINTS3 + k, all[CHECKPOINTS + k].name, own[k]->length);
        tables[k]->at = real[CHECKPOINTS3 + k];
        tables[k]->length = own[k]->length;
    }
    make(BYTES, "bytes", 300);
    f.bytes = real[BYTES];
    f.length = 300;
    if (seek_recorder_of(l, SAMPLE_START, &r) || seek_record(&r, 1150, 225, 0, &f, real[SECTOR], 2048))
        exit(2);
    make(RECORDER, "recorder", SEEK_BLOCK);
    memcpy(real[RECORDER], r.block, SEEK_BLOCK);
    make(FINISHING, "recorder", SEEK_BLOCK);
    memcpy(real[FINISHING], r.block, SEEK_BLOCK);
    sample_put(real[FINISHING] + 8 * 9, SAMPLE_BOUNDARIES - 1, 8);
    sample_put(real[FINISHING] + 8 * 12, 0, 8);
    sample_put(real[FINISHING] + 8 * 13, 0, 8);
}

/* The hint recorder of a list, with a hint and a tail. */
static void begin_hint_recorder(const seek_list *l)
{
    seek_hint_recorder h;
    int made = 0;
    make(SEEN, "seen", SEEK_HINT_LIST);
    h.list.at = real[SEEN];
    h.list.length = SEEK_HINT_LIST;
    if (seek_hint_recorder_of(l, &h, &made) || !made || seek_see(&h, 1100, real[SECTOR], 2048, NULL) || seek_see(&h, 1101, real[SECTOR], 2048, NULL))
        exit(2);
    make(HINTER, "hint recorder", SEEK_BLOCK);
    memcpy(real[HINTER], h.block, SEEK_BLOCK);
}

/* The disc file of the lists of both slots. */
static void begin_disc(const seek_list *l0, const seek_list *l1)
{
    size_t length = (size_t)seek_disc_saved_length(l0, l1);
    make(DISC, "disc file", length);
    make(DISC_OUT, "disc file's output", length);
    if (length < 88 || seek_disc_save(SEEK_WORKSHOP, l1, l0, real[DISC], length) != length)
        exit(2);
}

/* Three list files, end to end, and their lengths. */
static void begin_set(void)
{
    static uint8_t files[3 * SAMPLE_LONGEST];
    static const unsigned counts[3] = {2, 5, SAMPLE_BOUNDARIES};
    size_t at = 0, i, n;
    make(LENGTHS, "lengths", 24);
    for (i = 0; i < 3; i++) {
        n = sample_file(files + at, counts[i], i == 2, 10);
        sample_put(real[LENGTHS] + 8 * i, n, 8);
        at += n;
    }
    make(FILES, "files", at);
    memcpy(real[FILES], files, at);
}

/* A shelf of three lists, of 10, 20 and 30 bytes, the last of them of slot 0's area. */
static void begin_shelf(void)
{
    seek_shelf_record r[SEEK_SHELF_RECORDS] = {{0}};
    unsigned i;
    for (i = 0; i < 3; i++) {
        r[i] = seek_shelf_record_(i == 2 ? &area : &area1, 10 * (i + 1));
        r[i].start += i == 0;
        r[i].stamp = 7 - 2 * (i % 2);
    }
    make(SHELF, "shelf", sizeof r);
    memcpy(real[SHELF], r, sizeof r);
}

static void begin(void)
{
    unsigned i;
    seek_list own = begin_list(HEAD, CHECKPOINTS, 3, 20, 0, &area), other, second;
    other = begin_list(OTHER, CHECKPOINTS2, 5, 40, 0, &area);
    second = begin_list(HEAD4, CHECKPOINTS4, 4, 30, 1, &area1);
    if (seek_keep_hint(&own, SAMPLE_START + 6) || seek_keep_hint(&other, SAMPLE_START + 9) || seek_keep_hint(&second, SAMPLE_START))
        exit(2);
    begin_disc(&own, &second);
    begin_sector();
    begin_set();
    begin_shelf();
    begin_recorder(&own);
    begin_hint_recorder(&own);
    make(ANSWER, "answer", SEEK_BLOCK);
    make(GIVEN, "given", 12);
    for (i = 0; i < 3; i++)
        sample_put(real[GIVEN] + 4 * i, SAMPLE_START + SAMPLE_SECTORS - 3 + i, 4);
    sample_put(real[HEAD] + 8 * 22, 1, 8); /* the image id, 5 */
    sample_put(real[HEAD] + 8 * 23, 5, 8);
    make(LIST, "list", 80);
    for (i = 0; i < 10; i++)
        sample_put(real[LIST] + 8 * i, (SAMPLE_START + 7 * i) | (uint64_t)(9 * i) << 32, 8);
}

static void choose_numbers(unsigned c, int wild)
{
    static seek_area told, told1;
    seek_area *a = below(2) ? &area : &area1;
    unsigned k;
    if (told.sectors == 0)
        told = area, told1 = area1;
    area = told;
    area1 = told1;
    for (k = 0; k < 8; k++)
        v[k] = wild && below(4) == 0 ? number() : calls[c].usual[k];
    if (!wild || below(2))
        return;
    switch (below(7)) {
    case 0: a->slot = (uint8_t)number(); break;
    case 1: a->channels = (uint8_t)number(); break;
    case 2: a->key_start = (uint32_t)number(); break;
    case 3: a->key_end = (uint32_t)number(); break;
    case 4: a->sectors = number(); break;
    case 5: a->start = number(); break;
    default: a->end = number(); break;
    }
}

static void lend_all(unsigned c, int wild, int whole)
{
    int k;
    for (k = 0; k < BUFFERS; k++)
        if (calls[c].lent >> k & 1)
            lend(k, wild, (int)(calls[c].written >> k & 1), whole);
}

/* One call over the real lists, with a word of one block changed. */
static int edited(unsigned c, int k, unsigned i, uint64_t value)
{
    choose_numbers(c, 0);
    lend_all(c, 0, 1);
    sample_put(all[k].at + 8 * i, value, 8);
    sample_put(all[k].copy + 8 * i, value, 8);
    return check(c, calls[c].run());
}

/* Each word of each block that a call reads: one more than it can be, 2^32 more than it is, and all bits. */
static uint64_t each_word(void)
{
    uint64_t count = 0;
    unsigned c, i;
    int k;
    for (c = 0; c < CALLS; c++)
        for (k = 0; k < BUFFERS; k++)
            for (i = 0; heads(c) >> k & 1 && i < 24; i++, count += 3)
                if (!edited(c, k, i, widest[kind_of(k)][i] + 1) || !edited(c, k, i, seek_word(real[k], i) + 4294967296u) || !edited(c, k, i, UINT64_MAX)) {
                    fprintf(stderr, "word %u of %s\n", i, all[k].name);
                    exit(1);
                }
    return count;
}

int main(int argc, char **argv)
{
    uint64_t count = argc > 1 ? strtoull(argv[1], NULL, 10) : 100000, i, accepted[CALLS] = {0}, refused[CALLS] = {0}, eights = 0;
    unsigned c;
    state = (argc > 2 ? strtoull(argv[2], NULL, 10) : 1) * 0x9e3779b97f4a7c15u | 1;
    begin();
    printf("%" PRIu64 " calls with a word of a head changed\n", each_word());
    for (i = 0; i < count; i++) {
        int wild = below(8) != 0, whole = below(256) == 0;
        uint64_t answer;
        c = (unsigned)below(CALLS);
        choose_numbers(c, wild);
        lend_all(c, wild, whole);
        answer = calls[c].run();
        if (!check(c, answer)) {
            fprintf(stderr, "call %" PRIu64 " of seed %s\n", i, argc > 2 ? argv[2] : "1");
            return 1;
        }
        if (calls[c].lengths ? answer < 88 : answer != 0)
            refused[c]++, eights += answer == 8;
        else
            accepted[c]++;
    }
    for (c = 0; c < CALLS; c++)
        printf("%-22s %10" PRIu64 " accepted %10" PRIu64 " refused\n", calls[c].name, accepted[c], refused[c]);
    printf("%" PRIu64 " calls; %" PRIu64 " times a recorder was stopped by 8\n", count, eights);
    return 0;
}
