/* seek.h: the seek index of a Super Audio area.
 *
 * A list holds checkpoints of one area of a disc, from which a player's jump starts near its frame. Lists are recorded, merged, saved and
 * loaded. Every call answers for all bytes, numbers and tables: a result, or a refusal number that says why. A refusal changes no block and no
 * table, but for seek_absorb's 8, which stops the recorder.
 *
 * Questions are asked in a fixed order, and the first "no" is the answer (docs/REFUSALS.md). Before every other question stands whether each block is
 * one: with fewer than 192 bytes it is refused with 3. So is one that is read and holds what no call writes: a word wider than its number, a mark that
 * there is not, or numbers behind a mark of 0. The functions that take lists lend whole blocks that calls have written, so it concerns callers of the
 * seek_raw_ functions, and those who write a block themselves.
 *
 * What a caller owes, for every call:
 *   - a buffer's pointer is valid for its whole length, and the whole length is initialised, output buffers too;
 *   - a buffer that is written overlaps no other buffer of the call; NULL only with length 0; at most 2^63 - 1 bytes;
 *   - no other thread writes a buffer during the call.
 * The caller owns every buffer. The library allocates nothing, keeps nothing and has no global state: threads may work on different lists. seek_file.h
 * has helpers that read files and allocate.
 *
 * Words:
 *   sector, LSN       a sector of the disc image, 2,048 bytes, and its number
 *   frame             1/75 of a second of sound; frame numbers count from the start of the area, below 1,166,881
 *   area              slot 0, two-channel, or slot 1, multichannel: a range of sectors with the key that the disc's table of contents gives
 *   interval          the sectors from one checkpoint to the next, 1 to 65,536. Usual: 64
 *   checkpoint        number j lies at sector start + j * interval and has four numbers: threshold, back, malformed and digest
 *   threshold         the first frame that a reader who comes to this sector from the area's start has not yet been given: one more than the last
 *                     whole frame behind it. A jump to a frame starts at the last checkpoint whose threshold is not above it
 *   back              the sectors from the one in which the frame under assembly starts up to the checkpoint; 0 where no frame is under assembly. A
 *                     jump without a held part reads from the checkpoint's sector minus back on
 *   malformed         how many malformed sectors lie before the checkpoint. A list keeps the numbers of the first 4,096
 *   digest            the sum (64-bit FNV-1a) of the checkpoint's sector
 *   held part         the bytes of the frame under assembly up to a checkpoint, kept where back exceeds 32, so that a jump need not read so far back
 *   remaining         for a held part of a DST frame the sectors that are still to come, as the player's assembler counts them. The library keeps any
 *                     32-bit number and gives it back
 *   budget            the most bytes of held parts that a list keeps, at most 4,294,967,295. Usual: 1,048,576
 *   end state         threshold and malformed count at the end of the area; a list that has it is complete
 *   frontier          how far a list reaches: the area's end where it is complete, else its last checkpoint's sector, else the area's start
 *   hint              a sector and the number of the first frame that starts in it, for jumps past the frontier
 *   spacing           the frames between two hints that are recorded. Usual: 8; 0 records none
 *   hint limit        the most hints, and confirmations, that a list keeps (M in docs/), at most 262,144. Usual: 2,048; 0 keeps none
 *   kept hint         a hint that is marked, and so not dropped while the list is held; at most a quarter of the hint limit. Marks are not saved
 *   confirmation      a hint's sector that a player has checked: its threshold and digest
 *   fingerprint       64 bits by which a player tells discs apart, such as the sum of the disc's table of contents. Saved with the list
 *   image id          64 bits by which a player tells the images of this session apart, such as a counter. Not saved
 *   playtime          the frames of the whole area, as the disc's table of contents gives them
 *
 * C99, usable from C++. Link with libseek.a or libseek.so. docs/PLAYER.md has a first program.
 */
#ifndef SEEK_H
#define SEEK_H

#include <stddef.h>
#include <stdint.h>

#ifdef __cplusplus
extern "C" {
#define SEEK_CAST_(type, value) static_cast<type>(value)
#else
#define SEEK_CAST_(type, value) ((type)(value))
#endif
#if defined(__cplusplus) && __cplusplus >= 201103L
#define SEEK_NULL_ nullptr
#else
#define SEEK_NULL_ NULL
#endif

/* ---- version
 * 10,000 times the first number of the header's version, plus 100 times the second, plus the third. seek_version tells the library's own.
 */
#define SEEK_VERSION 20000
#define SEEK_VERSION_TEXT "2.0.0"

/* ---- blocks
 * The numbers of a list, a recorder or a hint recorder, and the answers of some calls, lie in blocks of 192 bytes: 24 words of eight bytes,
 * lowest byte first. The library writes them; a caller reads them by the functions below.
 */
#define SEEK_BLOCK 192

/* The number in so many bytes, at most 8, lowest byte first: every number of a block, a table or a file lies so. */
static inline uint64_t seek_bytes(const uint8_t *bytes, unsigned width)
{
    uint64_t v = 0;
    unsigned k;
    for (k = width; k-- > 0;)
        v = v << 8 | bytes[k];
    return v;
}

static inline uint64_t seek_word(const uint8_t *block, unsigned i) { return seek_bytes(block + 8 * i, 8); }

/* ---- refusal numbers
 * They are called SEEK_NO_.., for SEEK_SET, SEEK_CUR, SEEK_END and the like belong to <stdio.h>. The names without NO_ of version 1.0 are there where
 * SEEK_OLD_NAMES is defined; version 2.1 drops them.
 */
enum {
    SEEK_OK = 0,
    SEEK_NO_AREA = 1,                /* the area's slot or range */
    SEEK_NO_NUMBERS = 2,             /* interval or budget */
    SEEK_NO_ROOM = 3,                /* a table or block is too short, or a block is none that a call wrote */
    SEEK_NO_CONTENT = 4,             /* the tables do not hold a list */
    SEEK_NO_RECORD_DUE = 5,          /* not the due sector, or nothing to finish */
    SEEK_NO_RECORD_FALLS = 6,        /* threshold or malformed count falls or is too large */
    SEEK_NO_RECORD_FRAME = 7,        /* the frame under assembly: its start, number or kind */
    SEEK_NO_ABSORB_IMAGE = 8,        /* another image: the recorder is stopped */
    SEEK_NO_ABSORB_AREA = 9,
    SEEK_NO_ABSORB_JOINS = 10,
    SEEK_NO_ABSORB_AGREES = 11,
    SEEK_NO_ABSORB_RESULT = 12,
    SEEK_NO_HINTS = 13,
    SEEK_NO_CONFIRMATION = 14,
    SEEK_NO_FINGERPRINT = 15,
    SEEK_NO_HINT_RANGE = 16,
    SEEK_NO_FILE_SHORT = 20,
    SEEK_NO_FILE_MAGIC = 21,
    SEEK_NO_FILE_SUM = 22,
    SEEK_NO_FILE_VERSION = 23,
    SEEK_NO_FILE_SLOT = 24,
    SEEK_NO_FILE_FLAGS = 25,
    SEEK_NO_FILE_AREA = 26,
    SEEK_NO_FILE_INTERVAL = 27,
    SEEK_NO_FILE_RESERVED = 28,
    SEEK_NO_FILE_BUDGET = 29,
    SEEK_NO_FILE_COUNTS = 30,
    SEEK_NO_FILE_CHECKPOINTS = 31,
    SEEK_NO_FILE_FRAMES = 32,
    SEEK_NO_FILE_KIND = 33,
    SEEK_NO_FILE_END = 34,
    SEEK_NO_FILE_MALFORMED = 35,
    SEEK_NO_FILE_HINTS = 36,
    SEEK_NO_FILE_CONFIRMATIONS = 37,
    SEEK_NO_FILE_LEFT_OVER = 38,
    SEEK_NO_OUTPUT = 40,
    SEEK_NO_MERGE_AREA = 41,
    SEEK_NO_MERGE_IDS = 42,
    SEEK_NO_MERGE_CHECKPOINTS = 43,
    SEEK_NO_SET = 44,                /* a set of files that is empty or has more than 16 */
    SEEK_NO_COARSE_INTERVAL = 47,    /* the wider interval of a coarser list */
    SEEK_NO_COARSE_CONTENT = 48,     /* the coarser list would not be a list */
    SEEK_NO_FOLD = 49,               /* the bits that a sum is folded to */
    SEEK_NO_SHELF_LIST = 50,         /* the new list alone exceeds the shelf's limit */
    SEEK_NO_SHELF_COUNT = 51,        /* the shelf's count is at its largest */
    SEEK_NO_ROLE = 52,               /* the role is neither of the two, or a listener's at a workshop operation */
    SEEK_NO_KEEP = 53,               /* no hint has this sector, or a quarter of the hint limit is kept already */
    SEEK_NO_DISC = 54
};

#ifdef SEEK_OLD_NAMES
#define SEEK_AREA SEEK_NO_AREA
#define SEEK_NUMBERS SEEK_NO_NUMBERS
#define SEEK_ROOM SEEK_NO_ROOM
#define SEEK_CONTENT SEEK_NO_CONTENT
#define SEEK_RECORD_DUE SEEK_NO_RECORD_DUE
#define SEEK_RECORD_FALLS SEEK_NO_RECORD_FALLS
#define SEEK_RECORD_FRAME SEEK_NO_RECORD_FRAME
#define SEEK_ABSORB_IMAGE SEEK_NO_ABSORB_IMAGE
#define SEEK_ABSORB_AREA SEEK_NO_ABSORB_AREA
#define SEEK_ABSORB_JOINS SEEK_NO_ABSORB_JOINS
#define SEEK_ABSORB_AGREES SEEK_NO_ABSORB_AGREES
#define SEEK_ABSORB_RESULT SEEK_NO_ABSORB_RESULT
#define SEEK_HINTS SEEK_NO_HINTS
#define SEEK_CONFIRMATION SEEK_NO_CONFIRMATION
#define SEEK_FINGERPRINT SEEK_NO_FINGERPRINT
#define SEEK_HINT_RANGE SEEK_NO_HINT_RANGE
#define SEEK_FILE_SHORT SEEK_NO_FILE_SHORT
#define SEEK_FILE_MAGIC SEEK_NO_FILE_MAGIC
#define SEEK_FILE_SUM SEEK_NO_FILE_SUM
#define SEEK_FILE_VERSION SEEK_NO_FILE_VERSION
#define SEEK_FILE_SLOT SEEK_NO_FILE_SLOT
#define SEEK_FILE_FLAGS SEEK_NO_FILE_FLAGS
#define SEEK_FILE_AREA SEEK_NO_FILE_AREA
#define SEEK_FILE_INTERVAL SEEK_NO_FILE_INTERVAL
#define SEEK_FILE_RESERVED SEEK_NO_FILE_RESERVED
#define SEEK_FILE_BUDGET SEEK_NO_FILE_BUDGET
#define SEEK_FILE_COUNTS SEEK_NO_FILE_COUNTS
#define SEEK_FILE_CHECKPOINTS SEEK_NO_FILE_CHECKPOINTS
#define SEEK_FILE_FRAMES SEEK_NO_FILE_FRAMES
#define SEEK_FILE_KIND SEEK_NO_FILE_KIND
#define SEEK_FILE_END SEEK_NO_FILE_END
#define SEEK_FILE_MALFORMED SEEK_NO_FILE_MALFORMED
#define SEEK_FILE_HINTS SEEK_NO_FILE_HINTS
#define SEEK_FILE_CONFIRMATIONS SEEK_NO_FILE_CONFIRMATIONS
#define SEEK_FILE_LEFT_OVER SEEK_NO_FILE_LEFT_OVER
#define SEEK_OUTPUT SEEK_NO_OUTPUT
#define SEEK_MERGE_AREA SEEK_NO_MERGE_AREA
#define SEEK_MERGE_IDS SEEK_NO_MERGE_IDS
#define SEEK_MERGE_CHECKPOINTS SEEK_NO_MERGE_CHECKPOINTS
#define SEEK_DISC SEEK_NO_DISC
#endif

/* A text for each number. */
static inline const char *seek_text(uint32_t number)
{
    switch (number) {
    case SEEK_OK: return "accepted";
    case SEEK_NO_AREA: return "the area's slot is not 0 or 1, or its range is not one of sectors below 2^32";
    case SEEK_NO_NUMBERS: return "the interval is not 1 to 65,536, or the budget is above 4,294,967,295";
    case SEEK_NO_ROOM: return "a table or a block is too short, or a block is none that a call wrote";
    case SEEK_NO_CONTENT: return "the tables do not hold what loading would accept";
    case SEEK_NO_RECORD_DUE: return "not the due sector, not a whole sector, or the recorder is finished or stopped";
    case SEEK_NO_RECORD_FALLS: return "threshold or malformed count falls, or is too large";
    case SEEK_NO_RECORD_FRAME:
        return "the frame under assembly does not start in the area before this sector, its number is too large, or its kind is neither 0 nor 1";
    case SEEK_NO_ABSORB_IMAGE: return "the recorder read another image; it is stopped";
    case SEEK_NO_ABSORB_AREA: return "the recorder is of another area or interval";
    case SEEK_NO_ABSORB_JOINS: return "the recorder does not join the list";
    case SEEK_NO_ABSORB_AGREES: return "the recorder and the list disagree where both have read";
    case SEEK_NO_ABSORB_RESULT: return "the list with the recorder's part would not be a list, or the malformed sectors do not fit";
    case SEEK_NO_HINTS: return "more than 65,536 hints, or a frame number that is too large";
    case SEEK_NO_CONFIRMATION: return "the confirmed sector lies outside the area, or its threshold is too large";
    case SEEK_NO_FINGERPRINT: return "the list holds another fingerprint";
    case SEEK_NO_HINT_RANGE: return "the range ends before it begins";
    case SEEK_NO_FILE_SHORT: return "the file ends too early";
    case SEEK_NO_FILE_MAGIC: return "this is no list file";
    case SEEK_NO_FILE_SUM: return "the file's sum is wrong: it was changed or cut";
    case SEEK_NO_FILE_VERSION: return "the file's version is not 1 to 4";
    case SEEK_NO_FILE_SLOT: return "the file's slot is not 0 or 1";
    case SEEK_NO_FILE_FLAGS: return "the file has flags that its version does not know";
    case SEEK_NO_FILE_AREA: return "the file is of another area";
    case SEEK_NO_FILE_INTERVAL: return "the file's interval is not 1 to 65,536";
    case SEEK_NO_FILE_RESERVED: return "a reserved field of the file is not 0";
    case SEEK_NO_FILE_BUDGET: return "the file's budget is above 4,294,967,295";
    case SEEK_NO_FILE_COUNTS: return "the file's counts do not fit its area or its length";
    case SEEK_NO_FILE_CHECKPOINTS: return "a checkpoint of the file breaks its rule";
    case SEEK_NO_FILE_FRAMES: return "a frame or a held part of the file breaks its rule";
    case SEEK_NO_FILE_KIND: return "a held part of the file has no kind";
    case SEEK_NO_FILE_END: return "the file's end state breaks its rule";
    case SEEK_NO_FILE_MALFORMED: return "the file's malformed sectors break their rule";
    case SEEK_NO_FILE_HINTS: return "the file's hints break their rule";
    case SEEK_NO_FILE_CONFIRMATIONS: return "the file's confirmations break their rule";
    case SEEK_NO_FILE_LEFT_OVER: return "something lies behind the file's last section";
    case SEEK_NO_OUTPUT: return "the output is too short";
    case SEEK_NO_MERGE_AREA: return "the lists are of different areas or intervals";
    case SEEK_NO_MERGE_IDS: return "the lists have different image ids or fingerprints";
    case SEEK_NO_MERGE_CHECKPOINTS: return "the lists disagree about a checkpoint or the end state";
    case SEEK_NO_SET: return "the set has no file, or more than 16";
    case SEEK_NO_COARSE_INTERVAL: return "the wider interval is not 1 to 65,536, or no multiple of the list's own";
    case SEEK_NO_COARSE_CONTENT: return "a malformed sector that is counted lies at or past the frontier that the coarser list would have";
    case SEEK_NO_FOLD: return "k is not between half the width and the width less one";
    case SEEK_NO_SHELF_LIST: return "the new list alone exceeds the shelf's limit";
    case SEEK_NO_SHELF_COUNT: return "the shelf's count is at its largest";
    case SEEK_NO_ROLE: return "the role is neither listener nor workshop, or a listener asks for what is the workshop's";
    case SEEK_NO_KEEP: return "no hint has this sector, or it is not kept and a quarter of the hint limit is kept already";
    case SEEK_NO_DISC: return "the disc file's contents table breaks its rules, or two lists share a slot, or one is too long";
    default: return "no such number";
    }
}

/* A call that answers a length (seek_save, seek_saved_length, seek_disc_save, seek_disc_saved_length): was it refused? Lengths are at least 88, the shortest
 * file, and refusal numbers are below. */
#define SEEK_SHORTEST 88
static inline int seek_refused(uint64_t answer) { return answer < SEEK_SHORTEST; }

/* ---- roles
 * Saving, loading and merging are the workshop's: they take a role, and refuse a listener's with SEEK_NO_ROLE before they ask anything else. Nothing else takes
 * one but the views.
 */
enum { SEEK_LISTENER = 1, SEEK_WORKSHOP = 2 };

/* ---- areas */
typedef struct {
    uint8_t slot;        /* 0 two-channel, 1 multichannel */
    uint8_t channels;
    uint32_t key_start;  /* start, end, channels and image sectors as the disc's table of contents gives them */
    uint32_t key_end;
    uint64_t sectors;
    uint64_t start;      /* the range of sectors, its end excluded; seek_file_area tells the key's own */
    uint64_t end;
} seek_area;

/* ---- tables
 * A list's checkpoints, frames, frame bytes, held parts, malformed sectors, hints and confirmations lie in seven tables, each in the file's own
 * record layout (docs/FILE.md), but that the last byte of a hint is its mark: 1 where it is kept, else 0. seek_sizes and seek_file_sizes tell how many bytes each needs; the table of hints has room for 262,144 above the hint
 * limit, in which hints are added and merged. A copy of a seek_list has a head of its own and shares the tables: after a call that writes one of the two,
 * the other is none.
 */
typedef struct {
    uint8_t *at;
    size_t length;
} seek_table;

typedef struct {
    uint8_t head[SEEK_BLOCK];
    seek_table checkpoints;   /* 24 bytes each */
    seek_table frames;        /* 8 */
    seek_table store;         /* the frames' bytes, end to end */
    seek_table parts;         /* 24 */
    seek_table malformed;     /* 4 */
    seek_table hints;         /* 8 */
    seek_table confirmed;     /* 16 */
} seek_list;

/* A list that is not there: no head, no memory. Every call on it is refused, and seek_disc_load takes it for a slot that the file has not. */
#define SEEK_ABSENT \
    { \
        {0}, {SEEK_NULL_, 0}, {SEEK_NULL_, 0}, {SEEK_NULL_, 0}, {SEEK_NULL_, 0}, {SEEK_NULL_, 0}, {SEEK_NULL_, 0}, { SEEK_NULL_, 0 } \
    }

typedef struct {
    uint64_t checkpoints, frames, store, parts, malformed, hints, confirmed;
} seek_table_sizes;

/* The kinds of a frame. */
#define SEEK_DST 0
#define SEEK_DSD 1

/* A recorder: the checkpoints of one pass over the disc, until a list absorbs them. Its block, and four tables of the sizes that the list's have. */
typedef struct {
    uint8_t block[SEEK_BLOCK];
    seek_table checkpoints;
    seek_table frames;
    seek_table store;
    seek_table parts;
} seek_recorder;

/* A hint recorder: the frame starts of one pass over the disc, until a list adds them. Its block, and a table of 65,536 hints. */
#define SEEK_HINT_LIST 524288
typedef struct {
    uint8_t block[SEEK_BLOCK];
    seek_table list;          /* 8 bytes each */
} seek_hint_recorder;

/* ---- a shelf
 * The numbers of a shelf of saved lists, and the records of its table, one for each list: its area, the length of its file, and the stamp of its last entry or
 * jump. The first present records of the table count. The table is lent to each call and has room for at least 64 records.
 */
#define SEEK_SHELF_RECORDS 64
typedef struct {
    uint64_t present;
    uint64_t count;      /* of entries and jumps: the last stamp given */
    uint64_t limit;      /* the most that the lengths of the present lists may sum up to */
} seek_shelf;

typedef struct {
    uint8_t slot;        /* the area, as in seek_area */
    uint8_t channels;
    uint32_t key_start;
    uint32_t key_end;
    uint64_t sectors;
    uint64_t start;
    uint64_t end;
    uint64_t length;     /* of the list's file, in bytes */
    uint64_t stamp;
} seek_shelf_record;

/* What a call on a shelf answers: 0 or a refusal number, 1 where the area of a jump is absent, and the shelf's numbers afterwards. */
typedef struct {
    uint32_t number;
    uint32_t absent;
    uint64_t present;
    uint64_t count;
} seek_shelf_answer;

/* The library was proved and compiled with these sizes and places. */
#define SEEK_LAID_(name, test) typedef char seek_laid_##name[(test) ? 1 : -1]
SEEK_LAID_(shelf, sizeof(seek_shelf) == 24 && offsetof(seek_shelf, count) == 8 && offsetof(seek_shelf, limit) == 16);
SEEK_LAID_(answer, sizeof(seek_shelf_answer) == 24 && offsetof(seek_shelf_answer, absent) == 4 && offsetof(seek_shelf_answer, present) == 8 &&
                       offsetof(seek_shelf_answer, count) == 16);
SEEK_LAID_(record, sizeof(seek_shelf_record) == 56 && offsetof(seek_shelf_record, channels) == 1 && offsetof(seek_shelf_record, key_start) == 4 &&
                       offsetof(seek_shelf_record, key_end) == 8 && offsetof(seek_shelf_record, sectors) == 16 && offsetof(seek_shelf_record, start) == 24 &&
                       offsetof(seek_shelf_record, end) == 32 && offsetof(seek_shelf_record, length) == 40 && offsetof(seek_shelf_record, stamp) == 48);
#undef SEEK_LAID_

/* ---- the library's functions, over pointers and lengths; the functions below them take lists */
#define SEEK_IN(t) const uint8_t *t, size_t t##_length
#define SEEK_OUT(t) uint8_t *t, size_t t##_length
#define SEEK_AREA_NUMBERS uint8_t slot, uint8_t channels, uint32_t key_start, uint32_t key_end, uint64_t sectors, uint64_t start, uint64_t end
#define SEEK_AREA_NUMBERS2 uint8_t slot2, uint8_t channels2, uint32_t key_start2, uint32_t key_end2, uint64_t sectors2, uint64_t start2, uint64_t end2
#define SEEK_TABLES_IN SEEK_IN(checkpoints), SEEK_IN(frames), SEEK_IN(store), SEEK_IN(parts), SEEK_IN(malformed), SEEK_IN(hints), SEEK_IN(confirmed)
#define SEEK_TABLES_OUT SEEK_OUT(checkpoints), SEEK_OUT(frames), SEEK_OUT(store), SEEK_OUT(parts), SEEK_OUT(malformed), SEEK_OUT(hints), SEEK_OUT(confirmed)
#define SEEK_TABLES_IN2 \
    SEEK_IN(checkpoints2), SEEK_IN(frames2), SEEK_IN(store2), SEEK_IN(parts2), SEEK_IN(malformed2), SEEK_IN(hints2), SEEK_IN(confirmed2)
#define SEEK_TABLES_OUT2 \
    SEEK_OUT(checkpoints2), SEEK_OUT(frames2), SEEK_OUT(store2), SEEK_OUT(parts2), SEEK_OUT(malformed2), SEEK_OUT(hints2), SEEK_OUT(confirmed2)

uint64_t seek_raw_sum(SEEK_IN(bytes));
uint32_t seek_raw_first_record(SEEK_IN(sector), SEEK_OUT(answer));
uint32_t seek_raw_sizes(SEEK_AREA_NUMBERS, uint32_t interval, uint64_t budget, uint32_t hint_limit, SEEK_OUT(answer));
uint32_t seek_raw_file_area(SEEK_IN(file), SEEK_OUT(answer));
uint32_t seek_raw_file_sizes(SEEK_AREA_NUMBERS, SEEK_IN(file), uint64_t limit, SEEK_OUT(answer));
uint32_t seek_raw_new(SEEK_OUT(head), SEEK_AREA_NUMBERS, uint32_t interval, uint64_t budget, uint32_t spacing, uint32_t hint_limit, SEEK_TABLES_IN);
uint32_t seek_raw_load(uint32_t role, SEEK_OUT(head), SEEK_AREA_NUMBERS, SEEK_IN(file), uint64_t limit, SEEK_TABLES_OUT);
uint64_t seek_raw_saved_length(SEEK_IN(head), SEEK_TABLES_IN);
uint64_t seek_raw_save(uint32_t role, SEEK_IN(head), SEEK_TABLES_IN, SEEK_OUT(out));
uint32_t seek_raw_plan(SEEK_IN(head), uint32_t frame, SEEK_OUT(answer), SEEK_TABLES_IN);
uint64_t seek_raw_part(SEEK_IN(store), uint64_t offset, uint64_t length);
uint32_t seek_raw_fingerprint(SEEK_OUT(head), uint64_t value, SEEK_TABLES_IN);
uint32_t seek_raw_merge(uint32_t role, SEEK_OUT(head), SEEK_IN(other), SEEK_TABLES_OUT, SEEK_TABLES_IN2);
uint32_t seek_raw_adds(SEEK_IN(head), SEEK_IN(other), SEEK_OUT(answer), SEEK_TABLES_IN, SEEK_TABLES_IN2);
uint32_t seek_raw_add_hints(SEEK_OUT(head), SEEK_IN(list), SEEK_IN(checkpoints), SEEK_IN(frames), SEEK_IN(store), SEEK_IN(parts), SEEK_IN(malformed),
                            SEEK_OUT(hints), SEEK_IN(confirmed));
uint32_t seek_raw_keep_hint(SEEK_IN(head), uint64_t lsn, SEEK_IN(checkpoints), SEEK_IN(frames), SEEK_IN(store), SEEK_IN(parts), SEEK_IN(malformed),
                            SEEK_OUT(hints), SEEK_IN(confirmed));
uint32_t seek_raw_recorder(SEEK_IN(head), uint64_t from, SEEK_OUT(block), SEEK_TABLES_IN);
uint32_t seek_raw_record(SEEK_OUT(block), uint64_t lsn, uint32_t threshold, uint64_t malformed, uint8_t mark, uint64_t start, uint32_t number, uint8_t kind,
                         int32_t remaining, SEEK_IN(bytes), SEEK_IN(sector), SEEK_OUT(checkpoints), SEEK_OUT(frames), SEEK_OUT(store), SEEK_OUT(parts));
uint32_t seek_raw_finish(SEEK_OUT(block), uint32_t threshold, uint64_t malformed, SEEK_IN(checkpoints), SEEK_IN(frames), SEEK_IN(store), SEEK_IN(parts));
uint32_t seek_raw_absorb(SEEK_OUT(head), SEEK_OUT(block), uint8_t mark, uint64_t image, SEEK_IN(given), SEEK_OUT(checkpoints), SEEK_OUT(frames),
                         SEEK_OUT(store), SEEK_OUT(parts), SEEK_OUT(malformed), SEEK_IN(hints), SEEK_IN(confirmed), SEEK_IN(new_checkpoints),
                         SEEK_IN(new_frames), SEEK_IN(new_store), SEEK_IN(new_parts));
uint32_t seek_raw_hint_recorder(SEEK_IN(head), SEEK_OUT(block), SEEK_TABLES_IN);
uint32_t seek_raw_see(SEEK_OUT(block), uint64_t lsn, SEEK_IN(sector), SEEK_OUT(list));
uint32_t seek_raw_flush(SEEK_OUT(block), SEEK_OUT(list));
uint32_t seek_raw_take(SEEK_OUT(block), SEEK_OUT(answer), SEEK_IN(list));
uint32_t seek_raw_keep_confirmation(SEEK_OUT(head), uint64_t lsn, uint32_t threshold, uint64_t digest, SEEK_OUT(answer), SEEK_IN(checkpoints),
                                    SEEK_IN(frames), SEEK_IN(store), SEEK_IN(parts), SEEK_IN(malformed), SEEK_IN(hints), SEEK_OUT(confirmed));
uint32_t seek_raw_hint(SEEK_IN(head), uint32_t first, uint32_t end, uint32_t playtime, SEEK_OUT(answer), SEEK_TABLES_IN);
uint32_t seek_raw_disc_contents(SEEK_IN(file), SEEK_OUT(answer));
uint32_t seek_raw_disc_sizes(SEEK_AREA_NUMBERS, SEEK_AREA_NUMBERS2, SEEK_IN(file), uint64_t limit, SEEK_OUT(answer));
uint32_t seek_raw_disc_load(uint32_t role, SEEK_OUT(head), SEEK_OUT(other), SEEK_AREA_NUMBERS, SEEK_AREA_NUMBERS2, SEEK_IN(file), uint64_t limit, SEEK_OUT(answer),
                            SEEK_TABLES_OUT, SEEK_TABLES_OUT2);
uint64_t seek_raw_disc_saved_length(SEEK_IN(head), SEEK_TABLES_IN);
uint64_t seek_raw_disc_saved_length_both(SEEK_IN(head), SEEK_IN(other), SEEK_TABLES_IN, SEEK_TABLES_IN2);
uint64_t seek_raw_disc_save(uint32_t role, SEEK_IN(head), SEEK_TABLES_IN, SEEK_OUT(out));
uint64_t seek_raw_disc_save_both(uint32_t role, SEEK_IN(head), SEEK_IN(other), SEEK_TABLES_IN, SEEK_TABLES_IN2, SEEK_OUT(out));
uint32_t seek_raw_sum32(SEEK_IN(bytes));
uint32_t seek_raw_fold32(uint32_t sum, uint32_t k, SEEK_OUT(answer));
uint32_t seek_raw_fold64(uint64_t sum, uint32_t k, SEEK_OUT(answer));
seek_shelf_answer seek_raw_shelf_enter(seek_shelf_record *table, size_t records, seek_shelf shelf, seek_shelf_record list);
seek_shelf_answer seek_raw_shelf_jump(seek_shelf_record *table, size_t records, seek_shelf shelf, seek_shelf_record list);
uint32_t seek_raw_due(SEEK_IN(block), SEEK_OUT(answer));
uint32_t seek_raw_boundary(SEEK_IN(head), uint32_t number, SEEK_OUT(answer));
uint32_t seek_raw_frontier(SEEK_IN(head), SEEK_OUT(answer));
uint32_t seek_raw_version(void);

#define SEEK_LENT_(t) (t).at, (t).length
#define SEEK_LENT_SEVEN_(l) \
    SEEK_LENT_((l)->checkpoints), SEEK_LENT_((l)->frames), SEEK_LENT_((l)->store), SEEK_LENT_((l)->parts), SEEK_LENT_((l)->malformed), \
        SEEK_LENT_((l)->hints), SEEK_LENT_((l)->confirmed)
#define SEEK_LENT_FOUR_(r) SEEK_LENT_((r)->checkpoints), SEEK_LENT_((r)->frames), SEEK_LENT_((r)->store), SEEK_LENT_((r)->parts)
#define SEEK_AREA_(a) (a)->slot, (a)->channels, (a)->key_start, (a)->key_end, (a)->sectors, (a)->start, (a)->end

/* The version of the library that is linked, as SEEK_VERSION is that of this header. A library of the same first number,
 * and no lower one, has every call of this header. */
static inline uint32_t seek_version(void) { return seek_raw_version(); }

/* ---- what a list's head says */
static inline void seek_area_from_(const uint8_t *block, seek_area *a)
{
    a->slot = SEEK_CAST_(uint8_t, seek_word(block, 0));
    a->channels = SEEK_CAST_(uint8_t, seek_word(block, 1));
    a->key_start = SEEK_CAST_(uint32_t, seek_word(block, 2));
    a->key_end = SEEK_CAST_(uint32_t, seek_word(block, 3));
    a->sectors = seek_word(block, 4);
    a->start = seek_word(block, 5);
    a->end = seek_word(block, 6);
}

static inline uint64_t seek_interval(const seek_list *l) { return seek_word(l->head, 7); }
static inline uint64_t seek_budget(const seek_list *l) { return seek_word(l->head, 8); }
static inline uint64_t seek_spacing(const seek_list *l) { return seek_word(l->head, 9); }
static inline uint64_t seek_hint_limit(const seek_list *l) { return seek_word(l->head, 10); }
static inline uint64_t seek_checkpoint_count(const seek_list *l) { return seek_word(l->head, 11); }
static inline uint64_t seek_frame_count(const seek_list *l) { return seek_word(l->head, 12); }
static inline uint64_t seek_part_count(const seek_list *l) { return seek_word(l->head, 13); }
static inline uint64_t seek_malformed_count(const seek_list *l) { return seek_word(l->head, 14); }
static inline uint64_t seek_hint_count(const seek_list *l) { return seek_word(l->head, 15); }
static inline uint64_t seek_confirmation_count(const seek_list *l) { return seek_word(l->head, 16); }
static inline int seek_is_complete(const seek_list *l) { return seek_word(l->head, 17) != 0; }
static inline uint32_t seek_end_threshold(const seek_list *l) { return SEEK_CAST_(uint32_t, seek_word(l->head, 18)); }
static inline uint64_t seek_end_malformed(const seek_list *l) { return seek_word(l->head, 19); }
static inline int seek_has_fingerprint(const seek_list *l) { return seek_word(l->head, 20) != 0; }
static inline int seek_fingerprint_checked(const seek_list *l) { return seek_word(l->head, 20) > 1; }
static inline uint64_t seek_fingerprint_value(const seek_list *l) { return seek_word(l->head, 21); }
static inline int seek_has_image(const seek_list *l) { return seek_word(l->head, 22) != 0; }
static inline uint64_t seek_image_value(const seek_list *l) { return seek_word(l->head, 23); }

static inline void seek_area_of(const seek_list *l, seek_area *a) { seek_area_from_(l->head, a); }

/* The sector of checkpoint number j; answers 0, and tells 0, where the area has no such boundary. */
static inline int seek_boundary(const seek_list *l, uint32_t j, uint64_t *lsn)
{
    uint8_t answer[SEEK_BLOCK] = {0};
    int there = seek_raw_boundary(l->head, SEEK_BLOCK, j, answer, SEEK_BLOCK) == 0 && seek_word(answer, 0) != 0;
    *lsn = there ? seek_word(answer, 1) : 0;
    return there;
}

/* How far the list reaches; 0 where its area is refused (1). */
static inline uint64_t seek_frontier(const seek_list *l)
{
    uint8_t answer[SEEK_BLOCK] = {0};
    return seek_raw_frontier(l->head, SEEK_BLOCK, answer, SEEK_BLOCK) == 0 ? seek_word(answer, 1) : 0;
}

/* ---- what a list's tables hold, by number from 0 on
 * Each answers 1, or 0 where the list has no such record; what is told is 0 then. They look up one record and ask no question: of a list that a call has
 * refused they tell what its bytes say. */
static inline const uint8_t *seek_record_(const seek_table *t, uint64_t count, uint64_t i, unsigned width)
{
    return i < count && i < t->length / width ? t->at + width * i : SEEK_NULL_;
}

/* Checkpoint number j. 24 bytes: threshold 4, back 4, malformed 8, digest 8. */
typedef struct {
    uint64_t lsn;
    uint32_t threshold;
    uint32_t back;
    uint64_t malformed;
    uint64_t digest;
} seek_checkpoint;

static inline int seek_checkpoint_at(const seek_list *l, uint64_t j, seek_checkpoint *c)
{
    const uint8_t *b = seek_record_(&l->checkpoints, seek_checkpoint_count(l), j, 24);
    c->lsn = 0;
    c->threshold = b ? SEEK_CAST_(uint32_t, seek_bytes(b, 4)) : 0;
    c->back = b ? SEEK_CAST_(uint32_t, seek_bytes(b + 4, 4)) : 0;
    c->malformed = b ? seek_bytes(b + 8, 8) : 0;
    c->digest = b ? seek_bytes(b + 16, 8) : 0;
    return b != SEEK_NULL_ && seek_boundary(l, SEEK_CAST_(uint32_t, j), &c->lsn);
}

/* Malformed sector number i. 4 bytes. */
static inline int seek_malformed_at(const seek_list *l, uint64_t i, uint32_t *lsn)
{
    const uint8_t *b = seek_record_(&l->malformed, seek_malformed_count(l), i, 4);
    *lsn = b ? SEEK_CAST_(uint32_t, seek_bytes(b, 4)) : 0;
    return b != SEEK_NULL_;
}

/* Held part number i. 24 bytes: checkpoint 4, frame's place in the table of frames 4, length 4, frame number 4, remaining 4, kind 4. Start is the sector in
 * which the frame starts: the first 4 of the frame's 8 bytes. seek_plan tells where the bytes of a part lie. */
typedef struct {
    uint32_t checkpoint;  /* the number of the checkpoint that it is held for */
    uint32_t start;
    uint32_t length;      /* its bytes */
    uint32_t number;      /* the frame's number */
    int32_t remaining;
    uint32_t kind;        /* SEEK_DST or SEEK_DSD */
} seek_held;

static inline int32_t seek_signed_(uint64_t v)
{
    return v < 2147483648u ? SEEK_CAST_(int32_t, v) : SEEK_CAST_(int32_t, SEEK_CAST_(int64_t, v) - 4294967296);
}

static inline int seek_held_at(const seek_list *l, uint64_t i, seek_held *h)
{
    const uint8_t *b = seek_record_(&l->parts, seek_part_count(l), i, 24);
    const uint8_t *f = b ? seek_record_(&l->frames, seek_frame_count(l), seek_bytes(b + 4, 4), 8) : SEEK_NULL_;
    h->checkpoint = f ? SEEK_CAST_(uint32_t, seek_bytes(b, 4)) : 0;
    h->start = f ? SEEK_CAST_(uint32_t, seek_bytes(f, 4)) : 0;
    h->length = f ? SEEK_CAST_(uint32_t, seek_bytes(b + 8, 4)) : 0;
    h->number = f ? SEEK_CAST_(uint32_t, seek_bytes(b + 12, 4)) : 0;
    h->remaining = f ? seek_signed_(seek_bytes(b + 16, 4)) : 0;
    h->kind = f ? SEEK_CAST_(uint32_t, seek_bytes(b + 20, 4)) : 0;
    return f != SEEK_NULL_;
}

/* Hint number i. 8 bytes: sector 4, frame number 3, mark 1. */
static inline int seek_hint_at(const seek_list *l, uint64_t i, uint32_t *lsn, uint32_t *number)
{
    const uint8_t *b = seek_record_(&l->hints, seek_hint_count(l), i, 8);
    *lsn = b ? SEEK_CAST_(uint32_t, seek_bytes(b, 4)) : 0;
    *number = b ? SEEK_CAST_(uint32_t, seek_bytes(b + 4, 3)) : 0;
    return b != SEEK_NULL_;
}

/* Is hint number i kept? */
static inline int seek_hint_kept_at(const seek_list *l, uint64_t i)
{
    const uint8_t *b = seek_record_(&l->hints, seek_hint_count(l), i, 8);
    return b != SEEK_NULL_ && b[7] == 1;
}

/* How many hints are kept; it looks at each hint. */
static inline uint64_t seek_kept_count(const seek_list *l)
{
    uint64_t i, n = seek_hint_count(l), kept = 0;
    for (i = 0; i < n && i < l->hints.length / 8; i++)
        kept += seek_hint_kept_at(l, i) ? 1 : 0;
    return kept;
}

/* Confirmation number i. 16 bytes: sector 4, threshold 4, digest 8. */
typedef struct {
    uint32_t lsn;
    uint32_t threshold;
    uint64_t digest;
} seek_confirmation;

static inline int seek_confirmation_at(const seek_list *l, uint64_t i, seek_confirmation *c)
{
    const uint8_t *b = seek_record_(&l->confirmed, seek_confirmation_count(l), i, 16);
    c->lsn = b ? SEEK_CAST_(uint32_t, seek_bytes(b, 4)) : 0;
    c->threshold = b ? SEEK_CAST_(uint32_t, seek_bytes(b + 4, 4)) : 0;
    c->digest = b ? seek_bytes(b + 8, 8) : 0;
    return b != SEEK_NULL_;
}

/* ---- what a recorder's block says */
static inline uint64_t seek_recorded_count(const seek_recorder *r) { return seek_word(r->block, 11); }
static inline int seek_recorder_stopped(const seek_recorder *r) { return seek_word(r->block, 14) > 1; }

/* The sector that seek_record wants next; answers 0 where there is none: every boundary is recorded and seek_finish is next, or the recorder is finished or
 * stopped. It reads the recorder's block alone. */
static inline int seek_due(const seek_recorder *r, uint64_t *lsn)
{
    uint8_t answer[SEEK_BLOCK] = {0};
    int due = seek_raw_due(r->block, SEEK_BLOCK, answer, SEEK_BLOCK) == 0 && seek_word(answer, 0) != 0;
    *lsn = due ? seek_word(answer, 1) : 0;
    return due;
}

static inline uint64_t seek_seen_count(const seek_hint_recorder *h) { return seek_word(h->block, 6); }

/* ---- memory */
static inline void seek_sizes_from_(const uint8_t *answer, seek_table_sizes *s)
{
    s->checkpoints = seek_word(answer, 0);
    s->frames = seek_word(answer, 1);
    s->store = seek_word(answer, 2);
    s->parts = seek_word(answer, 3);
    s->malformed = seek_word(answer, 4);
    s->hints = seek_word(answer, 5);
    s->confirmed = seek_word(answer, 6);
}

/* The bytes of each table for an area, interval, budget and hint limit: question 3 passes exactly where every table has at least these. */
static inline uint32_t seek_sizes(const seek_area *a, uint32_t interval, uint64_t budget, uint32_t hint_limit, seek_table_sizes *s)
{
    uint8_t answer[SEEK_BLOCK] = {0};
    uint32_t n = seek_raw_sizes(SEEK_AREA_(a), interval, budget, hint_limit, answer, SEEK_BLOCK);
    seek_sizes_from_(answer, s);
    return n;
}

/* The same for a file and a load limit: seek_load with such tables never answers 3. Refuses where seek_load would. */
static inline uint32_t seek_file_sizes(const seek_area *a, const uint8_t *file, size_t length, uint64_t limit, seek_table_sizes *s)
{
    uint8_t answer[SEEK_BLOCK] = {0};
    uint32_t n = seek_raw_file_sizes(SEEK_AREA_(a), file, length, limit, answer, SEEK_BLOCK);
    seek_sizes_from_(answer, s);
    return n;
}

/* The area that a list file says it is of, with the range that its key gives. */
static inline uint32_t seek_file_area(const uint8_t *file, size_t length, seek_area *a)
{
    uint8_t answer[SEEK_BLOCK] = {0};
    uint32_t n = seek_raw_file_area(file, length, answer, SEEK_BLOCK);
    seek_area_from_(answer, a);
    return n;
}

static inline uint64_t seek_total(const seek_table_sizes *s)
{
    return s->checkpoints + s->frames + s->store + s->parts + s->malformed + s->hints + s->confirmed;
}

static inline void seek_clear_(uint8_t *block)
{
    unsigned i;
    for (i = 0; i < SEEK_BLOCK; i++)
        block[i] = 0;
}

#define SEEK_CARVE_(t) (o->t.at = memory ? memory + at : SEEK_NULL_, o->t.length = SEEK_CAST_(size_t, s->t), at += s->t)

/* Carves one block of initialised memory into a list's tables, and clears its head. Answers 1, or 0 where there are fewer bytes than seek_total(s). Sizes that
 * are all 0 take no memory, which may be NULL then: the list is SEEK_ABSENT. */
static inline int seek_carve(seek_list *o, const seek_table_sizes *s, uint8_t *memory, uint64_t length)
{
    uint64_t at = 0;
    if (length < seek_total(s) || (memory == SEEK_NULL_ && seek_total(s) != 0))
        return 0;
    seek_clear_(o->head);
    SEEK_CARVE_(checkpoints);
    SEEK_CARVE_(frames);
    SEEK_CARVE_(store);
    SEEK_CARVE_(parts);
    SEEK_CARVE_(malformed);
    SEEK_CARVE_(hints);
    SEEK_CARVE_(confirmed);
    return 1;
}

/* The same for a recorder, which has the first four of these tables, */
static inline uint64_t seek_recorder_total(const seek_table_sizes *s) { return s->checkpoints + s->frames + s->store + s->parts; }

static inline int seek_carve_recorder(seek_recorder *o, const seek_table_sizes *s, uint8_t *memory, uint64_t length)
{
    uint64_t at = 0;
    if (length < seek_recorder_total(s) || (memory == SEEK_NULL_ && seek_recorder_total(s) != 0))
        return 0;
    seek_clear_(o->block);
    SEEK_CARVE_(checkpoints);
    SEEK_CARVE_(frames);
    SEEK_CARVE_(store);
    SEEK_CARVE_(parts);
    return 1;
}
#undef SEEK_CARVE_

/* and for a hint recorder, whose list takes SEEK_HINT_LIST bytes. */
static inline int seek_carve_hint_recorder(seek_hint_recorder *o, uint8_t *memory, uint64_t length)
{
    if (memory == SEEK_NULL_ || length < SEEK_HINT_LIST)
        return 0;
    seek_clear_(o->block);
    o->list.at = memory;
    o->list.length = SEEK_HINT_LIST;
    return 1;
}

/* ---- lists: each answers 0 or a refusal number. What a call tells through a pointer is 0 where it refuses. */
/* An empty list in the tables of l, which seek_carve of seek_sizes makes. A hint limit above 262,144 is lowered to it. */
static inline uint32_t seek_new(seek_list *l, const seek_area *a, uint32_t interval, uint64_t budget, uint32_t spacing, uint32_t hint_limit)
{
    return seek_raw_new(l->head, SEEK_BLOCK, SEEK_AREA_(a), interval, budget, spacing, hint_limit, SEEK_LENT_SEVEN_(l));
}

/* The list of a file, loaded under an area with a limit in bytes for frame bytes, hints and confirmations (UINT64_MAX: all of it). */
static inline uint32_t seek_load(uint32_t role, seek_list *l, const seek_area *a, const uint8_t *file, size_t length, uint64_t limit)
{
    return seek_raw_load(role, l->head, SEEK_BLOCK, SEEK_AREA_(a), file, length, limit, SEEK_LENT_SEVEN_(l));
}

/* The length that seek_save will write: at least 88; below 88 a refusal number. */
static inline uint64_t seek_saved_length(const seek_list *l)
{
    return seek_raw_saved_length(l->head, SEEK_BLOCK, SEEK_LENT_SEVEN_(l));
}

/* Writes the list file into out. Answers its length, at least 88; below 88 a refusal number. */
static inline uint64_t seek_save(uint32_t role, const seek_list *l, uint8_t *out, size_t length)
{
    return seek_raw_save(role, l->head, SEEK_BLOCK, SEEK_LENT_SEVEN_(l), out, length);
}

/* Merges the other list, which is only read, into l. A sector of which both have a hint then has the other list's frame number: merge the newer list into the
 * older one. The own hints that are kept stay kept, and no other becomes so. */
static inline uint32_t seek_merge(uint32_t role, seek_list *l, const seek_list *other)
{
    return seek_raw_merge(role, l->head, SEEK_BLOCK, other->head, SEEK_BLOCK, SEEK_LENT_SEVEN_(l), SEEK_LENT_SEVEN_(other));
}

/* What merging the other list would change in l. A hint of l whose number the other list has otherwise is a change: of two such lists each brings hints to
 * the other. Where nothing but image is set, whatever the frame, the jump's start, the part's bytes and the hint are those
 * of the merged list. It does not promise that the other list holds nothing else: a merge takes no parts for checkpoints that l has, no hints above its limit
 * and no confirmations while its fingerprint is unchecked. seek_lacks below says what the other list holds. */
typedef struct {
    int checkpoints, end, parts, malformed, hints, confirmations, fingerprint, image;
} seek_brings;

static inline uint32_t seek_adds(const seek_list *l, const seek_list *other, seek_brings *b)
{
    uint8_t answer[SEEK_BLOCK] = {0};
    uint32_t n = seek_raw_adds(l->head, SEEK_BLOCK, other->head, SEEK_BLOCK, answer, SEEK_BLOCK, SEEK_LENT_SEVEN_(l), SEEK_LENT_SEVEN_(other));
    b->checkpoints = seek_word(answer, 0) != 0;
    b->end = seek_word(answer, 1) != 0;
    b->parts = seek_word(answer, 2) != 0;
    b->malformed = seek_word(answer, 3) != 0;
    b->hints = seek_word(answer, 4) != 0;
    b->confirmations = seek_word(answer, 5) != 0;
    b->fingerprint = seek_word(answer, 6) != 0;
    b->image = seek_word(answer, 7) != 0;
    return n;
}

/* The rule by which seek_plan gets its answer; 0: none, the call was refused. */
enum { SEEK_RULE_AREA_START = 1, SEEK_RULE_CHECKPOINT = 2, SEEK_RULE_HELD_PART = 3, SEEK_RULE_END_STATE = 4 };
static inline const char *seek_rule_text(int rule)
{
    static const char *const text[] = {"none", "area start", "checkpoint", "checkpoint with held part", "end state"};
    return rule < 1 || rule > 4 ? text[0] : text[rule];
}

/* Where a jump to a frame starts. */
enum { SEEK_AT_START = 0, SEEK_AT_CHECKPOINT = 1, SEEK_AT_END = 2 };
typedef struct {
    int where;            /* SEEK_AT_START: the area's start; SEEK_AT_CHECKPOINT: a checkpoint; SEEK_AT_END: the area's end */
    uint32_t number;      /* SEEK_AT_CHECKPOINT: the checkpoint's number and sector */
    uint64_t lsn;
    uint32_t threshold;   /* SEEK_AT_CHECKPOINT and SEEK_AT_END */
    uint32_t back;        /* SEEK_AT_CHECKPOINT */
    uint64_t malformed;   /* SEEK_AT_CHECKPOINT and SEEK_AT_END */
    uint64_t digest;      /* SEEK_AT_CHECKPOINT */
    int held;             /* a held part: its kind (SEEK_DST, SEEK_DSD), frame number, remaining, and where its bytes lie in the store */
    int kind;
    uint32_t frame;
    int32_t remaining;
    uint64_t offset;
    uint64_t length;
    int rule;             /* SEEK_RULE_AREA_START .. SEEK_RULE_END_STATE */
} seek_jump;

static inline uint32_t seek_plan(const seek_list *l, uint32_t frame, seek_jump *j)
{
    uint8_t answer[SEEK_BLOCK] = {0};
    uint32_t n = seek_raw_plan(l->head, SEEK_BLOCK, frame, answer, SEEK_BLOCK, SEEK_LENT_SEVEN_(l));
    j->where = SEEK_CAST_(int, seek_word(answer, 0));
    j->number = SEEK_CAST_(uint32_t, seek_word(answer, 1));
    j->lsn = seek_word(answer, 2);
    j->threshold = SEEK_CAST_(uint32_t, seek_word(answer, 3));
    j->back = SEEK_CAST_(uint32_t, seek_word(answer, 4));
    j->malformed = seek_word(answer, 5);
    j->digest = seek_word(answer, 6);
    j->held = seek_word(answer, 7) != 0;
    j->kind = SEEK_CAST_(int, seek_word(answer, 8));
    j->frame = SEEK_CAST_(uint32_t, seek_word(answer, 9));
    j->remaining = seek_signed_(seek_word(answer, 10));
    j->offset = seek_word(answer, 11);
    j->length = seek_word(answer, 12);
    j->rule = SEEK_CAST_(int, seek_word(answer, 13));
    return n;
}

/* The bytes of the held part that seek_plan told; NULL where it told none. */
static inline const uint8_t *seek_part(const seek_list *l, const seek_jump *j)
{
    if (!j->held || !seek_raw_part(SEEK_LENT_(l->store), j->offset, j->length))
        return SEEK_NULL_;
    return l->store.at + j->offset;
}

/* States the disc's fingerprint: it is stored if none is held, and checked. */
static inline uint32_t seek_fingerprint(seek_list *l, uint64_t value)
{
    return seek_raw_fingerprint(l->head, SEEK_BLOCK, value, SEEK_LENT_SEVEN_(l));
}

/* ---- recorders: a pass over the disc from a sector on, absorbed by the list whose recorder it is */
/* The recorder of a list, for a pass that has read every sector from sector from on (usually the area's start, or the frontier). From does not choose where
 * recording begins: the first sector that is due is the list's next boundary, whatever from is (seek_due tells it). It is asked when the list absorbs the
 * recorder: above the list's frontier it does not join (10). A complete list gives a stopped recorder, which records nothing. */
static inline uint32_t seek_recorder_of(const seek_list *l, uint64_t from, seek_recorder *r)
{
    return seek_raw_recorder(l->head, SEEK_BLOCK, from, r->block, SEEK_BLOCK, SEEK_LENT_SEVEN_(l));
}

/* A frame under assembly where a checkpoint is recorded: the sector that it starts in, its number, kind, remaining and bytes so far. */
typedef struct {
    uint64_t start;
    uint32_t number;
    uint8_t kind;         /* SEEK_DST or SEEK_DSD; anything else is refused with 7 */
    int32_t remaining;
    const uint8_t *bytes;
    size_t length;
} seek_frame;

/* Records the checkpoint at the due sector lsn, of 2,048 bytes: threshold, how many malformed sectors lie before it, and the frame under assembly (NULL:
 * none). */
static inline uint32_t seek_record(seek_recorder *r, uint64_t lsn, uint32_t threshold, uint64_t malformed, const seek_frame *f, const uint8_t *sector,
                                   size_t length)
{
    return seek_raw_record(r->block, SEEK_BLOCK, lsn, threshold, malformed, f != SEEK_NULL_, f ? f->start : 0, f ? f->number : 0, f ? f->kind : 0,
                           f ? f->remaining : 0, f ? f->bytes : SEEK_NULL_, f ? f->length : 0, sector, length, SEEK_LENT_FOUR_(r));
}

/* States the end of the area, where every checkpoint is recorded: its threshold, and how many malformed sectors there are. */
static inline uint32_t seek_finish(seek_recorder *r, uint32_t threshold, uint64_t malformed)
{
    return seek_raw_finish(r->block, SEEK_BLOCK, threshold, malformed, SEEK_LENT_FOUR_(r));
}

/* Absorbs into a list what its recorder read: the image id of the reading (NULL: not known), and its malformed sectors so far, rising, 4 bytes each, lowest
 * byte first. The recorder is then empty and goes on, or is stopped if it was finished. 8 stops the recorder too; another refusal changes nothing. */
static inline uint32_t seek_absorb(seek_list *l, seek_recorder *r, const uint64_t *image, const uint8_t *malformed, size_t length)
{
    return seek_raw_absorb(l->head, SEEK_BLOCK, r->block, SEEK_BLOCK, image != SEEK_NULL_, image ? *image : 0, malformed, length, SEEK_LENT_SEVEN_(l),
                           SEEK_LENT_FOUR_(r));
}

/* ---- hints */
/* The hint recorder of a list; *made is 0 where there is none, since the list's spacing or hint limit is 0. */
static inline uint32_t seek_hint_recorder_of(const seek_list *l, seek_hint_recorder *h, int *made)
{
    uint32_t n = seek_raw_hint_recorder(l->head, SEEK_BLOCK, h->block, SEEK_BLOCK, SEEK_LENT_SEVEN_(l));
    *made = n == 0 && seek_word(h->block, 0) != 0;
    return n;
}

/* The first record of a sector: its frame number and where its three time bytes lie, or why there is none. */
enum { SEEK_NO_FRAME = 1, SEEK_BYTES_MISSING };
typedef struct {
    int found;
    uint64_t number;      /* the frame number */
    uint64_t offset;      /* of the first of its three bytes, from the sector's first byte: odd, 1 to 15 */
    int why;              /* where found is 0: SEEK_NO_FRAME, no frame starts in the sector; SEEK_BYTES_MISSING, it is empty or ends before the three bytes do */
} seek_first;

static inline void seek_first_from_(const uint8_t *block, unsigned at, int told, seek_first *first)
{
    first->found = told && seek_word(block, at) != 0;
    first->number = told ? seek_word(block, at + 1) : 0;
    first->offset = told ? seek_word(block, at + 2) : 0;
    first->why = told ? SEEK_CAST_(int, seek_word(block, at + 3)) : 0;
}

/* Shows it a sector that was read, and tells the sector's first record, also where the hint recorder passes it over; first may be NULL. Where the call refuses,
 * first is all 0. */
static inline uint32_t seek_see(seek_hint_recorder *h, uint64_t lsn, const uint8_t *sector, size_t length, seek_first *first)
{
    uint32_t n = seek_raw_see(h->block, SEEK_BLOCK, lsn, sector, length, SEEK_LENT_(h->list));
    if (first != SEEK_NULL_)
        seek_first_from_(h->block, 7, n == 0, first);
    return n;
}

/* Lists the last frame start that was seen and not listed. */
static inline uint32_t seek_flush(seek_hint_recorder *h) { return seek_raw_flush(h->block, SEEK_BLOCK, SEEK_LENT_(h->list)); }

/* Takes its hints: they are the first *length bytes of h->list.at, for seek_add_hints, until the next call of seek_see or seek_flush. */
static inline uint32_t seek_take(seek_hint_recorder *h, size_t *length)
{
    uint8_t answer[SEEK_BLOCK] = {0};
    uint32_t n = seek_raw_take(h->block, SEEK_BLOCK, answer, SEEK_BLOCK, SEEK_LENT_(h->list));
    *length = 8 * SEEK_CAST_(size_t, seek_word(answer, 0));
    return n;
}

/* Keeps a confirmation of a list: a sector, its threshold and its digest. *kept is 0 where nothing is kept, since the list's fingerprint is unchecked or
 * its hint limit 0. */
static inline uint32_t seek_keep_confirmation(seek_list *l, uint64_t lsn, uint32_t threshold, uint64_t digest, int *kept)
{
    uint8_t answer[SEEK_BLOCK] = {0};
    uint32_t n = seek_raw_keep_confirmation(l->head, SEEK_BLOCK, lsn, threshold, digest, answer, SEEK_BLOCK, SEEK_LENT_SEVEN_(l));
    *kept = seek_word(answer, 0) != 0;
    return n;
}

/* How seek_hint chose the hint, and where the end of the read came from; 0: none, no hint is near or the call was refused. */
enum { SEEK_START_CONFIRMED = 1, SEEK_START_NEAREST = 2 };
enum { SEEK_END_LATER = 1, SEEK_END_LOCAL = 2, SEEK_END_AVERAGE = 3, SEEK_END_AREA = 4 };
static inline const char *seek_start_text(int start)
{
    static const char *const text[] = {"none", "confirmed", "nearest"};
    return start < 1 || start > 2 ? text[0] : text[start];
}
static inline const char *seek_end_text(int end)
{
    static const char *const text[] = {"none", "a later hint", "local spacing", "the area's average", "the area's end"};
    return end < 1 || end > 4 ? text[0] : text[end];
}

/* The hint to begin at for the frames from first up to end, end excluded, in an area of playtime frames, and the end of the read to make there. */
typedef struct {
    int found;            /* 0: no hint is near */
    uint64_t lsn;         /* the hint's sector and frame number */
    uint32_t number;
    uint64_t upper;       /* the end of the read, excluded */
    int later;            /* a later hint gave the end */
    int start;            /* SEEK_START_CONFIRMED, SEEK_START_NEAREST */
    int end;              /* SEEK_END_LATER .. SEEK_END_AREA: the last where the end of the read is the area's end, whatever gave it */
} seek_hinted;

static inline uint32_t seek_hint(const seek_list *l, uint32_t first, uint32_t end, uint32_t playtime, seek_hinted *h)
{
    uint8_t answer[SEEK_BLOCK] = {0};
    uint32_t n = seek_raw_hint(l->head, SEEK_BLOCK, first, end, playtime, answer, SEEK_BLOCK, SEEK_LENT_SEVEN_(l));
    h->found = seek_word(answer, 0) != 0;
    h->lsn = seek_word(answer, 1);
    h->number = SEEK_CAST_(uint32_t, seek_word(answer, 2));
    h->upper = seek_word(answer, 3);
    h->later = seek_word(answer, 4) != 0;
    h->start = SEEK_CAST_(int, seek_word(answer, 5));
    h->end = SEEK_CAST_(int, seek_word(answer, 6));
    return n;
}

/* Adds hints, 8 bytes each: sector 4 and frame number 4, lowest byte first. Of a sector that is held, or given more than once, the last number given stays, and
 * a held sector stays kept. Sectors that do not rise are sorted, with about 52,000 bytes of the stack. */
static inline uint32_t seek_add_hints(seek_list *l, const uint8_t *list, size_t length)
{
    return seek_raw_add_hints(l->head, SEEK_BLOCK, list, length, SEEK_LENT_SEVEN_(l));
}

/* Marks the hint of a sector as kept: no call drops it while the list is held. seek_save does not write marks and seek_load gives none; seek_merge takes none
 * of the other list; there is no call that takes a mark away. Answers 0, also for a hint that is kept already, or 1 to 4, or SEEK_NO_KEEP. */
static inline uint32_t seek_keep_hint(seek_list *l, uint64_t lsn)
{
    return seek_raw_keep_hint(l->head, SEEK_BLOCK, lsn, SEEK_LENT_SEVEN_(l));
}

/* ---- disc files: one file for the lists of both areas of a disc, by slot
 * An area may be NULL, or have seven numbers of 0, where the disc has no area of that slot: a file with a list of it is refused (26 or what comes before it). A
 * list may be NULL or SEEK_ABSENT where the file has none of that slot. */
static inline seek_area seek_area_of_slot_(const seek_area *a, uint8_t slot)
{
    seek_area none = {0, 0, 0, 0, 0, 0, 0};
    none.slot = slot;
    return a == SEEK_NULL_ || (a->slot | a->channels | a->key_start | a->key_end | a->sectors | a->start | a->end) == 0 ? none : *a;
}

/* What a disc file holds: whether there is a list of each slot, and where its list file lies. Answers 0 or SEEK_DISC. */
typedef struct {
    int present[2];
    uint64_t offset[2], length[2];
} seek_contents;

static inline uint32_t seek_disc_contents(const uint8_t *file, size_t length, seek_contents *c)
{
    uint8_t answer[SEEK_BLOCK] = {0};
    uint32_t n = seek_raw_disc_contents(file, length, answer, SEEK_BLOCK);
    unsigned i;
    for (i = 0; i < 2; i++) {
        c->present[i] = seek_word(answer, 3 * i) != 0;
        c->offset[i] = seek_word(answer, 3 * i + 1);
        c->length[i] = seek_word(answer, 3 * i + 2);
    }
    return n;
}

/* The bytes of each table of both lists, for a disc file under the areas of slots 0 and 1 and a load limit: seek_disc_load with such tables never answers 3.
 * 0 for a list that is not there. Refuses where seek_disc_load would. */
static inline uint32_t seek_disc_sizes(const seek_area *a0, const seek_area *a1, const uint8_t *file, size_t length, uint64_t limit, seek_table_sizes *s0,
                                       seek_table_sizes *s1)
{
    uint8_t answer[SEEK_BLOCK] = {0};
    seek_area b0 = seek_area_of_slot_(a0, 0), b1 = seek_area_of_slot_(a1, 1);
    uint32_t n = seek_raw_disc_sizes(SEEK_AREA_(&b0), SEEK_AREA_(&b1), file, length, limit, answer, SEEK_BLOCK);
    seek_sizes_from_(answer, s0);
    seek_sizes_from_(answer + 64, s1);
    return n;
}

/* The lists of a disc file, loaded under the areas of slots 0 and 1 with a limit as seek_load's: all of them, or none. present tells which are there; a list
 * that is not there stays as it was. */
static inline uint32_t seek_disc_load(uint32_t role, seek_list *l0, seek_list *l1, const seek_area *a0, const seek_area *a1, const uint8_t *file, size_t length,
                                      uint64_t limit, int present[2])
{
    uint8_t answer[SEEK_BLOCK] = {0};
    seek_area b0 = seek_area_of_slot_(a0, 0), b1 = seek_area_of_slot_(a1, 1);
    seek_list none0 = SEEK_ABSENT, none1 = SEEK_ABSENT, *m0 = l0 ? l0 : &none0, *m1 = l1 ? l1 : &none1;
    uint32_t n = seek_raw_disc_load(role, m0->head, SEEK_BLOCK, m1->head, SEEK_BLOCK, SEEK_AREA_(&b0), SEEK_AREA_(&b1), file, length, limit, answer, SEEK_BLOCK,
                                    SEEK_LENT_SEVEN_(m0), SEEK_LENT_SEVEN_(m1));
    present[0] = seek_word(answer, 0) != 0;
    present[1] = seek_word(answer, 1) != 0;
    return n;
}

/* The length that seek_disc_save will write: at least 104; below 88 a refusal number. */
static inline uint64_t seek_disc_saved_length(const seek_list *l, const seek_list *other)
{
    if (other == SEEK_NULL_)
        return seek_raw_disc_saved_length(l->head, SEEK_BLOCK, SEEK_LENT_SEVEN_(l));
    return seek_raw_disc_saved_length_both(l->head, SEEK_BLOCK, other->head, SEEK_BLOCK, SEEK_LENT_SEVEN_(l), SEEK_LENT_SEVEN_(other));
}

/* Writes the disc file of l and the other list, or of l alone where other is NULL, into out. Which list is given first makes no difference.
 * Answers its length, at least 104; below 88 a refusal number. */
static inline uint64_t seek_disc_save(uint32_t role, const seek_list *l, const seek_list *other, uint8_t *out, size_t length)
{
    if (other == SEEK_NULL_)
        return seek_raw_disc_save(role, l->head, SEEK_BLOCK, SEEK_LENT_SEVEN_(l), out, length);
    return seek_raw_disc_save_both(role, l->head, SEEK_BLOCK, other->head, SEEK_BLOCK, SEEK_LENT_SEVEN_(l), SEEK_LENT_SEVEN_(other), out, length);
}

/* ---- sectors and bytes */
/* The first record of a sector. */
static inline uint32_t seek_first_record(const uint8_t *sector, size_t length, seek_first *first)
{
    uint8_t answer[SEEK_BLOCK] = {0};
    uint32_t n = seek_raw_first_record(sector, length, answer, SEEK_BLOCK);
    seek_first_from_(answer, 0, n == 0, first);
    return n;
}

/* Why a sector has no first record, in words. */
static inline const char *seek_first_text(int why)
{
    static const char *const text[] = {"none", "no frame starts there", "bytes are missing"};
    return why < 1 || why > 2 ? text[0] : text[why];
}

/* 64-bit FNV-1a. */
static inline uint64_t seek_sum(const uint8_t *bytes, size_t length) { return seek_raw_sum(bytes, length); }

/* ---- short sums */
/* 32-bit FNV-1a. */
static inline uint32_t seek_sum32(const uint8_t *bytes, size_t length) { return seek_raw_sum32(bytes, length); }

/* A sum folded to k bits: the sum shifted right by k, xored with the sum modulo 2^k. Any number of the width may be folded. k is 16 to 31 for a sum of 32 bits
 * and 32 to 63 for one of 64 bits. Answers 0 or SEEK_NO_FOLD; *folded is 0 where it refuses. */
static inline uint32_t seek_fold32(uint32_t sum, uint32_t k, uint32_t *folded)
{
    uint8_t answer[SEEK_BLOCK] = {0};
    uint32_t n = seek_raw_fold32(sum, k, answer, SEEK_BLOCK);
    *folded = SEEK_CAST_(uint32_t, seek_word(answer, 0));
    return n;
}

static inline uint32_t seek_fold64(uint64_t sum, uint32_t k, uint64_t *folded)
{
    uint8_t answer[SEEK_BLOCK] = {0};
    uint32_t n = seek_raw_fold64(sum, k, answer, SEEK_BLOCK);
    *folded = seek_word(answer, 0);
    return n;
}

/* ---- what another list holds */
uint32_t seek_raw_lacks(SEEK_IN(head), SEEK_IN(other), SEEK_OUT(answer), SEEK_TABLES_IN, SEEK_TABLES_IN2);

/* How many of each the other list holds and the own list does not: checkpoints more, held parts (by bytes, number, kind and remaining), malformed sectors,
 * hints (by sector and number) and confirmations (by sector and digest, with a threshold not above); 0 or 1 for the end state, a fingerprint, an image id,
 * a larger budget and a larger hint limit. */
typedef struct {
    uint64_t checkpoints, end_state, parts, malformed, hints, confirmations, fingerprint, image, budget, most;
} seek_lacking;

/* Both lists are only read. Answers 0, or 1 to 4 and 41 to 43 as seek_merge would; all counts are 0 where it refuses. */
static inline uint32_t seek_lacks(const seek_list *own, const seek_list *other, seek_lacking *lacking)
{
    uint8_t answer[SEEK_BLOCK] = {0};
    uint32_t n = seek_raw_lacks(own->head, SEEK_BLOCK, other->head, SEEK_BLOCK, answer, SEEK_BLOCK, SEEK_LENT_SEVEN_(own), SEEK_LENT_SEVEN_(other));
    lacking->checkpoints = seek_word(answer, 0);
    lacking->end_state = seek_word(answer, 1);
    lacking->parts = seek_word(answer, 2);
    lacking->malformed = seek_word(answer, 3);
    lacking->hints = seek_word(answer, 4);
    lacking->confirmations = seek_word(answer, 5);
    lacking->fingerprint = seek_word(answer, 6);
    lacking->image = seek_word(answer, 7);
    lacking->budget = seek_word(answer, 8);
    lacking->most = seek_word(answer, 9);
    return n;
}

/* Is nothing lacking but, at most, the image id and room (budget, hint limit)? Where seek_lacks answered 0, the other list may then be deleted: no jump starts
 * earlier with the own list, every part, hint and confirmation of the other is one of its own, or a better one, and it is complete if the other is. */
static inline int seek_lacks_nothing(const seek_lacking *lacking)
{
    return lacking->checkpoints == 0 && lacking->end_state == 0 && lacking->parts == 0 && lacking->malformed == 0 && lacking->hints == 0 &&
           lacking->confirmations == 0 && lacking->fingerprint == 0;
}

/* ---- a coarser list from a finer one */
uint32_t seek_raw_coarse(SEEK_IN(head), uint32_t interval, SEEK_OUT(coarse), SEEK_TABLES_IN, SEEK_TABLES_OUT2);

/* Makes of a list, which is only read, the list that the same reading would have given at a wider interval, a multiple of its own (the same is one): every
 * r-th checkpoint, the held parts of these, the malformed sectors that they count, and all else as it is. It goes into the tables of coarse, which seek_carve of
 * seek_sizes makes for the wider interval. Answers 0, 1 to 4 of the finer list, SEEK_NO_COARSE_INTERVAL, SEEK_NO_COARSE_CONTENT (never for a list of one
 * reading), or 3 of the coarser list's tables. */
static inline uint32_t seek_coarse(const seek_list *fine, uint32_t interval, seek_list *coarse)
{
    return seek_raw_coarse(fine->head, SEEK_BLOCK, interval, coarse->head, SEEK_BLOCK, SEEK_LENT_SEVEN_(fine), SEEK_LENT_SEVEN_(coarse));
}

/* ---- all lists of a drawer together */
uint32_t seek_raw_merge_all(uint32_t role, SEEK_OUT(head), SEEK_IN(lengths), SEEK_IN(files), uint64_t limit, SEEK_TABLES_OUT, SEEK_TABLES_OUT2);

/* The most files of a set. */
#define SEEK_MOST_FILES 16

static inline uint64_t seek_larger_(uint64_t a, uint64_t b) { return a < b ? b : a; }

/* Files lie end to end in a buffer of files_length bytes, and lengths has one number for each; what lies behind the last one is not looked at. The bytes of
 * each table of a working list for seek_merge_all of these files under this area and limit: the largest that seek_file_sizes tells for one of them. Answers
 * 0, or the number of the first file that is refused: 20 where it runs past the buffer, else that of seek_file_sizes; the sizes are then those for the files
 * before it. */
static inline uint32_t seek_set_sizes(const seek_area *a, const uint8_t *files, size_t files_length, const uint64_t *lengths, size_t count, uint64_t limit,
                                      seek_table_sizes *s)
{
    static const seek_table_sizes none = {0, 0, 0, 0, 0, 0, 0};
    size_t i, at = 0;
    *s = none;
    for (i = 0; i < count; i++) {
        seek_table_sizes t;
        uint32_t n = SEEK_NO_FILE_SHORT;
        if (lengths[i] <= files_length - at)
            n = seek_file_sizes(a, at == 0 ? files : files + at, SEEK_CAST_(size_t, lengths[i]), limit, &t);
        if (n != 0)
            return n;
        s->checkpoints = seek_larger_(s->checkpoints, t.checkpoints);
        s->frames = seek_larger_(s->frames, t.frames);
        s->store = seek_larger_(s->store, t.store);
        s->parts = seek_larger_(s->parts, t.parts);
        s->malformed = seek_larger_(s->malformed, t.malformed);
        s->hints = seek_larger_(s->hints, t.hints);
        s->confirmed = seek_larger_(s->confirmed, t.confirmed);
        at += SEEK_CAST_(size_t, lengths[i]);
    }
    return 0;
}

/* Merges 1 to 16 list files of l's area into l, all of them or none: each is loaded under l's area with the limit, as seek_load would, and they are merged in
 * their order, as seek_merge would. work has tables of its own, which seek_carve of seek_set_sizes makes; what they hold afterwards is left open, after a
 * refusal too, and work is no list. Answers 0; 1 to 4 of l; SEEK_NO_SET; then for the first file that is refused 20 where it runs past the buffer, else 20 to
 * 38, or 3 where work has no room for it; then 41 to 43 for the first two lists that cannot be merged, by the earlier, then the later one, where l comes
 * before all files. Which file it was seek_file_sizes of each tells, and which two lists seek_lacks of each pair. A refusal changes nothing of l. */
static inline uint32_t seek_merge_all(uint32_t role, seek_list *l, const uint8_t *files, size_t files_length, const uint64_t *lengths, size_t count, uint64_t limit,
                                      seek_list *work)
{
    uint8_t numbers[8 * (SEEK_MOST_FILES + 1)] = {0};
    size_t n = count <= SEEK_MOST_FILES ? count : SEEK_MOST_FILES + 1, i;
    uint32_t answer;
    for (i = 0; i < 8 * n; i++)
        numbers[i] = SEEK_CAST_(uint8_t, lengths[i / 8] >> 8 * (i % 8) & 255);
    answer = seek_raw_merge_all(role, l->head, SEEK_BLOCK, numbers, 8 * n, files, files_length, limit, SEEK_LENT_SEVEN_(l), SEEK_LENT_SEVEN_(work));
    if (answer != SEEK_NO_ROLE)
        seek_clear_(work->head);
    return answer;
}

/* ---- views (docs/VIEW.md)
 * What a screen shows of a list, as bytes. A listener's view has the area, the interval, whether the list is complete, and each checkpoint's sector and
 * threshold; a workshop's has more. seek_view writes one; what follows below reads one from its bytes alone, so that a program which only shows views needs no
 * list and no library.
 */
uint64_t seek_raw_view_length(uint32_t role, SEEK_IN(head), SEEK_TABLES_IN);
uint64_t seek_raw_view(uint32_t role, SEEK_IN(head), SEEK_TABLES_IN, SEEK_OUT(out));

/* How many bytes the view has, at least 88; or, below 88, SEEK_NO_ROLE or 1 to 4. */
static inline uint64_t seek_view_length(uint32_t role, const seek_list *l) { return seek_raw_view_length(role, l->head, SEEK_BLOCK, SEEK_LENT_SEVEN_(l)); }

/* Writes the view at the start of out and answers its length; or, below 88, SEEK_NO_ROLE, 1 to 4, or SEEK_NO_OUTPUT where out is too short. */
static inline uint64_t seek_view(uint32_t role, const seek_list *l, uint8_t *out, uint64_t length)
{
    return seek_raw_view(role, l->head, SEEK_BLOCK, SEEK_LENT_SEVEN_(l), out, length);
}

/* The bytes of a view and where its sections begin. They are only lent: they must stay as they are while it is read. */
typedef struct {
    const uint8_t *bytes;
    uint32_t role;
    uint64_t checkpoints, malformed, parts, hints, confirmations; /* how many of each; a listener's view has checkpoints alone */
} seek_viewed;

/* Takes n records of so many bytes from what is left; 0 where there are not so many. */
static inline int seek_view_takes_(uint64_t *left, uint64_t n, uint64_t size)
{
    if (n > *left / size)
        return 0;
    *left -= n * size;
    return 1;
}

/* Reads these bytes as a view. Answers 0, and v has no records, where they are none: another role, or another length than the counts give. */
static inline int seek_view_read(seek_viewed *v, const uint8_t *bytes, uint64_t length)
{
    uint64_t left = length, role = length < 88 ? 0 : seek_word(bytes, 0), n = length < 88 ? 0 : seek_word(bytes, 10);
    const seek_viewed none = {SEEK_NULL_, 0, 0, 0, 0, 0, 0};
    const uint8_t *totals;
    int whole = (role == SEEK_LISTENER || role == SEEK_WORKSHOP) && seek_view_takes_(&left, 11, 8) && seek_view_takes_(&left, n, 8);
    *v = none;
    if (whole && role == SEEK_WORKSHOP && left < 48)
        whole = 0;
    if (whole) {
        v->bytes = bytes;
        v->role = SEEK_CAST_(uint32_t, role);
        v->checkpoints = n;
    }
    if (whole && role == SEEK_WORKSHOP) {
        totals = bytes + 88 + 8 * n;
        v->malformed = seek_word(totals, 0);
        v->parts = seek_word(totals, 1);
        v->hints = seek_word(totals, 2);
        v->confirmations = seek_word(totals, 5);
        whole = seek_view_takes_(&left, 6, 8) && seek_view_takes_(&left, n, 12) && seek_view_takes_(&left, v->malformed, 4) &&
                seek_view_takes_(&left, v->parts, 8) && seek_view_takes_(&left, v->hints, 9) && seek_view_takes_(&left, v->confirmations, 16);
    }
    whole = whole && left == 0;
    if (!whole)
        *v = none;
    return whole;
}

/* The fields of both views. Of bytes that are no view they are 0. */
static inline uint64_t seek_view_word_(const seek_viewed *v, unsigned i) { return v->bytes ? seek_word(v->bytes, i) : 0; }
static inline seek_area seek_view_area(const seek_viewed *v)
{
    seek_area a;
    a.slot = SEEK_CAST_(uint8_t, seek_view_word_(v, 1));
    a.channels = SEEK_CAST_(uint8_t, seek_view_word_(v, 2));
    a.key_start = SEEK_CAST_(uint32_t, seek_view_word_(v, 3));
    a.key_end = SEEK_CAST_(uint32_t, seek_view_word_(v, 4));
    a.sectors = seek_view_word_(v, 5);
    a.start = seek_view_word_(v, 6);
    a.end = seek_view_word_(v, 7);
    return a;
}
static inline uint64_t seek_view_interval(const seek_viewed *v) { return seek_view_word_(v, 8); }
static inline int seek_view_is_complete(const seek_viewed *v) { return seek_view_word_(v, 9) == 1; }

/* Record number i of n, of so many bytes, in the section that begins at byte at; NULL where there is none. */
static inline const uint8_t *seek_view_record_(const seek_viewed *v, uint64_t at, uint64_t n, uint64_t i, uint64_t size)
{
    return v->bytes && i < n ? v->bytes + at + i * size : SEEK_NULL_;
}

/* Where the sections of a workshop's view begin, behind its six words. */
static inline uint64_t seek_view_backs_(const seek_viewed *v) { return 88 + 8 * v->checkpoints + 48; }
static inline uint64_t seek_view_malformed_(const seek_viewed *v) { return seek_view_backs_(v) + 12 * v->checkpoints; }
static inline uint64_t seek_view_parts_(const seek_viewed *v) { return seek_view_malformed_(v) + 4 * v->malformed; }
static inline uint64_t seek_view_hints_(const seek_viewed *v) { return seek_view_parts_(v) + 8 * v->parts; }
static inline uint64_t seek_view_marks_(const seek_viewed *v) { return seek_view_hints_(v) + 8 * v->hints; }
static inline uint64_t seek_view_confirmed_(const seek_viewed *v) { return seek_view_marks_(v) + v->hints; }

/* Checkpoint number j: its sector and threshold. This and the functions below answer 0, and give 0, where there is no such record. */
static inline int seek_view_checkpoint_at(const seek_viewed *v, uint64_t j, uint32_t *lsn, uint32_t *threshold)
{
    const uint8_t *b = seek_view_record_(v, 88, v->checkpoints, j, 8);
    *lsn = b ? SEEK_CAST_(uint32_t, seek_bytes(b, 4)) : 0;
    *threshold = b ? SEEK_CAST_(uint32_t, seek_bytes(b + 4, 4)) : 0;
    return b != SEEK_NULL_;
}

/* What follows is in a workshop's view alone. Checkpoint number j: how far back its frame starts, and its digest. */
static inline int seek_view_back_at(const seek_viewed *v, uint64_t j, uint32_t *back, uint64_t *digest)
{
    const uint8_t *b = seek_view_record_(v, seek_view_backs_(v), v->role == SEEK_WORKSHOP ? v->checkpoints : 0, j, 12);
    *back = b ? SEEK_CAST_(uint32_t, seek_bytes(b, 4)) : 0;
    *digest = b ? seek_bytes(b + 4, 8) : 0;
    return b != SEEK_NULL_;
}

static inline int seek_view_malformed_at(const seek_viewed *v, uint64_t i, uint32_t *lsn)
{
    const uint8_t *b = seek_view_record_(v, seek_view_malformed_(v), v->malformed, i, 4);
    *lsn = b ? SEEK_CAST_(uint32_t, seek_bytes(b, 4)) : 0;
    return b != SEEK_NULL_;
}

/* Held part number i: the number of its checkpoint, and its length in bytes. */
static inline int seek_view_held_at(const seek_viewed *v, uint64_t i, uint32_t *checkpoint, uint32_t *length)
{
    const uint8_t *b = seek_view_record_(v, seek_view_parts_(v), v->parts, i, 8);
    *checkpoint = b ? SEEK_CAST_(uint32_t, seek_bytes(b, 4)) : 0;
    *length = b ? SEEK_CAST_(uint32_t, seek_bytes(b + 4, 4)) : 0;
    return b != SEEK_NULL_;
}

/* Hint number i, and whether it is kept. */
static inline int seek_view_hint_at(const seek_viewed *v, uint64_t i, uint32_t *lsn, uint32_t *number, int *kept)
{
    const uint8_t *b = seek_view_record_(v, seek_view_hints_(v), v->hints, i, 8);
    const uint8_t *m = seek_view_record_(v, seek_view_marks_(v), v->hints, i, 1);
    *lsn = b ? SEEK_CAST_(uint32_t, seek_bytes(b, 4)) : 0;
    *number = b ? SEEK_CAST_(uint32_t, seek_bytes(b + 4, 4)) : 0;
    *kept = m ? *m == 1 : 0;
    return b != SEEK_NULL_;
}

/* The fingerprint; answers 0 where the list has none. */
static inline int seek_view_fingerprint(const seek_viewed *v, uint64_t *fingerprint)
{
    const uint8_t *totals = v->role == SEEK_WORKSHOP ? v->bytes + 88 + 8 * v->checkpoints : SEEK_NULL_;
    *fingerprint = totals ? seek_word(totals, 4) : 0;
    return totals ? seek_word(totals, 3) == 1 : 0;
}

static inline int seek_view_confirmation_at(const seek_viewed *v, uint64_t i, seek_confirmation *c)
{
    const uint8_t *b = seek_view_record_(v, seek_view_confirmed_(v), v->confirmations, i, 16);
    c->lsn = b ? SEEK_CAST_(uint32_t, seek_bytes(b, 4)) : 0;
    c->threshold = b ? SEEK_CAST_(uint32_t, seek_bytes(b + 4, 4)) : 0;
    c->digest = b ? seek_bytes(b + 8, 8) : 0;
    return b != SEEK_NULL_;
}

/* ---- one shelf for many discs
 * A player keeps up to 64 saved lists under a limit of bytes, and drops those not used for longest. table has records records, at least 64; past
 * shelf->present they are the caller's own. Records that a call does not change, it leaves as they are.
 */
static inline seek_shelf_record seek_shelf_record_(const seek_area *a, uint64_t length)
{
    seek_shelf_record r = {a->slot, a->channels, a->key_start, a->key_end, a->sectors, a->start, a->end, length, 0};
    return r;
}

/* Is the record of this area? */
static inline int seek_shelf_is(const seek_shelf_record *r, const seek_area *a)
{
    return r->slot == a->slot && r->channels == a->channels && r->key_start == a->key_start && r->key_end == a->key_end && r->sectors == a->sectors &&
           r->start == a->start && r->end == a->end;
}

/* The list of an area, with a file of so many bytes, is entered. The record of its area, if there is one, is removed first. Then, while 64 are present or
 * the sum of the lengths would exceed the limit, the one with the oldest stamp is dropped, the earlier among equals. The new record stands last, with the next
 * number of the count. Which lists were dropped the caller learns by comparing the table with a copy of it: a record that was present before, and whose area
 * no present record has. Answers 0, or 1, 3 (fewer than 64 records), 4 (more than 64 present, an area under two of them, or their sum above the limit),
 * SEEK_NO_SHELF_COUNT, SEEK_NO_SHELF_LIST; then nothing is changed. */
static inline uint32_t seek_shelf_enter(seek_shelf *shelf, seek_shelf_record *table, size_t records, const seek_area *a, uint64_t length)
{
    seek_shelf_answer r = seek_raw_shelf_enter(table, records, *shelf, seek_shelf_record_(a, length));
    shelf->present = r.present;
    shelf->count = r.count;
    return r.number;
}

/* A jump in the list of an area: its record has the next number of the count, in its place. Answers 0, or 1, 3, 4, SEEK_NO_SHELF_COUNT. *absent is 1 where no
 * present record has this area, else 0; a refusal and an absent area change nothing. */
static inline uint32_t seek_shelf_jump(seek_shelf *shelf, seek_shelf_record *table, size_t records, const seek_area *a, int *absent)
{
    seek_shelf_answer r = seek_raw_shelf_jump(table, records, *shelf, seek_shelf_record_(a, 0));
    shelf->present = r.present;
    shelf->count = r.count;
    *absent = r.absent != 0;
    return r.number;
}

/* ---- the header's own macros; SEEK_NULL_ stays, for SEEK_ABSENT */
#undef SEEK_IN
#undef SEEK_OUT
#undef SEEK_AREA_NUMBERS
#undef SEEK_AREA_NUMBERS2
#undef SEEK_TABLES_IN
#undef SEEK_TABLES_OUT
#undef SEEK_TABLES_IN2
#undef SEEK_TABLES_OUT2
#undef SEEK_LENT_
#undef SEEK_LENT_SEVEN_
#undef SEEK_LENT_FOUR_
#undef SEEK_AREA_
#undef SEEK_CAST_

#ifdef __cplusplus
}
#endif

#endif
