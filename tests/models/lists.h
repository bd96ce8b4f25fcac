/* Random lists as arrays, from a random reading, and their files in the layout of docs/FILE.md: what the models of calls on lists share. */
#include <stdint.h>
#include <string.h>

enum { CHECKPOINTS = 260, PARTS = 64, FRAME = 90, MALFORMED = 4096, SOME = 12, FILE_MOST = 1 << 16 };

/* ---- random numbers (xorshift64*) */
static uint64_t state;

static inline uint64_t random64(void)
{
    state ^= state >> 12;
    state ^= state << 25;
    state ^= state >> 27;
    return state * 0x2545f4914f6cdd1du;
}

static inline unsigned below(unsigned n) { return (unsigned)(random64() >> 33) % n; }
static inline int chance(unsigned percent) { return below(100) < percent; }

/* ---- a list as arrays */
typedef struct { uint32_t threshold, back; uint64_t malformed, digest; } checkpoint;
typedef struct { uint32_t start, len; uint8_t bytes[FRAME]; } frame;
typedef struct { uint32_t at, frame, len, number, remaining, kind; } part;

typedef struct {
    uint32_t slot, start, end, interval;
    uint64_t sectors, budget;
    unsigned checkpoints, frames, parts, malformed, hints, confirmed;
    checkpoint checkpoint_at[CHECKPOINTS];
    frame frame_at[PARTS];
    part part_at[PARTS];
    uint32_t malformed_at[MALFORMED], hint_at[SOME][2], confirmed_at[SOME][2];
    int complete, stated, checked;
    uint32_t end_threshold;
    uint64_t end_malformed, image;
} list;

static inline uint32_t boundaries(uint32_t start, uint32_t end, uint32_t interval) { return (end - start + interval - 1) / interval; }

/* How far it reaches. */
static inline uint64_t frontier(const list *l)
{
    return l->complete ? l->end : l->checkpoints ? l->start + (uint64_t)(l->checkpoints - 1) * l->interval : l->start;
}

static inline uint64_t bytes_of(const list *l)
{
    uint64_t n = 0;
    unsigned i;
    for (i = 0; i < l->frames; i++)
        n += l->frame_at[i].len;
    return n;
}

/* ---- a reading */
static inline void make_part(list *l, unsigned j)
{
    uint32_t start = l->start + j * l->interval - l->checkpoint_at[j].back;
    part *p = &l->part_at[l->parts], *last = p - 1;
    frame *f = &l->frame_at[l->frames];
    unsigned k;
    if (l->parts == PARTS || (l->parts && start < l->frame_at[last->frame].start))
        return;
    if (l->parts && start == l->frame_at[last->frame].start) {
        /* of the same frame: no fewer bytes */
        f = &l->frame_at[last->frame];
        *p = *last;
        p->at = j;
        p->len += below(FRAME - p->len + 1);
        p->remaining = below(5) - 2;
    } else {
        p->at = j;
        p->frame = l->frames++;
        p->len = chance(10) ? 0 : below(FRAME);
        p->number = l->checkpoint_at[j].threshold;
        p->remaining = below(5) - 2;
        p->kind = below(2);
        f->start = start;
        f->len = 0;
        for (k = 0; k < FRAME; k++)
            f->bytes[k] = (uint8_t)random64();
    }
    if (f->len < p->len)
        f->len = p->len;
    if (chance(15))
        f->len += below(FRAME - f->len + 1);
    l->parts++;
}

/* Malformed sectors, some lists' one behind the other, and how many lie before each checkpoint; the first 4,096 are kept. */
static inline void make_malformed(list *l, uint32_t sectors, int dense)
{
    uint32_t lsn, step = dense || chance(5) ? 1 : 1 + below(sectors / 8 + 1);
    unsigned j = 0;
    uint64_t all = 0;
    for (lsn = l->start + below(step); lsn < l->end && (dense || chance(95)); lsn += 1 + below(step)) {
        for (; j < l->checkpoints && l->start + j * l->interval <= lsn; j++)
            l->checkpoint_at[j].malformed = all;
        if (all++ < MALFORMED)
            l->malformed_at[all - 1] = lsn;
    }
    for (; j < l->checkpoints; j++)
        l->checkpoint_at[j].malformed = all;
    l->end_malformed = l->complete ? all : 0;
    all = l->complete ? all : l->checkpoints ? l->checkpoint_at[l->checkpoints - 1].malformed : 0;
    l->malformed = all < MALFORMED ? (unsigned)all : MALFORMED;
}

/* Malformed sectors of no reading: counted where they come later, below the frontier. */
static inline void move_malformed(list *l)
{
    unsigned i;
    uint64_t top = frontier(l);
    for (i = l->malformed; i-- > 0 && top > l->start + i;) {
        top -= 1 + (chance(20) ? below(3) : 0);
        if (top < l->start + i)
            top = l->start + i;
        l->malformed_at[i] = (uint32_t)top;
    }
}

static inline void make_list(list *l)
{
    uint32_t sectors, threshold = 0;
    unsigned j, large = chance(2);
    memset(l, 0, sizeof *l);
    l->interval = large ? 700 + below(900) : chance(70) ? 1 + below(12) : 100;
    sectors = chance(3) ? 0 : large ? 6 * l->interval + below(9000) : below(CHECKPOINTS * l->interval);
    if (!large && chance(50))
        sectors %= 40 * l->interval;
    l->slot = below(2);
    l->start = 1000 + below(3);
    l->end = l->start + sectors;
    l->sectors = l->end + below(99);
    l->checkpoints = boundaries(l->start, l->end, l->interval);
    l->complete = chance(50);
    if (!l->complete && chance(80))
        l->checkpoints = below(l->checkpoints + 1);
    for (j = 0; j < l->checkpoints; j++) {
        checkpoint *c = &l->checkpoint_at[j];
        uint32_t most = j * l->interval;
        threshold += below(20);
        c->threshold = threshold;
        c->digest = below(1000);
        if (j > 1 && chance(40) && l->checkpoint_at[j - 1].back)
            c->back = l->checkpoint_at[j - 1].back + l->interval;
        else if (j > 0 && chance(60))
            c->back = 1 + below(most < 40 ? most : 40);
        if (c->back && chance(80))
            make_part(l, j);
    }
    l->end_threshold = l->complete ? threshold + below(9) : 0;
    make_malformed(l, sectors + 1, large);
    if (chance(40))
        move_malformed(l);
    l->budget = bytes_of(l) + (chance(50) ? 0 : below(200));
    l->stated = chance(60);
    l->checked = l->stated && chance(50);
    l->image = chance(30) ? 1 + below(9) : 0;
    for (j = 0; j < SOME && j < sectors && chance(70); j++)
        l->hint_at[j][0] = l->start + j, l->hint_at[j][1] = below(100), l->hints++;
    for (j = 0; l->stated && j < SOME && j < sectors && chance(50); j++)
        l->confirmed_at[j][0] = l->start + j, l->confirmed_at[j][1] = below(100), l->confirmed++;
}

/* ---- records in bytes, as docs/FILE.md has them */
static uint8_t *at_out;

static inline void put(uint64_t v, unsigned width)
{
    while (width-- > 0) {
        *at_out++ = (uint8_t)v;
        v >>= 8;
    }
}

static inline void put_checkpoints(const list *l)
{
    unsigned j;
    for (j = 0; j < l->checkpoints; j++) {
        const checkpoint *c = &l->checkpoint_at[j];
        put(c->threshold, 4), put(c->back, 4), put(c->malformed, 8), put(c->digest, 8);
    }
}

static inline void put_frames(const list *l, int bytes)
{
    unsigned i;
    for (i = 0; i < l->frames; i++) {
        put(l->frame_at[i].start, 4), put(l->frame_at[i].len, 4);
        if (bytes)
            memcpy(at_out, l->frame_at[i].bytes, l->frame_at[i].len), at_out += l->frame_at[i].len;
    }
}

static inline void put_store(const list *l)
{
    unsigned i;
    for (i = 0; i < l->frames; i++)
        memcpy(at_out, l->frame_at[i].bytes, l->frame_at[i].len), at_out += l->frame_at[i].len;
}

static inline void put_parts(const list *l)
{
    unsigned i;
    for (i = 0; i < l->parts; i++) {
        const part *p = &l->part_at[i];
        put(p->at, 4), put(p->frame, 4), put(p->len, 4), put(p->number, 4), put(p->remaining, 4), put(p->kind, 4);
    }
}

static inline void put_malformed(const list *l)
{
    unsigned i;
    for (i = 0; i < l->malformed; i++)
        put(l->malformed_at[i], 4);
}

static inline void put_hints(const list *l)
{
    unsigned i;
    for (i = 0; i < l->hints; i++)
        put(l->hint_at[i][0], 4), put(l->hint_at[i][1], 4);
}

static inline void put_confirmed(const list *l)
{
    unsigned i;
    for (i = 0; i < l->confirmed; i++)
        put(l->confirmed_at[i][0], 4), put(l->confirmed_at[i][1], 4), put(7 * i, 8);
}

/* The head, by the words of seek.h. */
static inline void put_head(const list *l)
{
    put(l->slot, 8), put(2, 8), put(l->start, 8), put(l->end - 1, 8), put(l->sectors, 8), put(l->start, 8), put(l->end, 8);
    put(l->interval, 8), put(l->budget, 8), put(9, 8), put(50, 8);
    put(l->checkpoints, 8), put(l->frames, 8), put(l->parts, 8), put(l->malformed, 8), put(l->hints, 8), put(l->confirmed, 8);
    put((uint64_t)l->complete, 8), put(l->end_threshold, 8), put(l->end_malformed, 8);
    put((uint64_t)(l->stated + l->checked), 8), put(l->stated ? 77 : 0, 8);
    put(l->image != 0, 8), put(l->image, 8);
}

static inline size_t write_file(const list *l, uint8_t *file)
{
    uint64_t sum = UINT64_C(0xcbf29ce484222325);
    const uint8_t *b;
    at_out = file;
    memcpy(at_out, "SBSEEKIX", 8);
    at_out += 8;
    put(l->confirmed ? 3 : 2, 4), put(l->slot, 1), put(2, 1), put((l->complete ? 1u : 0u) | (l->stated ? 2u : 0u), 1), put(0, 1);
    put(l->start, 4), put(l->end - 1, 4), put(l->sectors, 8), put(l->interval, 4);
    put(l->checkpoints, 4), put(l->frames, 4), put(l->parts, 4), put(l->malformed, 4), put(0, 4);
    put(l->budget, 8), put(l->end_threshold, 4), put(0, 4), put(l->end_malformed, 8);
    put_checkpoints(l);
    put_frames(l, 1);
    put_parts(l);
    put_malformed(l);
    put(l->stated ? 77 : 0, 8), put(9, 4), put(50, 4), put(l->hints, 4), put(0, 4);
    put_hints(l);
    if (l->confirmed) {
        put(l->confirmed, 4), put(0, 4);
        put_confirmed(l);
    }
    for (b = file; b < at_out; b++)
        sum = (sum ^ *b) * UINT64_C(0x100000001b3);
    put(sum, 8);
    return (size_t)(at_out - file);
}
