/* seek_file.h: seek.h's lists with stdio and malloc, for the usual program.
 *
 * seek_open reads a list file, asks what memory its list takes, allocates it and loads; seek_saved saves a list into a new block. What these functions
 * allocate, the caller gives back: a list by seek_close, a recorder by seek_close_recorder, a hint recorder by seek_close_hint_recorder, bytes by free.
 * Those that load or save take a role, as seek_load and seek_save do. They answer 0, a refusal number of the library, or one of the three numbers below, and leave
 * nothing allocated where they refuse.
 */
#ifndef SEEK_FILE_H
#define SEEK_FILE_H

#include <stdio.h>
#include <stdlib.h>

#include "seek.h"

#ifdef __cplusplus
extern "C" {
#define SEEK_ALLOCATED_(p) static_cast<uint8_t *>(p)
#define SEEK_LENGTH_(n) static_cast<size_t>(n)
#define SEEK_NUMBER_(n) static_cast<uint32_t>(n)
#else
#define SEEK_ALLOCATED_(p) ((uint8_t *)(p))
#define SEEK_LENGTH_(n) ((size_t)(n))
#define SEEK_NUMBER_(n) ((uint32_t)(n))
#endif

enum {
    SEEK_NO_MEMORY = 200, /* malloc has no more */
    SEEK_NO_READ = 201,   /* the file cannot be read */
    SEEK_NO_WRITE = 202   /* the file cannot be written */
};

/* A text for each of these numbers, and for the library's. */
static inline const char *seek_file_text(uint32_t number)
{
    switch (number) {
    case SEEK_NO_MEMORY: return "there is no memory for it";
    case SEEK_NO_READ: return "the file cannot be read";
    case SEEK_NO_WRITE: return "the file cannot be written";
    default: return seek_text(number);
    }
}

/* A block of zeros, also of length 0. */
static inline uint8_t *seek_zeros_(uint64_t length)
{
    return length < SIZE_MAX ? SEEK_ALLOCATED_(calloc(1, SEEK_LENGTH_(length + 1))) : SEEK_NULL_;
}

/* The bytes of a file, and how many they are. */
static inline uint32_t seek_read_file(const char *name, uint8_t **bytes, size_t *length)
{
    FILE *in = fopen(name, "rb");
    uint32_t no = in ? 0 : SEEK_NUMBER_(SEEK_NO_READ);
    size_t room = 0, n = 1;
    uint8_t *more;
    *bytes = SEEK_NULL_;
    *length = 0;
    while (no == 0 && n != 0) {
        if (*length == room) {
            room = room ? 2 * room : 65536;
            more = SEEK_ALLOCATED_(realloc(*bytes, room));
            if (more == SEEK_NULL_) {
                no = SEEK_NO_MEMORY;
                break;
            }
            *bytes = more;
        }
        n = fread(*bytes + *length, 1, room - *length, in);
        *length += n;
        if (n == 0 && ferror(in))
            no = SEEK_NO_READ;
    }
    if (in)
        (void)fclose(in);
    if (no) {
        free(*bytes);
        *bytes = SEEK_NULL_;
        *length = 0;
    }
    return no;
}

/* Writes bytes over a file. A program that must never leave half a file writes beside it and renames, as desk/ does. */
static inline uint32_t seek_write_file(const char *name, const uint8_t *bytes, size_t length)
{
    FILE *out = fopen(name, "wb");
    int done = out && fwrite(bytes, 1, length, out) == length;
    if (out && fclose(out) != 0)
        done = 0;
    return done ? 0 : SEEK_NUMBER_(SEEK_NO_WRITE);
}

/* ---- lists */
/* Gives back the memory of a list that seek_open or seek_begin made; the list is absent then. */
static inline void seek_close(seek_list *l)
{
    const seek_list none = SEEK_ABSENT;
    free(l->checkpoints.at);
    *l = none;
}

static inline uint32_t seek_allocate_(seek_list *l, const seek_table_sizes *s)
{
    uint64_t total = seek_total(s);
    uint8_t *memory = seek_zeros_(total);
    if (memory == SEEK_NULL_)
        return SEEK_NO_MEMORY;
    (void)seek_carve(l, s, memory, total);
    return 0;
}

/* SEEK_NO_ROLE where the role may not load or save, else 0: as in the library it is asked before anything else. */
static inline uint32_t seek_asked_role_(uint32_t role)
{
    const seek_list none = SEEK_ABSENT;
    return seek_save(role, &none, SEEK_NULL_, 0) == SEEK_NO_ROLE ? SEEK_NUMBER_(SEEK_NO_ROLE) : 0;
}

/* The list of a file's bytes, under an area (NULL: the one that the file says it is of), with a limit as seek_load's. */
static inline uint32_t seek_open_bytes(uint32_t role, const uint8_t *file, size_t length, const seek_area *area, uint64_t limit, seek_list *l)
{
    const seek_list none = SEEK_ABSENT;
    seek_area told;
    seek_table_sizes s;
    uint32_t no = seek_asked_role_(role);
    *l = none;
    if (area)
        told = *area;
    else if (no == 0)
        no = seek_file_area(file, length, &told);
    if (no == 0)
        no = seek_file_sizes(&told, file, length, limit, &s);
    if (no == 0)
        no = seek_allocate_(l, &s);
    if (no == 0)
        no = seek_load(role, l, &told, file, length, limit);
    if (no)
        seek_close(l);
    return no;
}

/* The list of a file. */
static inline uint32_t seek_open(uint32_t role, const char *name, const seek_area *area, uint64_t limit, seek_list *l)
{
    const seek_list none = SEEK_ABSENT;
    uint8_t *file = SEEK_NULL_;
    size_t length = 0;
    uint32_t no = seek_asked_role_(role);
    *l = none;
    if (no == 0)
        no = seek_read_file(name, &file, &length);
    if (no == 0)
        no = seek_open_bytes(role, file, length, area, limit, l);
    free(file);
    return no;
}

/* An empty list, as seek_new's. */
static inline uint32_t seek_begin(const seek_area *area, uint32_t interval, uint64_t budget, uint32_t spacing, uint32_t hint_limit, seek_list *l)
{
    const seek_list none = SEEK_ABSENT;
    seek_table_sizes s;
    uint32_t no = seek_sizes(area, interval, budget, hint_limit, &s);
    *l = none;
    if (no == 0)
        no = seek_allocate_(l, &s);
    if (no == 0)
        no = seek_new(l, area, interval, budget, spacing, hint_limit);
    if (no)
        seek_close(l);
    return no;
}

/* The list file of a list, in a new block, and its length. */
static inline uint32_t seek_saved(uint32_t role, const seek_list *l, uint8_t **bytes, size_t *length)
{
    uint64_t n = seek_asked_role_(role);
    if (n == 0)
        n = seek_saved_length(l);
    *bytes = SEEK_NULL_;
    *length = 0;
    if (seek_refused(n))
        return SEEK_NUMBER_(n);
    *bytes = seek_zeros_(n);
    if (*bytes == SEEK_NULL_)
        return SEEK_NO_MEMORY;
    *length = SEEK_LENGTH_(n);
    n = seek_save(role, l, *bytes, *length);
    if (!seek_refused(n))
        return 0;
    free(*bytes);
    *bytes = SEEK_NULL_;
    *length = 0;
    return SEEK_NUMBER_(n);
}

/* Saves a list over a file. */
static inline uint32_t seek_save_file(uint32_t role, const seek_list *l, const char *name)
{
    uint8_t *bytes;
    size_t length;
    uint32_t no = seek_saved(role, l, &bytes, &length);
    if (no == 0)
        no = seek_write_file(name, bytes, length);
    free(bytes);
    return no;
}

/* ---- recorders */
static inline void seek_close_recorder(seek_recorder *r)
{
    free(r->checkpoints.at);
    r->checkpoints.at = r->frames.at = r->store.at = r->parts.at = SEEK_NULL_;
    r->checkpoints.length = r->frames.length = r->store.length = r->parts.length = 0;
}

/* The recorder of a list, as seek_recorder_of's, with tables as long as the list's. */
static inline uint32_t seek_begin_recorder(const seek_list *l, uint64_t from, seek_recorder *r)
{
    seek_table_sizes s = {0, 0, 0, 0, 0, 0, 0};
    uint8_t *memory;
    uint32_t no;
    s.checkpoints = l->checkpoints.length;
    s.frames = l->frames.length;
    s.store = l->store.length;
    s.parts = l->parts.length;
    memory = seek_zeros_(seek_recorder_total(&s));
    if (memory == SEEK_NULL_)
        return SEEK_NO_MEMORY;
    (void)seek_carve_recorder(r, &s, memory, seek_recorder_total(&s));
    no = seek_recorder_of(l, from, r);
    if (no)
        seek_close_recorder(r);
    return no;
}

static inline void seek_close_hint_recorder(seek_hint_recorder *h)
{
    free(h->list.at);
    h->list.at = SEEK_NULL_;
    h->list.length = 0;
}

/* The hint recorder of a list, as seek_hint_recorder_of's; *made is 0, and nothing allocated, where there is none. */
static inline uint32_t seek_begin_hint_recorder(const seek_list *l, seek_hint_recorder *h, int *made)
{
    uint8_t *memory = seek_zeros_(SEEK_HINT_LIST);
    uint32_t no;
    *made = 0;
    if (memory == SEEK_NULL_)
        return SEEK_NO_MEMORY;
    (void)seek_carve_hint_recorder(h, memory, SEEK_HINT_LIST);
    no = seek_hint_recorder_of(l, h, made);
    if (no || !*made)
        seek_close_hint_recorder(h);
    return no;
}

#undef SEEK_ALLOCATED_
#undef SEEK_LENGTH_
#undef SEEK_NUMBER_

#ifdef __cplusplus
}
#endif

#endif
