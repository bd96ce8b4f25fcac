/* discs A B DIR: writes the example disc files into a folder, from a two-channel list file A and a multichannel one B: of one list, of both, one for each way to
 * break the contents table (54), and two whose table is right and whose bodies are not, by docs/FILE.md. Names of refused files begin with their number. */
#include <stdio.h>
#include <stdlib.h>
#include <string.h>

#include "seek.h"

enum { LONGEST = 16384 };

typedef struct {
    uint8_t bytes[LONGEST];
    size_t length;
} File;

static const char *folder;

static void stop(const char *name, const char *why)
{
    fprintf(stderr, "discs: %s: %s\n", name, why);
    exit(1);
}

/* ---- list files in, disc files out */
static seek_list load(const char *name)
{
    static File f;
    seek_area area;
    seek_table_sizes sizes;
    seek_list l;
    uint8_t *memory;
    uint32_t no;
    FILE *in = fopen(name, "rb");
    f.length = in ? fread(f.bytes, 1, LONGEST, in) : 0;
    if (!in || fclose(in))
        stop(name, "cannot be read");
    if ((no = seek_file_area(f.bytes, f.length, &area)) != 0 || (no = seek_file_sizes(&area, f.bytes, f.length, UINT64_MAX, &sizes)) != 0)
        stop(name, seek_text(no));
    memory = (uint8_t *)calloc(1, (size_t)seek_total(&sizes));
    if (!memory)
        stop(name, "not enough memory");
    seek_carve(&l, &sizes, memory, seek_total(&sizes));
    if ((no = seek_load(SEEK_WORKSHOP, &l, &area, f.bytes, f.length, UINT64_MAX)) != 0)
        stop(name, seek_text(no));
    return l;
}

static File save(const seek_list *l, const seek_list *other)
{
    File f;
    memset(&f, 0, sizeof f);
    f.length = (size_t)seek_disc_save(SEEK_WORKSHOP, l, other, f.bytes, LONGEST);
    if (f.length < 88)
        stop("a disc file", seek_text((uint32_t)f.length));
    return f;
}

static void write_file(const char *name, const File *f)
{
    char path[4096];
    FILE *out;
    snprintf(path, sizeof path, "%s/%s.disc", folder, name);
    out = fopen(path, "wb");
    if (!out || fwrite(f->bytes, 1, f->length, out) != f->length || fclose(out))
        stop(path, "cannot be written");
}

/* ---- the contents table: a count, then slot, offset and length of each list */
enum { COUNT = 0, SLOT = 4, OFFSET = 8, LENGTH = 12, SECOND = 12 };

static uint32_t get(const File *f, size_t at)
{
    const uint8_t *b = f->bytes + at;
    return b[0] | (uint32_t)b[1] << 8 | (uint32_t)b[2] << 16 | (uint32_t)b[3] << 24;
}

static void put(File *f, size_t at, uint32_t v)
{
    unsigned i;
    for (i = 0; i < 4; i++)
        f->bytes[at + i] = (uint8_t)(v >> 8 * i);
}

/* The file with one or two numbers of its table changed by so much. */
static void changed(const char *name, const File *f, size_t at, int by, size_t also, int by2)
{
    File v = *f;
    put(&v, at, get(&v, at) + (uint32_t)by);
    put(&v, also, get(&v, also) + (uint32_t)by2);
    write_file(name, &v);
}

/* One rule of the table broken, all others kept. */
static void broken_tables(const File *both)
{
    File v = *both;
    size_t second = get(both, SECOND + OFFSET);
    changed("54-count-0", both, COUNT, -2, COUNT, 0);
    changed("54-count-3", both, COUNT, 1, COUNT, 0);
    changed("54-slot-2", both, SECOND + SLOT, 1, COUNT, 0);
    changed("54-slots-fall", both, SLOT, 1, SECOND + SLOT, -1);
    changed("54-one-slot-twice", both, SECOND + SLOT, -1, COUNT, 0);
    changed("54-overlap", both, SECOND + OFFSET, -1, SECOND + LENGTH, 1);
    changed("54-first-offset", both, OFFSET, 1, LENGTH, -1);
    changed("54-length-past-end", both, SECOND + LENGTH, 1, COUNT, 0);
    v.length = 27;
    write_file("54-short-table", &v);
    v.length = both->length + 1;
    write_file("54-bytes-behind", &v);
    memmove(v.bytes + second + 1, v.bytes + second, both->length - second);
    changed("54-gap", &v, SECOND + OFFSET, 1, COUNT, 0);
}

/* A right table over bodies that are refused by themselves. */
static void broken_bodies(const File *both, const File *one)
{
    File v = *both;
    v.bytes[get(both, SECOND + OFFSET) + 80] ^= 1;
    write_file("22-second-body", &v);
    changed("26-slot-of-body", one, SLOT, 1, COUNT, 0);
}

int main(int argc, char **argv)
{
    seek_list a, b;
    File one, both;
    if (argc != 4)
        return 2;
    a = load(argv[1]);
    b = load(argv[2]);
    folder = argv[3];
    one = save(&a, NULL);
    both = save(&b, &a);
    write_file("one", &one);
    write_file("both", &both);
    broken_tables(&both);
    broken_bodies(&both, &one);
    free(a.checkpoints.at);
    free(b.checkpoints.at);
    return 0;
}
