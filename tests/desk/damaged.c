/* damaged DIR: writes list files into a directory, by docs/FILE.md: some that are right and, for each refusal number of loading and merging, files that are
 * refused with it, whose names begin with it. A file without the magic is taken for a disc file. */
#include <stdio.h>
#include <string.h>

#include "seek.h"

/* ---- a file with a record in every section */
enum { START = 1000, SECTORS = 400, PART = 300, LONGEST = 20000 };

typedef struct {
    unsigned n;          /* checkpoints; 8 make it complete; from 2 on two malformed sectors, from 3 on a held part */
    unsigned interval;
    size_t frame, part, malformed, hinting, confirmed, end;   /* where the sections begin, and the body's end */
    uint8_t bytes[LONGEST];
} File;

static void put(File *f, size_t at, uint64_t v, unsigned width)
{
    unsigned i;
    for (i = 0; i < width; i++)
        f->bytes[at + i] = (uint8_t)(v >> 8 * i);
}

static void put_header(File *f, int complete)
{
    memcpy(f->bytes, "SBSEEKIX", 8);
    put(f, 8, 3, 4);
    put(f, 12, 0, 1);
    put(f, 13, 2, 1);
    put(f, 14, complete ? 3 : 2, 1);
    put(f, 16, START, 4);
    put(f, 20, START + SECTORS - 1, 4);
    put(f, 24, START + SECTORS + 150, 8);
    put(f, 32, f->interval, 4);
    put(f, 36, f->n, 4);
    put(f, 40, f->n > 2, 4);
    put(f, 44, f->n > 2, 4);
    put(f, 48, f->n > 1 ? 2 : 0, 4);
    put(f, 56, 4096, 8);
    put(f, 64, complete ? 600 : 0, 4);
    put(f, 72, complete ? 2 : 0, 8);
}

static void put_scan(File *f)
{
    unsigned j;
    for (j = 0; j < f->n; j++) {
        size_t at = 80 + 24 * j;
        put(f, at, 75 * j, 4);
        put(f, at + 4, j == 2 ? 40 : 0, 4);
        put(f, at + 8, j ? 2 : 0, 8);
        put(f, at + 16, j * 0x9e3779b97f4a7c15u, 8);
    }
    f->frame = f->part = f->malformed = 80 + 24 * f->n;
    if (f->n <= 2)
        return;
    put(f, f->frame, START + 2 * f->interval - 40, 4);
    put(f, f->frame + 4, PART, 4);
    for (j = 0; j < PART; j++)
        put(f, f->frame + 8 + j, j, 1);
    f->part = f->frame + 8 + PART;
    put(f, f->part, 2, 4);
    put(f, f->part + 8, PART, 4);
    put(f, f->part + 12, 149, 4);
    put(f, f->part + 20, 1, 4);
    f->malformed = f->part + 24;
}

static void put_hints(File *f)
{
    put(f, f->malformed, START + 3, 4);
    put(f, f->malformed + 4, START + 7, 4);
    f->hinting = f->malformed + (f->n > 1 ? 8 : 0);
    put(f, f->hinting, 0x0123456789abcdef, 8);
    put(f, f->hinting + 8, 8, 4);
    put(f, f->hinting + 12, 2048, 4);
    put(f, f->hinting + 16, 2, 4);
    put(f, f->hinting + 24, START + 10, 4);
    put(f, f->hinting + 28, 15, 4);
    put(f, f->hinting + 32, START + 20, 4);
    put(f, f->hinting + 36, 30, 4);
    f->confirmed = f->hinting + 40;
    put(f, f->confirmed, 2, 4);
    put(f, f->confirmed + 8, START + 30, 4);
    put(f, f->confirmed + 12, 45, 4);
    put(f, f->confirmed + 24, START + 60, 4);
    put(f, f->confirmed + 28, 90, 4);
    f->end = f->confirmed + 40;
}

static File make(unsigned n, unsigned interval)
{
    File f;
    memset(&f, 0, sizeof f);
    f.n = n;
    f.interval = interval;
    put_header(&f, n == 8);
    put_scan(&f);
    put_hints(&f);
    return f;
}

/* The same as a version 1 file: no hints, no confirmations, no fingerprint. */
static File plain(File f)
{
    put(&f, 8, 1, 4);
    put(&f, 14, f.bytes[14] & 1, 1);
    f.end = f.hinting;
    return f;
}

/* The same as a version 2 file that adds the fingerprint alone. */
static File known(File f)
{
    put(&f, 8, 2, 4);
    put(&f, f.hinting + 16, 0, 4);
    f.end = f.hinting + 24;
    return f;
}

/* Every checkpoint, and no end state. */
static File unended(File f)
{
    put(&f, 14, 2, 1);
    put(&f, 64, 0, 4);
    put(&f, 72, 0, 8);
    return f;
}

/* 5,000 malformed sectors counted, 4,096 of them listed. */
static File capped(void)
{
    File f = make(2, 5000);
    unsigned i;
    put(&f, 20, START + 9999, 4);
    put(&f, 24, START + 10000, 8);
    put(&f, 48, 4096, 4);
    put(&f, 80 + 24 + 8, 5000, 8);
    for (i = 0; i < 4096; i++)
        put(&f, f.malformed + 4 * i, START + i, 4);
    f.hinting = f.malformed + 4 * 4096;
    return plain(f);
}

/* ---- files */
static const char *folder;
static int failed;

static void write_bytes(const char *name, const uint8_t *bytes, size_t n)
{
    char path[4096];
    FILE *out;
    snprintf(path, sizeof path, "%s/%s.list", folder, name);
    out = fopen(path, "wb");
    if (!out || fwrite(bytes, 1, n, out) != n)
        failed = 1;
    if (out && fclose(out))
        failed = 1;
}

/* The body, and its sum. */
static void write_file(const char *name, File f)
{
    put(&f, f.end, seek_sum(f.bytes, f.end), 8);
    write_bytes(name, f.bytes, f.end + 8);
}

/* A file with one number changed. */
static void changed(const char *name, File f, size_t at, uint64_t v, unsigned width)
{
    put(&f, at, v, width);
    write_file(name, f);
}

/* A file whose body ends at a place. */
static void cut(const char *name, File f, size_t end)
{
    f.end = end;
    write_file(name, f);
}

/* ---- each number's files, in the order of the questions */
static void of_header(const File *f)
{
    File v;
    write_bytes("20-empty", f->bytes, 0);
    write_bytes("20-seven-bytes", f->bytes, 7);
    cut("21-body-of-79", *f, 79);
    changed("54-magic", *f, 0, 'X', 1);
    v = *f;
    put(&v, f->end, seek_sum(f->bytes, f->end) ^ 1, 8);
    write_bytes("22-sum", v.bytes, f->end + 8);
    put(&v, 12, 9, 1);
    write_bytes("22-slot-and-sum", v.bytes, f->end + 8);
    changed("23-version-0", *f, 8, 0, 4);
    changed("23-version-5", *f, 8, 5, 4);
    changed("24-slot", *f, 12, 2, 1);
    changed("25-flag", *f, 14, 6, 1);
    changed("25-byte-15", *f, 15, 1, 1);
    v = *f;
    put(&v, 8, 1, 4);
    changed("25-fingerprint-in-version-1", v, 14, 2, 1);
    changed("26-slot", *f, 12, 1, 1);
    changed("26-channels", *f, 13, 6, 1);
    changed("26-key-start", *f, 16, START - 1, 4);
    changed("26-key-end", *f, 20, START + SECTORS, 4);
    changed("26-image", *f, 24, START + SECTORS + 151, 8);
    changed("27-interval-0", *f, 32, 0, 4);
    changed("27-interval-65537", *f, 32, 65537, 4);
    changed("28-bytes-52", *f, 52, 1, 4);
    changed("29-budget", *f, 56, 4294967296u, 8);
    changed("28-bytes-68", *f, 68, 1, 4);
    changed("30-checkpoints", *f, 36, 9, 4);
    changed("30-complete", *f, 14, 3, 1);
    changed("30-parts", *f, 44, 6, 4);
    changed("30-frames", *f, 40, 2, 4);
    changed("30-malformed", *f, 48, 4097, 4);
    cut("30-length", *f, f->frame + 8);
}

static void of_scan(const File *f, const File *whole)
{
    changed("31-threshold-falls", *f, 80 + 24 * 3, 149, 4);
    changed("31-threshold-large", *f, 80 + 24 * 4, 1166882, 4);
    changed("31-back", *f, 80 + 24 + 4, 51, 4);
    changed("31-malformed", *f, 80 + 24 + 8, 51, 8);
    cut("20-frame-bytes", *f, f->frame + 8 + 24 + 8 + 24 + 8 + 40);
    changed("32-frame-start", *f, f->frame, START - 1, 4);
    changed("32-frame-length", *f, f->frame + 4, 65537, 4);
    changed("32-frame-over-budget", *f, 56, PART - 1, 8);
    cut("20-part", *f, f->part + 23);
    changed("33-kind", *f, f->part + 20, 2, 1);
    changed("33-three-bytes", *f, f->part + 21, 1, 1);
    changed("32-part-length", *f, f->part + 8, PART + 1, 4);
    changed("32-part-number", *f, f->part + 12, 1166881, 4);
    changed("32-part-without-back", *f, f->part, 3, 4);
    changed("34-threshold-falls", *whole, 64, 524, 4);
    changed("34-threshold-large", *whole, 64, 1166882, 4);
    changed("34-malformed", *whole, 72, 401, 8);
    changed("28-end-threshold", *f, 64, 1, 4);
    changed("28-end-malformed", *f, 72, 1, 8);
    changed("35-count", *f, 48, 1, 4);
    cut("20-malformed", *f, f->malformed + 7);
    changed("35-order", *f, f->malformed + 4, START + 3, 4);
    changed("35-frontier", *f, f->malformed + 4, START + 200, 4);
}

static void of_hinting(const File *f)
{
    File v;
    cut("20-hint-header", *f, f->hinting + 23);
    changed("28-hint-header", *f, f->hinting + 20, 1, 4);
    changed("36-most", *f, f->hinting + 12, 65537, 4);
    changed("36-most-of-version-4", *f, 8, 4, 4);
    changed("36-count", *f, f->hinting + 16, 2049, 4);
    cut("36-length", *f, f->hinting + 39);
    changed("36-number", *f, f->hinting + 28, 1166881, 4);
    changed("36-order", *f, f->hinting + 32, START + 10, 4);
    v = *f;
    v.end = f->hinting + 24;
    put(&v, 8, 2, 4);
    put(&v, 14, 0, 1);
    put(&v, f->hinting, 0, 8);
    changed("36-version-2-adds-nothing", v, f->hinting + 16, 0, 4);
    cut("20-confirmation-header", *f, f->confirmed + 7);
    changed("37-header", *f, f->confirmed + 4, 1, 4);
    changed("37-count", *f, f->confirmed, 0, 4);
    cut("37-length", *f, f->confirmed + 39);
    changed("37-order", *f, f->confirmed + 24, START + 30, 4);
    changed("37-threshold", *f, f->confirmed + 12, 1166881, 4);
    v = *f;
    put(&v, f->hinting, 0, 8);
    changed("37-without-fingerprint", v, 14, 0, 1);
    put(&v, 8, 4, 4);
    put(&v, f->hinting + 12, 65537, 4);
    changed("37-without-fingerprint-in-version-4", v, 14, 0, 1);
    cut("38-one-byte", *f, f->end + 1);
}

/* Right files that cannot be merged with the right one. */
static void of_merge(const File *f, const File *whole)
{
    write_file("41-interval", make(5, 25));
    changed("42-fingerprint", *f, f->hinting, 1, 8);
    changed("43-digest", *f, 80 + 24 + 16, 1, 8);
    changed("43-threshold", *f, 80 + 24, 76, 4);
    changed("43-end", *whole, 64, 601, 4);
}

static void right(const File *f, const File *whole)
{
    File v = *f;
    write_file("half", *f);
    write_file("whole", *whole);
    write_file("none", plain(make(0, 50)));
    write_file("one", plain(make(1, 50)));
    write_file("two", plain(make(2, 50)));
    write_file("known", known(make(2, 50)));
    write_file("unended", unended(*whole));
    write_file("capped", capped());
    changed("multichannel", *whole, 12, 1, 1);
    changed("multichannel-half", *f, 12, 1, 1);
    changed("lower-threshold", *f, f->confirmed + 12, 44, 4);
    changed("most-2", *f, f->hinting + 12, 2, 4);
    changed("other-hint", *f, f->hinting + 24, START + 5, 4);
    /* the lowest hint limit of version 4 */
    put(&v, 8, 4, 4);
    changed("version-4", v, f->hinting + 12, 65537, 4);
    v = *f;
    /* areas up to the last sectors: the key of the first gives no range, the tables of the second are large */
    put(&v, 24, 4294967296u, 8);
    changed("1-range", v, 20, 4294967295u, 4);
    changed("large", v, 20, 4294967294u, 4);
}

int main(int argc, char **argv)
{
    File f = make(5, 50), whole = make(8, 50);
    if (argc != 2)
        return 2;
    folder = argv[1];
    right(&f, &whole);
    of_header(&f);
    of_scan(&f, &whole);
    of_hinting(&f);
    of_merge(&f, &whole);
    return failed;
}
