/* The bytes of a file: what kind of thing it is, then its first bytes, and only then the rest. */
#include "desk.h"

#include <errno.h>
#include <fcntl.h>
#include <stdlib.h>
#include <string.h>
#include <unistd.h>

enum { FIRST = 16 };

/* What has no bytes to read, or no end; NULL for a plain file. */
static const char *not_plain(mode_t mode)
{
    if (S_ISDIR(mode))
        return "this is a folder, not a file";
    if (S_ISFIFO(mode) || S_ISSOCK(mode))
        return "this is a pipe, not a file; the name - reads standard input";
    return S_ISREG(mode) ? NULL : "this is a device, not a file";
}

/* ---- what a file of another kind is, by bytes at a place */
static const struct {
    long at;
    const char *bytes;
    const char *kind;
} kinds[] = {
    {0, "\x89PNG", "a PNG picture"},
    {0, "\xff\xd8\xff", "a JPEG picture"},
    {0, "GIF8", "a GIF picture"},
    {0, "%PDF", "a PDF document"},
    {0, "PK\x03\x04", "a ZIP archive"},
    {0, "\x1f\x8b", "a gzip archive"},
    {0, "RIFF", "a sound file (RIFF)"},
    {0, "fLaC", "a sound file (FLAC)"},
    {0, "DSD ", "a sound file (DSF)"},
    {0, "FRM8", "a sound file (DSDIFF)"},
    {510 * 2048L, "SACDMTOC", "the image of a Super Audio disc"},
    {16 * 2048L + 1, "CD001", "the image of a disc"},
};

static const char *kind_of(int fd, const Bytes *b)
{
    size_t i;
    for (i = 0; i < sizeof kinds / sizeof *kinds; i++) {
        size_t n = strlen(kinds[i].bytes);
        char there[16] = {0};
        if (kinds[i].at == 0 ? b->length >= n && !memcmp(b->at, kinds[i].bytes, n)
                             : pread(fd, there, n, kinds[i].at) == (ssize_t)n && !memcmp(there, kinds[i].bytes, n))
            return kinds[i].kind;
    }
    return NULL;
}

/* Neither a list file nor a disc file: a list file begins with its magic, a disc file counts one list or two. Fewer bytes are told as a list file that ends
 * too early. */
static int is_foreign(const Bytes *b)
{
    uint64_t count;
    if (b->length < 8 || !memcmp(b->at, "SBSEEKIX", 8))
        return 0;
    count = seek_bytes(b->at, 4);
    return count != 1 && count != 2;
}

/* ---- reading */
/* Reads on until there are so many bytes, or no more. 0, or errno. */
static int read_on(int fd, Bytes *b, size_t *room, size_t most)
{
    while (b->length < most) {
        ssize_t got;
        if (b->length == *room) {
            uint8_t *more = realloc(b->at, *room * 2);
            if (!more)
                return ENOMEM;
            b->at = more;
            *room *= 2;
        }
        got = read(fd, b->at + b->length, *room - b->length < most - b->length ? *room - b->length : most - b->length);
        if (got < 0 && errno != EINTR)
            return errno;
        if (got == 0)
            return 0;
        b->length += got > 0 ? (size_t)got : 0;
    }
    return 0;
}

static int read_all(int fd, Bytes *b)
{
    size_t room = 65536;
    int wrong;
    b->at = malloc(room);
    wrong = b->at ? read_on(fd, b, &room, FIRST) : ENOMEM;
    if (wrong)
        return wrong;
    b->foreign = is_foreign(b);
    if (b->foreign)
        b->kind = kind_of(fd, b);
    return b->foreign ? 0 : read_on(fd, b, &room, SIZE_MAX);
}

static int open_plain(const char *name, struct stat *known)
{
    const char *why;
    int fd;
    if (stat(name, known))
        return complain("%s: %s", shown(name), strerror(errno)), -1;
    why = not_plain(known->st_mode);
    if (why)
        return complain("%s: %s", shown(name), why), -1;
    fd = open(name, O_RDONLY | O_NONBLOCK);
    if (fd < 0)
        complain("%s: %s", shown(name), strerror(errno));
    return fd;
}

static int open_input(struct stat *known)
{
    static int taken;
    if (taken++)
        return complain("standard input is given twice"), -1;
    if (fstat(STDIN_FILENO, known))
        return complain("standard input: %s", strerror(errno)), -1;
    return STDIN_FILENO;
}

int read_bytes(const char *name, Bytes *b)
{
    int input = !strcmp(name, "-"), wrong;
    int fd = input ? open_input(&b->known) : open_plain(name, &b->known);
    if (fd < 0)
        return USAGE;
    wrong = read_all(fd, b);
    if (!input)
        close(fd);
    return wrong ? complain("%s: %s", shown(name), strerror(wrong)) : DONE;
}
