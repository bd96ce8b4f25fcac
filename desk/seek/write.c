/* Files written: all that a command writes, or none. */
#include "desk.h"

#include <errno.h>
#include <fcntl.h>
#include <signal.h>
#include <stdlib.h>
#include <string.h>
#include <unistd.h>

int to_output(const char *out) { return !strcmp(out, "-"); }

/* May out be written? Never an input, and an existing plain file only with -f. */
int may_write(const char *out, const File *f, int n, const char *input)
{
    struct stat s;
    int i;
    if (to_output(out))
        return DONE;
    if (stat(out, &s) == 0)
        for (i = 0; i < n; i++)
            if (same_file(&s, &f[i].bytes.known))
                return complain("%s: %s; give -o another name", shown(out), input);
    if (lstat(out, &s))
        return DONE;
    if (!S_ISREG(s.st_mode))
        return complain("%s: this is no plain file; give -o another name", shown(out));
    return opt.force ? DONE : complain("%s: it exists already; -f replaces it", shown(out));
}

static int write_all(int fd, const uint8_t *bytes, size_t n)
{
    while (n) {
        ssize_t w = write(fd, bytes, n);
        if (w < 0 && errno == EINTR)
            continue;
        if (w <= 0)
            return -1;
        bytes += w;
        n -= (size_t)w;
    }
    return 0;
}

/* ---- Ctrl-C: a file that has no name yet is removed; while files are given their names the signal waits */
enum { MOST = 2 };
static const int ending[] = {SIGINT, SIGTERM, SIGHUP, SIGQUIT};
static char *volatile unnamed[2 * MOST];

static void stop(int signal_number)
{
    int i;
    for (i = 0; i < 2 * MOST; i++)
        if (unnamed[i])
            unlink(unnamed[i]);
    signal(signal_number, SIG_DFL);
    raise(signal_number);
}

static sigset_t these_signals(void)
{
    sigset_t set;
    size_t i;
    sigemptyset(&set);
    for (i = 0; i < sizeof ending / sizeof *ending; i++)
        sigaddset(&set, ending[i]);
    return set;
}

static void hold_signals(void)
{
    sigset_t set = these_signals();
    sigprocmask(SIG_BLOCK, &set, NULL);
}

static void let_signals(void)
{
    sigset_t set = these_signals();
    sigprocmask(SIG_UNBLOCK, &set, NULL);
}

/* A signal that is ignored, as under nohup, stays ignored. */
static void catch_signals(void)
{
    struct sigaction act, old;
    size_t i;
    memset(&act, 0, sizeof act);
    act.sa_handler = stop;
    act.sa_mask = these_signals();
    for (i = 0; i < sizeof ending / sizeof *ending; i++)
        if (sigaction(ending[i], NULL, &old) == 0 && old.sa_handler == SIG_DFL)
            sigaction(ending[i], &act, NULL);
}

static void note(int place, char *name) { unnamed[place] = name; }

/* Flushes the folder of a file, so that its new name lasts. */
static void flush_folder(const char *name)
{
    const char *slash = strrchr(name, '/');
    char *folder = slash ? strndup(name, slash == name ? 1 : (size_t)(slash - name)) : strdup(".");
    int fd = folder ? open(folder, O_RDONLY) : -1;
    if (fd >= 0) {
        fsync(fd);
        close(fd);
    }
    free(folder);
}

/* A file on its way: written beside its name, then given it. */
typedef struct {
    const char *out;
    char *temporary;   /* the new file, until it has its name */
    char *old;         /* a second name of the file that it replaces */
    int placed;
} Move;

static char *name_beside(const char *out)
{
    size_t l = strlen(out) + 8;
    char *name = malloc(l);
    if (name)
        snprintf(name, l, "%s.XXXXXX", out);
    return name;
}

/* A new file beside out, which is removed if the program is stopped. */
static int make_beside(Move *m, int place)
{
    int fd;
    hold_signals();
    m->temporary = name_beside(m->out);
    fd = m->temporary ? mkstemp(m->temporary) : -1;
    if (fd >= 0)
        note(place, m->temporary);
    let_signals();
    return fd;
}

/* Writes the bytes into it, and flushes it. 0, or errno. */
static int write_beside(Move *m, const Output *o, int place)
{
    mode_t mask = umask(0);
    int fd, wrong;
    umask(mask);
    m->out = o->name;
    fd = make_beside(m, place);
    if (fd < 0) {
        wrong = errno;
        free(m->temporary);
        m->temporary = NULL;
        return wrong;
    }
    (void)fchmod(fd, 0666 & ~mask);
    wrong = write_all(fd, o->bytes, o->length) || fsync(fd) ? errno : 0;
    if (close(fd) && !wrong)
        wrong = errno;
    return wrong;
}

/* Another name for the file that is to be replaced, by which it can be put back. */
static void keep_old(Move *m)
{
    int fd;
    m->old = name_beside(m->out);
    fd = m->old ? mkstemp(m->old) : -1;
    if (fd >= 0) {
        close(fd);
        unlink(m->old);
        if (link(m->out, m->old) == 0 || rename(m->out, m->old) == 0)
            return;
    }
    free(m->old);
    m->old = NULL;
}

/* Gives the flushed file its name. Without -f an existing file stays; a file system without links (a memory stick's) is asked first whether there is one. */
static int place(Move *m)
{
    struct stat s;
    if (opt.force)
        return rename(m->temporary, m->out);
    if (link(m->temporary, m->out) == 0) {
        unlink(m->temporary);
        return 0;
    }
    if (errno == EEXIST || lstat(m->out, &s) == 0) {
        errno = EEXIST;
        return -1;
    }
    return rename(m->temporary, m->out);
}

/* Gives all files their names. 0, or errno with *at. */
static int place_all(Move *m, int n, int *at)
{
    int i, wrong = 0;
    for (i = 0; i < n && !wrong; i++) {
        if (opt.force && n > 1)
            keep_old(&m[i]);
        wrong = place(&m[i]) ? errno : 0;
        m[i].placed = !wrong;
        *at = i;
    }
    return wrong;
}

/* After a file could not be written or placed: the folder as it was before. */
static void put_back(Move *m)
{
    if (m->old)
        (void)rename(m->old, m->out);
    else if (m->placed)
        unlink(m->out);
    if (m->temporary)
        unlink(m->temporary);
}

/* Either the names stay, or the folder is as it was before. */
static void end_moves(Move *m, int n, int wrong)
{
    int i;
    for (i = 0; i < n; i++) {
        if (wrong)
            put_back(&m[i]);
        if (m[i].old)
            unlink(m[i].old);
        note(i, NULL);
    }
}

static int write_output(const Output *out)
{
    if (fwrite(out->bytes, 1, out->length, stdout) != out->length || fflush(stdout))
        return complain("standard output: %s", strerror(errno));
    return DONE;
}

/* New files beside their names, flushed, then put in their places, all or none: a loss of power leaves the old file or the new one. */
int write_files(const Output *out, int n)
{
    Move m[MOST];
    int i, at = 0, wrong = 0;
    if (n == 1 && to_output(out->name))
        return write_output(out);
    memset(m, 0, sizeof m);
    catch_signals();
    for (i = 0; i < n && !wrong; i++) {
        wrong = write_beside(&m[i], &out[i], i);
        at = i;
    }
    hold_signals();
    if (!wrong)
        wrong = place_all(m, n, &at);
    end_moves(m, n, wrong);
    let_signals();
    for (i = 0; i < n; i++) {
        if (!wrong)
            flush_folder(out[i].name);
        free(m[i].temporary);
        free(m[i].old);
    }
    return wrong ? complain("%s: %s", shown(out[at].name), strerror(wrong)) : DONE;
}

/* ---- lists as bytes */
static int make_bytes(Output *out, uint64_t n)
{
    out->bytes = n <= SIZE_MAX ? calloc(1, (size_t)n) : NULL;
    return out->bytes ? DONE : complain("%s: not enough memory", shown(out->name));
}

/* The list file of a list, for out->name. A saved length is at least 88; below it is a refusal number. */
int save_list(const List *l, Output *out)
{
    uint64_t n = seek_saved_length(&l->list);
    if (n < 88)
        return refused(out->name, (uint32_t)n);
    if (make_bytes(out, n) != DONE)
        return USAGE;
    n = seek_save(SEEK_WORKSHOP, &l->list, out->bytes, (size_t)n);
    out->length = (size_t)n;
    return n < 88 ? refused(out->name, (uint32_t)n) : DONE;
}

/* The disc file of one list, or of two in either order. *number is the refusal. */
int save_disc(const List *l, const List *other, Output *out, uint32_t *number)
{
    const seek_list *second = other ? &other->list : NULL;
    uint64_t n = seek_disc_saved_length(&l->list, second);
    *number = n < 88 ? (uint32_t)n : 0;
    if (*number)
        return REFUSED;
    if (make_bytes(out, n) != DONE)
        return USAGE;
    n = seek_disc_save(SEEK_WORKSHOP, &l->list, second, out->bytes, (size_t)n);
    *number = n < 88 ? (uint32_t)n : 0;
    out->length = (size_t)n;
    return *number ? REFUSED : DONE;
}

/* What a file that was written holds: one line for each list. In a disc file, or where a command writes two files, each list is told with its slot. */
void written(const char *out, const List *l, int with_slot)
{
    const seek_list *list = &l->list;
    const char *name = to_output(out) ? "standard output" : shown(out), *area = area_word(l->area.slot);
    if (opt.json) {
        fputc('{', opt.told);
        json_name("written", out);
        if (with_slot)
            json_number("slot", l->area.slot);
        json_number("checkpoints", seek_checkpoint_count(list));
        json_number("boundaries", l->boundaries);
        json_number("coverage", coverage(l));
        fprintf(opt.told, ",\"complete\":%s", truth(seek_is_complete(list)));
        json_time("frontier_time", 1, frontier_frame(l));
        fputs("}\n", opt.told);
    } else
        say(0, 2, "%s%s%s%s: %s of %s checkpoints, up to %s, %sthe end of the area.", name, with_slot ? " (" : "", with_slot ? area : "",
            with_slot ? ")" : "", grouped(seek_checkpoint_count(list)), grouped(l->boundaries), clock_of(frontier_frame(l)),
            seek_is_complete(list) ? "" : "not to ");
}
