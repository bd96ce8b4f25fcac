/* What the files of the desk's program share. Each answers for itself: text.c words and lines, refuse.c refusals, read.c bytes read, file.c files and their
 * lists, hold.c what a list holds, lack.c what it holds beside another, sort.c many lists sorted, words.c the sentences on them, write.c files written, page.c HTML
 * pages; show.c, check.c, compare.c, merge.c, report.c, coarse.c, pack.c, plan.c, hint.c and view.c the commands. */
#ifndef DESK_H
#define DESK_H

#define _DEFAULT_SOURCE
#define _POSIX_C_SOURCE 200809L
#include <inttypes.h>
#include <stddef.h>
#include <stdint.h>
#include <stdio.h>
#include <sys/stat.h>

#include "seek.h"

enum { DONE = 0, REFUSED = 1, USAGE = 2 };

/* ---- options */
typedef struct {
    int json, force, ranged;
    int slot;                 /* --slot; -1 without it */
    uint64_t start, end;      /* --range */
    const char *out, *area;   /* -o, --area */
    int known[2];             /* by slot: the areas of the file that --area names */
    seek_area wanted[2];
    int partial;              /* --partial */
    int checked;              /* --checked */
    uint64_t interval;        /* --interval */
    int widened;              /* it was given */
    uint32_t role;            /* --role; 0 without it */
    int html;                 /* --html */
    FILE *told;               /* where answers go: standard output, or with -o - standard error */
} Options;
extern Options opt;

/* ---- words and lines */
enum { NO_BREAK = 0x1f };     /* a space of a name, at which no line is broken */

typedef struct {
    char *at;
    size_t length, room;
} Text;

void add(Text *t, const char *format, ...);
const char *text_of(const Text *t);
const char *kept_text(Text *t);
void free_text(Text *t);
const char *shown(const char *name);
const char *fitted(const char *name, int most);
int columns(const char *s);
int width(void);
void say(int first, int others, const char *format, ...);
int complain(const char *format, ...);
const char *grouped(uint64_t v);
const char *clock_of(uint64_t frames);
const char *plural(uint64_t n, const char *one, const char *many);
const char *counted(uint64_t n, const char *one, const char *many);
const char *area_word(int slot);
int digits(const char **s, uint64_t *v);
const char *truth(int v);
void json_text(const char *text);
void json_name(const char *key, const char *text);
void json_number(const char *key, uint64_t v);
void json_time(const char *key, int known, uint64_t frames);

/* ---- files and their lists */
typedef struct {
    const char *file;      /* the file's name, */
    const char *name;      /* as it is printed, with the area's word where the list is in a disc file */
    int in_disc;
    const uint8_t *bytes;  /* its list file */
    size_t length;
    seek_area area;
    seek_list list;
    uint8_t *memory;
    uint64_t boundaries;
    uint32_t number;       /* the refusal, 0 for none */
} List;

/* The bytes of a file; of a file that begins neither as a list file nor as a disc file only the first are read. */
typedef struct {
    uint8_t *at;
    size_t length;
    struct stat known;     /* which file it is */
    int foreign;           /* it is neither, by its first bytes, */
    const char *kind;      /* and what it is, where that can be told */
} Bytes;

/* A file that was given: a list file, or a disc file of one or two lists. With --slot a disc file stands for its list of that slot, as a list file. */
typedef struct {
    const char *name;
    Bytes bytes;
    int unread;            /* it could not be read */
    int disc;
    int present[2];        /* by slot */
    List list[2];
    char *names[2];
    uint32_t number;       /* the refusal, 0 for none */
    const List *at;        /* the list that is refused, where the file is not refused for its contents table */
    int length;            /* what is wrong with its length, where that can be told */
} File;

enum { CUT = 1, NEWLINE = 2, LONGER = 3 };

int read_bytes(const char *name, Bytes *b);
int open_file(File *f, const char *name);
int open_files(File *f, char **names, int n);
void close_file(File *f);
void close_files(File *f, int n);
int load_list(List *l);
int copy_list(List *to, const List *from);
int coarse_list(List *to, const List *from, uint32_t interval);
int merge_set(List *own, List *const *lists, int n, uint32_t *number);
List *only_list(File *f);
int any_disc(const File *f, int n);
int same_file(const struct stat *a, const struct stat *b);
int given_twice(const File *f, int n);

/* ---- what a list holds */
uint64_t frontier(const List *l);
uint64_t frontier_frame(const List *l);
uint64_t malformed_counted(const List *l);
uint64_t held_bytes(const List *l);
uint64_t coverage(const List *l);
uint64_t threshold_at(const List *l, uint64_t j);

/* ---- refusals */
const char *advice(uint32_t number);
int refused(const char *name, uint32_t number);
void refused_json(const char *file, int slot, const char *beside, uint32_t number);
int refused_list(const List *l);
int refused_file(const File *f);
void right_lists(const File *f);

/* ---- what a list holds beside another, by the call lacks */
typedef struct {
    uint32_t number;       /* the refusal, 0 for none */
    int covered;           /* the own list holds all that the other holds */
    seek_lacking more;     /* what the other holds and the own list does not */
} Beside;

Beside ask_beside(const List *own, const List *other);
uint64_t all_of(const seek_lacking *l);
void holds(Text *t, const List *other, const seek_lacking *l, uint64_t end);
void room(Text *t, const List *own, const List *other);
void beside_json(const seek_lacking *l);

/* ---- the lists of any number of files, sorted. Groups, sets and sections are named by their first member. */
typedef struct {
    const List *list;
    int file;
    int group;             /* lists of one area and interval */
    int set;               /* lists of a group that can be merged with each other, and with the same others */
    int best;              /* no other holds more, or the same with more room */
    int keeper;            /* a kept list that holds all that this one holds; -1 for none */
    int nearest;           /* the list beside which it is told what this one holds; -1 for none */
} Item;

typedef struct {
    int section;           /* files whose lists share groups */
    int lists;             /* how many of its lists are sorted: 0 where it is refused */
    int kept;
} Sorted;

typedef struct {
    int files, n;          /* how many files and lists */
    Sorted *sorted;        /* for each file */
    Item *items;
    Beside *pairs;         /* for each own list, each other one of its group */
} Drawer;

int open_drawer(File *f, char **names, int n);
int sort_files(Drawer *d, File *f, int n);
void free_drawer(Drawer *d);
const Beside *beside(const Drawer *d, int own, int other);
int covers(const Drawer *d, int own, int other);
int same(const Drawer *d, int a, int b);
int roomier(const List *a, const List *b);
uint64_t end_frame(const Drawer *d, int i);
void up_to(Text *t, const Drawer *d, int i);
void why(Text *t, const Drawer *d, int i, const char *subject);
int verdict(Text *t, const Drawer *d, const File *f, int file, int line);
void area_title(Text *t, const Drawer *d, int i);
int differ_at(const List *a, const List *b);
void apart(Text *t, const List *a, const List *b, uint32_t number);
int made_alike(Text *t, const List *a, const List *b);
int lists_of(const Drawer *d, int group);
int files_of(const Drawer *d, int section);
int is_group(const Drawer *d, int i, int section, int slot);
void summary(Text *t, const Drawer *d);
void each_apart(const Drawer *d, int group, void (*line)(const char *text));

/* ---- files written */
typedef struct {
    const char *name;
    uint8_t *bytes;
    size_t length;
} Output;

int to_output(const char *out);
int may_write(const char *out, const File *f, int n, const char *input);
int write_files(const Output *out, int n);
int save_list(const List *l, Output *out);
int save_disc(const List *l, const List *other, Output *out, uint32_t *number);
void written(const char *out, const List *l, int with_slot);

/* ---- HTML pages */
enum { LEFT = 20, WIDE = 960 }; /* where a bar begins, and how wide it is */
extern Text page;
void escape(const char *s);
void element(const char *tag, const char *text);
void paragraph(const char *text);
void page_head(const char *title);
void page_key(const char *what, const char *shape, const char *text);
int write_page(const char *name);

/* ---- commands */
int show(char **names, int n);
int check(char **names, int n);
int compare(char **names, int n);
int merge(char **names, int n);
int report(char **names, int n);
int coarse(char **names, int n);
int pack(char **names, int n);
int unpack(char **names, int n);
int plan(char **words, int n);
int frame_of(const char *s, uint32_t *frame);
int hint(char **words, int n);
int view(char **names, int n);

#endif
