/* seek: shows, compares, merges and coarsens list files and disc files, and plans jumps in them. It reads files, calls the library and prints: every judgement on a
 * file is a call of include/seek.h. desk/seek has its commands; docs/DESK.md is for who uses it. */
#include "seek/desk.h"

#include <errno.h>
#include <limits.h>
#include <signal.h>
#include <stdio.h>
#include <stdlib.h>
#include <string.h>

Options opt = {.slot = -1};

static const char help[] =
    "seek: the seek index of Super Audio discs, for the service desk\n"
    "\n"
    "  seek show FILE..          what each file holds\n"
    "  seek check FILE..         is each file right?\n"
    "  seek compare A B..        which files may be deleted, which are to be kept?\n"
    "  seek report -o PAGE A..   the same as an HTML page, with bars over time\n"
    "  seek merge -o OUT A B..   merges lists and writes a new file; says what was\n"
    "                            not taken, and which files may then be deleted\n"
    "  seek coarse --interval N -o OUT FILE\n"
    "                            the list at a wider interval, a multiple of its own,\n"
    "                            so that it merges with lists of that interval\n"
    "  seek pack -o DISC A [B]   puts a list file, or those of a disc's two areas,\n"
    "                            into a new disc file\n"
    "  seek unpack DISC          writes each list of a disc file as a list file: of\n"
    "                            our.disc our-two-channel.sbx, our-multichannel.sbx\n"
    "  seek plan FILE FRAME..    where a jump to a frame starts; a frame is a number,\n"
    "                            minutes:seconds or minutes:seconds:frames, of which\n"
    "                            there are 75 a second; and why there\n"
    "  seek hint FILE FIRST END PLAYTIME\n"
    "                            where a read of the frames FIRST up to END begins and\n"
    "                            ends by the list's hints, in an area of PLAYTIME\n"
    "                            frames; and why there\n"
    "  seek view --role listener|workshop FILE\n"
    "                            what the role sees of a list; -o OUT writes the view's\n"
    "                            bytes, --html -o PAGE the page that a screen shows\n"
    "\n"
    "A file is a list file, or a disc file with the lists of one or both areas of a\n"
    "disc; the name - is standard input. Disc files are compared and merged slot by\n"
    "slot: slot 0 is the two-channel area, slot 1 the multichannel one. With a disc\n"
    "file among them, merge writes a disc file.\n"
    "\n"
    "  --slot 0|1          of each disc file take only the list of this slot, as a\n"
    "                      list file; not for compare\n"
    "  --range START END   the area's sectors, END excluded, where the file's key\n"
    "                      does not give them\n"
    "  --area FILE         every list must be of the area of this file; one of\n"
    "                      another area is refused (26)\n"
    "  --json              one JSON object a line, for machines (docs/DESK.md)\n"
    "  --interval N        for coarse: the sectors from one checkpoint to the next\n"
    "  --role ROLE         for view: listener or workshop\n"
    "  --html              for view: a page instead of the view's bytes\n"
    "  -o OUT              the file that merge, coarse and pack write, - for standard\n"
    "                      output; for unpack what its files' names begin with\n"
    "  --partial           merge writes a file also where not all was taken\n"
    "  --checked           for hint: the disc is the list's own, so that hints which\n"
    "                      were confirmed count\n"
    "  -f                  an existing file may be replaced, but never one that is\n"
    "                      read\n"
    "  --                  all words after it are names, also those that begin with -\n"
    "  --help, -h          this text\n"
    "  --version           the program's version\n"
    "\n"
    "Status\n"
    "  0   done; for compare: B may be deleted, or with more than two files all but\n"
    "      one of each disc and area\n"
    "  1   a file was refused, compare says keep, or merge did not take all\n"
    "  2   wrong use, or a file cannot be read or written\n";

static const struct {
    const char *name;
    int (*run)(char **words, int n);
    int least, most;     /* how many words it takes */
    int writes;          /* -o and -f: 0 none, 1 may have them, 2 needs -o */
    const char *needs;
} commands[] = {
    {"show", show, 1, INT_MAX, 0, "a file"},
    {"check", check, 1, INT_MAX, 0, "a file"},
    {"compare", compare, 2, INT_MAX, 0, "two files or more"},
    {"report", report, 1, INT_MAX, 2, "-o PAGE and a file"},
    {"merge", merge, 2, INT_MAX, 2, "-o OUT and two files or more"},
    {"coarse", coarse, 1, 1, 2, "--interval N, -o OUT and one file"},
    {"pack", pack, 1, 2, 2, "-o DISC and one list file or two"},
    {"unpack", unpack, 1, 1, 1, "one disc file"},
    {"plan", plan, 2, INT_MAX, 0, "a file and a frame"},
    {"hint", hint, 4, 4, 0, "a file, the first frame, the end and the playtime"},
    {"view", view, 1, 1, 1, "--role listener or --role workshop, and one file"},
};

static int range_option(const char *start, const char *end)
{
    if (digits(&start, &opt.start) || *start || digits(&end, &opt.end) || *end)
        return complain("--range needs two sector numbers");
    opt.ranged = 1;
    return DONE;
}

static int slot_option(const char *slot)
{
    if (strcmp(slot, "0") && strcmp(slot, "1"))
        return complain("--slot needs 0 (two-channel) or 1 (multichannel)");
    opt.slot = slot[0] - '0';
    return DONE;
}

static int interval_option(const char *n)
{
    if (digits(&n, &opt.interval) || *n || opt.interval > UINT32_MAX)
        return complain("--interval needs a number of sectors");
    opt.widened = 1;
    return DONE;
}

static int role_option(const char *role)
{
    opt.role = !strcmp(role, "listener") ? SEEK_LISTENER : !strcmp(role, "workshop") ? SEEK_WORKSHOP : 0;
    return opt.role ? DONE : complain("--role needs listener or workshop");
}

/* The word of an option: behind it (-oOUT, --slot=0), else the next one. */
static const char *value(int argc, char **argv, int *i, const char *option)
{
    const char *w = argv[*i] + strlen(option);
    if (option[1] == '-' && *w == '=')
        return w + 1;
    if (*w)
        return w;
    return *i + 1 < argc ? argv[++*i] : NULL;
}

/* Is this the option, alone or with its word behind it? */
static int is(const char *w, const char *option)
{
    size_t n = strlen(option);
    return !strncmp(w, option, n) && (!w[n] || option[1] != '-' || w[n] == '=');
}

static int option(int argc, char **argv, int *i)
{
    const char *w = argv[*i], *v = "";
    if (!strcmp(w, "--json"))
        opt.json = 1;
    else if (!strcmp(w, "-f"))
        opt.force = 1;
    else if (!strcmp(w, "--partial"))
        opt.partial = 1;
    else if (!strcmp(w, "--checked"))
        opt.checked = 1;
    else if (!strcmp(w, "--html"))
        opt.html = 1;
    else if (is(w, "-o"))
        opt.out = v = value(argc, argv, i, "-o");
    else if (is(w, "--area"))
        opt.area = v = value(argc, argv, i, "--area");
    else if (is(w, "--slot") && (v = value(argc, argv, i, "--slot")) != NULL)
        return slot_option(v);
    else if (is(w, "--role") && (v = value(argc, argv, i, "--role")) != NULL)
        return role_option(v);
    else if (is(w, "--interval") && (v = value(argc, argv, i, "--interval")) != NULL)
        return interval_option(v);
    else if (!strcmp(w, "--range") && argc - 1 - *i > 1) {
        *i += 2;
        return range_option(argv[*i - 1], argv[*i]);
    } else
        v = NULL;
    return v ? DONE : complain("%s: no such option, or words are missing; seek --help tells them", shown(w));
}

/* The areas of the file that --area names, by slot. */
static int want_area(void)
{
    File f;
    int s, status = open_file(&f, opt.area);
    if (status != DONE)
        return status;
    if (f.number)
        status = refused_file(&f);
    for (s = 0; s < 2 && status == DONE; s++) {
        opt.known[s] = f.present[s];
        opt.wanted[s] = f.list[s].area;
    }
    close_file(&f);
    return status;
}

static int command(char **words, int n)
{
    size_t c = 0, last = sizeof commands / sizeof *commands;
    int status;
    if (n == 0) {
        fputs(help, stderr);
        return USAGE;
    }
    while (c < last && strcmp(words[0], commands[c].name))
        c++;
    if (c == last)
        return complain("%s: no such command; seek --help tells them", shown(words[0]));
    if (!commands[c].writes && (opt.out || opt.force))
        return complain("-o and -f are for the commands that write a file");
    if ((commands[c].run == compare || commands[c].run == report) && opt.slot >= 0)
        return complain("--slot is not for %s: a disc file is kept or deleted whole", words[0]);
    if (commands[c].run != merge && opt.partial)
        return complain("--partial is for merge");
    if (commands[c].run != coarse && opt.widened)
        return complain("--interval is for coarse");
    if (commands[c].run != hint && opt.checked)
        return complain("--checked is for hint");
    if (commands[c].run != view && (opt.role || opt.html))
        return complain("--role and --html are for view");
    if (n - 1 < commands[c].least || n - 1 > commands[c].most || (commands[c].writes == 2 && !opt.out) || (commands[c].run == coarse && !opt.widened) ||
        (commands[c].run == view && !opt.role))
        return complain("%s needs %s; seek --help tells more", words[0], commands[c].needs);
    status = opt.area ? want_area() : DONE;
    return status == DONE ? commands[c].run(words + 1, n - 1) : status;
}

/* The words that are names, and the options; *help is the option that asks for a text. */
static int words_of(int argc, char **argv, char **words, int *n, const char **asked)
{
    int i, only_names = 0, status = DONE;
    for (i = 1; i < argc && status == DONE && !*asked; i++) {
        if (only_names || argv[i][0] != '-' || !argv[i][1])
            words[(*n)++] = argv[i];
        else if (!strcmp(argv[i], "--"))
            only_names = 1;
        else if (!strcmp(argv[i], "--help") || !strcmp(argv[i], "-h"))
            *asked = help;
        else if (!strcmp(argv[i], "--version"))
            *asked = "seek " SEEK_VERSION_TEXT "\n";
        else
            status = option(argc, argv, &i);
    }
    return status;
}

int main(int argc, char **argv)
{
    char **words = calloc((size_t)argc + 1, sizeof *words);
    const char *asked = NULL;
    int n = 0, status;
    opt.told = stdout;
    signal(SIGXFSZ, SIG_IGN);
    setvbuf(stdout, NULL, _IOLBF, BUFSIZ);
    status = words ? words_of(argc, argv, words, &n, &asked) : complain("not enough memory");
    if (opt.out && to_output(opt.out))
        opt.told = stderr;
    if (status == DONE && asked)
        fputs(asked, stdout);
    else if (status == DONE)
        status = command(words, n);
    free(words);
    if (fflush(stdout) || ferror(stdout))
        status = complain("standard output: %s", strerror(errno));
    return status;
}
