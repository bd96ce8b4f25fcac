/* Words and numbers: names that are safe to print, lines that fit, times, JSON. */
#include "desk.h"

#include <stdarg.h>
#include <stdlib.h>
#include <string.h>
#include <sys/ioctl.h>
#include <unistd.h>

/* ---- a text that grows */
static void grow(Text *t, size_t more)
{
    if (t->length + more < t->room)
        return;
    t->room = (t->length + more) * 2 + 64;
    t->at = realloc(t->at, t->room);
    if (!t->at) {
        fputs("seek: not enough memory\n", stderr);
        exit(USAGE);
    }
}

static void add_words(Text *t, const char *format, va_list words)
{
    va_list again;
    int n;
    va_copy(again, words);
    n = vsnprintf(NULL, 0, format, again);
    va_end(again);
    grow(t, (size_t)n + 1);
    vsnprintf(t->at + t->length, (size_t)n + 1, format, words);
    t->length += (size_t)n;
}

void add(Text *t, const char *format, ...)
{
    va_list words;
    va_start(words, format);
    add_words(t, format, words);
    va_end(words);
}

const char *text_of(const Text *t) { return t->at ? t->at : ""; }

void free_text(Text *t)
{
    free(t->at);
    memset(t, 0, sizeof *t);
}

/* A string in one of a few places, which are used again in turn. */
const char *kept_text(Text *t)
{
    static char *places[32];
    static unsigned turn;
    char **place = &places[turn++ % 32];
    free(*place);
    *place = t->at;
    if (!*place)
        *place = calloc(1, 1);
    return *place ? *place : "";
}

/* ---- characters */
/* The length of the UTF-8 character at s, 0 where there is none. */
static int character(const unsigned char *s)
{
    int n = s[0] < 0x80 ? 1 : s[0] >= 0xc2 && s[0] < 0xe0 ? 2 : (s[0] & 0xf0) == 0xe0 ? 3 : s[0] >= 0xf0 && s[0] < 0xf5 ? 4 : 0, i;
    for (i = 1; i < n; i++)
        if ((s[i] & 0xc0) != 0x80)
            return 0;
    if ((s[0] == 0xe0 && s[1] < 0xa0) || (s[0] == 0xed && s[1] > 0x9f) || (s[0] == 0xf0 && s[1] < 0x90) || (s[0] == 0xf4 && s[1] > 0x8f))
        return 0;
    return n;
}

/* Characters that steer a terminal or turn the direction of a line: C0, DEL, C1, U+200E, U+200F, U+2028 to U+202E, U+2066 to U+2069. */
static int steers(const unsigned char *s, int n)
{
    if (n == 1)
        return s[0] < 32 || s[0] == 127;
    if (n == 2)
        return s[0] == 0xc2 && s[1] < 0xa0;
    if (n != 3 || s[0] != 0xe2)
        return 0;
    return (s[1] == 0x80 && (s[2] == 0x8e || s[2] == 0x8f || (s[2] >= 0xa8 && s[2] <= 0xae))) || (s[1] == 0x81 && s[2] >= 0xa6 && s[2] <= 0xa9);
}

/* A name as it is printed: bytes that are no text, that steer a terminal, and backslashes are written \xNN and \\; a line is not broken at its spaces. */
const char *shown(const char *name)
{
    const unsigned char *s = (const unsigned char *)name;
    Text t = {0};
    if (!strcmp(name, "-"))
        return "standard input";
    while (*s) {
        int n = character(s), i;
        if (!n || steers(s, n)) {
            for (i = 0; i < (n ? n : 1); i++)
                add(&t, "\\x%02x", s[i]);
        } else if (*s == '\\')
            add(&t, "\\\\");
        else if (*s == ' ')
            add(&t, "%c", NO_BREAK);
        else
            add(&t, "%.*s", n, (const char *)s);
        s += n ? n : 1;
    }
    return kept_text(&t);
}

/* ---- lines */
/* How many columns a string takes: its characters. */
int columns(const char *s)
{
    int n = 0;
    for (; *s; s++)
        n += ((unsigned char)*s & 0xc0) != 0x80;
    return n;
}

/* The columns of a line: the terminal's, else 80. */
int width(void)
{
    struct winsize w;
    if (isatty(fileno(opt.told)) && ioctl(fileno(opt.told), TIOCGWINSZ, &w) == 0 && w.ws_col >= 40)
        return w.ws_col;
    return 80;
}

static void put_word(FILE *to, const char *word, size_t n)
{
    size_t i;
    for (i = 0; i < n; i++)
        fputc(word[i] == NO_BREAK ? ' ' : word[i], to);
}

/* A paragraph in lines that fit, where its words do: the first begins in a column, the others in another. */
static void put_lines(FILE *to, const char *s, int first, int others)
{
    int column = first, begun = 0, most = to == stderr ? 80 : width();
    fprintf(to, "%*s", first, "");
    while (*s) {
        size_t n = strcspn(s, " ");
        char *word = strndup(s, n);
        int w = word ? columns(word) : (int)n;
        if (begun && column + 1 + w > most) {
            fprintf(to, "\n%*s", others, "");
            column = others;
        } else if (begun) {
            fputc(' ', to);
            column++;
        }
        put_word(to, s, n);
        column += w;
        begun = 1;
        free(word);
        s += n;
        s += *s == ' ';
    }
    fputc('\n', to);
}

void say(int first, int others, const char *format, ...)
{
    Text t = {0};
    va_list words;
    va_start(words, format);
    add_words(&t, format, words);
    va_end(words);
    put_lines(opt.told, text_of(&t), first, others);
    free_text(&t);
}

/* Standard error; the status of wrong use. */
int complain(const char *format, ...)
{
    Text t = {0};
    va_list words;
    va_start(words, format);
    add(&t, "seek: ");
    add_words(&t, format, words);
    va_end(words);
    fflush(opt.told);
    put_lines(stderr, text_of(&t), 0, 2);
    free_text(&t);
    return USAGE;
}

/* A name in so many columns: where it is longer, its end. */
const char *fitted(const char *name, int most)
{
    const char *s = name;
    Text t = {0};
    int w = columns(name);
    if (w > most) {
        for (w -= most - 2; w > 0; w--)
            for (s++; ((unsigned char)*s & 0xc0) == 0x80;)
                s++;
        add(&t, "..");
    }
    for (; *s; s++)
        add(&t, "%c", *s == NO_BREAK ? ' ' : *s);
    return kept_text(&t);
}

/* ---- numbers */
/* A number with commas. */
const char *grouped(uint64_t v)
{
    char plain[32];
    Text t = {0};
    int n = snprintf(plain, sizeof plain, "%" PRIu64, v), i;
    for (i = 0; i < n; i++)
        add(&t, "%s%c", i && (n - i) % 3 == 0 ? "," : "", plain[i]);
    return kept_text(&t);
}

/* A frame number as minutes:seconds. */
const char *clock_of(uint64_t frames)
{
    Text t = {0};
    add(&t, "%02" PRIu64 ":%02" PRIu64, frames / 4500, frames / 75 % 60);
    return kept_text(&t);
}

const char *plural(uint64_t n, const char *one, const char *many) { return n == 1 ? one : many; }

/* "3 hints" */
const char *counted(uint64_t n, const char *one, const char *many)
{
    Text t = {0};
    add(&t, "%s %s", grouped(n), plural(n, one, many));
    return kept_text(&t);
}

const char *area_word(int slot) { return slot ? "multichannel" : "two-channel"; }

/* A number of at most 11 digits; -1 where there is none. */
int digits(const char **s, uint64_t *v)
{
    *v = 0;
    if (**s < '0' || **s > '9')
        return -1;
    for (; **s >= '0' && **s <= '9'; (*s)++) {
        *v = *v * 10 + (uint64_t)(**s - '0');
        if (*v > UINT64_C(99999999999))
            return -1;
    }
    return 0;
}

/* ---- JSON */
const char *truth(int v) { return v ? "true" : "false"; }

/* A byte of a name that is no UTF-8 becomes \udc80 to \udcff, as Python writes such names. */
void json_text(const char *text)
{
    const unsigned char *s = (const unsigned char *)text;
    fputc('"', opt.told);
    while (*s) {
        int n = character(s);
        if (!n)
            fprintf(opt.told, "\\udc%02x", *s);
        else if (*s == '"' || *s == '\\')
            fprintf(opt.told, "\\%c", *s);
        else if (steers(s, n))
            fprintf(opt.told, "\\u%04x", n == 1 ? *s : n == 2 ? (s[0] & 31u) << 6 | (s[1] & 63u) : (s[0] & 15u) << 12 | (s[1] & 63u) << 6 | (s[2] & 63u));
        else
            fwrite(s, 1, (size_t)n, opt.told);
        s += n ? n : 1;
    }
    fputc('"', opt.told);
}

void json_name(const char *key, const char *text)
{
    fprintf(opt.told, "\"%s\":", key);
    json_text(text);
}

void json_number(const char *key, uint64_t v) { fprintf(opt.told, ",\"%s\":%" PRIu64, key, v); }

/* A time, where it is known. */
void json_time(const char *key, int known, uint64_t frames)
{
    if (known)
        fprintf(opt.told, ",\"%s\":\"%s\"", key, clock_of(frames));
    else
        fprintf(opt.told, ",\"%s\":null", key);
}
