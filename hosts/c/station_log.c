/*
 * The station log, an example: reads a journal of keyed lengths from standard input and answers each line on
 * standard output, as document 01's "Journal program" says. With -b the events go to the station in batches.
 *
 *     station_log [-b] < JOURNAL
 */
#include <errno.h>
#include <stdio.h>
#include <stdlib.h>
#include <string.h>

#include "hullathan.h"

#define LINE_MOST 80            /* bytes of a line, its newline among them */
#define LINES_MOST 4294967295UL /* lines that are read */
#define FIELDS_MOST 3
#define DIGITS_MOST 8
#define NUMBER_MOST 16777216L /* what a number above it counts as, of a seed or a hint */
#define TICKS_ABOVE 16777218L /* .. of a mark or a gap: refused by 7 */
#define TICKS_A_MS 64.0f
#define NO_KIND 255 /* no event has it: a bad line goes to the station as this and is refused by 12 */

/* A line: its bytes before the newline, as many as fit, and whether it had a newline. */
struct line {
    char bytes[LINE_MOST];
    size_t length;
    int ended;
};

/* A field of a line. */
struct field {
    const char *at;
    size_t length;
};

/* What a line says: its letter, `?` if it is bad; of a `W` its two numbers, of another its event. */
struct entry {
    char letter;
    size_t width;
    unsigned char switching;
    struct hullathan_event event;
};

/* The form of a line: its letter, how many fields it has, and the kind of its event. */
struct form {
    char letter;
    size_t fields;
    unsigned char kind;
};

static const struct form forms[] = {
    {'W', 3, NO_KIND},        {'M', 3, HULLATHAN_MARK},   {'G', 2, HULLATHAN_GAP},   {'S', 2, HULLATHAN_SEED},
    {'H', 2, HULLATHAN_HINT}, {'F', 1, HULLATHAN_FINISH}, {'C', 1, HULLATHAN_CLEAR}, {'X', 1, HULLATHAN_SWITCH},
};

/* The station, whether there is one, the events that wait for their answers, and why reading failed. */
struct watch {
    struct hullathan_station station;
    int standing;
    int unread;
    struct hullathan_batch batch;
    char letters[HULLATHAN_BATCH];
};

/* ---- reading */

/* The next line; 0 where there is none. Nothing after the last newline is no line. */
static int read_line(struct line *l)
{
    int c;

    l->length = 0;
    while ((c = getchar()) != EOF && c != '\n') {
        if (l->length < LINE_MOST)
            l->bytes[l->length++] = (char) c;
    }
    l->ended = c == '\n';
    return l->ended || (l->length > 0 && !ferror(stdin));
}

/* The fields that single tabs part, and how many; one more than the most where there are too many. */
static size_t cut(const struct line *l, struct field *f)
{
    size_t i, n = 0;

    f[0].at = l->bytes;
    f[0].length = 0;
    for (i = 0; i < l->length; i++) {
        if (l->bytes[i] != '\t') {
            f[n].length++;
        } else if (++n < FIELDS_MOST) {
            f[n].at = l->bytes + i + 1;
            f[n].length = 0;
        } else {
            return FIELDS_MOST + 1;
        }
    }
    return n + 1;
}

/* "Whole numbers have 1 to 8 digits." -1 where the field is none. */
static long number_of(const struct field *f)
{
    long n = 0;
    size_t i;

    if (f->length < 1 || f->length > DIGITS_MOST)
        return -1;
    for (i = 0; i < f->length; i++) {
        if (f->at[i] < '0' || f->at[i] > '9')
            return -1;
        n = n * 10 + (f->at[i] - '0');
    }
    return n;
}

/* "one digit, 0 or 1". -1 where the field is neither. */
static int flag_of(const struct field *f)
{
    if (f->length != 1 || (f->at[0] != '0' && f->at[0] != '1'))
        return -1;
    return f->at[0] - '0';
}

/* The form of a line with this first field and so many in all; null where there is none. */
static const struct form *form_of(const struct field *first, size_t fields)
{
    size_t i;

    for (i = 0; i < sizeof forms / sizeof forms[0]; i++) {
        if (first->length == 1 && first->at[0] == forms[i].letter && fields == forms[i].fields)
            return &forms[i];
    }
    return NULL;
}

/* The number of an event as its kind counts it: ticks to ms, 64ths to a ratio, a speed as it is. */
static float value_of(unsigned char kind, long n)
{
    if (n > NUMBER_MOST)
        n = kind == HULLATHAN_MARK || kind == HULLATHAN_GAP ? TICKS_ABOVE : NUMBER_MOST;
    return kind == HULLATHAN_SEED ? (float) n : (float) n / TICKS_A_MS;
}

/* What a line says that is no longer than a line may be. */
static int fill(struct entry *e, const struct line *l)
{
    struct field f[FIELDS_MOST];
    size_t fields = cut(l, f);
    const struct form *form = form_of(&f[0], fields);
    long number = 0;
    int flag = 0;

    if (form == NULL)
        return 0;
    if (fields >= 2 && (number = number_of(&f[1])) < 0)
        return 0;
    if (fields >= 3 && (flag = flag_of(&f[2])) < 0)
        return 0;
    e->letter = form->letter;
    e->width = (size_t) number;
    e->switching = (unsigned char) flag;
    e->event.kind = form->kind;
    e->event.live = (unsigned char) flag;
    e->event.value = value_of(form->kind, number);
    return 1;
}

/* What a line says, to a watch that has a station or has none. */
static struct entry entry_of(const struct line *l, int standing)
{
    static const struct entry bad = {'?', 0, 0, {NO_KIND, 0, {0, 0}, 0}};
    struct entry e = bad;

    if (l->ended && l->length < LINE_MOST && fill(&e, l) && (e.letter == 'W') != standing)
        return e;
    return bad;
}

/* ---- answering */

/* The eight hexadecimal digits of a float are those of its bits. */
static unsigned int bits_of(float x)
{
    unsigned int bits;

    memcpy(&bits, &x, sizeof bits);
    return bits;
}

/* A line of the log: "the letter, code, dit and dah .., primary serial, challenger count". */
static void print(char letter, const struct hullathan_answer *a)
{
    int refused = a->code >= HULLATHAN_REFUSED;

    printf("%c\t%s%d\t%08X\t%08X\t%lu\t%lu\n", letter, refused ? "R" : "", a->code % HULLATHAN_REFUSED,
           bits_of(a->dit_ms), bits_of(a->dah_ms), a->serial, (unsigned long) a->challengers);
}

/* Before there is a station: "only `W` is good", and "zeros stand for the station". */
static void begin(struct watch *w, const struct entry *e)
{
    struct hullathan_answer a;

    memset(&a, 0, sizeof a);
    a.code = HULLATHAN_REFUSED + 12;
    if (e->letter == 'W') {
        a.code = hullathan_start(&w->station, e->width, e->switching);
        w->standing = a.code == HULLATHAN_DONE;
    }
    print(e->letter, &a);
}

/* Runs the events that wait, and prints their answers. */
static void run(struct watch *w)
{
    size_t i;

    if (hullathan_run(&w->station, &w->batch) != HULLATHAN_DONE) {
        fputs("station_log: a batch was refused\n", stderr);
        exit(EXIT_FAILURE);
    }
    for (i = 0; i < w->batch.len; i++)
        print(w->letters[i], &w->batch.answers[i]);
    w->batch.len = 0;
}

/* One event, at once or with others. */
static void handle(struct watch *w, const struct entry *e, int batched)
{
    struct hullathan_answer a;

    if (!batched) {
        a = hullathan_call(&w->station, e->event.kind, e->event.live, e->event.value);
        print(e->letter, &a);
        return;
    }
    w->letters[w->batch.len] = e->letter;
    w->batch.events[w->batch.len++] = e->event;
    if (w->batch.len == HULLATHAN_BATCH)
        run(w);
}

/* The whole journal. What comes after the last line that is read is taken and not answered. */
static void answer_all(struct watch *w, int batched)
{
    struct line l;
    struct entry e;
    unsigned long lines = 0;

    while (!ferror(stdout) && read_line(&l)) {
        if (lines == LINES_MOST)
            continue;
        lines++;
        e = entry_of(&l, w->standing);
        if (w->standing)
            handle(w, &e, batched);
        else
            begin(w, &e);
    }
    w->unread = errno;
    if (w->batch.len > 0)
        run(w);
}

/* Says on standard error what went wrong, with the reason that the system gives. */
static int failed(const char *what, int reason)
{
    fprintf(stderr, "station_log: %s: %s\n", what, strerror(reason));
    return EXIT_FAILURE;
}

int main(int argc, char **argv)
{
    static struct watch w;
    int batched = argc == 2 && strcmp(argv[1], "-b") == 0;

    if (argc > 1 && !batched) {
        fputs("usage: station_log [-b] < JOURNAL\n", stderr);
        return EXIT_FAILURE;
    }
    if (!HULLATHAN_FITS()) {
        fprintf(stderr, "station_log: libhullathan.a has version %u, hullathan.h %u, or other sizes\n",
                hullathan_version(), HULLATHAN_VERSION);
        return EXIT_FAILURE;
    }
    answer_all(&w, batched);
    if (fflush(stdout) != 0 || ferror(stdout))
        return failed("standard output cannot be written", errno);
    if (ferror(stdin))
        return failed("standard input cannot be read", w.unread);
    return 0;
}
