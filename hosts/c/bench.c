/*
 * How long an event takes: nanoseconds, the median of several turns over a whole list, each from a fresh station of
 * width 8 with switching on; one by one (`c event`) and in batches of 64 (`c batch`).
 *
 *     bench FILE
 *
 * A line of the file is an event: its kind, live (0 or 1), and the bits of its number in hexadecimal digits.
 */
#define _POSIX_C_SOURCE 199309L

#include <stdio.h>
#include <stdlib.h>
#include <string.h>
#include <time.h>

#include "hullathan.h"

#define TURNS 15

/* The list. */
struct list {
    struct hullathan_event *events;
    size_t length;
    size_t room;
};

/* A way through the list. */
typedef void way_through(struct hullathan_station *s, const struct list *l);

/* What the answers add up to, so that both ways are seen to do the same. */
static unsigned long sum;

static void stop(const char *why)
{
    fprintf(stderr, "bench: %s\n", why);
    exit(EXIT_FAILURE);
}

static void add(struct list *l, struct hullathan_event e)
{
    if (l->length == l->room) {
        l->room = l->room == 0 ? 1024 : 2 * l->room;
        l->events = realloc(l->events, l->room * sizeof e);
        if (l->events == NULL)
            stop("no memory");
    }
    l->events[l->length++] = e;
}

static struct list read_list(const char *name)
{
    struct list l = {NULL, 0, 0};
    struct hullathan_event e;
    unsigned int kind, live, bits;
    FILE *f = fopen(name, "r");
    int fields;

    if (f == NULL)
        stop("the list cannot be opened");
    while ((fields = fscanf(f, "%u %u %x", &kind, &live, &bits)) == 3) {
        e.kind = (unsigned char) kind;
        e.live = (unsigned char) live;
        memcpy(&e.value, &bits, sizeof e.value);
        add(&l, e);
    }
    if (fields != EOF || ferror(f) || l.length == 0)
        stop("the list is none");
    fclose(f);
    return l;
}

static double seconds(void)
{
    struct timespec t;

    clock_gettime(CLOCK_MONOTONIC, &t);
    return (double) t.tv_sec + (double) t.tv_nsec * 1e-9;
}

static void by_event(struct hullathan_station *s, const struct list *l)
{
    struct hullathan_answer a;
    size_t i;

    for (i = 0; i < l->length; i++) {
        a = hullathan_call(s, l->events[i].kind, l->events[i].live, l->events[i].value);
        sum += a.code + a.serial;
    }
}

static void by_batch(struct hullathan_station *s, const struct list *l)
{
    static struct hullathan_batch b;
    size_t i, j;

    for (i = 0; i < l->length; i += b.len) {
        b.len = l->length - i < HULLATHAN_BATCH ? l->length - i : HULLATHAN_BATCH;
        memcpy(b.events, l->events + i, b.len * sizeof b.events[0]);
        if (hullathan_run(s, &b) != HULLATHAN_DONE)
            stop("a batch was refused");
        for (j = 0; j < b.len; j++)
            sum += b.answers[j].code + b.answers[j].serial;
    }
}

static int compare(const void *a, const void *b)
{
    double x = *(const double *) a, y = *(const double *) b;

    return (x > y) - (x < y);
}

/* The median of the turns, and what the answers of one turn add up to. */
static unsigned long measure(const char *name, way_through *way, const struct list *l)
{
    static struct hullathan_station s;
    double taken[TURNS], start;
    int i;

    for (i = 0; i < TURNS; i++) {
        sum = 0;
        if (hullathan_start(&s, HULLATHAN_WIDEST, 1) != HULLATHAN_DONE)
            stop("no station");
        start = seconds();
        way(&s, l);
        taken[i] = seconds() - start;
    }
    qsort(taken, TURNS, sizeof taken[0], compare);
    printf("c %s %.1f\n", name, taken[TURNS / 2] / (double) l->length * 1e9);
    return sum;
}

int main(int argc, char **argv)
{
    struct list l;

    if (argc != 2)
        stop("usage: bench FILE");
    l = read_list(argv[1]);
    if (measure("event", by_event, &l) != measure("batch", by_batch, &l))
        stop("the answers differ");
    free(l.events);
    return fflush(stdout) == 0 ? EXIT_SUCCESS : EXIT_FAILURE;
}
