/*
 * Events one by one and events in batches of any size: the same answers, and the same station, byte for byte, whatever
 * stood in its memory before its start. And what an event does not carry is not looked at.
 */
#include <stdio.h>
#include <string.h>

#include "hullathan.h"
#include "sound.h"
#include "test_help.h"

#define LISTS 60
#define EVENTS 3000

/* What the lists came by, so that a test that meets nothing is seen. */
static unsigned long ready, switched, refused, most, left[HULLATHAN_CLEARED + 1];

static void count(const struct hullathan_answer *a)
{
    size_t i;

    ready += a->code == HULLATHAN_BECAME_READY;
    switched += a->code == HULLATHAN_SWITCHED;
    refused += a->code >= HULLATHAN_REFUSED;
    for (i = 0; i < a->left_len && a->left[i].cause <= HULLATHAN_CLEARED; i++)
        left[a->left[i].cause]++;
    if (a->challengers > most)
        most = a->challengers;
}

/* The next events in a batch whose unused places hold a pattern. */
static void fill(struct hullathan_batch *b, struct air *a, size_t len)
{
    size_t i;

    memset(b, 0x5a, sizeof *b);
    b->len = len;
    for (i = 0; i < len; i++)
        b->events[i] = next_event(a);
}

/* One batch on both stations. */
static void step(struct hullathan_station *one, struct hullathan_station *many, struct air *air, size_t len)
{
    static struct hullathan_batch b, given;
    struct hullathan_answer a;
    struct hullathan_reading x, y;
    size_t i;

    fill(&given, air, len);
    memcpy(&b, &given, sizeof b);
    check(hullathan_run(many, &b) == HULLATHAN_DONE, "a batch is run");
    for (i = 0; i < len; i++) {
        a = hullathan_call(one, given.events[i].kind, given.events[i].live, given.events[i].value);
        check(same_answer(&a, &b.answers[i]), "an answer in a batch is that of a call");
        count(&a);
    }
    check(b.len == len && memcmp(b.events, given.events, sizeof b.events) == 0, "the events of a batch stay");
    check(memcmp(b.answers + len, given.answers + len, (HULLATHAN_BATCH - len) * sizeof b.answers[0]) == 0,
          "answers beyond the events stay");
    x = hullathan_read(one);
    y = hullathan_read(many);
    check(x.code == HULLATHAN_DONE && same_reading(&x, &y), "the same reading");
    check(memcmp(one, many, sizeof *one) == 0, "the same station, byte for byte");
}

/* One list of events, cut at random. */
static void list(unsigned long seed)
{
    struct hullathan_station one, many;
    struct air air = air_of(seed);
    size_t width = throw_below(&air.dice, 4) ? HULLATHAN_WIDEST : (size_t) throw_below(&air.dice, 9);
    unsigned char switching = throw_below(&air.dice, 5) != 0;
    size_t done = 0, len;

    memset(&one, 0x33, sizeof one);
    memset(&many, 0xcc, sizeof many);
    check(hullathan_start(&one, width, switching) == HULLATHAN_DONE, "a station is started");
    check(hullathan_start(&many, width, switching) == HULLATHAN_DONE, "a station is started");
    check(memcmp(&one, &many, sizeof one) == 0, "two starts are the same bytes, whatever stood there");
    while (done < EVENTS) {
        len = throw_below(&air.dice, HULLATHAN_BATCH + 1);
        step(&one, &many, &air, len);
        done += len;
    }
}

/* Whether two forms of an event do the same to a station. */
static int same_event(const struct hullathan_station *s, struct hullathan_event a, struct hullathan_event b)
{
    struct hullathan_station x, y;
    struct hullathan_answer m, n;

    memcpy(&x, s, sizeof x);
    memcpy(&y, s, sizeof y);
    m = hullathan_call(&x, a.kind, a.live, a.value);
    n = hullathan_call(&y, b.kind, b.live, b.value);
    return same_answer(&m, &n) && same_state(&x, &y);
}

/* Live is of a mark only, and any byte but 0; finish, clear and switch have no number. */
static void not_carried(const struct hullathan_station *s)
{
    struct hullathan_event plain, other;
    unsigned int byte;

    memset(&plain, 0, sizeof plain);
    for (plain.kind = 0; plain.kind <= HULLATHAN_SWITCH; plain.kind++) {
        for (byte = 0; byte < 256; byte++) {
            plain.live = plain.kind == HULLATHAN_MARK && byte != 0;
            plain.value = 20;
            other = plain;
            other.live = (unsigned char) byte;
            if (plain.kind == HULLATHAN_FINISH || plain.kind >= HULLATHAN_CLEAR)
                other.value = float_of(0x7fc00000U + byte);
            check(same_event(s, plain, other), "what an event does not carry is not looked at");
        }
    }
    plain.kind = HULLATHAN_MARK;
    other = plain;
    plain.live = 0;
    other.live = 1;
    check(!same_event(s, plain, other), "a mark that is not live does something else");
}

/* Whether the lists met every code, every cause and a full bank. */
static int met(void)
{
    size_t i;

    for (i = 0; i <= HULLATHAN_CLEARED; i++) {
        if (left[i] == 0)
            return 0;
    }
    return ready > 0 && switched > 0 && refused > 0 && most == HULLATHAN_WIDEST - 1;
}

int main(void)
{
    struct hullathan_station s;
    unsigned long seed;

    for (seed = 1; seed <= LISTS; seed++)
        list(seed);
    hullathan_start(&s, HULLATHAN_WIDEST, 1);
    hullathan_call(&s, HULLATHAN_SEED, 0, 20);
    not_carried(&s);
    check(met(), "the lists met every case");
    printf("%d lists of %d events, %lu switches, %lu refusals; ", LISTS, EVENTS, switched, refused);
    return verdict();
}
