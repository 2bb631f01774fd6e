/*
 * Damaged memory, by its bytes: patterns, random bytes, single bytes of good stations, batches and starts on any
 * bytes. Whatever stands there, each call returns and does what document 01 says. Fields by name: test_fields.c.
 */
#include <stdio.h>
#include <string.h>

#include "hullathan.h"
#include "sound.h"
#include "stations.h"
#include "test_help.h"
#include "tries.h"

#define RANDOM_STATIONS 20000
#define RANDOM_SPANS 10000 /* of each good station */

/* ---- whole stations of patterns and of random bytes */

static void patterns(void)
{
    struct hullathan_station s;
    int byte;

    for (byte = 0; byte < 256; byte++) {
        memset(&s, byte, sizeof s);
        sprintf(damage, "all bytes 0x%02x", (unsigned int) byte);
        expect(!is_sound(&s), "no pattern is a station");
        try_all(&s);
    }
}

/* Random bytes, so many from a place on. */
static void scatter(struct hullathan_station *s, struct dice *d, size_t place, size_t bytes)
{
    unsigned char *at = (unsigned char *) s;
    size_t i;

    for (i = place; i < place + bytes && i < sizeof *s; i++)
        at[i] = (unsigned char) (throw_all(d) >> 24);
}

static void random_stations(void)
{
    struct hullathan_station s;
    struct dice d = {123456789};
    long i;

    memset(&s, 0, sizeof s);
    for (i = 0; i < RANDOM_STATIONS; i++) {
        scatter(&s, &d, 0, sizeof s);
        sprintf(damage, "random bytes, number %ld", i);
        try_all(&s);
    }
}

/* A good station with some random bytes in it: small ones among them, which come nearer to a count or a flag. */
static void random_spans(const struct hullathan_station *good, const char *name)
{
    struct hullathan_station s;
    struct dice d = {987654321};
    size_t place, bytes;
    long i;

    for (i = 0; i < RANDOM_SPANS; i++) {
        memcpy(&s, good, sizeof s);
        place = throw_below(&d, sizeof s);
        bytes = 1 + throw_below(&d, i % 2 ? 8 : 64);
        if (i % 3)
            scatter(&s, &d, place, bytes);
        else
            ((unsigned char *) &s)[place] = (unsigned char) throw_below(&d, 16);
        sprintf(damage, "%s, random bytes at %lu, number %ld", name, (unsigned long) place, i);
        try_call(&s, HULLATHAN_CLEAR, 0);
        try_call(&s, (unsigned char) throw_below(&d, 8), 60);
        try_read(&s);
    }
}

/* Each single byte changed: refused by 1 where it is no sound station now, answered alike where it is the same. */
static void single_bytes(const struct hullathan_station *good, const char *name)
{
    static const unsigned char flips[] = {0xff, 0x01, 0x02, 0x80};
    static struct trail was, now;
    struct hullathan_station s;
    size_t place, i;

    follow(good, &was);
    for (place = 0; place < sizeof s; place++) {
        for (i = 0; i < sizeof flips; i++) {
            memcpy(&s, good, sizeof s);
            ((unsigned char *) &s)[place] ^= flips[i];
            sprintf(damage, "%s, byte %lu changed by 0x%02x", name, (unsigned long) place, (unsigned int) flips[i]);
            try_call(&s, HULLATHAN_CLEAR, 0);
            try_call(&s, (unsigned char) ((place + i) % 8), 60);
            try_read(&s);
            if (i == 0 && same_state(&s, good)) {
                follow(&s, &now);
                expect(same_trail(&now, &was), "a place that is no part of the state changes no answer");
            }
        }
    }
}

/* ---- batches and starts */

/* Batches that are too long, and events of any bytes. */
static void batches(void)
{
    static const size_t lengths[] = {0, 1, 63, 64, 65, 66, 128, 255, 256, 4294967296UL, 1UL << 60, (size_t) -1};
    static struct hullathan_batch b;
    struct hullathan_station s;
    struct dice d = {5};
    size_t i, j;

    for (i = 0; i < 2000; i++) {
        for (j = 0; j < sizeof b; j++)
            ((unsigned char *) &b)[j] = (unsigned char) (throw_all(&d) >> 16);
        if (i % 8)
            b.len = lengths[i % (sizeof lengths / sizeof lengths[0])];
        sprintf(damage, "a batch of random bytes, length %lu", (unsigned long) b.len);
        for (j = 0; i % 2 && j < HULLATHAN_BATCH; j++)
            b.events[j].kind %= 8;
        try_run(&rich, &b);
    }
    memcpy(&s, &rich, sizeof s);
    s.twins++;
    strcpy(damage, "a batch on an unsound station");
    b.len = 1;
    try_run(&s, &b);
}

/* A start on any bytes, of any width. */
static void starts(void)
{
    static const size_t widths[] = {0, 1, 2, 7, 8, 9, 255, 256, 4294967297UL, (size_t) -1};
    struct hullathan_station s;
    size_t i;
    unsigned int byte;

    for (i = 0; i < sizeof widths / sizeof widths[0]; i++) {
        for (byte = 0; byte < 256; byte++) {
            sprintf(damage, "a start of width %lu, switching %u", (unsigned long) widths[i], byte);
            memset(&s, (int) byte, sizeof s);
            try_start(&s, widths[i], (unsigned char) byte);
            try_start(&rich, widths[i], (unsigned char) byte);
        }
    }
}

/* ---- all of it */

static void on_each(void (*test)(const struct hullathan_station *, const char *))
{
    test(&fresh, "a fresh station");
    test(&waiting, "an unready station");
    test(&challenged, "a challenged station");
    test(&switched, "a switched station");
    test(&rich, "a rich station");
    test(&bare, "a bare station");
}

int main(void)
{
    make_stations();
    patterns();
    random_stations();
    on_each(random_spans);
    on_each(single_bytes);
    batches();
    starts();
    return verdict();
}
