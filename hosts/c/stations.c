/* Stations that a watch comes to, and what follows on them. */
#include <string.h>

#include "hullathan.h"
#include "stations.h"
#include "test_help.h"
#include "tries.h"

struct hullathan_station fresh, waiting, challenged, switched, rich, bare;

static void send(struct hullathan_station *s, unsigned char kind, float value)
{
    expect(hullathan_call(s, kind, 1, value).code < HULLATHAN_REFUSED, "a good event is accepted");
}

/* CQ at 24 words a minute, answered by DE OH at 12: marks, gaps (below 0) and switch calls (0), in 64ths of a ms. */
static void play(struct hullathan_station *s, size_t events)
{
    static const int keyed[] = {9600,  -3200, 3200,  -3200, 9600,  -3200, 3200,   -9600, 0,      9600,  -3200,
                                9600,  -3200, 3200,  -3200, 9600,  -22400, 0,     19200, -6400,  6400,  -6400,
                                6400,  -19200, 0,    6400,  -44800, 0,    19200,  -6400, 19200,  -6400, 19200,
                                -19200, 0,    6400,  -6400, 6400,  -6400, 6400,   -6400, 6400,   -44800, 0};
    size_t i;

    for (i = 0; i < events && i < sizeof keyed / sizeof keyed[0]; i++) {
        if (keyed[i] > 0)
            send(s, HULLATHAN_MARK, (float) keyed[i] / 64.0f);
        else if (keyed[i] < 0)
            send(s, HULLATHAN_GAP, (float) -keyed[i] / 64.0f);
        else
            send(s, HULLATHAN_SWITCH, 0);
    }
}

/* A tracker and a bank in which as much as can be is held, with places left. */
static int is_rich_tracker(const struct hullathan_tracker *t)
{
    return t->has_wpm && t->has_egap && t->has_hint && t->pair.init_len < HULLATHAN_START_MARKS && t->ring_len >= 1
           && t->ring_len < HULLATHAN_RING && t->recent_len >= 1;
}

static int is_rich_bank(const struct hullathan_bank *b)
{
    return b->challengers_len >= 3 && b->challengers_len < HULLATHAN_WIDEST - 1 && b->has_pending && b->has_side
           && b->has_last_gap && b->streak_len >= 1 && b->streak_len < HULLATHAN_STREAK && b->streak_gaps_len >= 1
           && b->log_len >= 1 && b->log_len < HULLATHAN_LOG && b->challengers[0].tracker.ring_len >= 1
           && b->challengers[2].tracker.ring_len >= 1;
}

/* The first rich station on the air. */
static void find_rich(struct hullathan_station *s)
{
    unsigned long seed;
    struct air air;
    struct hullathan_event e;
    int i;

    for (seed = 1; seed < 10000; seed++) {
        air = air_of(seed);
        hullathan_start(s, HULLATHAN_WIDEST, 1);
        for (i = 0; i < 400; i++) {
            e = next_event(&air);
            hullathan_call(s, e.kind, e.live, e.value);
            if (is_rich_tracker(&s->primary) && is_rich_bank(&s->bank))
                return;
        }
    }
    expect(0, "a rich station is found");
}

/* Marks absent all that may be absent. */
static void strip(struct hullathan_station *s)
{
    size_t i;

    s->primary.has_wpm = 0;
    s->primary.has_egap = 0;
    s->primary.has_hint = 0;
    s->bank.has_side = 0;
    s->bank.has_last_gap = 0;
    s->bank.has_pending = 0;
    for (i = 0; i < s->bank.challengers_len; i++)
        s->bank.challengers[i].origin = HULLATHAN_FROM_STREAK;
}

void make_stations(void)
{
    strcpy(damage, "no damage");
    hullathan_start(&fresh, 1, 0);
    hullathan_start(&waiting, 3, 1);
    play(&waiting, 5);
    hullathan_start(&challenged, 2, 1);
    play(&challenged, 34);
    hullathan_start(&switched, 2, 1);
    play(&switched, 44);
    find_rich(&rich);
    memcpy(&bare, &rich, sizeof bare);
    strip(&bare);
    expect(challenged.bank.challengers_len == 1 && challenged.bank.has_pending, "a rival is chosen");
    expect(switched.serial == 1 && switched.bank.log_len == 1, "a rival has taken over");
}

/* ---- what follows */

void follow(const struct hullathan_station *s, struct trail *t)
{
    struct hullathan_station copy;
    struct air air = air_of(77);
    struct hullathan_event e;
    size_t i;

    memcpy(&copy, s, sizeof copy);
    for (i = 0; i < FOLLOWING; i++) {
        e = next_event(&air);
        t->answers[i] = hullathan_call(&copy, e.kind, e.live, e.value);
    }
    t->reading = hullathan_read(&copy);
}

int same_trail(const struct trail *a, const struct trail *b)
{
    size_t i;

    for (i = 0; i < FOLLOWING; i++) {
        if (!same_answer(&a->answers[i], &b->answers[i]))
            return 0;
    }
    return same_reading(&a->reading, &b->reading);
}
