/*
 * Damaged memory, field by field: what refusal 1 lists is refused by 1; what is no part of a state is not, and changes
 * no answer. Then the other refusals in their order.
 */
#include <string.h>

#include "hullathan.h"
#include "sound.h"
#include "stations.h"
#include "test_help.h"
#include "tries.h"

/* ---- what refusal 1 lists */

/* The station that is damaged, and what it was made from. */
static struct hullathan_station s;
static const struct hullathan_station *base;

static void begin(const char *what)
{
    memcpy(&s, base, sizeof s);
    strcpy(damage, what);
}

/* The damage is refused by 1, whatever the event. */
static void is_refused(void)
{
    expect(!is_sound(&s), "the damage is one that document 01 lists");
    expect(try_call(&s, HULLATHAN_CLEAR, 0) == HULLATHAN_REFUSED + 1, "refused by 1");
    try_all(&s);
}

/* The damage is not refused. */
static void is_accepted(void)
{
    expect(is_sound(&s), "the damage is none that document 01 lists");
    expect(try_call(&s, HULLATHAN_CLEAR, 0) < HULLATHAN_REFUSED, "not refused");
    try_all(&s);
}

/* The damage is not refused and changes no answer. */
static void is_passed_over(void)
{
    static struct trail was, now;

    is_accepted();
    follow(base, &was);
    follow(&s, &now);
    expect(same_trail(&now, &was), "the damage changes no answer");
}

#define REFUSED(change) (begin(#change), (void) (change), is_refused())
#define ACCEPTED(change) (begin(#change), (void) (change), is_accepted())
#define PASSED_OVER(change) (begin(#change), (void) (change), is_passed_over())

/* A flag has no other value than 0 and 1. */
static void flag(unsigned char *f, const char *name)
{
    unsigned int value;

    for (value = 2; value < 256; value++) {
        begin(name);
        *f = (unsigned char) value;
        is_refused();
    }
}

/* A float: what is no number, and two numbers that are out of its range. */
static void range(float *x, unsigned int below, unsigned int above, const char *name)
{
    unsigned int odd[] = {0x7fc00000, 0xffc00000, 0x7f800001, 0x7f800000, 0xff800000, 0, 0};
    size_t i;

    odd[5] = below;
    odd[6] = above;
    for (i = 0; i < sizeof odd / sizeof odd[0]; i++) {
        begin(name);
        *x = float_of(odd[i]);
        is_refused();
    }
}

/* A held duration: next below 1/64 and next above 262,144. */
static void duration(float *x, const char *name)
{
    range(x, 0x3c7fffff, 0x48800001, name);
    range(x, 0x00000000, 0xc2480000, name);
}

#define FLAG(name) flag(&(name), #name)
#define DURATION(name) duration(&(name), #name)
#define RANGE(name, below, above) range(&(name), below, above, #name)

/* A count: one above its capacity, and more. */
static void count(size_t *n, size_t capacity, const char *name)
{
    size_t many[] = {0, 255, 256, 4294967296UL, (size_t) -1};
    size_t i;

    many[0] = capacity + 1;
    for (i = 0; i < sizeof many / sizeof many[0]; i++) {
        begin(name);
        *n = many[i];
        is_refused();
    }
}

#define ABOVE(name, capacity) count(&(name), capacity, #name)

static void of_a_pair(struct hullathan_pair *p)
{
    FLAG(p->ready);
    FLAG(p->confirmed);
    FLAG(p->placeholder_is_lo);
    ABOVE(p->init_len, HULLATHAN_START_MARKS);
    /* next to 20 and 150, next to 16 and 2,500 */
    RANGE(p->lo, 0x419fffff, 0x43160001);
    RANGE(p->hi, 0x417fffff, 0x451c4001);
    REFUSED(p->lo = -p->lo);
    REFUSED(p->hi = -p->hi);
    REFUSED(p->ready = 0);
    REFUSED((p->init_len = 1, p->init[0] = 0));
    ACCEPTED(p->lo_n = (size_t) -1);
}

static void of_a_tracker(struct hullathan_tracker *t)
{
    FLAG(t->has_wpm);
    FLAG(t->has_egap);
    FLAG(t->has_hint);
    FLAG(t->badlock_recovered);
    FLAG(t->lo_uncorroborated);
    FLAG(t->ring[0].assigned_dit);
    ABOVE(t->ring_len, HULLATHAN_RING);
    ABOVE(t->recent_len, HULLATHAN_RECENT);
    DURATION(t->ring[0].dur_ms);
    DURATION(t->recent[0]);
    RANGE(t->ring[0].pre_lo, 0x419fffff, 0x43160001);
    RANGE(t->ring[0].pre_hi, 0x417fffff, 0x451c4001);
    REFUSED(t->ring[t->ring_len - 1].pre_hi = 0);
    REFUSED(t->recent[t->recent_len - 1] = 0);
    ACCEPTED(t->regime = 4294967295U);
}

/* Next to 0 and to the greatest float, next to 2.2 and 6.0; where they are held. */
static void of_held_numbers(struct hullathan_tracker *t)
{
    RANGE(t->wpm_ema, 0x00000000, 0x80000000);
    RANGE(t->wpm_ema, 0x80000001, 0xc1a00000);
    RANGE(t->mu_egap_ms, 0x00000000, 0x80000000);
    RANGE(t->mu_egap_ms, 0x80000001, 0xc2480000);
    RANGE(t->ratio_hint, 0x400ccccc, 0x40c00001);
    ACCEPTED(t->wpm_ema = float_of(1));
    ACCEPTED(t->mu_egap_ms = float_of(0x7f7fffff));
    ACCEPTED(t->ratio_hint = 2.2f);
    ACCEPTED(t->ratio_hint = 6.0f);
}

static void of_the_primary(void)
{
    struct hullathan_pair *p = &s.primary.pair;

    base = &rich;
    begin("the primary");
    of_a_pair(p);
    of_a_tracker(&s.primary);
    of_held_numbers(&s.primary);
    ACCEPTED(p->lo = 20);
    ACCEPTED(p->lo = 150);
    ACCEPTED(p->hi = 16);
    ACCEPTED(p->hi = 2500);
    base = &waiting;
    begin("an unready primary");
    REFUSED(p->lo = float_of(0x80000000));
    REFUSED(p->hi = float_of(0x80000000));
    REFUSED(p->lo = 50);
    REFUSED(p->hi = 150);
    REFUSED((p->init[3] = 50, p->init[4] = 50, p->init_len = 5));
    REFUSED(p->ready = 1);
    ACCEPTED((p->init[3] = 50, p->init_len = 4));
    DURATION(p->init[0]);
    DURATION(p->init[2]);
}

static void of_a_rival(struct hullathan_hypothesis *h)
{
    unsigned int origin;

    base = &rich;
    begin("a rival");
    of_a_pair(&h->tracker.pair);
    of_a_tracker(&h->tracker);
    FLAG(h->reported);
    for (origin = HULLATHAN_FROM_PRIMARY + 1; origin < 256; origin++)
        REFUSED(h->origin = (unsigned char) origin);
    /* next to -30 and 0 */
    RANGE(h->score, 0xc1f00001, 0x00000001);
    RANGE(h->gap_score, 0xc1f00001, 0x00000001);
    ACCEPTED(h->score = -30);
    ACCEPTED(h->score = float_of(0x80000000));
    /* "other logarithms than its centroids have" */
    REFUSED(h->ln_lo = float_of(bits_of_float(h->ln_lo) + 1));
    REFUSED(h->ln_hi = float_of(bits_of_float(h->ln_hi) - 1));
    REFUSED(h->ln_lo = -h->ln_lo);
    REFUSED(h->ln_hi = float_of(0x7fc00000));
    REFUSED(h->tracker.pair.lo = h->tracker.pair.lo == 50 ? 51.0f : 50.0f);
    /* "one unready" */
    REFUSED((h->tracker.pair.ready = 0, h->tracker.pair.lo = 0, h->tracker.pair.hi = 0, h->tracker.pair.init_len = 0));
    ACCEPTED((h->lead_marks = 4294967295U, h->age_marks = 4294967295U));
    ACCEPTED((h->origin = HULLATHAN_FROM_PRIMARY, h->retain_marks = 4294967295U));
}

static void of_the_bank(void)
{
    struct hullathan_bank *b = &s.bank;

    base = &rich;
    begin("the bank");
    FLAG(b->switching);
    FLAG(b->has_side);
    FLAG(b->streak_side);
    FLAG(b->has_last_gap);
    FLAG(b->has_pending);
    FLAG(b->log[0].applied);
    ABOVE(b->width, HULLATHAN_WIDEST);
    ABOVE(b->challengers_len, HULLATHAN_WIDEST);
    ABOVE(b->streak_len, HULLATHAN_STREAK);
    ABOVE(b->streak_gaps_len, HULLATHAN_STREAK);
    ABOVE(b->log_len, HULLATHAN_LOG);
    ABOVE(b->pending, b->challengers_len - 1);
    REFUSED(b->width = 0);
    REFUSED(b->width = b->challengers_len);
    REFUSED(b->streak_gaps_len = b->streak_len + 1);
    DURATION(b->streak[0]);
    DURATION(b->streak_gaps[0]);
    DURATION(b->last_gap);
    DURATION(b->log[0].from_dit_ms);
    DURATION(b->log[0].to_dit_ms);
    RANGE(b->primary_score, 0xc1f00001, 0x00000001);
    RANGE(b->primary_gap_score, 0xc1f00001, 0x00000001);
    ACCEPTED(b->log[0].mark_index = (unsigned long) -1);
}

static void of_the_station(void)
{
    struct hullathan_bank *b = &s.bank;

    base = &rich;
    begin("the station");
    /* "a serial above started or held twice" */
    REFUSED(s.serial = b->started + 1);
    REFUSED(s.serial = b->challengers[0].serial);
    REFUSED(b->challengers[0].serial = b->started + 1);
    REFUSED(b->challengers[1].serial = (unsigned long) -1);
    REFUSED(b->challengers[0].serial = s.serial);
    REFUSED(b->challengers[2].serial = b->challengers[0].serial);
    /* "started above the accepted calls, counts out of balance" */
    REFUSED(s.accepted = b->started - 1);
    REFUSED(s.accepted = 0);
    REFUSED(b->started++);
    REFUSED(b->challengers_len--);
    REFUSED(s.twins++);
    REFUSED(s.outscored++);
    REFUSED(s.aged++);
    REFUSED(s.replaced++);
    REFUSED(s.cleared++);
    REFUSED(s.cleared = (unsigned long) -1);
    /* a sum that is the same only because it wraps */
    REFUSED((s.twins += 1UL << 63, s.cleared += 1UL << 63));
    REFUSED((s.aged = (unsigned long) -1, s.replaced += 1 + base->aged));
    ACCEPTED((s.twins += s.cleared, s.cleared = 0));
    ACCEPTED((b->has_pending = 0, b->challengers_len--, s.cleared++));
}

/* ---- what is no part of a state */

/* Numbers marked absent. */
static void absent(void)
{
    float odd = float_of(0x7fc00000);

    base = &bare;
    begin("numbers marked absent");
    PASSED_OVER(s.primary.wpm_ema = odd);
    PASSED_OVER(s.primary.mu_egap_ms = -1);
    PASSED_OVER(s.primary.ratio_hint = odd);
    PASSED_OVER(s.bank.streak_side = 255);
    PASSED_OVER(s.bank.streak_side = 2);
    PASSED_OVER(s.bank.last_gap = odd);
    PASSED_OVER(s.bank.pending = (size_t) -1);
    PASSED_OVER(s.bank.challengers[0].retain_marks = 4294967295U);
}

/* The places of all arrays beyond their counts, filled with a byte. */
#define FILL(array, len) memset((array) + (len), byte, sizeof(array) - (len) * sizeof (array)[0])

static void fill_beyond(int byte)
{
    struct hullathan_tracker *t = &s.primary;
    struct hullathan_bank *b = &s.bank;

    FILL(t->pair.init, t->pair.init_len);
    FILL(t->ring, t->ring_len);
    FILL(t->recent, t->recent_len);
    FILL(b->challengers, b->challengers_len);
    FILL(b->streak, b->streak_len);
    FILL(b->streak_gaps, b->streak_gaps_len);
    FILL(b->log, b->log_len);
}

/* Places beyond a count. */
static void beyond(const struct hullathan_station *good, const char *name)
{
    int byte;

    base = good;
    for (byte = 0; byte < 256; byte++) {
        begin(name);
        fill_beyond(byte);
        is_passed_over();
    }
    PASSED_OVER(s.bank.challengers[7].origin = 3);
    PASSED_OVER(s.bank.challengers[7].score = float_of(0x7fc00000));
    PASSED_OVER(s.bank.challengers[7].tracker.pair.ready = 255);
    PASSED_OVER(s.bank.challengers[7].serial = s.serial);
    PASSED_OVER(s.bank.challengers[7].tracker.ring_len = (size_t) -1);
    PASSED_OVER(s.bank.log[15].applied = 255);
}

/* The pads, filled with a byte. */
#define PAD(name) memset(name, byte, sizeof(name))

static void pad_tracker(struct hullathan_tracker *t, int byte)
{
    size_t i;

    PAD(t->pair.pad_placeholder_is_lo);
    for (i = 0; i < HULLATHAN_RING; i++)
        PAD(t->ring[i].pad_assigned_dit);
    PAD(t->pad_has_wpm);
    PAD(t->pad_recent);
    PAD(t->pad_has_egap);
    PAD(t->pad_has_hint);
    PAD(t->pad_lo_uncorroborated);
}

static void pad_bank(struct hullathan_bank *b, int byte)
{
    size_t i;

    for (i = 0; i < HULLATHAN_WIDEST; i++) {
        pad_tracker(&b->challengers[i].tracker, byte);
        PAD(b->challengers[i].pad_origin);
        PAD(b->challengers[i].pad_reported);
        PAD(b->challengers[i].pad_ln_hi);
    }
    for (i = 0; i < HULLATHAN_LOG; i++)
        PAD(b->log[i].pad_applied);
    PAD(b->pad_switching);
    PAD(b->pad_primary_gap_score);
    PAD(b->pad_has_last_gap);
    PAD(b->pad_has_pending);
}

/* Pads are never looked at, and an accepted call leaves zeros in them (is_tidy in tries.c). */
static void pads(const struct hullathan_station *good, const char *name)
{
    int byte;

    base = good;
    for (byte = 1; byte < 256; byte++) {
        begin(name);
        pad_tracker(&s.primary, byte);
        pad_bank(&s.bank, byte);
        is_passed_over();
    }
}

/* ---- the other refusals */

/* A batch of events that are all refused, on a station with bytes in what is no part of it: they stay. */
static void all_refused(const struct hullathan_station *good, const char *name)
{
    static struct hullathan_batch b;
    struct hullathan_station was;

    base = good;
    begin(name);
    fill_beyond(0xa7);
    pad_tracker(&s.primary, 0xa7);
    pad_bank(&s.bank, 0xa7);
    memcpy(&was, &s, sizeof was);
    for (b.len = 0; b.len < HULLATHAN_BATCH; b.len++) {
        b.events[b.len].kind = (unsigned char) (b.len % 2 ? HULLATHAN_MARK : 200);
        b.events[b.len].value = -1;
    }
    expect(hullathan_run(&s, &b) == HULLATHAN_DONE, "a batch of refused events is run");
    expect(memcmp(&s, &was, sizeof s) == 0, "a batch of refused events changes no byte");
    try_run(&was, &b);
    b.events[HULLATHAN_BATCH - 1].kind = HULLATHAN_CLEAR;
    try_run(&was, &b);
}

/* A batch of marks and gaps on a station that is full before its end. */
static void run_to_the_end(void)
{
    static struct hullathan_batch b;
    size_t i;

    b.len = HULLATHAN_BATCH;
    for (i = 0; i < b.len; i++) {
        b.events[i].kind = i % 2 ? HULLATHAN_GAP : HULLATHAN_MARK;
        b.events[i].value = 50;
    }
    try_run(&s, &b);
}

/* Refusal 2 stands before those of the event, and after 1. */
static void full(unsigned long *n, const char *name)
{
    float odd = float_of(0x7fc00000);
    unsigned int kind;

    begin(name);
    *n = 4294967295UL;
    for (kind = 0; kind < 256; kind++)
        expect(try_call(&s, (unsigned char) kind, odd) == HULLATHAN_REFUSED + 2, "a full station refuses by 2");
    try_all(&s);
    *n = 4294967294UL;
    expect(try_call(&s, HULLATHAN_CLEAR, 0) < HULLATHAN_REFUSED, "one less is accepted");
    *n = 4294967291UL;
    run_to_the_end();
    *n = (unsigned long) -1;
    try_all(&s);
    s.bank.width = 0;
    expect(try_call(&s, HULLATHAN_CLEAR, 0) == HULLATHAN_REFUSED + 1, "an unsound one refuses by 1");
}

/* Kinds that no event has. */
static void kinds(void)
{
    unsigned int kind;

    for (kind = HULLATHAN_SWITCH + 1; kind < 256; kind++) {
        base = &rich;
        begin("a kind that no event has");
        expect(try_call(&s, (unsigned char) kind, 50) == HULLATHAN_REFUSED + 12, "refused by 12");
        s.bank.started++;
        expect(try_call(&s, (unsigned char) kind, 50) == HULLATHAN_REFUSED + 1, "refused by 1 on an unsound station");
    }
}

/* "At a switch: a choice pending and the primary .. unready." Only there. */
static void pending_unready(void)
{
    struct hullathan_pair *p = &s.primary.pair;

    base = &rich;
    begin("a choice pending and the primary unready");
    p->ready = 0;
    p->lo = 0;
    p->hi = 0;
    p->init_len = 0;
    expect(is_sound(&s), "sound but for a switch");
    expect(try_call(&s, HULLATHAN_SWITCH, 0) == HULLATHAN_REFUSED + 1, "refused by 1 at a switch");
    expect(try_call(&s, HULLATHAN_CLEAR, 0) == HULLATHAN_DONE, "not refused else");
    try_all(&s);
}

int main(void)
{
    make_stations();
    of_the_primary();
    of_a_rival(&s.bank.challengers[0]);
    of_a_rival(&s.bank.challengers[2]);
    of_the_bank();
    of_the_station();
    absent();
    beyond(&fresh, "places beyond the counts of a fresh station");
    beyond(&challenged, "places beyond the counts of a challenged station");
    beyond(&switched, "places beyond the counts of a switched station");
    beyond(&rich, "places beyond the counts of a rich station");
    pads(&fresh, "pads of a fresh station");
    pads(&rich, "pads of a rich station");
    all_refused(&waiting, "a batch of refused events on an unready station");
    all_refused(&rich, "a batch of refused events on a rich station");
    base = &rich;
    full(&s.bank.marks_seen, "marks counted to the end");
    full(&s.bank.gaps_seen, "gaps counted to the end");
    full(&s.accepted, "calls counted to the end");
    kinds();
    pending_unready();
    return verdict();
}
