/*
 * The switch with a lent tracker: against the rules written once more in C, byte for byte, and against the switch of a
 * station; with refusals in their order, and on memory of any bytes, which a refused call leaves as it was.
 */
#include <stdio.h>
#include <string.h>

#include "hullathan.h"
#include "sound.h"
#include "stations.h"
#include "test_help.h"
#include "tries.h"

#define WATCHES 60
#define EVENTS 2500
#define DAMAGED 20000

/* ---- the rules: manta's take_switch, and document 01's serials */

/* "Switch records kept (a bounded ring)": the oldest leaves where there are 16. */
static void push_log(struct hullathan_bank *b, float from_dit_ms, float to_dit_ms, unsigned char applied)
{
    struct hullathan_switch_record r;

    memset(&r, 0, sizeof r);
    r.mark_index = b->marks_seen;
    r.from_dit_ms = from_dit_ms;
    r.to_dit_ms = to_dit_ms;
    r.applied = applied;
    if (b->log_len == HULLATHAN_LOG)
        memmove(b->log, b->log + 1, (size_t) --b->log_len * sizeof r);
    b->log[b->log_len++] = r;
}

/* The chosen rival and the primary change places. */
static void exchange(struct hullathan_bank *b, struct hullathan_tracker *primary, unsigned long *serial)
{
    struct hullathan_hypothesis *c = &b->challengers[b->pending];
    struct hullathan_hypothesis was = *c;

    push_log(b, primary->pair.lo, c->tracker.pair.lo, 1);
    c->tracker = *primary;
    c->score = b->primary_score;
    c->gap_score = b->primary_gap_score;
    c->serial = *serial;
    c->origin = HULLATHAN_FROM_PRIMARY;
    c->retain_marks = 24;
    c->lead_marks = 0;
    c->age_marks = 0;
    c->reported = 0;
    c->ln_lo = ln_of(primary->pair.lo);
    c->ln_hi = ln_of(primary->pair.hi);
    *primary = was.tracker;
    primary->badlock_recovered = 0;
    *serial = was.serial;
    b->primary_score = was.score;
    b->primary_gap_score = was.gap_score;
    b->streak_len = 0;
    b->streak_gaps_len = 0;
    b->has_side = 0;
}

/* What the call does to what is sound; its code. */
static unsigned char switched_by(struct hullathan_bank *b, struct hullathan_tracker *primary, unsigned long *serial)
{
    struct hullathan_hypothesis *c;

    if (!b->has_pending)
        return HULLATHAN_NOTHING;
    c = &b->challengers[b->pending];
    b->has_pending = 0;
    if (b->switching) {
        exchange(b, primary, serial);
        return HULLATHAN_SWITCHED;
    }
    if (!c->reported)
        push_log(b, primary->pair.lo, c->tracker.pair.lo, 0);
    c->reported = 1;
    return HULLATHAN_NOTHING;
}

/* ---- one call, held to the rules */

/* What is lent, between bytes that nobody may touch. */
struct lent {
    unsigned char before[64];
    struct hullathan_bank bank;
    unsigned char between[64];
    struct hullathan_tracker primary;
    unsigned char after[64];
    unsigned long serial;
    unsigned char last[64];
};

static struct lent lent, said;

static void lend(const struct hullathan_bank *b, const struct hullathan_tracker *primary, unsigned long serial)
{
    memset(&lent, 0xc5, sizeof lent);
    memcpy(&lent.bank, b, sizeof *b);
    memcpy(&lent.primary, primary, sizeof *primary);
    lent.serial = serial;
    memcpy(&said, &lent, sizeof said);
}

/* What must be found where the call is not refused. */
static unsigned char foresee(void)
{
    struct hullathan_bank bank;
    struct hullathan_tracker tracker;
    unsigned char code = switched_by(&said.bank, &said.primary, &said.serial);

    state_of_bank(&bank, &said.bank);
    memcpy(&said.bank, &bank, sizeof bank);
    if (code == HULLATHAN_SWITCHED) {
        state_of_tracker(&tracker, &said.primary);
        memcpy(&said.primary, &tracker, sizeof tracker);
    }
    return code;
}

static unsigned char try_switch(const struct hullathan_bank *b, const struct hullathan_tracker *primary,
                                unsigned long serial)
{
    unsigned int n = switch_refusal(b, primary);
    unsigned char code, right = (unsigned char) (HULLATHAN_REFUSED + n);

    lend(b, primary, serial);
    if (n == 0)
        right = foresee();
    code = hullathan_bank_take_switch(&lent.bank, &lent.primary, &lent.serial);
    expect(code == right, "a switch has the code that document 01 gives it");
    expect(memcmp(&lent.primary, &said.primary, sizeof lent.primary) == 0, "the tracker, every byte of it");
    expect(memcmp(&lent.bank, &said.bank, sizeof lent.bank) == 0, "the bank, every byte of it");
    expect(memcmp(&lent, &said, sizeof lent) == 0, "the serial, and nothing beside what is lent");
    return code;
}

/* ---- on the air */

/* What the watches came by, so that a test that meets nothing is seen. */
static unsigned long exchanged, logged, nothing, full_logs;

/* The switch alone does what the station's does. */
static void beside_the_station(const struct hullathan_station *s)
{
    struct hullathan_station other;
    unsigned char code = try_switch(&s->bank, &s->primary, s->serial);

    memcpy(&other, s, sizeof other);
    expect(hullathan_call(&other, HULLATHAN_SWITCH, 0, 0).code == code, "the station's switch has the same code");
    expect(memcmp(&other.bank, &lent.bank, sizeof other.bank) == 0
               && memcmp(&other.primary, &lent.primary, sizeof other.primary) == 0 && other.serial == lent.serial,
           "the station's switch does the same");
    exchanged += code == HULLATHAN_SWITCHED;
    logged += code == HULLATHAN_NOTHING && lent.bank.log_len != s->bank.log_len;
    nothing += code == HULLATHAN_NOTHING && !s->bank.has_pending;
    full_logs += code == HULLATHAN_SWITCHED && s->bank.log_len == HULLATHAN_LOG;
}

static void watch(unsigned long seed)
{
    struct hullathan_station s;
    struct air air = air_of(seed);
    struct hullathan_event e;
    int i;

    hullathan_start(&s, 2 + seed % 7, seed % 3 != 0);
    for (i = 0; i < EVENTS; i++) {
        e = next_event(&air);
        hullathan_call(&s, e.kind, e.live, e.value);
        if (s.bank.has_pending || i % 50 == 0)
            beside_the_station(&s);
    }
}

static void watches(void)
{
    unsigned long seed;

    for (seed = 1; seed <= WATCHES; seed++) {
        sprintf(damage, "watch %lu", seed);
        watch(seed);
    }
    expect(exchanged > 100 && logged > 20 && nothing > 100 && full_logs > 0, "the watches met every case");
}

/* ---- what is no part of a state: bytes there stay where nothing is exchanged, and are zeros in what is found */

static void beyond(void)
{
    struct hullathan_bank b;
    struct hullathan_tracker t;
    int byte;

    for (byte = 0; byte < 256; byte++) {
        sprintf(damage, "bytes 0x%02x in what is no part of a state", (unsigned int) byte);
        memcpy(&b, &challenged.bank, sizeof b);
        memcpy(&t, &challenged.primary, sizeof t);
        memset(t.pad_recent, byte, sizeof t.pad_recent);
        memset(t.ring + t.ring_len, byte, (HULLATHAN_RING - t.ring_len) * sizeof t.ring[0]);
        memset(&b.challengers[7], byte, sizeof b.challengers[7]);
        memset(b.challengers[0].pad_origin, byte, sizeof b.challengers[0].pad_origin);
        t.has_hint = 0;
        memset(&t.ratio_hint, byte, sizeof t.ratio_hint);
        expect(try_switch(&b, &t, 7) == HULLATHAN_SWITCHED, "exchanged");
        b.challengers[0].tracker.badlock_recovered = 1;
        expect(try_switch(&b, &t, 7) == HULLATHAN_SWITCHED, "exchanged, and the rival's mending is told to nobody");
        b.switching = 0;
        expect(try_switch(&b, &t, 7) == HULLATHAN_NOTHING, "written into the log");
        b.has_pending = 0;
        expect(try_switch(&b, &t, 7) == HULLATHAN_NOTHING, "nothing at all");
    }
}

/* ---- refusals in their order, and damaged memory */

static void refusals(void)
{
    struct hullathan_bank b;
    struct hullathan_tracker t;

    strcpy(damage, "refusals in their order");
    memcpy(&b, &challenged.bank, sizeof b);
    memcpy(&t, &challenged.primary, sizeof t);
    /* bytes that a refused call leaves too */
    memset(b.pad_has_pending, 0x5a, sizeof b.pad_has_pending);
    memset(t.pad_recent, 0x5a, sizeof t.pad_recent);
    expect(try_switch(&b, &t, (unsigned long) -1) == HULLATHAN_SWITCHED, "any serial is lent");
    t.regime++;
    expect(try_switch(&b, &t, 0) == HULLATHAN_SWITCHED, "another tracker than the bank's station has");
    expect(try_switch(&b, &fresh.primary, 0) == HULLATHAN_REFUSED + 1, "a choice pending and the tracker unready");
    b.marks_seen = 4294967295UL;
    expect(try_switch(&b, &t, 0) == HULLATHAN_REFUSED + 2, "marks counted to the end");
    expect(try_switch(&b, &fresh.primary, 0) == HULLATHAN_REFUSED + 1, "1 before 2");
    b.marks_seen--;
    expect(try_switch(&b, &t, 0) == HULLATHAN_SWITCHED, "one less");
    b.gaps_seen = (unsigned long) -1;
    expect(try_switch(&b, &t, 0) == HULLATHAN_REFUSED + 2, "gaps counted to the end");
    t.has_wpm = 2;
    expect(try_switch(&b, &t, 0) == HULLATHAN_REFUSED + 1, "an unsound tracker");
    t.has_wpm = 0;
    b.width = 9;
    expect(try_switch(&b, &t, 0) == HULLATHAN_REFUSED + 1, "an unsound bank");
    expect(try_switch(&fresh.bank, &fresh.primary, 0) == HULLATHAN_NOTHING, "no choice, and the tracker unready");
}

/* Good ones with random bytes in one of them. */
static void any_bytes(const struct hullathan_station *good, const char *name)
{
    struct hullathan_bank b;
    struct hullathan_tracker t;
    struct dice d = {13579};
    size_t i, place, bytes, j;
    unsigned char *at;

    for (i = 0; i < DAMAGED; i++) {
        memcpy(&b, &good->bank, sizeof b);
        memcpy(&t, &good->primary, sizeof t);
        at = i % 2 ? (unsigned char *) &b : (unsigned char *) &t;
        bytes = 1 + throw_below(&d, 8);
        place = throw_below(&d, (i % 2 ? sizeof b : sizeof t) - bytes);
        for (j = place; j < place + bytes; j++)
            at[j] = (unsigned char) (i % 3 ? throw_all(&d) >> 24 : throw_below(&d, 4));
        sprintf(damage, "%s, random bytes at %lu, number %lu", name, (unsigned long) place, (unsigned long) i);
        try_switch(&b, &t, 3);
    }
    for (i = 0; i < 256; i++) {
        memset(&b, (int) i, sizeof b);
        sprintf(damage, "%s, all bytes of the bank 0x%02lx", name, (unsigned long) i);
        expect(try_switch(&b, &good->primary, 3) == HULLATHAN_REFUSED + 1, "no pattern is a bank");
        memset(&t, (int) i, sizeof t);
        try_switch(&good->bank, &t, 3);
    }
}

int main(void)
{
    make_stations();
    watches();
    beyond();
    refusals();
    any_bytes(&challenged, "a challenged station");
    any_bytes(&rich, "a rich station");
    return verdict();
}
