/* One call on lent memory, held to what document 01 says of it. */
#include <stdio.h>
#include <string.h>

#include "hullathan.h"
#include "sound.h"
#include "test_help.h"
#include "tries.h"

#define BESIDE 64 /* bytes on both sides of what is lent */

/* ---- what is lent, with bytes on both sides that nobody may touch */

struct lent_station {
    unsigned char before[BESIDE];
    struct hullathan_station it;
    unsigned char after[BESIDE];
};

struct lent_batch {
    unsigned char before[BESIDE];
    struct hullathan_batch it;
    unsigned char after[BESIDE];
};

static struct lent_station lent, lent_was;
static struct lent_batch batch, batch_was;

char damage[200];

int expect(int holds, const char *what)
{
    char line[400];

    if (!holds)
        sprintf(line, "%s: %s", damage, what);
    return check(holds, holds ? what : line);
}

static void lend(const struct hullathan_station *s)
{
    memset(&lent, 0xc5, sizeof lent);
    memcpy(&lent.it, s, sizeof lent.it);
    memcpy(&lent_was, &lent, sizeof lent);
}

static void lend_batch(const struct hullathan_batch *b)
{
    memset(&batch, 0x3c, sizeof batch);
    memcpy(&batch.it, b, sizeof batch.it);
    memcpy(&batch_was, &batch, sizeof batch);
}

static int untouched(void)
{
    return memcmp(&lent, &lent_was, sizeof lent) == 0;
}

static int untouched_beside(void)
{
    return memcmp(lent.before, lent_was.before, BESIDE) == 0 && memcmp(lent.after, lent_was.after, BESIDE) == 0;
}

static int batch_untouched(void)
{
    return memcmp(&batch, &batch_was, sizeof batch) == 0;
}

/* ---- one call, held to what document 01 says of it */

/* Whether a station holds zeros in all that is no part of it. */
static int is_tidy(const struct hullathan_station *s)
{
    struct hullathan_station state;

    state_of(&state, s);
    return memcmp(&state, s, sizeof state) == 0;
}

/* A code that there is. */
static int is_code(unsigned char code)
{
    static const unsigned char refusals[] = {1, 2, 3, 5, 6, 7, 8, 12};

    return code <= HULLATHAN_NOTHING
           || (code > HULLATHAN_REFUSED && memchr(refusals, code - HULLATHAN_REFUSED, sizeof refusals) != NULL);
}

/* What an answer says of a station as it is: zeros where it is no sound one; and that none left. */
static struct hullathan_answer standing(const struct hullathan_station *s, unsigned char code)
{
    struct hullathan_answer a;

    memset(&a, 0, sizeof a);
    a.code = code;
    if (is_sound(s)) {
        a.dit_ms = s->primary.pair.lo;
        a.dah_ms = s->primary.pair.hi;
        a.serial = s->serial;
        a.challengers = s->bank.challengers_len;
    }
    return a;
}

/* An answer that is none of a refusal: the station as it is now, causes that there are, zeros beyond. */
static int well_formed(const struct hullathan_answer *a)
{
    struct hullathan_answer now = standing(&lent.it, a->code);
    size_t i;

    if (a->code > HULLATHAN_NOTHING || a->left_len > HULLATHAN_LEFT)
        return 0;
    for (i = 0; i < a->left_len; i++) {
        if (a->left[i].cause > HULLATHAN_CLEARED)
            return 0;
        now.left[i].serial = a->left[i].serial;
        now.left[i].cause = a->left[i].cause;
    }
    now.left_len = a->left_len;
    return same_answer(a, &now);
}

unsigned char try_call(const struct hullathan_station *s, unsigned char kind, float value)
{
    unsigned int n = refusal_of(s, kind, value);
    struct hullathan_answer a, said;

    lend(s);
    a = hullathan_call(&lent.it, kind, 1, value);
    expect(is_code(a.code), "a call has a code that there is");
    expect(n == 0 ? a.code < HULLATHAN_REFUSED : a.code == HULLATHAN_REFUSED + n,
           "a call is refused as document 01 says");
    expect(untouched_beside(), "a call touches nothing beside the station");
    if (a.code >= HULLATHAN_REFUSED) {
        said = standing(s, a.code);
        expect(untouched(), "a refused call leaves the station as it was");
        expect(same_answer(&a, &said), "a refused call tells the station as it is, or zeros");
    } else {
        expect(is_sound(&lent.it), "an accepted call leaves a sound station");
        expect(is_tidy(&lent.it), "an accepted call leaves zeros in what is no part of the station");
        expect(lent.it.accepted == s->accepted + 1, "an accepted call is counted");
        expect(well_formed(&a), "an answer is well formed");
    }
    return a.code;
}

static float clamp(float lo, float hi, float x)
{
    return x < lo ? lo : x > hi ? hi : x;
}

/* The dit less half of what it is longer than the gap centroid, at most 0.35 dits either way; from 20 to 150. */
static float estimate_of(const struct hullathan_tracker *t)
{
    float dit = t->pair.lo;
    float most = 0.35f * dit;

    if (!t->has_egap)
        return dit;
    return clamp(20.0f, 150.0f, dit - clamp(-most, most, 0.5f * (dit - t->mu_egap_ms)));
}

/* The rivals in the reading of a station. */
static void read_rivals(struct hullathan_reading *r, const struct hullathan_bank *b)
{
    size_t i;

    r->challengers = b->challengers_len;
    for (i = 0; i < b->challengers_len; i++) {
        r->rivals[i].serial = b->challengers[i].serial;
        r->rivals[i].dit_ms = b->challengers[i].tracker.pair.lo;
        r->rivals[i].dah_ms = b->challengers[i].tracker.pair.hi;
        r->rivals[i].score = b->challengers[i].score;
        r->rivals[i].gap_score = b->challengers[i].gap_score;
    }
}

/* The log in the reading of a station. */
static void read_log(struct hullathan_reading *r, const struct hullathan_bank *b)
{
    size_t i;

    r->log_len = b->log_len;
    for (i = 0; i < b->log_len; i++) {
        r->log[i].mark_index = b->log[i].mark_index;
        r->log[i].from_dit_ms = b->log[i].from_dit_ms;
        r->log[i].to_dit_ms = b->log[i].to_dit_ms;
        r->log[i].applied = b->log[i].applied;
    }
}

/* The reading of a sound station. */
static struct hullathan_reading reading_of(const struct hullathan_station *s)
{
    struct hullathan_reading r;

    memset(&r, 0, sizeof r);
    r.ready = s->primary.pair.ready;
    r.has_wpm = s->primary.has_wpm;
    r.switching = s->bank.switching;
    r.width = s->bank.width;
    r.dit_ms = s->primary.pair.lo;
    r.dah_ms = s->primary.pair.hi;
    r.dit_estimate_ms = estimate_of(&s->primary);
    r.wpm = r.has_wpm ? s->primary.wpm_ema : 0;
    r.score = s->bank.primary_score;
    r.gap_score = s->bank.primary_gap_score;
    r.serial = s->serial;
    r.accepted = s->accepted;
    r.marks = s->bank.marks_seen;
    r.gaps = s->bank.gaps_seen;
    r.started = s->bank.started;
    r.twins = s->twins;
    r.outscored = s->outscored;
    r.aged = s->aged;
    r.replaced = s->replaced;
    r.cleared = s->cleared;
    read_rivals(&r, &s->bank);
    read_log(&r, &s->bank);
    return r;
}

unsigned char try_read(const struct hullathan_station *s)
{
    struct hullathan_reading r, said;

    lend(s);
    r = hullathan_read(&lent.it);
    expect(untouched(), "a reading leaves the station as it was");
    if (is_sound(s)) {
        said = reading_of(s);
    } else {
        memset(&said, 0, sizeof said);
        said.code = HULLATHAN_REFUSED + 1;
    }
    expect(same_reading(&r, &said), "a reading is refused, or tells the station as it is");
    return r.code;
}

void try_start(const struct hullathan_station *s, size_t width, unsigned char switching)
{
    struct hullathan_station said;
    int good = width <= HULLATHAN_WIDEST;
    unsigned char code;

    memset(&said, 0, sizeof said);
    said.bank.width = good && width > 0 ? width : 1;
    said.bank.switching = good && switching != 0;
    lend(s);
    code = hullathan_start(&lent.it, width, switching);
    expect(code == (good ? HULLATHAN_DONE : HULLATHAN_REFUSED + 3), "a start is refused by 3 above 8");
    expect(untouched_beside(), "a start touches nothing beside the station");
    expect(is_sound(&lent.it), "a start gives a sound station");
    expect(memcmp(&lent.it, &said, sizeof said) == 0, "a start gives a fresh station, every byte of it");
}

/* The batch that was run gives what its events give one by one. */
static void check_answers(const struct hullathan_station *s, const struct hullathan_batch *b)
{
    struct hullathan_station one;
    struct hullathan_answer a;
    int same = 1;
    size_t i;

    memcpy(&one, s, sizeof one);
    for (i = 0; i < b->len; i++) {
        a = hullathan_call(&one, b->events[i].kind, b->events[i].live, b->events[i].value);
        same = same && same_answer(&a, &batch.it.answers[i]);
    }
    expect(same, "each answer of a batch is that of a call");
    expect(memcmp(&one, &lent.it, sizeof one) == 0, "a batch leaves the bytes that the calls leave");
}

void try_run(const struct hullathan_station *s, const struct hullathan_batch *b)
{
    int good = is_sound(s) && b->len <= HULLATHAN_BATCH;
    size_t beyond;
    unsigned char code;

    lend(s);
    lend_batch(b);
    code = hullathan_run(&lent.it, &batch.it);
    expect(code == (good ? HULLATHAN_DONE : HULLATHAN_REFUSED + 1), "a batch is refused as it should be");
    expect(untouched_beside(), "a batch touches nothing beside the station");
    if (code != HULLATHAN_DONE) {
        expect(untouched() && batch_untouched(), "a refused batch leaves all as it was");
        return;
    }
    check_answers(s, b);
    expect(memcmp(batch.before, batch_was.before, BESIDE) == 0 && memcmp(batch.after, batch_was.after, BESIDE) == 0,
           "a batch is written only within");
    expect(batch.it.len == b->len && memcmp(batch.it.events, b->events, sizeof b->events) == 0,
           "the events stay as they were");
    beyond = (HULLATHAN_BATCH - b->len) * sizeof b->answers[0];
    expect(memcmp(batch.it.answers + b->len, b->answers + b->len, beyond) == 0,
           "answers beyond the events stay as they were");
}

void try_all(const struct hullathan_station *s)
{
    static const unsigned char kinds[] = {HULLATHAN_SWITCH, HULLATHAN_MARK, HULLATHAN_GAP, 200, HULLATHAN_CLEAR};
    static struct hullathan_batch b;
    unsigned int kind;
    unsigned char cleared;

    for (kind = 0; kind <= HULLATHAN_SWITCH + 1; kind++)
        try_call(s, (unsigned char) kind, 50);
    try_call(s, HULLATHAN_MARK, float_of(0x7fc00000));
    cleared = try_call(s, HULLATHAN_CLEAR, 0);
    expect((try_read(s) == HULLATHAN_REFUSED + 1) == (cleared == HULLATHAN_REFUSED + 1),
           "a reading is refused where a clear is, by 1");
    for (b.len = 0; b.len < sizeof kinds; b.len++) {
        b.events[b.len].kind = kinds[b.len];
        b.events[b.len].live = 1;
        b.events[b.len].value = 50;
    }
    try_run(s, &b);
}
