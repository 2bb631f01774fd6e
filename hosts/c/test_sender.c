/*
 * A sender's statistics: against the rules written once more in C, with refusals in their order, and on memory of any
 * bytes, which a refused call leaves as it was.
 */
#include <math.h>
#include <stdio.h>
#include <string.h>

#include "hullathan.h"
#include "sound.h"
#include "test_help.h"
#include "tries.h"

#define CLASSES 5
#define SENDERS 300
#define OBSERVED 400
#define DAMAGED 40000

/* ---- the rules: manta's SenderTiming, and document 01 */

/* The classes of a sender by their numbers. */
static struct hullathan_class_stats *class_of(struct hullathan_sender *t, size_t n)
{
    switch (n) {
    case HULLATHAN_DOT:
        return &t->dot;
    case HULLATHAN_DASH:
        return &t->dash;
    case HULLATHAN_ELEMENT_GAP:
        return &t->element_gap;
    case HULLATHAN_CHARACTER_GAP:
        return &t->char_gap;
    default:
        return &t->word_gap;
    }
}

/* "d = x - mean; mean += a*d; var = (1-a)*(var + a*d^2)"; "the first sample sets mean = x, var = 0". */
static void observed(struct hullathan_class_stats *c, float x)
{
    float d = x - c->mean;

    if (c->n == 0) {
        c->mean = x;
        c->var = 0;
    } else {
        c->mean += 0.15f * d;
        c->var = (1.0f - 0.15f) * (c->var + 0.15f * d * d);
    }
    /* "Counts saturate." */
    if (c->n < 4294967295U)
        c->n++;
}

static float clamp(float lo, float hi, float x)
{
    return x < lo ? lo : x > hi ? hi : x;
}

/* The root of a float, nearest: by way of a double, which has more than twice as many digits, so no tie is met. */
static float root(float x)
{
    return (float) sqrt((double) x);
}

/* What a reading shows of a class. */
static struct hullathan_class_stats shown(struct hullathan_class_stats c)
{
    static const struct hullathan_class_stats none = {0, 0, 0};

    return c.n == 0 ? none : c;
}

static struct hullathan_sender_reading reading_of(const struct hullathan_sender *t, float dit_ms)
{
    struct hullathan_sender_reading r;

    memset(&r, 0, sizeof r);
    r.dit_ms = dit_ms;
    if (t->dot.n >= 3 && t->dash.n >= 3) {
        r.has_ratio = 1;
        r.ratio = t->dash.mean / t->dot.mean;
    }
    if (t->char_gap.n > 0) {
        r.has_word = 1;
        r.word_dits = clamp(3, 12,
                            t->word_gap.n > 0 ? root(t->char_gap.mean * t->word_gap.mean)
                                              : t->char_gap.mean * root(7.0f / 3.0f));
    }
    r.dot = shown(t->dot);
    r.dash = shown(t->dash);
    r.element_gap = shown(t->element_gap);
    r.char_gap = shown(t->char_gap);
    r.word_gap = shown(t->word_gap);
    return r;
}

/* "at least max(PAUSE_MIN_DITS, 4 * char-gap mean)"; "of NaN is no" */
static unsigned char pause_of(const struct hullathan_sender *t, float dits)
{
    float four = t->char_gap.n > 0 ? 4.0f * t->char_gap.mean : 0;

    return dits >= (four > 15.0f ? four : 15.0f);
}

/* ---- one call, held to the rules */

/* A sender that is lent, between bytes that nobody may touch. */
static struct {
    unsigned char before[64];
    struct hullathan_sender it;
    unsigned char after[64];
} lent, was;

static void lend(const struct hullathan_sender *t)
{
    memset(&lent, 0xc5, sizeof lent);
    lent.it = *t;
    memcpy(&was, &lent, sizeof was);
}

/* An observation: what is left is what the rules say, every byte of it. */
static unsigned char try_observe(const struct hullathan_sender *t, unsigned char timing_class, float dur_ms,
                                 float dit_ms)
{
    unsigned int n = observe_refusal(t, timing_class, dur_ms, dit_ms);
    unsigned char code;

    lend(t);
    if (n == 0)
        observed(class_of(&was.it, timing_class), dur_ms / dit_ms);
    code = hullathan_sender_observe(&lent.it, timing_class, dur_ms, dit_ms);
    expect(code == (n == 0 ? HULLATHAN_DONE : HULLATHAN_REFUSED + n), "an observation is refused as document 01 says");
    expect(memcmp(&lent, &was, sizeof lent) == 0,
           n == 0 ? "an observation moves its class, and nothing else" : "a refused observation changes no byte");
    expect(n != 0 || is_sender_sound(&lent.it), "an observation leaves a sound sender");
    return code;
}

/* A reading and a question about a pause: nothing is changed. */
static unsigned char try_reads(const struct hullathan_sender *t, float dit_ms, float gap_dits)
{
    struct hullathan_sender_reading r, said;
    unsigned char pause;

    lend(t);
    r = hullathan_sender_read(&lent.it, dit_ms);
    pause = hullathan_sender_is_pause(&lent.it, gap_dits);
    expect(memcmp(&lent, &was, sizeof lent) == 0, "reading changes nothing");
    if (is_sender_sound(t)) {
        said = reading_of(t, dit_ms);
        expect(pause == pause_of(t, gap_dits), "a pause is one as the rules say");
    } else {
        memset(&said, 0, sizeof said);
        said.code = HULLATHAN_REFUSED + 1;
        expect(pause == HULLATHAN_REFUSED + 1, "a question about a pause is refused by 1");
    }
    expect(memcmp(&r, &said, sizeof r) == 0, "a reading shows what the rules say, every byte of it");
    return r.code;
}

/* ---- lists of observations */

/* What the lists came by, so that a test that meets nothing is seen. */
static unsigned long ratios, boundaries, pauses, refusals;

static float length_of(struct dice *d)
{
    static const unsigned int odd[] = {0x7fc00000, 0xff800000, 0x00000000, 0x3c7fffff, 0x3c800000, 0x48800000,
                                       0x48800001, 0xc2480000};

    if (throw_below(d, 20) == 0)
        return float_of(odd[throw_below(d, sizeof odd / sizeof odd[0])]);
    return (float) throw_below(d, 60000) / 64.0f + 0.25f;
}

static float dit_of(struct dice *d)
{
    static const unsigned int odd[] = {0x7fc00000, 0x7f800000, 0x419fffff, 0x41a00000, 0x43160000, 0x43160001};

    if (throw_below(d, 20) == 0)
        return float_of(odd[throw_below(d, sizeof odd / sizeof odd[0])]);
    return 20.0f + (float) throw_below(d, 8320) / 64.0f;
}

static void list(unsigned long seed)
{
    struct hullathan_sender t;
    struct dice d = {0};
    float dit_ms, gap_dits;
    unsigned char timing_class;
    int i;

    d.state = seed;
    memset(&t, (int) (seed % 256), sizeof t);
    hullathan_sender_start(&t);
    for (i = 0; i < OBSERVED; i++) {
        timing_class = (unsigned char) throw_below(&d, throw_below(&d, 30) == 0 ? 256 : 3 + seed % 3);
        dit_ms = dit_of(&d);
        refusals += try_observe(&t, timing_class, length_of(&d), dit_ms) != HULLATHAN_DONE;
        t = lent.it;
        gap_dits = (float) throw_below(&d, 4000) / 64.0f;
        try_reads(&t, dit_ms, gap_dits);
        pauses += pause_of(&t, gap_dits);
    }
    ratios += reading_of(&t, 50).has_ratio;
    boundaries += reading_of(&t, 50).word_dits > 3 && reading_of(&t, 50).word_dits < 12;
}

static void lists(void)
{
    unsigned long seed;

    for (seed = 1; seed <= SENDERS; seed++) {
        sprintf(damage, "list %lu", seed);
        list(seed);
    }
    expect(ratios > 50 && boundaries > 5 && pauses > 100 && refusals > 1000, "the lists met every case");
}

/* ---- numbers that can be reckoned by hand */

static void by_hand(void)
{
    struct hullathan_sender t, zeros;
    struct hullathan_sender_reading r;
    int i;

    strcpy(damage, "by hand");
    memset(&zeros, 0, sizeof zeros);
    memset(&t, 0xff, sizeof t);
    hullathan_sender_start(&t);
    expect(memcmp(&t, &zeros, sizeof t) == 0, "a start is all zeros");
    r = hullathan_sender_read(&t, 50);
    expect(r.code == 0 && !r.has_ratio && !r.has_word && r.dit_ms == 50, "nothing is known yet");
    for (i = 0; i < 3; i++) {
        hullathan_sender_observe(&t, HULLATHAN_DOT, 40, 40);
        expect(!hullathan_sender_read(&t, 40).has_ratio, "three of both make a ratio");
        hullathan_sender_observe(&t, HULLATHAN_DASH, 120, 40);
    }
    hullathan_sender_observe(&t, HULLATHAN_CHARACTER_GAP, 160, 40);
    r = hullathan_sender_read(&t, 40);
    expect(r.has_ratio && r.ratio == 3 && r.dash.mean == 3 && r.dash.var == 0 && r.dash.n == 3, "three to one");
    expect(bits_of_float(r.word_dits) == 0x40c385f2, "four times the root of 7/3, 6.1101");
    hullathan_sender_observe(&t, HULLATHAN_WORD_GAP, 360, 40);
    expect(hullathan_sender_read(&t, 40).word_dits == 6, "the root of four times nine");
    expect(hullathan_sender_is_pause(&t, float_of(0x417fffff)) == 0, "just below four character gaps is no pause");
    expect(hullathan_sender_is_pause(&t, 16) == 1, "four character gaps are one");
    expect(hullathan_sender_is_pause(&t, float_of(0x7fc00000)) == 0, "NaN is none");
    hullathan_sender_observe(&t, HULLATHAN_CHARACTER_GAP, 80, 40);
    expect(bits_of_float(t.char_gap.mean) == bits_of_float(3.7f), "0.15 of the way from 4 to 2");
}

/* ---- refusals in their order, and damaged memory */

/* A sender whose classes are all observed. */
static struct hullathan_sender full_sender(void)
{
    struct hullathan_sender t;
    unsigned char n;

    hullathan_sender_start(&t);
    for (n = 0; n < CLASSES; n++) {
        hullathan_sender_observe(&t, n, 50.0f * (float) (n + 1), 50);
        hullathan_sender_observe(&t, n, 55.0f * (float) (n + 1), 50);
    }
    return t;
}

static void in_order(void)
{
    struct hullathan_sender t = full_sender(), unsound = full_sender();
    float nan = float_of(0x7fc00000);
    unsigned int n;

    strcpy(damage, "refusals in their order");
    unsound.word_gap.var = -1;
    expect(try_observe(&unsound, 9, nan, nan) == HULLATHAN_REFUSED + 1, "1 before all");
    expect(try_observe(&t, 9, nan, nan) == HULLATHAN_REFUSED + 5, "5 before 9 and 12");
    expect(try_observe(&t, 9, 0, nan) == HULLATHAN_REFUSED + 6, "6 before 9 and 12");
    expect(try_observe(&t, 9, 262145, nan) == HULLATHAN_REFUSED + 7, "7 before 9 and 12");
    expect(try_observe(&t, 9, 50, nan) == HULLATHAN_REFUSED + 9, "9 before 12");
    expect(try_observe(&t, 0, 50, float_of(0x419fffff)) == HULLATHAN_REFUSED + 9, "a dit next below 20");
    expect(try_observe(&t, 0, 50, float_of(0x43160001)) == HULLATHAN_REFUSED + 9, "a dit next above 150");
    for (n = CLASSES; n < 256; n++)
        expect(try_observe(&t, (unsigned char) n, 50, 50) == HULLATHAN_REFUSED + 12, "no class has the number");
    expect(try_observe(&t, 4, 0.015625f, 150) == HULLATHAN_DONE, "the shortest length, the longest dit");
    expect(try_observe(&t, 4, 262144, 20) == HULLATHAN_DONE, "the longest length, the shortest dit");
}

/* Each number of each class: what refusal 1 lists, what it does not, and what is no part of the state. */
static void of_a_class(size_t n)
{
    static const unsigned int bad_means[] = {0x7fc00000, 0x7f800000, 0, 0x38d1b716, 0x464cd001, 0xc0000000};
    static const unsigned int bad_vars[] = {0x7fc00000, 0x7f800000, 0x80000001, 0xbf800000, 0xff800000};
    struct hullathan_sender t;
    size_t i;

    for (i = 0; i < sizeof bad_means / sizeof bad_means[0]; i++) {
        t = full_sender();
        class_of(&t, n)->mean = float_of(bad_means[i]);
        expect(try_observe(&t, 0, 50, 50) == HULLATHAN_REFUSED + 1, "a mean outside its range");
        expect(try_reads(&t, 50, 20) == HULLATHAN_REFUSED + 1, "a mean outside its range, read");
        class_of(&t, n)->n = 0;
        expect(try_observe(&t, 0, 50, 50) == HULLATHAN_DONE, "a mean of a class that was not observed");
        expect(try_reads(&t, 50, 20) == HULLATHAN_DONE, "a mean of a class that was not observed, read");
    }
    for (i = 0; i < sizeof bad_vars / sizeof bad_vars[0]; i++) {
        t = full_sender();
        class_of(&t, n)->var = float_of(bad_vars[i]);
        expect(try_observe(&t, 4, 50, 50) == HULLATHAN_REFUSED + 1, "a variance that is none");
        expect(try_reads(&t, 50, 20) == HULLATHAN_REFUSED + 1, "a variance that is none, read");
    }
    t = full_sender();
    class_of(&t, n)->mean = 0.0001f;
    class_of(&t, n)->var = float_of(0x7f7fffff);
    class_of(&t, n)->n = 4294967295U;
    try_observe(&t, (unsigned char) n, 50, 50);
    class_of(&t, n)->mean = 13108.0f;
    class_of(&t, n)->var = float_of(0x80000000);
    expect(try_observe(&t, (unsigned char) n, 50, 50) == HULLATHAN_DONE, "the ends of the ranges");
    expect(class_of(&lent.it, n)->n == 4294967295U, "a count stays at its largest");
}

static void of_classes(void)
{
    size_t n;

    for (n = 0; n < CLASSES; n++) {
        sprintf(damage, "class %lu", (unsigned long) n);
        of_a_class(n);
    }
}

/* Memory of any bytes. */
static void any_bytes(void)
{
    struct hullathan_sender t;
    struct dice d = {24680};
    size_t i, j, bytes;

    for (i = 0; i < DAMAGED; i++) {
        t = full_sender();
        bytes = i % 3 == 0 ? sizeof t : 1 + throw_below(&d, 3);
        for (j = 0; j < bytes; j++)
            ((unsigned char *) &t)[throw_below(&d, sizeof t)] = (unsigned char) (throw_all(&d) >> 24);
        sprintf(damage, "random bytes, number %lu", (unsigned long) i);
        try_observe(&t, (unsigned char) throw_below(&d, 6), 70, 50);
        try_reads(&t, 50, 20);
    }
}

int main(void)
{
    by_hand();
    lists();
    in_order();
    of_classes();
    any_bytes();
    return verdict();
}
