/* The refusals of document 01 in C, for the tests: sentence by sentence, quoted. */
#include <float.h>
#include <string.h>

#include "sound.h"

/* ---- numbers */

/* "NaN is outside every range." */
static int within(float lo, float hi, float x)
{
    return lo <= x && x <= hi;
}

static int is_flag(unsigned char b)
{
    return b <= 1;
}

static int is_finite(float x)
{
    return within(-FLT_MAX, FLT_MAX, x);
}

static int is_positive(float x)
{
    return is_finite(x) && x > 0;
}

static unsigned int bits_of(float x)
{
    unsigned int bits;

    memcpy(&bits, &x, sizeof bits);
    return bits;
}

/* Refusals 5 to 7 of a duration, in this order. */
static unsigned int duration_refusal(float x)
{
    if (!is_finite(x))
        return 5;
    if (x < 1.0f / 64.0f)
        return 6;
    return x > 262144.0f ? 7 : 0;
}

/* "a held duration that 5 to 7 would refuse" */
static int durations(const float *x, size_t n)
{
    size_t i;

    for (i = 0; i < n; i++) {
        if (duration_refusal(x[i]) != 0)
            return 0;
    }
    return 1;
}

static int is_score(float x)
{
    return within(-30.0f, 0.0f, x);
}

/*
 * Document 01's logarithm, of a normal float that is at least 1: "Do 24 times: s = y times y, divided by 2^31,
 * rounded down; if s is at least 2^32, write bit 1 and y = s halved, rounded down; else bit 0 and y = s. ..
 * L = E times 2^24 + t. The answer is L times 2977044472 / 2^56 as nearest f32".
 */
float ln_of(float v)
{
    unsigned int bits = bits_of(v);
    unsigned long y = ((bits & 0x7fffffUL) | 0x800000UL) << 8;
    unsigned long l = (bits >> 23) - 127;
    int i;

    for (i = 0; i < 24; i++) {
        y = y * y >> 31;
        l = l << 1 | y >> 32;
        if (y >> 32 != 0)
            y >>= 1;
    }
    return (float) (l * 2977044472UL) / 72057594037927936.0f;
}

/* ---- a tracker */

/* "dit outside 20 to 150 or dah outside 16 to 2,500" */
static int centroids(float lo, float hi)
{
    return within(20.0f, 150.0f, lo) && within(16.0f, 2500.0f, hi);
}

static int pair_sound(const struct hullathan_pair *p)
{
    if (!is_flag(p->ready) || !is_flag(p->confirmed) || !is_flag(p->placeholder_is_lo))
        return 0;
    if (p->init_len > HULLATHAN_START_MARKS || !durations(p->init, p->init_len))
        return 0;
    if (p->ready)
        return centroids(p->lo, p->hi);
    /* "unready with a centroid not +0 or more than 4 start marks" */
    return bits_of(p->lo) == 0 && bits_of(p->hi) == 0 && p->init_len <= 4;
}

static int ring_sound(const struct hullathan_ring_entry *e, size_t n)
{
    size_t i;

    for (i = 0; i < n; i++) {
        if (!durations(&e[i].dur_ms, 1) || !is_flag(e[i].assigned_dit) || !centroids(e[i].pre_lo, e[i].pre_hi))
            return 0;
    }
    return 1;
}

int is_tracker_sound(const struct hullathan_tracker *t)
{
    if (!is_flag(t->has_wpm) || !is_flag(t->has_egap) || !is_flag(t->has_hint))
        return 0;
    if (!is_flag(t->badlock_recovered) || !is_flag(t->lo_uncorroborated))
        return 0;
    if (t->ring_len > HULLATHAN_RING || t->recent_len > HULLATHAN_RECENT)
        return 0;
    /* "a gap centroid or speed average held that is not finite and positive; a hint outside 2.2 to 6.0" */
    if ((t->has_wpm && !is_positive(t->wpm_ema)) || (t->has_egap && !is_positive(t->mu_egap_ms)))
        return 0;
    if (t->has_hint && !within(2.2f, 6.0f, t->ratio_hint))
        return 0;
    return pair_sound(&t->pair) && ring_sound(t->ring, t->ring_len) && durations(t->recent, t->recent_len);
}

/* ---- a bank */

/* "one unready, or one holding other logarithms than its centroids have .. a score outside -30 to 0" */
static int rival_sound(const struct hullathan_hypothesis *h)
{
    if (!is_tracker_sound(&h->tracker) || !h->tracker.pair.ready)
        return 0;
    if (bits_of(h->ln_lo) != bits_of(ln_of(h->tracker.pair.lo)))
        return 0;
    if (bits_of(h->ln_hi) != bits_of(ln_of(h->tracker.pair.hi)))
        return 0;
    return is_score(h->score) && is_score(h->gap_score) && is_flag(h->reported) && h->origin <= HULLATHAN_FROM_PRIMARY;
}

static int rivals_sound(const struct hullathan_bank *b)
{
    size_t i;

    for (i = 0; i < b->challengers_len; i++) {
        if (!rival_sound(&b->challengers[i]))
            return 0;
    }
    return 1;
}

/* "more streak gaps than streak marks", and held durations */
static int streak_sound(const struct hullathan_bank *b)
{
    if (b->streak_len > HULLATHAN_STREAK || b->streak_gaps_len > b->streak_len)
        return 0;
    if (!is_flag(b->has_side) || (b->has_side && !is_flag(b->streak_side)))
        return 0;
    if (!is_flag(b->has_last_gap) || (b->has_last_gap && !durations(&b->last_gap, 1)))
        return 0;
    return durations(b->streak, b->streak_len) && durations(b->streak_gaps, b->streak_gaps_len);
}

static int log_sound(const struct hullathan_bank *b)
{
    size_t i;

    if (b->log_len > HULLATHAN_LOG)
        return 0;
    for (i = 0; i < b->log_len; i++) {
        if (!durations(&b->log[i].from_dit_ms, 1) || !durations(&b->log[i].to_dit_ms, 1) || !is_flag(b->log[i].applied))
            return 0;
    }
    return 1;
}

int is_bank_sound(const struct hullathan_bank *b)
{
    /* "width 0 or above 8; challengers not below the width" */
    if (b->width < 1 || b->width > HULLATHAN_WIDEST || b->challengers_len >= b->width)
        return 0;
    /* "a pending index not below the challenger count" */
    if (!is_flag(b->has_pending) || (b->has_pending && b->pending >= b->challengers_len))
        return 0;
    if (!is_flag(b->switching) || !is_score(b->primary_score) || !is_score(b->primary_gap_score))
        return 0;
    return rivals_sound(b) && streak_sound(b) && log_sound(b);
}

/* ---- a station */

/* "a serial above started or held twice" */
static int serials_sound(const struct hullathan_station *s)
{
    size_t i, j;
    const struct hullathan_hypothesis *h = s->bank.challengers;

    if (s->serial > s->bank.started)
        return 0;
    for (i = 0; i < s->bank.challengers_len; i++) {
        if (h[i].serial > s->bank.started || h[i].serial == s->serial)
            return 0;
        for (j = 0; j < i; j++) {
            if (h[i].serial == h[j].serial)
                return 0;
        }
    }
    return 1;
}

/* "counts out of balance": started is what is held and what left */
static int balanced(const struct hullathan_station *s)
{
    unsigned long parts[6];
    unsigned long rest = s->bank.started;
    size_t i;

    parts[0] = s->bank.challengers_len;
    parts[1] = s->twins;
    parts[2] = s->outscored;
    parts[3] = s->aged;
    parts[4] = s->replaced;
    parts[5] = s->cleared;
    for (i = 0; i < 6; i++) {
        if (parts[i] > rest)
            return 0;
        rest -= parts[i];
    }
    return rest == 0;
}

int is_sound(const struct hullathan_station *s)
{
    if (!is_tracker_sound(&s->primary) || !is_bank_sound(&s->bank))
        return 0;
    /* "started above the accepted calls" */
    return serials_sound(s) && s->bank.started <= s->accepted && balanced(s);
}

/* Refusals 5 to 8 and 12 of an event. */
static unsigned int event_refusal(unsigned char kind, float value)
{
    if (kind == HULLATHAN_MARK || kind == HULLATHAN_GAP)
        return duration_refusal(value);
    if (kind == HULLATHAN_SEED)
        return is_positive(value) ? 0 : 8;
    return kind > HULLATHAN_SWITCH ? 12 : 0;
}

unsigned int refusal_of(const struct hullathan_station *s, unsigned char kind, float value)
{
    unsigned long most = 4294967295UL;

    if (!is_sound(s))
        return 1;
    /* "At a switch: a choice pending and the primary .. unready." */
    if (kind == HULLATHAN_SWITCH && s->bank.has_pending && !s->primary.pair.ready)
        return 1;
    if (s->bank.marks_seen >= most || s->bank.gaps_seen >= most || s->accepted >= most)
        return 2;
    return event_refusal(kind, value);
}

unsigned int switch_refusal(const struct hullathan_bank *b, const struct hullathan_tracker *primary)
{
    unsigned long most = 4294967295UL;

    if (!is_bank_sound(b) || !is_tracker_sound(primary))
        return 1;
    /* "At a switch: a choice pending and the primary (the station's or the lent one) unready." */
    if (b->has_pending && !primary->pair.ready)
        return 1;
    return b->marks_seen >= most || b->gaps_seen >= most ? 2 : 0;
}

/* ---- a sender */

/* "an observed class with mean outside 0.0001 to 13,108, or variance negative or not finite" */
static int class_sound(const struct hullathan_class_stats *c)
{
    return c->n == 0 || (within(0.0001f, 13108.0f, c->mean) && within(0, FLT_MAX, c->var));
}

int is_sender_sound(const struct hullathan_sender *t)
{
    return class_sound(&t->dot) && class_sound(&t->dash) && class_sound(&t->element_gap) && class_sound(&t->char_gap)
           && class_sound(&t->word_gap);
}

unsigned int observe_refusal(const struct hullathan_sender *t, unsigned char timing_class, float dur_ms, float dit_ms)
{
    if (!is_sender_sound(t))
        return 1;
    if (duration_refusal(dur_ms) != 0)
        return duration_refusal(dur_ms);
    /* "The dit given to `observe` is NaN or outside 20 to 150." */
    if (!within(20.0f, 150.0f, dit_ms))
        return 9;
    return timing_class > HULLATHAN_WORD_GAP ? 12 : 0;
}

/* ---- what is part of a state: the fields are copied, and zeros put into all else */

#define COPY(name) (to->name = from->name)
#define COPY_IF(flag, name) (to->name = from->flag ? from->name : 0)

static void copy_pair(struct hullathan_pair *to, const struct hullathan_pair *from)
{
    COPY(lo);
    COPY(hi);
    COPY(init_len);
    memcpy(to->init, from->init, from->init_len * sizeof from->init[0]);
    COPY(ready);
    COPY(confirmed);
    COPY(placeholder_is_lo);
    COPY(lo_n);
}

static void copy_entry(struct hullathan_ring_entry *to, const struct hullathan_ring_entry *from)
{
    COPY(dur_ms);
    COPY(assigned_dit);
    COPY(pre_lo);
    COPY(pre_hi);
}

static void copy_tracker(struct hullathan_tracker *to, const struct hullathan_tracker *from)
{
    size_t i;

    copy_pair(&to->pair, &from->pair);
    COPY(ring_len);
    for (i = 0; i < from->ring_len; i++)
        copy_entry(&to->ring[i], &from->ring[i]);
    COPY(has_wpm);
    COPY_IF(has_wpm, wpm_ema);
    COPY(recent_len);
    memcpy(to->recent, from->recent, from->recent_len * sizeof from->recent[0]);
    COPY(has_egap);
    COPY_IF(has_egap, mu_egap_ms);
    COPY(has_hint);
    COPY_IF(has_hint, ratio_hint);
    COPY(regime);
    COPY(badlock_recovered);
    COPY(lo_uncorroborated);
}

static void copy_rival(struct hullathan_hypothesis *to, const struct hullathan_hypothesis *from)
{
    copy_tracker(&to->tracker, &from->tracker);
    COPY(score);
    COPY(gap_score);
    COPY(lead_marks);
    COPY(age_marks);
    COPY(origin);
    COPY_IF(origin == HULLATHAN_FROM_PRIMARY, retain_marks);
    COPY(reported);
    COPY(ln_lo);
    COPY(ln_hi);
    COPY(serial);
}

static void copy_record(struct hullathan_switch_record *to, const struct hullathan_switch_record *from)
{
    COPY(mark_index);
    COPY(from_dit_ms);
    COPY(to_dit_ms);
    COPY(applied);
}

static void copy_bank(struct hullathan_bank *to, const struct hullathan_bank *from)
{
    size_t i;

    COPY(width);
    COPY(switching);
    COPY(primary_score);
    COPY(primary_gap_score);
    COPY(challengers_len);
    for (i = 0; i < from->challengers_len; i++)
        copy_rival(&to->challengers[i], &from->challengers[i]);
    COPY(streak_len);
    memcpy(to->streak, from->streak, from->streak_len * sizeof from->streak[0]);
    COPY(streak_gaps_len);
    memcpy(to->streak_gaps, from->streak_gaps, from->streak_gaps_len * sizeof from->streak_gaps[0]);
    COPY(has_side);
    COPY_IF(has_side, streak_side);
    COPY(has_last_gap);
    COPY_IF(has_last_gap, last_gap);
    COPY(marks_seen);
    COPY(gaps_seen);
    COPY(has_pending);
    COPY_IF(has_pending, pending);
    COPY(log_len);
    for (i = 0; i < from->log_len; i++)
        copy_record(&to->log[i], &from->log[i]);
    COPY(started);
}

void state_of_tracker(struct hullathan_tracker *to, const struct hullathan_tracker *from)
{
    memset(to, 0, sizeof *to);
    copy_tracker(to, from);
}

void state_of_bank(struct hullathan_bank *to, const struct hullathan_bank *from)
{
    memset(to, 0, sizeof *to);
    copy_bank(to, from);
}

void state_of(struct hullathan_station *to, const struct hullathan_station *from)
{
    memset(to, 0, sizeof *to);
    copy_tracker(&to->primary, &from->primary);
    COPY(serial);
    copy_bank(&to->bank, &from->bank);
    COPY(twins);
    COPY(outscored);
    COPY(aged);
    COPY(replaced);
    COPY(cleared);
    COPY(accepted);
}
