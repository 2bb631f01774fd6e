/* What the tests share. */
#include <stdio.h>
#include <stdlib.h>
#include <string.h>

#include "sound.h"
#include "test_help.h"

#define SHOWN_MOST 30 /* failures that are printed */

/* ---- checks */

static unsigned long checks, failures;

int check(int holds, const char *what)
{
    checks++;
    if (!holds && failures++ < SHOWN_MOST) {
        printf("failed: %s\n", what);
        fflush(stdout);
    }
    return holds;
}

int verdict(void)
{
    printf("%lu checks, %lu failed\n", checks, failures);
    return failures == 0 && fflush(stdout) == 0 ? EXIT_SUCCESS : EXIT_FAILURE;
}

/* ---- numbers */

unsigned long throw_all(struct dice *d)
{
    d->state ^= d->state << 13;
    d->state ^= d->state >> 7;
    d->state ^= d->state << 17;
    return d->state;
}

unsigned long throw_below(struct dice *d, unsigned long n)
{
    return (throw_all(d) >> 11) % n;
}

float float_of(unsigned int bits)
{
    float x;

    memcpy(&x, &bits, sizeof x);
    return x;
}

unsigned int bits_of_float(float x)
{
    unsigned int bits;

    memcpy(&bits, &x, sizeof bits);
    return bits;
}

/* ---- events */

struct air air_of(unsigned long seed)
{
    struct air a;

    a.dice.state = seed * 2654435769UL + 1;
    a.dit_ms = 50;
    a.other_ms = 100;
    return a;
}

/* A length of so many dits, up to an eighth off, in 64ths of a ms. */
static float keyed(struct air *a, float dits)
{
    float off = (float) throw_below(&a->dice, 257) / 1024.0f + 0.875f;

    return (float) (long) (a->dit_ms * dits * off * 64.0f) / 64.0f;
}

/* The other sender is heard; the one that was seldom comes back. */
static void change_over(struct air *a)
{
    float was = a->dit_ms;

    a->dit_ms = a->other_ms;
    a->other_ms = throw_below(&a->dice, 4) == 0 ? was : (float) (8UL << throw_below(&a->dice, 6));
}

static struct hullathan_event event(unsigned char kind, unsigned char live, float value)
{
    struct hullathan_event e;

    memset(&e, 0, sizeof e);
    e.kind = kind;
    e.live = live;
    e.value = value;
    return e;
}

/* Any kind that there is, or none, with a number that is mostly refused. */
static struct hullathan_event odd_event(struct air *a)
{
    static const unsigned int odd[] = {0x7fc00000, 0xffc00001, 0x7f800001, 0x7f800000, 0xff800000, 0x00000000,
                                       0x80000000, 0x00000001, 0x3c7fffff, 0x3c800000, 0x48800000, 0x48800001,
                                       0xc2480000, 0x7f7fffff, 0x40400000, 0x41a00000};
    unsigned long n = throw_below(&a->dice, 4);
    unsigned char kind = (unsigned char) throw_below(&a->dice, n == 0 ? 256 : 7);
    unsigned char live = (unsigned char) throw_below(&a->dice, 256);

    if (kind == HULLATHAN_CLEAR && n != 1)
        kind = HULLATHAN_GAP;
    return event(kind, live, float_of(odd[throw_below(&a->dice, sizeof odd / sizeof odd[0])]));
}

struct hullathan_event next_event(struct air *a)
{
    static const float gaps[] = {1, 1, 1, 1, 3, 3, 7, 14};
    unsigned long n = throw_below(&a->dice, 1000);

    if (throw_below(&a->dice, 10) == 0)
        change_over(a);
    if (n < 470)
        return event(HULLATHAN_MARK, n >= 20, keyed(a, n % 2 ? 1 : 3));
    if (n < 900)
        return event(HULLATHAN_GAP, 0, keyed(a, gaps[n % 8]));
    if (n < 970)
        return event(HULLATHAN_SWITCH, 0, 0);
    if (n < 974)
        return event(HULLATHAN_FINISH, 0, 0);
    if (n < 976)
        return event(HULLATHAN_SEED, 0, 1200.0f / a->dit_ms);
    if (n < 980)
        return event(HULLATHAN_HINT, 0, (float) throw_below(&a->dice, 480) / 64.0f);
    return odd_event(a);
}

/* ---- comparing: every byte of a struct belongs to a field */

int same_answer(const struct hullathan_answer *a, const struct hullathan_answer *b)
{
    return memcmp(a, b, sizeof *a) == 0;
}

int same_reading(const struct hullathan_reading *a, const struct hullathan_reading *b)
{
    return memcmp(a, b, sizeof *a) == 0;
}

int same_state(const struct hullathan_station *a, const struct hullathan_station *b)
{
    static struct hullathan_station x, y;

    if (!is_sound(a) || !is_sound(b))
        return 0;
    state_of(&x, a);
    state_of(&y, b);
    return memcmp(&x, &y, sizeof x) == 0;
}
