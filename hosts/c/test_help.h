/* For the tests: counted checks, dice, random events, and answers compared. */
#ifndef TEST_HELP_H
#define TEST_HELP_H

#include "hullathan.h"

/* Counts a check. The first failures are printed by what was looked at; returns whether it held. */
int check(int holds, const char *what);

/* Prints how many checks there were and how many failed; the exit status of the program. */
int verdict(void);

/* A generator of random numbers; the state is any number but 0. */
struct dice {
    unsigned long state;
};

/* Any number of 64 bits but 0; and a number below n. */
unsigned long throw_all(struct dice *d);
unsigned long throw_below(struct dice *d, unsigned long n);

/* The float that has these bits, and the bits of a float. */
float float_of(unsigned int bits);
unsigned int bits_of_float(float x);

/* Two senders on the air, by their dits in ms: the one that is heard changes now and then. */
struct air {
    struct dice dice;
    float dit_ms;
    float other_ms;
};

/* The air as it begins with a seed. */
struct air air_of(unsigned long seed);

/* A mark, a gap or a switch, seldom something else; refused ones among them. */
struct hullathan_event next_event(struct air *a);

/* Whether all fields are the same, the pads among them. */
int same_answer(const struct hullathan_answer *a, const struct hullathan_answer *b);
int same_reading(const struct hullathan_reading *a, const struct hullathan_reading *b);

/* Whether both stations are sound and in the same state. */
int same_state(const struct hullathan_station *a, const struct hullathan_station *b);

#endif
