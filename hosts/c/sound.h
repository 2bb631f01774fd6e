/*
 * For the tests: the refusals of document 01 that a call can meet, written once more in C, and which bytes of a
 * struct are part of its state.
 */
#ifndef SOUND_H
#define SOUND_H

#include "hullathan.h"

/* Whether refusal 1 passes the struct; "a choice pending and the primary unready" is apart. */
int is_sound(const struct hullathan_station *s);
int is_bank_sound(const struct hullathan_bank *b);
int is_tracker_sound(const struct hullathan_tracker *t);
int is_sender_sound(const struct hullathan_sender *t);

/* The number of the refusal that an event meets, a switch of a bank and a lent tracker, an observation; 0 for none. */
unsigned int refusal_of(const struct hullathan_station *s, unsigned char kind, float value);
unsigned int switch_refusal(const struct hullathan_bank *b, const struct hullathan_tracker *primary);
unsigned int observe_refusal(const struct hullathan_sender *t, unsigned char timing_class, float dur_ms, float dit_ms);

/*
 * The state of a sound station, bank or tracker: its numbers with zeros in all places that are no part of it (beyond a
 * count, marked absent, pads). Two are in the same state where these are the same bytes.
 */
void state_of(struct hullathan_station *state, const struct hullathan_station *s);
void state_of_bank(struct hullathan_bank *state, const struct hullathan_bank *b);
void state_of_tracker(struct hullathan_tracker *state, const struct hullathan_tracker *t);

/* Document 01's logarithm, of a float that is 1 or more. */
float ln_of(float v);

#endif
