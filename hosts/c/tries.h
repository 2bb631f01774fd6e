/*
 * For the tests: calls on a copy of a station that lies between bytes that nobody may touch. Each is held to
 * what document 01 says of it (sound.h), and a refused one must leave every byte as it was.
 */
#ifndef TRIES_H
#define TRIES_H

#include "hullathan.h"

/* What is damaged, for the line of a failure; and a check that shows it. */
extern char damage[200];
int expect(int holds, const char *what);

/* One event, a live one if it is a mark; and a reading. They return the code. */
unsigned char try_call(const struct hullathan_station *s, unsigned char kind, float value);
unsigned char try_read(const struct hullathan_station *s);

/* A start where those bytes stand. */
void try_start(const struct hullathan_station *s, size_t width, unsigned char switching);

/* A batch, also copied. It is refused where the station is unsound or the batch too long. */
void try_run(const struct hullathan_station *s, const struct hullathan_batch *b);

/* Each of the ways in. */
void try_all(const struct hullathan_station *s);

#endif
