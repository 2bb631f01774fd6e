/* For the tests: stations that a watch comes to, and what follows on them. */
#ifndef STATIONS_H
#define STATIONS_H

#include "hullathan.h"

/*
 * A fresh one of width 1; one with three marks; one whose rival may take over, and one where it did, by the marks
 * of examples/switch-to-slower-sender.journal; one that holds as much as can be; and that one with all that may be
 * absent marked absent.
 */
extern struct hullathan_station fresh, waiting, challenged, switched, rich, bare;
void make_stations(void);

/* What follows on a station: the answers to a list of events, and the reading after it. */
#define FOLLOWING 64

struct trail {
    struct hullathan_answer answers[FOLLOWING];
    struct hullathan_reading reading;
};

void follow(const struct hullathan_station *s, struct trail *t);
int same_trail(const struct trail *a, const struct trail *b);

#endif
