/*
 * For tests of the layout: structs of the library that show where each of their fields lies.
 *
 * Each number holds its place in its struct, counted from 1 in the order of hullathan.h (a field that is a
 * struct or an array takes one place too); a float holds the float whose bits are that number. A struct held
 * in a struct is filled by the same rule, from 1 again. In an array every element is alike, but the last has
 * 100 more in each number that stands in it directly; an array of floats or of bytes (a pad) holds its own place,
 * the last 100 more.
 */
#ifndef HULLATHAN_LAYOUT_H
#define HULLATHAN_LAYOUT_H

#include "hullathan.h"

#ifdef __cplusplus
extern "C" {
#endif

/* The structs that a host hands over or gets, filled by that rule. */
struct hullathan_station hullathan_layout_station(void);
struct hullathan_answer hullathan_layout_answer(void);
struct hullathan_batch hullathan_layout_batch(void);
struct hullathan_reading hullathan_layout_reading(void);
struct hullathan_sender hullathan_layout_sender(void);
struct hullathan_sender_reading hullathan_layout_sender_reading(void);

#ifdef __cplusplus
}
#endif

#endif
