/* Refusals as text, for a log. The library has no strings; so this is a function of the host's own. */
#ifndef HULLATHAN_TEXT_H
#define HULLATHAN_TEXT_H

#include "hullathan.h"

#if defined(__GNUC__)
__attribute__((__unused__))
#endif
/*
 * What a code says of a refusal, without a newline; never null. A code that is none, 0 to 127, has a text too, and so
 * has a number that this version does not know.
 */
static const char *hullathan_refusal_text(unsigned char code)
{
    switch (code) {
    case HULLATHAN_REFUSED + 1:
        return "refused by 1: the state handed in is unsound";
    case HULLATHAN_REFUSED + 2:
        return "refused by 2: 4,294,967,295 or more marks, gaps or accepted calls are counted";
    case HULLATHAN_REFUSED + 3:
        return "refused by 3: the width is above 8";
    case HULLATHAN_REFUSED + 4:
        return "refused by 4: the list has more than 12 entries";
    case HULLATHAN_REFUSED + 5:
        return "refused by 5: the duration is NaN or infinite";
    case HULLATHAN_REFUSED + 6:
        return "refused by 6: the duration is below 1/64 ms";
    case HULLATHAN_REFUSED + 7:
        return "refused by 7: the duration is above 262,144 ms";
    case HULLATHAN_REFUSED + 8:
        return "refused by 8: the seeding speed is not finite or not above zero";
    case HULLATHAN_REFUSED + 9:
        return "refused by 9: the dit is NaN or outside 20 to 150 ms";
    case HULLATHAN_REFUSED + 10:
        return "refused by 10: the logarithm's input is not finite and positive";
    case HULLATHAN_REFUSED + 11:
        return "refused by 11: the root's input is NaN, infinite or below zero";
    case HULLATHAN_REFUSED + 12:
        return "refused by 12: the line, the event or the class breaks its form";
    default:
        return code < HULLATHAN_REFUSED ? "not refused" : "refused by a number that this version does not know";
    }
}

#endif
