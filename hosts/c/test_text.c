/* Refusals as text: each number has its own, every byte has one, and those that there are begin with their number. */
#include <stdio.h>
#include <string.h>

#include "hullathan.h"
#include "hullathan_text.h"
#include "test_help.h"

#define REFUSALS 12

/* Whether a text begins with the number of its refusal, and goes on. */
static int is_numbered(const char *text, unsigned int number)
{
    char begins[32];

    sprintf(begins, "refused by %u: ", number);
    return strncmp(text, begins, strlen(begins)) == 0 && strlen(text) > strlen(begins);
}

static void each_number(void)
{
    unsigned int number;

    for (number = 1; number <= REFUSALS; number++)
        check(is_numbered(hullathan_refusal_text((unsigned char) (HULLATHAN_REFUSED + number)), number),
              "a refusal tells its number");
}

/* What is no refusal, and numbers that a later version may have. */
static void every_other(void)
{
    unsigned int code;
    const char *unknown = hullathan_refusal_text(255);

    check(strcmp(unknown, "refused by a number that this version does not know") == 0, "an unknown number says so");
    for (code = 0; code < HULLATHAN_REFUSED; code++)
        check(strcmp(hullathan_refusal_text((unsigned char) code), "not refused") == 0, "what is no refusal says so");
    check(strcmp(hullathan_refusal_text(HULLATHAN_REFUSED), unknown) == 0, "no refusal has the number 0");
    for (code = HULLATHAN_REFUSED + REFUSALS + 1; code < 256; code++)
        check(strcmp(hullathan_refusal_text((unsigned char) code), unknown) == 0, "no refusal has that number");
}

/* What calls answer. */
static void of_calls(void)
{
    struct hullathan_station s;
    unsigned char code = hullathan_start(&s, 9, 1);

    check(strcmp(hullathan_refusal_text(code), "refused by 3: the width is above 8") == 0, "a width of 9");
    code = hullathan_call(&s, HULLATHAN_GAP, 0, 0).code;
    check(strcmp(hullathan_refusal_text(code), "refused by 6: the duration is below 1/64 ms") == 0, "a gap of 0");
    code = hullathan_call(&s, HULLATHAN_CLEAR, 0, 0).code;
    check(strcmp(hullathan_refusal_text(code), "not refused") == 0, "a clear");
}

int main(void)
{
    each_number();
    every_other();
    of_calls();
    return verdict();
}
