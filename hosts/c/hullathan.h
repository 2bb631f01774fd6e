/*
 * Hullathan for C: the timing station of a Morse receiver, x86-64 Linux. Link with libhullathan.a.
 *
 * A receiver measures how long the key is down and how long it is up, and hands over each length as it ends. The
 * station finds the sender's dit, dah and speed, follows them, and notices when another sender is heard.
 *
 * ---- The words of this file
 *
 *   mark, gap   the key is down; the key is up. Lengths are in milliseconds.
 *   dit, dah    the short mark and the long one, of about three dits.
 *   reading     a dit, a dah and a speed that marks and gaps are read by. A station has one that stands, the
 *               primary: its dit and dah are the station's.
 *   ready       a reading is ready once it has a dit and a dah. The primary becomes so at the fifth mark, at a finish
 *               after two marks or more, or by a seed. Until then it has none, and a 0 stands for each.
 *   rival       another reading of the same marks and gaps, ready from its start; in the structs, a challenger. A
 *               station starts one by itself where the first marks can be read in two ways, and when four live marks
 *               in a row are all short or all long to the primary. All rivals with their scores are the bank.
 *   width       how many readings a station has room for, the primary among them: 1 to 8. Of width 1 it has no rivals.
 *   score       how well the last marks and gaps fit a reading, older ones counting less and less: 0 is best, -30
 *               worst. The gap score is that of the gaps alone.
 *   twin        a rival whose dit and dah have come close to the primary's. It leaves at the mark that made it one.
 *   choice      the rival that may take over, if there is one: chosen at each mark by its score.
 *   switch      the chosen rival becomes the primary, and the former primary a rival in its place.
 *   serial      the number of a reading. That of the first primary is 0, each rival put into the bank gets the next.
 *               It goes along in a switch.
 *
 * Words in double quotes are the rules of the specification, document 01, where the exact rule matters.
 *
 * ---- What a caller owes
 *
 *   - a pointer to a whole struct of the type named;
 *   - that no other thread uses that struct while the call runs, and that two structs of one call do not overlap;
 *   - room on the stack: 256 KB are enough, and about half of it is used;
 *   - the floating-point environment that a program starts with: rounding to nearest, subnormals as they are (neither
 *     flush-to-zero nor denormals-are-zero), exceptions masked. With another rounding a dit has other last bits; with
 *     exceptions unmasked a call may raise SIGFPE. Audio libraries, -ffast-math at the link and feenableexcept change
 *     it: hullathan_environment.h tests it, and sets it for a while.
 *   - this header for this archive: HULLATHAN_FITS, below.
 *
 * Nothing else is asked. Any bytes may stand in a struct, any number may be handed over, and calls may come in any
 * order: each does its work or refuses by number. A struct may be copied, compared by its bytes and saved.
 */
#ifndef HULLATHAN_H
#define HULLATHAN_H

#include <limits.h>
#include <stddef.h>

/* The numbers as the library has them: where one of these lines does not compile, it cannot be linked. */
typedef char hullathan_char_has_8_bits[CHAR_BIT == 8 ? 1 : -1];
typedef char hullathan_int_has_4_bytes[sizeof(unsigned int) == 4 ? 1 : -1];
typedef char hullathan_long_has_8_bytes[sizeof(unsigned long) == 8 ? 1 : -1];
typedef char hullathan_size_has_8_bytes[sizeof(size_t) == 8 ? 1 : -1];
typedef char hullathan_float_has_4_bytes[sizeof(float) == 4 ? 1 : -1];

#ifdef __cplusplus
extern "C" {
#endif

/* ---- Kinds of events. One call is one event; mark, gap, seed and hint have a number. */

#define HULLATHAN_MARK 0   /* a mark in ms, live or not: see hullathan_call */
#define HULLATHAN_GAP 1    /* a gap in ms */
#define HULLATHAN_FINISH 2 /* the signal has ended: be ready by the marks that are there, if there are two */
#define HULLATHAN_SEED 3   /* a speed in words a minute that is known otherwise; all rivals go */
#define HULLATHAN_HINT 4   /* how many dits a dah of this sender has: from 2.2 to 6.0, others as the nearer of the
                              two; "a hint not finite empties the hint" */
#define HULLATHAN_CLEAR 5  /* all rivals go: after a break in the reception, say */
#define HULLATHAN_SWITCH 6 /* may the chosen rival take over? See hullathan_call */

/*
 * ---- Codes, one byte everywhere: 0 to 3, or a refusal: 128 and its number. hullathan_text.h has them as text.
 *
 * What a call finds first decides, in the order of the numbers:
 *
 *    1  A struct handed in is unsound: see "Sound" below. At a switch also: a choice stands and the primary is unready.
 *    2  The bank has counted 4,294,967,295 marks or gaps or more, or the station as many accepted calls.
 *    3  A station is wanted with a width above 8. Width 0 counts as 1.
 *    5  A length in ms is NaN or infinite.
 *    6  A length in ms is below 1/64; so are 0 and negatives.
 *    7  A length in ms is above 262,144.
 *    8  A speed to seed is not finite or not above 0.
 *    9  The dit that a sender's length is measured by is NaN or outside 20 to 150 ms.
 *   12  No event has the kind, or no class the number.
 *
 * 4, 10 and 11 are of functions that are not in this library. A refused call changes no byte of what it was lent; only
 * hullathan_start, refused, leaves a station.
 */
#define HULLATHAN_DONE 0
#define HULLATHAN_BECAME_READY 1 /* done, and the primary became ready: by a mark, a finish or a seed */
#define HULLATHAN_SWITCHED 2     /* a rival took over */
#define HULLATHAN_NOTHING 3      /* nothing to do: a finish that made nothing ready, a switch with no choice */
#define HULLATHAN_REFUSED 128

/* ---- Why a rival left. */

#define HULLATHAN_TWIN 0      /* the logarithms of its dit and dah came within 0.25 of the primary's, both */
#define HULLATHAN_OUTSCORED 1 /* its score was 12 or more behind the primary's */
#define HULLATHAN_AGED 2      /* it was there for 64 marks and did not take over */
#define HULLATHAN_REPLACED 3  /* a new rival took its place: there was no other */
#define HULLATHAN_CLEARED 4   /* a clear or a seed let it go */

/* ---- Where a rival came from. */

#define HULLATHAN_FROM_BOOTSTRAP 0 /* the marks by which the primary became ready, read in the other way */
#define HULLATHAN_FROM_STREAK 1    /* four live marks in a row, all short or all long to the primary: a streak */
#define HULLATHAN_FROM_PRIMARY 2   /* it was the primary until a switch */

/* ---- How much there is room for. */

#define HULLATHAN_START_MARKS 12
#define HULLATHAN_RECENT 5
#define HULLATHAN_RING 12
#define HULLATHAN_STREAK 4
#define HULLATHAN_LOG 16
#define HULLATHAN_WIDEST 8 /* readings of a station, the primary among them */
#define HULLATHAN_LEFT 7   /* rivals that may leave in one call: all of the widest bank */
#define HULLATHAN_BATCH 64 /* events of a batch */

/*
 * ---- The station. A host need not look into it: hullathan_read shows what a display and a log need.
 *
 * A flag is 0 or 1. A number after a flag named has_.. is there where the flag is 1. Of an array only the first so many
 * places count as the field named .._len behind it says. What does not count, and the bytes named pad_.., are no part
 * of a station: no call looks at them, and one that stores a station fills them with zeros. So two stations that are
 * alike have the same bytes, once each has been stored by a call.
 *
 * Sound, or else refused by 1 (NaN is outside every range):
 *   - a tracker: where it is ready, lo is from 20 to 150 and hi from 16 to 2,500; where it is not, both are +0 and
 *     init_len is at most 4. Of a ring entry pre_lo and pre_hi are in those ranges. wpm_ema and mu_egap_ms, where they
 *     are held, are finite and above 0; ratio_hint, where it is held, is from 2.2 to 6.0;
 *   - a bank: the width is from 1 to 8; there are fewer challengers than that, each is ready, and its ln_lo and ln_hi
 *     are the logarithms of its dit and dah; pending, where there is one, is below challengers_len; there are no more
 *     streak gaps than streak marks; scores are from -30 to 0; an origin is one of the three;
 *   - a station: no serial is above bank.started or held twice; started is at most `accepted`, and is what is held and
 *     what left: challengers_len, twins, outscored, aged, replaced and cleared together;
 *   - a sender: of a class with an observation the mean is from 0.0001 to 13,108, the variance finite and not below 0;
 *   - in all: no count is above its room, no flag above 1, no length held that 5, 6 or 7 would refuse.
 */

/* Dit and dah, and the marks kept until they are found. Both are centroids: averages that each mark moves a little. */
struct hullathan_pair {
    float lo; /* dit, ms */
    float hi; /* dah, ms */
    float init[HULLATHAN_START_MARKS];
    size_t init_len;
    unsigned char ready;
    unsigned char confirmed;         /* flag: neither was only assumed: two lengths were heard, or it was seeded */
    unsigned char placeholder_is_lo; /* says something only while confirmed is 0: 1 the dit was assumed, 0 the dah */
    unsigned char pad_placeholder_is_lo[5];
    size_t lo_n; /* start marks that made the dit; any number is sound */
};

/* One of the last marks: its length, whether it was taken for a dit, and dit and dah before it. */
struct hullathan_ring_entry {
    float dur_ms;
    unsigned char assigned_dit; /* flag */
    unsigned char pad_assigned_dit[3];
    float pre_lo;
    float pre_hi;
};

/* A reading, and what it was learnt from. */
struct hullathan_tracker {
    struct hullathan_pair pair;
    struct hullathan_ring_entry ring[HULLATHAN_RING]; /* the last marks since it was ready, oldest first */
    size_t ring_len;
    unsigned char has_wpm;
    unsigned char pad_has_wpm[3];
    float wpm_ema;                  /* speed, words a minute, smoothed */
    float recent[HULLATHAN_RECENT]; /* the last marks, oldest first */
    unsigned char pad_recent[4];
    size_t recent_len;
    unsigned char has_egap;
    unsigned char pad_has_egap[3];
    float mu_egap_ms; /* the gap within a letter, smoothed */
    unsigned char has_hint;
    unsigned char pad_has_hint[3];
    float ratio_hint;                /* dits of a dah, as hinted */
    unsigned int regime;             /* how often dit and dah were found anew: the sender's speed had changed */
    unsigned char badlock_recovered; /* flag: the dit had come from a fragment of a mark, and was mended */
    unsigned char lo_uncorroborated; /* flag: the dit rests on one start mark or on a seed, and no dit came since */
    unsigned char pad_lo_uncorroborated[2];
};

/* A switch that was made, or that would have been made with switching on. */
struct hullathan_switch_record {
    unsigned long mark_index; /* the mark at which the rival was chosen, counted from 1 by the bank */
    float from_dit_ms;
    float to_dit_ms;
    unsigned char applied; /* flag: it was made */
    unsigned char pad_applied[7];
};

/* A rival. */
struct hullathan_hypothesis {
    struct hullathan_tracker tracker;
    float score;
    float gap_score;
    unsigned int lead_marks;   /* marks in a row that its score was 4.0 or more above the primary's */
    unsigned int age_marks;    /* marks since its start, or since it was the primary */
    unsigned char origin;      /* HULLATHAN_FROM_.. */
    unsigned char pad_origin[3];
    unsigned int retain_marks; /* of a former primary: for so many marks more it stays, whatever its score */
    unsigned char reported;    /* flag: with switching off, this lead is in the log */
    unsigned char pad_reported[3];
    float ln_lo; /* logarithms of its dit and dah */
    float ln_hi;
    unsigned char pad_ln_hi[4];
    unsigned long serial;
};

/* The rivals, and what is heard for the next one. */
struct hullathan_bank {
    size_t width;
    unsigned char switching; /* flag: a rival may take over */
    unsigned char pad_switching[3];
    float primary_score;
    float primary_gap_score;
    unsigned char pad_primary_gap_score[4];
    struct hullathan_hypothesis challengers[HULLATHAN_WIDEST];
    size_t challengers_len; /* below the width */
    float streak[HULLATHAN_STREAK];
    size_t streak_len;
    float streak_gaps[HULLATHAN_STREAK];
    size_t streak_gaps_len;
    unsigned char has_side;
    unsigned char streak_side; /* flag: the streak is of marks that are long to the primary */
    unsigned char has_last_gap;
    unsigned char pad_has_last_gap[1];
    float last_gap;
    unsigned long marks_seen;
    unsigned long gaps_seen;
    unsigned char has_pending;
    unsigned char pad_has_pending[7];
    size_t pending; /* the choice, by its place among the challengers */
    struct hullathan_switch_record log[HULLATHAN_LOG]; /* the last ones, oldest first */
    size_t log_len;
    unsigned long started; /* rivals ever put in: the last serial given */
};

/* A station: the primary and its serial, the bank, how many rivals left by each cause, and calls accepted. */
struct hullathan_station {
    struct hullathan_tracker primary;
    unsigned long serial;
    struct hullathan_bank bank;
    unsigned long twins;
    unsigned long outscored;
    unsigned long aged;
    unsigned long replaced;
    unsigned long cleared;
    unsigned long accepted;
};

/* ---- What goes in and comes out of a station. */

/* A rival that left in a call: its serial, and why. */
struct hullathan_departure {
    unsigned long serial;
    unsigned char cause; /* HULLATHAN_TWIN .. HULLATHAN_CLEARED */
    unsigned char pad_cause[7];
};

/*
 * The answer to an event: its code; then the station after it: the primary's dit, dah and serial, the number of rivals;
 * and who left in it, in any order. Places of `left` beyond left_len hold zeros.
 */
struct hullathan_answer {
    unsigned char code;
    unsigned char pad_code[3];
    float dit_ms;
    float dah_ms;
    unsigned char pad_dah_ms[4];
    unsigned long serial;
    size_t challengers;
    struct hullathan_departure left[HULLATHAN_LEFT];
    size_t left_len;
};

/* An event: a kind, HULLATHAN_MARK .. HULLATHAN_SWITCH, with its number where it has one. */
struct hullathan_event {
    unsigned char kind;
    unsigned char live; /* of a mark only: 0 no, anything else yes */
    unsigned char pad_live[2];
    float value; /* ms (mark, gap), words a minute (seed), ratio (hint) */
};

/* Events to run, and room for their answers. */
struct hullathan_batch {
    size_t len;
    struct hullathan_event events[HULLATHAN_BATCH];
    struct hullathan_answer answers[HULLATHAN_BATCH];
};

/* What a display shows of a rival. */
struct hullathan_rival {
    unsigned long serial;
    float dit_ms;
    float dah_ms;
    float score;
    float gap_score;
};

/* What a display and a log need of a station. */
struct hullathan_reading {
    unsigned char code;
    unsigned char ready;   /* flag: the primary has a dit and a dah */
    unsigned char has_wpm; /* flag */
    unsigned char switching;
    unsigned char pad_switching[4];
    size_t width;
    float dit_ms;
    float dah_ms;
    float dit_estimate_ms; /* the unit of speed and gaps: the dit, corrected by the gaps within letters */
    float wpm;             /* 0 where has_wpm is 0 */
    float score;
    float gap_score;
    unsigned long serial;
    unsigned long accepted; /* calls */
    unsigned long marks;    /* that the bank heard: with a ready primary, of width 2 or more */
    unsigned long gaps;
    unsigned long started; /* rivals ever put in */
    unsigned long twins;   /* rivals that left, by cause */
    unsigned long outscored;
    unsigned long aged;
    unsigned long replaced;
    unsigned long cleared;
    size_t challengers;
    struct hullathan_rival rivals[HULLATHAN_WIDEST]; /* zeros beyond `challengers` */
    size_t log_len;
    struct hullathan_switch_record log[HULLATHAN_LOG]; /* the last switches, oldest first; zeros beyond log_len */
};

/*
 * ---- A sender's habits: how long its dots, dashes and gaps are, in dits. Milliseconds and dits are never given for
 * each other: hullathan_sender_observe makes the second of the first.
 */

#define HULLATHAN_DOT 0
#define HULLATHAN_DASH 1
#define HULLATHAN_ELEMENT_GAP 2   /* within a letter */
#define HULLATHAN_CHARACTER_GAP 3 /* between letters */
#define HULLATHAN_WORD_GAP 4      /* between words */

/* A class of lengths: average, variance, observations. Where n is 0, the other two mean nothing. */
struct hullathan_class_stats {
    float mean; /* dits */
    float var;  /* dits squared */
    unsigned int n;
};

/* The five classes: 60 bytes of the host's, as a station is. */
struct hullathan_sender {
    struct hullathan_class_stats dot;
    struct hullathan_class_stats dash;
    struct hullathan_class_stats element_gap;
    struct hullathan_class_stats char_gap;
    struct hullathan_class_stats word_gap;
};

/* What a display and a decoder need of a sender. Refused by 1, all but the code is 0. */
struct hullathan_sender_reading {
    unsigned char code;
    unsigned char has_ratio; /* flag: three dots and three dashes were observed */
    unsigned char has_word;  /* flag: a character gap was observed */
    unsigned char pad_has_word[1];
    float dit_ms;    /* as it was handed in */
    float ratio;     /* a dash by a dot; 0 where has_ratio is 0. A good hint for a station */
    float word_dits; /* a gap from here on parts words: 3 to 12 dits; 0 where has_word is 0 */
    struct hullathan_class_stats dot; /* zeros where n is 0; so the other four */
    struct hullathan_class_stats dash;
    struct hullathan_class_stats element_gap;
    struct hullathan_class_stats char_gap;
    struct hullathan_class_stats word_gap;
};

/* The structs as this version has them: these lines do not compile where C is told to pack structs. */
typedef char hullathan_station_has_its_size[sizeof(struct hullathan_station) == 4056 ? 1 : -1];
typedef char hullathan_answer_has_its_size[sizeof(struct hullathan_answer) == 152 ? 1 : -1];
typedef char hullathan_batch_has_its_size[sizeof(struct hullathan_batch) == 10248 ? 1 : -1];
typedef char hullathan_reading_has_its_size[sizeof(struct hullathan_reading) == 712 ? 1 : -1];
typedef char hullathan_sender_has_its_size[sizeof(struct hullathan_sender) == 60 ? 1 : -1];
typedef char hullathan_sender_reading_has_its_size[sizeof(struct hullathan_sender_reading) == 76 ? 1 : -1];

/*
 * ---- The version. Structs change between versions, and an archive of another one would write where there is no room.
 * So ask before the first call of all, and go no further where it says no:
 *
 *     if (!HULLATHAN_FITS()) {
 *         fprintf(stderr, "libhullathan.a has version %u, hullathan.h %u\n", hullathan_version(), HULLATHAN_VERSION);
 *         exit(EXIT_FAILURE);
 *     }
 *
 * An archive from before version 2 has no hullathan_version, and is not linked.
 */
#define HULLATHAN_VERSION 2U

/* The version of the archive. */
unsigned int hullathan_version(void);

/* The size in bytes that a struct has in the archive, by its number; 0 for any other number. */
size_t hullathan_size(unsigned char what);

#define HULLATHAN_SIZE_STATION 0
#define HULLATHAN_SIZE_ANSWER 1
#define HULLATHAN_SIZE_EVENT 2
#define HULLATHAN_SIZE_BATCH 3
#define HULLATHAN_SIZE_READING 4
#define HULLATHAN_SIZE_BANK 5
#define HULLATHAN_SIZE_TRACKER 6
#define HULLATHAN_SIZE_SENDER 7
#define HULLATHAN_SIZE_SENDER_READING 8

/* Whether the archive has this header's version, and each struct the size that it has where this is compiled. */
#define HULLATHAN_FITS() \
    (hullathan_version() == HULLATHAN_VERSION \
     && hullathan_size(HULLATHAN_SIZE_STATION) == sizeof(struct hullathan_station) \
     && hullathan_size(HULLATHAN_SIZE_ANSWER) == sizeof(struct hullathan_answer) \
     && hullathan_size(HULLATHAN_SIZE_EVENT) == sizeof(struct hullathan_event) \
     && hullathan_size(HULLATHAN_SIZE_BATCH) == sizeof(struct hullathan_batch) \
     && hullathan_size(HULLATHAN_SIZE_READING) == sizeof(struct hullathan_reading) \
     && hullathan_size(HULLATHAN_SIZE_BANK) == sizeof(struct hullathan_bank) \
     && hullathan_size(HULLATHAN_SIZE_TRACKER) == sizeof(struct hullathan_tracker) \
     && hullathan_size(HULLATHAN_SIZE_SENDER) == sizeof(struct hullathan_sender) \
     && hullathan_size(HULLATHAN_SIZE_SENDER_READING) == sizeof(struct hullathan_sender_reading))

/* ---- Calls on a station. */

/*
 * A fresh station in *s, whatever stood there: an unready primary, no rivals, all counts 0. Switching: 0 off, anything
 * else on. Done; or refused by 3 where the width is above 8: then *s is a fresh station of width 1 with switching off.
 */
unsigned char hullathan_start(struct hullathan_station *s, size_t width, unsigned char switching);

/*
 * One event, in the order in which things are heard: a mark when it ends, the gap after it when that ends.
 *
 * Live. A mark is live when it is heard for the first time: the primary learns it, each rival is scored by it and then
 * learns it, and it may start a new rival. A mark that is not live was learnt before and is handed over again, as when
 * a receiver that held back the first marks until the station was ready plays them once more: it is counted, every
 * reading is scored by it and rivals grow older, leave or are chosen, but none learns from it and none is started by
 * it. Where the primary is unready or the width is 1, it does nothing. A receiver that hands over each mark once, when
 * it ends, always says 1.
 *
 * Gaps. One that comes while the primary is unready does nothing. Of a gap below two dits (by the dit estimate) a
 * reading learns; each is scored by it, unless it is a pause, of 12 dits of the slowest reading or more.
 *
 * When to ask for a switch. Each mark makes the choice anew, and it stands until the next mark, clear, seed or switch
 * call; gaps do not end it. So ask after a mark and before the next one, where the decoder can bear another dit: once
 * the gap tells that a letter has ended (two dits or more), or a word. Asked after each mark, one letter may be read by
 * two dits; never asked, the primary stays whatever the scores. Where there is no choice the question costs what any
 * call costs at least, about a microsecond for the test that the station is sound; in a batch next to nothing. With
 * switching off the answer is always 3, and the switch that would have been made is put into the log, once for each
 * lead. The rule:
 *
 *   "an accepted switch call answers 'switched' exactly when switching is on, the width is at least 2, and at the last
 *   mark that the bank heard, with no accepted clear, seed or switch call since, a challenger ended that mark and the
 *   bank mark before it at least 4.0 (one f32 subtraction) above the then primary's score, had age 2 or more at its
 *   end, and a gap score strictly above the primary's; the one moved is, among those that meet all this, the first in
 *   bank order of highest score at that mark."
 *
 * Refused by 1, 2, 5, 6, 7, 8 or 12. Where *s is no sound station all numbers of the answer but the code are 0; of any
 * other refusal its dit, dah, serial and challengers are the station's as it is, and none left.
 */
struct hullathan_answer hullathan_call(struct hullathan_station *s, unsigned char kind, unsigned char live,
                                       float value);

/*
 * The first b->len events of b->events, one after the other, each answered in b->answers as hullathan_call would answer
 * it; after a refused one the next goes on. Done; or refused by 1 where *s is no sound station or len is above 64: then
 * nothing is changed. The len, the events and the answers beyond len stay as they were; so does every byte of the
 * station where each event was refused.
 */
unsigned char hullathan_run(struct hullathan_station *s, struct hullathan_batch *b);

/* What a display and a log need. The code is 0; or refused by 1 where *s is no sound station: then all else is 0. */
struct hullathan_reading hullathan_read(const struct hullathan_station *s);

/*
 * ---- The switch alone, for a host that keeps the primary in a place of its own: the bank, and that tracker and its
 * serial, which are lent. It is the switch of hullathan_call but for the station's counts: it is not counted.
 *
 * Switched (2): the choice is found in *primary and its serial in *serial, and the former primary is a rival in its
 * place. Nothing to do (3): *primary and *serial are as they were, to the byte; with switching off, a choice that stood
 * is now in the bank's log. Refused by 1 where the bank or the tracker is unsound, or the tracker unready and a choice
 * stands; by 2 where the bank has counted to its end: then all three are as they were.
 */
unsigned char hullathan_bank_take_switch(struct hullathan_bank *b, struct hullathan_tracker *primary,
                                         unsigned long *serial);

/*
 * ---- Calls on a sender. A receiver that has read a mark as a dot or a dash, or a gap as one of the three, observes it
 * with the dit estimate of the station at that time (hullathan_reading's dit_estimate_ms). After a switch, start anew.
 */

/* A sender with no observations: all zeros. */
void hullathan_sender_start(struct hullathan_sender *t);

/*
 * One length of a class, HULLATHAN_DOT .. HULLATHAN_WORD_GAP, in ms, and the dit in ms that it is measured by. Of
 * their quotient, in dits, the class keeps an average in which each new length weighs 0.15, the variance about it, and
 * a count that stays at its largest. Done; or refused by 1, 5, 6, 7 (the length), 9 (the dit) or 12 (the class).
 */
unsigned char hullathan_sender_observe(struct hullathan_sender *t, unsigned char timing_class, float dur_ms,
                                       float dit_ms);

/*
 * The sender's classes, its dash by dot, and from where on a gap parts words: the geometric mean of character gap and
 * word gap, or 1.5275252 character gaps while no word gap was observed; at least 3 dits, at most 12.
 */
struct hullathan_sender_reading hullathan_sender_read(const struct hullathan_sender *t, float dit_ms);

/*
 * Whether a gap between words is a pause: of 15 dits and of four average character gaps or more. 1 yes, 0 no; of NaN
 * no; or refused by 1. The gap is in dits.
 */
unsigned char hullathan_sender_is_pause(const struct hullathan_sender *t, float gap_dits);

#ifdef __cplusplus
}
#endif

#endif
