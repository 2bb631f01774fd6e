/*
 * The layout: the offset, the size and the type of every field of every struct of hullathan.h, against what the
 * library shows (hullathan_layout.h).
 *
 * A table for each struct names its fields in order, so that the row of a field says which place it must hold: a
 * field that is missing, in the header or here, shifts all places after it. The count behind the name of a table
 * is how many fields the struct has.
 */
#include <stdio.h>
#include <string.h>

#include "hullathan.h"
#include "hullathan_layout.h"
#include "test_help.h"

#define ROOM 256      /* bytes before and after what the library may write */
#define PATTERN 0xa5  /* what stands there */
#define LAST_MORE 100 /* what the last element of an array has more */

/* A field: its name, offset, size of one element, how many there are, whether in an array, and of which struct. */
struct field {
    const char *name;
    size_t offset;
    size_t size;
    size_t count;
    int array;
    const struct shape *of;
    size_t typed;
};

/* A struct: its name, its size, its fields. */
struct shape {
    const char *name;
    size_t size;
    const struct field *fields;
    size_t count;
};

/* A comparison that is never run: it does not compile where the field has another type. */
#define IS(s, name, type) sizeof(&((struct hullathan_##s *) 0)->name == (type *) 0)
#define EACH(s, name) sizeof(((struct hullathan_##s *) 0)->name[0])
#define COUNT(s, name) (sizeof(((struct hullathan_##s *) 0)->name) / EACH(s, name))
#define AT(s, name) #name, offsetof(struct hullathan_##s, name)

/* The rows: a number, numbers in an array, a struct, structs in an array. */
#define ONE(s, type, name) {AT(s, name), sizeof(type), 1, 0, NULL, IS(s, name, type)}
#define MANY(s, type, name) {AT(s, name), EACH(s, name), COUNT(s, name), 1, NULL, IS(s, name[0], type)}
#define HELD(s, h, name) \
    {AT(s, name), sizeof(struct hullathan_##h), 1, 0, &h##_shape, IS(s, name, struct hullathan_##h)}
#define HELDS(s, h, name) \
    {AT(s, name), EACH(s, name), COUNT(s, name), 1, &h##_shape, IS(s, name[0], struct hullathan_##h)}

/* A table with so many rows. */
#define SHAPE(s, rows) \
    typedef char s##_rows_are_counted[sizeof s##_fields / sizeof s##_fields[0] == rows ? 1 : -1]; \
    static const struct shape s##_shape = {#s, sizeof(struct hullathan_##s), s##_fields, rows};

#define U8 unsigned char
#define U32 unsigned int
#define U64 unsigned long

static const struct field pair_fields[] = {
    ONE(pair, float, lo),
    ONE(pair, float, hi),
    MANY(pair, float, init),
    ONE(pair, size_t, init_len),
    ONE(pair, U8, ready),
    ONE(pair, U8, confirmed),
    ONE(pair, U8, placeholder_is_lo),
    MANY(pair, U8, pad_placeholder_is_lo),
    ONE(pair, size_t, lo_n),
};
SHAPE(pair, 9)

static const struct field ring_entry_fields[] = {
    ONE(ring_entry, float, dur_ms),
    ONE(ring_entry, U8, assigned_dit),
    MANY(ring_entry, U8, pad_assigned_dit),
    ONE(ring_entry, float, pre_lo),
    ONE(ring_entry, float, pre_hi),
};
SHAPE(ring_entry, 5)

static const struct field tracker_fields[] = {
    HELD(tracker, pair, pair),
    HELDS(tracker, ring_entry, ring),
    ONE(tracker, size_t, ring_len),
    ONE(tracker, U8, has_wpm),
    MANY(tracker, U8, pad_has_wpm),
    ONE(tracker, float, wpm_ema),
    MANY(tracker, float, recent),
    MANY(tracker, U8, pad_recent),
    ONE(tracker, size_t, recent_len),
    ONE(tracker, U8, has_egap),
    MANY(tracker, U8, pad_has_egap),
    ONE(tracker, float, mu_egap_ms),
    ONE(tracker, U8, has_hint),
    MANY(tracker, U8, pad_has_hint),
    ONE(tracker, float, ratio_hint),
    ONE(tracker, U32, regime),
    ONE(tracker, U8, badlock_recovered),
    ONE(tracker, U8, lo_uncorroborated),
    MANY(tracker, U8, pad_lo_uncorroborated),
};
SHAPE(tracker, 19)

static const struct field switch_record_fields[] = {
    ONE(switch_record, U64, mark_index),
    ONE(switch_record, float, from_dit_ms),
    ONE(switch_record, float, to_dit_ms),
    ONE(switch_record, U8, applied),
    MANY(switch_record, U8, pad_applied),
};
SHAPE(switch_record, 5)

static const struct field hypothesis_fields[] = {
    HELD(hypothesis, tracker, tracker),
    ONE(hypothesis, float, score),
    ONE(hypothesis, float, gap_score),
    ONE(hypothesis, U32, lead_marks),
    ONE(hypothesis, U32, age_marks),
    ONE(hypothesis, U8, origin),
    MANY(hypothesis, U8, pad_origin),
    ONE(hypothesis, U32, retain_marks),
    ONE(hypothesis, U8, reported),
    MANY(hypothesis, U8, pad_reported),
    ONE(hypothesis, float, ln_lo),
    ONE(hypothesis, float, ln_hi),
    MANY(hypothesis, U8, pad_ln_hi),
    ONE(hypothesis, U64, serial),
};
SHAPE(hypothesis, 14)

static const struct field bank_fields[] = {
    ONE(bank, size_t, width),
    ONE(bank, U8, switching),
    MANY(bank, U8, pad_switching),
    ONE(bank, float, primary_score),
    ONE(bank, float, primary_gap_score),
    MANY(bank, U8, pad_primary_gap_score),
    HELDS(bank, hypothesis, challengers),
    ONE(bank, size_t, challengers_len),
    MANY(bank, float, streak),
    ONE(bank, size_t, streak_len),
    MANY(bank, float, streak_gaps),
    ONE(bank, size_t, streak_gaps_len),
    ONE(bank, U8, has_side),
    ONE(bank, U8, streak_side),
    ONE(bank, U8, has_last_gap),
    MANY(bank, U8, pad_has_last_gap),
    ONE(bank, float, last_gap),
    ONE(bank, U64, marks_seen),
    ONE(bank, U64, gaps_seen),
    ONE(bank, U8, has_pending),
    MANY(bank, U8, pad_has_pending),
    ONE(bank, size_t, pending),
    HELDS(bank, switch_record, log),
    ONE(bank, size_t, log_len),
    ONE(bank, U64, started),
};
SHAPE(bank, 25)

static const struct field station_fields[] = {
    HELD(station, tracker, primary),
    ONE(station, U64, serial),
    HELD(station, bank, bank),
    ONE(station, U64, twins),
    ONE(station, U64, outscored),
    ONE(station, U64, aged),
    ONE(station, U64, replaced),
    ONE(station, U64, cleared),
    ONE(station, U64, accepted),
};
SHAPE(station, 9)

static const struct field departure_fields[] = {
    ONE(departure, U64, serial),
    ONE(departure, U8, cause),
    MANY(departure, U8, pad_cause),
};
SHAPE(departure, 3)

static const struct field answer_fields[] = {
    ONE(answer, U8, code),
    MANY(answer, U8, pad_code),
    ONE(answer, float, dit_ms),
    ONE(answer, float, dah_ms),
    MANY(answer, U8, pad_dah_ms),
    ONE(answer, U64, serial),
    ONE(answer, size_t, challengers),
    HELDS(answer, departure, left),
    ONE(answer, size_t, left_len),
};
SHAPE(answer, 9)

static const struct field event_fields[] = {
    ONE(event, U8, kind),
    ONE(event, U8, live),
    MANY(event, U8, pad_live),
    ONE(event, float, value),
};
SHAPE(event, 4)

static const struct field batch_fields[] = {
    ONE(batch, size_t, len),
    HELDS(batch, event, events),
    HELDS(batch, answer, answers),
};
SHAPE(batch, 3)

static const struct field rival_fields[] = {
    ONE(rival, U64, serial),
    ONE(rival, float, dit_ms),
    ONE(rival, float, dah_ms),
    ONE(rival, float, score),
    ONE(rival, float, gap_score),
};
SHAPE(rival, 5)

static const struct field reading_fields[] = {
    ONE(reading, U8, code),
    ONE(reading, U8, ready),
    ONE(reading, U8, has_wpm),
    ONE(reading, U8, switching),
    MANY(reading, U8, pad_switching),
    ONE(reading, size_t, width),
    ONE(reading, float, dit_ms),
    ONE(reading, float, dah_ms),
    ONE(reading, float, dit_estimate_ms),
    ONE(reading, float, wpm),
    ONE(reading, float, score),
    ONE(reading, float, gap_score),
    ONE(reading, U64, serial),
    ONE(reading, U64, accepted),
    ONE(reading, U64, marks),
    ONE(reading, U64, gaps),
    ONE(reading, U64, started),
    ONE(reading, U64, twins),
    ONE(reading, U64, outscored),
    ONE(reading, U64, aged),
    ONE(reading, U64, replaced),
    ONE(reading, U64, cleared),
    ONE(reading, size_t, challengers),
    HELDS(reading, rival, rivals),
    ONE(reading, size_t, log_len),
    HELDS(reading, switch_record, log),
};
SHAPE(reading, 26)

static const struct field class_stats_fields[] = {
    ONE(class_stats, float, mean),
    ONE(class_stats, float, var),
    ONE(class_stats, U32, n),
};
SHAPE(class_stats, 3)

static const struct field sender_fields[] = {
    HELD(sender, class_stats, dot),
    HELD(sender, class_stats, dash),
    HELD(sender, class_stats, element_gap),
    HELD(sender, class_stats, char_gap),
    HELD(sender, class_stats, word_gap),
};
SHAPE(sender, 5)

static const struct field sender_reading_fields[] = {
    ONE(sender_reading, U8, code),
    ONE(sender_reading, U8, has_ratio),
    ONE(sender_reading, U8, has_word),
    MANY(sender_reading, U8, pad_has_word),
    ONE(sender_reading, float, dit_ms),
    ONE(sender_reading, float, ratio),
    ONE(sender_reading, float, word_dits),
    HELD(sender_reading, class_stats, dot),
    HELD(sender_reading, class_stats, dash),
    HELD(sender_reading, class_stats, element_gap),
    HELD(sender_reading, class_stats, char_gap),
    HELD(sender_reading, class_stats, word_gap),
};
SHAPE(sender_reading, 12)

/* ---- the tables leave out nothing: every byte of a struct belongs to a field that has a name */

static void say(const struct shape *s, const char *field, int holds, const char *what)
{
    char line[200];

    sprintf(line, "struct hullathan_%s, %s: %s", s->name, field, what);
    check(holds, line);
}

/* Each field begins where the one before ended; so does the end of the struct. */
static void check_cover(const struct shape *s)
{
    size_t i, end = 0;
    const struct field *f;

    for (i = 0; i < s->count; i++) {
        f = &s->fields[i];
        say(s, f->name, f->offset == end, "begins where the one before ends");
        say(s, f->name, f->of == NULL || f->of->size == f->size, "has the size of its struct");
        end = f->offset + f->count * f->size;
    }
    say(s, "size", s->size == end, "ends with the last field");
}

/* ---- what the library shows */

/* A number of so many bytes, the low byte first; of a float its bits. */
static unsigned long number_at(const unsigned char *at, size_t size)
{
    unsigned long n = 0;

    while (size > 0)
        n = n << 8 | at[--size];
    return n;
}

static void check_shape(const struct shape *s, const unsigned char *base, unsigned long more);

/* A field that holds its place; in the last element of an array more. */
static void check_field(const struct shape *s, size_t row, const unsigned char *base, unsigned long more)
{
    const struct field *f = &s->fields[row];
    const unsigned char *at;
    unsigned long extra;
    size_t i;

    for (i = 0; i < f->count; i++) {
        at = base + f->offset + i * f->size;
        extra = f->array && i == f->count - 1 ? LAST_MORE : 0;
        if (f->of != NULL)
            check_shape(f->of, at, extra);
        else
            say(s, f->name, number_at(at, f->size) == row + 1 + more + extra, "holds its place");
    }
}

static void check_shape(const struct shape *s, const unsigned char *base, unsigned long more)
{
    size_t row;

    for (row = 0; row < s->count; row++)
        check_field(s, row, base, more);
}

/* ---- what the library writes */

/* Room for any of the structs, with a pattern around it. */
static union {
    unsigned char bytes[ROOM + sizeof(struct hullathan_batch) + ROOM];
    struct {
        unsigned char before[ROOM];
        struct hullathan_station it;
    } station;
    struct {
        unsigned char before[ROOM];
        struct hullathan_batch it;
    } batch;
    struct {
        unsigned char before[ROOM];
        struct hullathan_sender it;
    } sender;
} room;

static void lay_pattern(void)
{
    memset(room.bytes, PATTERN, sizeof room.bytes);
}

/* Nothing was written before or after the struct. */
static void check_pattern(const struct shape *s, const char *what)
{
    size_t i;
    int holds = 1;

    for (i = 0; i < sizeof room.bytes; i++) {
        if ((i < ROOM || i >= ROOM + s->size) && room.bytes[i] != PATTERN)
            holds = 0;
    }
    say(s, what, holds, "writes nothing beside the struct");
}

/*
 * A function that returns a struct gets, on x86-64 Linux, a pointer to the room for it as its first argument. Called
 * by this type it writes where it is told to, and what it writes beside the struct is seen.
 */
typedef void (*any_call)(void);
typedef void *(*into)(void *);

static void check_shown(const struct shape *s, any_call show)
{
    lay_pattern();
    ((into) show)(room.bytes + ROOM);
    check_pattern(s, "shown");
    check_shape(s, room.bytes + ROOM, 0);
}

/* The structs as C gets them: by value. */
static void check_values(void)
{
    struct hullathan_station s = hullathan_layout_station();
    struct hullathan_answer a = hullathan_layout_answer();
    static struct hullathan_batch b;
    struct hullathan_reading r = hullathan_layout_reading();
    struct hullathan_sender t = hullathan_layout_sender();
    struct hullathan_sender_reading u = hullathan_layout_sender_reading();

    b = hullathan_layout_batch();
    check_shape(&station_shape, (const unsigned char *) &s, 0);
    check_shape(&answer_shape, (const unsigned char *) &a, 0);
    check_shape(&batch_shape, (const unsigned char *) &b, 0);
    check_shape(&reading_shape, (const unsigned char *) &r, 0);
    check_shape(&sender_shape, (const unsigned char *) &t, 0);
    check_shape(&sender_reading_shape, (const unsigned char *) &u, 0);
}

/* A station and a batch that are lent: nothing beside them is written. */
static void check_lent(void)
{
    struct hullathan_station *s = &room.station.it;
    struct hullathan_batch *b = &room.batch.it;
    struct hullathan_station own;

    lay_pattern();
    hullathan_start(s, HULLATHAN_WIDEST, 1);
    check_pattern(&station_shape, "hullathan_start");
    hullathan_call(s, HULLATHAN_SEED, 0, 20);
    check_pattern(&station_shape, "hullathan_call");
    hullathan_read(s);
    check_pattern(&station_shape, "hullathan_read");
    own = *s;
    lay_pattern();
    memset(b, 0, sizeof *b);
    b->len = HULLATHAN_BATCH;
    hullathan_run(&own, b);
    check_pattern(&batch_shape, "hullathan_run");
}

/* A sender that is lent. */
static void check_lent_sender(void)
{
    struct hullathan_sender *t = &room.sender.it;

    lay_pattern();
    hullathan_sender_start(t);
    check_pattern(&sender_shape, "hullathan_sender_start");
    hullathan_sender_observe(t, HULLATHAN_WORD_GAP, 350, 50);
    check_pattern(&sender_shape, "hullathan_sender_observe");
    hullathan_sender_read(t, 50);
    hullathan_sender_is_pause(t, 20);
    check_pattern(&sender_shape, "hullathan_sender_read");
}

/* ---- the version and the sizes that the library tells */

static void check_size(const struct shape *s, unsigned char what)
{
    say(s, "hullathan_size", hullathan_size(what) == s->size, "is the size that the library tells");
}

static void check_sizes(void)
{
    unsigned int other;

    check_size(&station_shape, HULLATHAN_SIZE_STATION);
    check_size(&answer_shape, HULLATHAN_SIZE_ANSWER);
    check_size(&event_shape, HULLATHAN_SIZE_EVENT);
    check_size(&batch_shape, HULLATHAN_SIZE_BATCH);
    check_size(&reading_shape, HULLATHAN_SIZE_READING);
    check_size(&bank_shape, HULLATHAN_SIZE_BANK);
    check_size(&tracker_shape, HULLATHAN_SIZE_TRACKER);
    check_size(&sender_shape, HULLATHAN_SIZE_SENDER);
    check_size(&sender_reading_shape, HULLATHAN_SIZE_SENDER_READING);
    for (other = HULLATHAN_SIZE_SENDER_READING + 1; other < 256; other++)
        check(hullathan_size((unsigned char) other) == 0, "no other number has a size");
    check(hullathan_version() == HULLATHAN_VERSION, "the library has the header's version");
    check(HULLATHAN_FITS(), "the library fits the header");
}

int main(void)
{
    static const struct shape *const all[] = {
        &pair_shape,        &ring_entry_shape, &tracker_shape, &switch_record_shape, &hypothesis_shape, &bank_shape,
        &station_shape,     &departure_shape,  &answer_shape,  &event_shape,         &batch_shape,      &rival_shape,
        &reading_shape,     &class_stats_shape, &sender_shape, &sender_reading_shape,
    };
    size_t i;

    for (i = 0; i < sizeof all / sizeof all[0]; i++)
        check_cover(all[i]);
    check_sizes();
    check_shown(&station_shape, (any_call) hullathan_layout_station);
    check_shown(&answer_shape, (any_call) hullathan_layout_answer);
    check_shown(&batch_shape, (any_call) hullathan_layout_batch);
    check_shown(&reading_shape, (any_call) hullathan_layout_reading);
    check_shown(&sender_shape, (any_call) hullathan_layout_sender);
    check_shown(&sender_reading_shape, (any_call) hullathan_layout_sender_reading);
    check_lent();
    check_lent_sender();
    check_values();
    return verdict();
}
