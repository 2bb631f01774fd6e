/*
 * The floating-point environment: what happens where it is not the one that hullathan.h asks for, and that all is as in
 * that one between hullathan_environment_set and hullathan_environment_restore.
 */
#define _POSIX_C_SOURCE 199309L

#include <signal.h>
#include <stdio.h>
#include <string.h>
#include <sys/types.h>
#include <sys/wait.h>
#include <unistd.h>

#include "hullathan.h"
#include "hullathan_environment.h"
#include "test_help.h"

/* MXCSR: the three other roundings, both treatments of subnormals, and masks of exceptions that are taken away. */
#define DEFAULT 0x1f80U
#define DOWN 0x3f80U
#define UP 0x5f80U
#define TO_ZERO 0x7f80U
#define FLUSHED 0x9f80U
#define NO_SUBNORMALS 0x1fc0U
#define NO_INEXACT 0x0f80U
#define NONE_MASKED 0x0000U

/* The same watch, in the environment as it is; what comes of it. */
typedef void watch(struct hullathan_station *s);

/* Marks of 50 and 150 ms, then 53: the dit moves by 0.15 times 3, which no float is. */
static void keyed(struct hullathan_station *s)
{
    static const float ms[] = {50, 150, 50, 50, 151, 53, 160};
    size_t i;

    hullathan_start(s, HULLATHAN_WIDEST, 1);
    for (i = 0; i < sizeof ms / sizeof ms[0]; i++)
        hullathan_call(s, HULLATHAN_MARK, 1, ms[i]);
}

/* One gap that does not fit and many that do: the score goes towards 0 until it is subnormal. */
static void fitting(struct hullathan_station *s)
{
    int i;

    hullathan_start(s, HULLATHAN_WIDEST, 1);
    hullathan_call(s, HULLATHAN_SEED, 0, 24);
    hullathan_call(s, HULLATHAN_GAP, 0, 60);
    for (i = 0; i < 1200; i++)
        hullathan_call(s, HULLATHAN_GAP, 0, 50);
}

/* A mark that is NaN, on a fresh station. */
static void nan_mark(struct hullathan_station *s)
{
    hullathan_start(s, HULLATHAN_WIDEST, 1);
    hullathan_call(s, HULLATHAN_MARK, 1, float_of(0x7fc00000));
}

/* A watch with the register as given. */
static void in(unsigned int mxcsr, watch *w, struct hullathan_station *s)
{
    hullathan_environment_restore(mxcsr);
    w(s);
    hullathan_environment_restore(DEFAULT);
}

/* The same, set and restored. What was raised before is there after it, and nothing else. */
static void guarded(unsigned int mxcsr, watch *w, struct hullathan_station *s)
{
    unsigned int saved, after;
    int within;

    hullathan_environment_restore(mxcsr | 0x04);
    saved = hullathan_environment_set();
    within = hullathan_environment_is_default();
    w(s);
    hullathan_environment_restore(saved);
    after = hullathan_environment_get();
    hullathan_environment_restore(DEFAULT);
    check(saved == (mxcsr | 0x04) && after == saved, "what was set is restored, raised exceptions among it");
    check(within, "within, the environment is the default one");
}

/* The signal that ends a watch with the register as given, in a child process; 0 where none does. */
static int signal_of(unsigned int mxcsr, watch *w, void (*run)(unsigned int, watch *, struct hullathan_station *))
{
    static struct hullathan_station s;
    pid_t child = fork();
    int status = 0;

    if (child == 0) {
        run(mxcsr, w, &s);
        _exit(0);
    }
    if (child < 0 || waitpid(child, &status, 0) != child)
        return -1;
    return WIFSIGNALED(status) ? WTERMSIG(status) : WEXITSTATUS(status);
}

static int same(const struct hullathan_station *a, const struct hullathan_station *b)
{
    return memcmp(a, b, sizeof *a) == 0;
}

/* Another rounding: a dit with other last bits. */
static void rounding(void)
{
    struct hullathan_station usual, other;

    in(DEFAULT, keyed, &usual);
    check(bits_of_float(usual.primary.pair.lo) == 0x4249cccd, "50.45, to nearest");
    in(DOWN, keyed, &other);
    check(bits_of_float(other.primary.pair.lo) == 0x4249cccc, "50.45, down");
    in(TO_ZERO, keyed, &other);
    check(bits_of_float(other.primary.pair.lo) == 0x4249cccc, "50.45, to zero");
    in(UP, keyed, &other);
    check(!same(&usual, &other), "up, another station");
}

/* Subnormals as zeros: another score. */
static void subnormals(void)
{
    struct hullathan_station usual, other;

    in(DEFAULT, fitting, &usual);
    check(usual.bank.primary_score < 0 && usual.bank.primary_score > -1e-38f, "a subnormal score");
    in(FLUSHED, fitting, &other);
    check(other.bank.primary_score == 0, "flush-to-zero: none");
    in(NO_SUBNORMALS, fitting, &other);
    check(other.bank.primary_score == 0, "denormals-are-zero: none");
}

/* Exceptions that are not masked: a signal, in an ordinary watch and at a NaN. */
static void exceptions(void)
{
    check(signal_of(DEFAULT, keyed, in) == 0, "no signal");
    check(signal_of(NO_INEXACT, keyed, in) == SIGFPE, "inexact unmasked: SIGFPE in an ordinary watch");
    check(signal_of(NONE_MASKED, nan_mark, in) == SIGFPE, "none masked: SIGFPE at a NaN");
}

/* Set and restored, all is as in the default environment. */
static void set_and_restored(void)
{
    static const unsigned int all[] = {DEFAULT,       DOWN,    UP,         TO_ZERO,    FLUSHED,
                                       NO_SUBNORMALS, 0xffc0U, NO_INEXACT, NONE_MASKED};
    struct hullathan_station usual, other;
    size_t i;

    for (i = 0; i < sizeof all / sizeof all[0]; i++) {
        in(DEFAULT, keyed, &usual);
        guarded(all[i], keyed, &other);
        check(same(&usual, &other), "set and restored: the same marks");
        in(DEFAULT, fitting, &usual);
        guarded(all[i], fitting, &other);
        check(same(&usual, &other), "set and restored: the same gaps");
        check(signal_of(all[i], keyed, guarded) == 0, "set and restored: no signal");
        check(signal_of(all[i], nan_mark, guarded) == 0, "set and restored: no signal at a NaN");
    }
}

/* The test of the environment: the control bits, and not what was raised. */
static void is_default(void)
{
    unsigned int bit, mxcsr;
    int said;

    for (bit = 0; bit < 16; bit++) {
        mxcsr = DEFAULT ^ 1U << bit;
        hullathan_environment_restore(mxcsr);
        said = hullathan_environment_is_default();
        hullathan_environment_restore(DEFAULT);
        check(said == (bit < 6), "the environment is the default one but for what was raised");
    }
    check(hullathan_environment_is_default(), "a program starts in the default environment");
}

/* The x87 control word: single precision, rounding up, nothing masked. The library has no x87 instruction. */
static void x87(void)
{
    unsigned short usual_word, word = 0x0840;
    struct hullathan_station usual, other;

    in(DEFAULT, keyed, &usual);
    __asm__ __volatile__("fnstcw %0" : "=m"(usual_word) : : "memory");
    __asm__ __volatile__("fldcw %0" : : "m"(word) : "memory");
    keyed(&other);
    __asm__ __volatile__("fldcw %0" : : "m"(usual_word) : "memory");
    check(same(&usual, &other), "the x87 control word does not matter");
}

int main(void)
{
    is_default();
    rounding();
    subnormals();
    exceptions();
    set_and_restored();
    x87();
    return verdict();
}
