/*
 * The floating-point environment that hullathan.h asks for, tested and set: x86-64, GCC or Clang, C89 or later or C++.
 *
 * It is what a program starts with: rounding to nearest, subnormals as they are, exceptions masked. It belongs to a
 * thread, and lies in the control bits of the register MXCSR (the library uses no x87 instruction, so the x87 control
 * word does not matter to it). A host that cannot know its environment, such as a plug-in, writes
 *
 *     unsigned int saved = hullathan_environment_set();
 *     answer = hullathan_call(&station, HULLATHAN_MARK, 1, 50.0f);
 *     hullathan_environment_restore(saved);
 *
 * around one call or many; the pair takes some tens of nanoseconds.
 */
#ifndef HULLATHAN_ENVIRONMENT_H
#define HULLATHAN_ENVIRONMENT_H

/* MXCSR at the start of a program; and its bits that control, without the six that tell which exceptions there were. */
#define HULLATHAN_MXCSR_DEFAULT 0x1f80U
#define HULLATHAN_MXCSR_CONTROL 0xffc0U

/* A function that need not be used where this file is included. */
#define HULLATHAN_HELPER static __inline__ __attribute__((__unused__))

/* The register as it is. */
HULLATHAN_HELPER unsigned int hullathan_environment_get(void)
{
    unsigned int mxcsr;

    __asm__ __volatile__("stmxcsr %0" : "=m"(mxcsr) : : "memory");
    return mxcsr;
}

/* Whether the environment is the one that the library asks for. */
HULLATHAN_HELPER int hullathan_environment_is_default(void)
{
    return (hullathan_environment_get() & HULLATHAN_MXCSR_CONTROL) == HULLATHAN_MXCSR_DEFAULT;
}

/* Makes the register what hullathan_environment_set handed back: its control bits, and what exceptions there were. */
HULLATHAN_HELPER void hullathan_environment_restore(unsigned int saved)
{
    __asm__ __volatile__("ldmxcsr %0" : : "m"(saved) : "memory");
}

/* Sets the environment that the library asks for, and hands back the one that was, to be restored. */
HULLATHAN_HELPER unsigned int hullathan_environment_set(void)
{
    unsigned int saved = hullathan_environment_get();

    hullathan_environment_restore(HULLATHAN_MXCSR_DEFAULT);
    return saved;
}

#endif
