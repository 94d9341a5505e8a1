/* Which of two builds of the proved library a process runs: that for x86-64-v2, or that for x86-64-v3, which has vectors of 32 bytes.
 * Both are of the same proved crate. What stands here and in calls.s is proved by nothing, and does no more than to choose: link.py
 * puts a jump of calls.s in the place of each function of morphd.h.
 *
 * The loader calls `pick` before it hands out a function, by dlopen too, and in a program before main. Until then the build for x86-64-v2 runs,
 * which every processor takes that the library is for.
 */
#include <cpuid.h>
#include <morphd.h>
#include <stdlib.h>
#include <string.h>

/* Not 0 where the build for x86-64-v3 runs: calls.s reads it, and `pick` alone writes it. */
__attribute__((visibility("hidden"))) unsigned char runs_v3 = 0;

/* Whether all of some bits are there. */
static int has(unsigned int word, unsigned int bits) {
    return (word & bits) == bits;
}

#ifndef PRETENDED /* checks/picker.c has processors of its own */
/* Which registers the system keeps for each process: bit 1 those of 16 bytes, bit 2 those of 32. To be asked where OSXSAVE is. */
static unsigned int kept_by_system(void) {
    unsigned int low, high;
    __asm__ volatile("xgetbv" : "=a"(low), "=d"(high) : "c"(0));
    return low;
}
#endif

/* What x86-64-v3 has beyond x86-64-v2, by the AMD64 supplement of the System V ABI, and a system that keeps its registers. */
static int has_v3(void) {
    unsigned int a, b, c, d;
    /* FMA, MOVBE, OSXSAVE, AVX, F16C */
    if (!__get_cpuid(1, &a, &b, &c, &d) || !has(c, 1u << 12 | 1u << 22 | 1u << 27 | 1u << 28 | 1u << 29)) return 0;
    if (!has(kept_by_system(), 6)) return 0;
    /* BMI1, AVX2, BMI2 */
    if (!__get_cpuid_count(7, 0, &a, &b, &c, &d) || !has(b, 1u << 3 | 1u << 5 | 1u << 8)) return 0;
    /* LZCNT */
    return __get_cpuid(0x80000001, &a, &b, &c, &d) && has(c, 1u << 5);
}

/* MORPHD_CPU=v2 takes the build for x86-64-v2 everywhere; any other value is as none. 101 is before what a program begins with. */
__attribute__((constructor(101))) static void pick(void) {
    const char *told = getenv("MORPHD_CPU");
    runs_v3 = !(told && strcmp(told, "v2") == 0) && has_v3();
}

uint32_t morphd_build(void) {
    return runs_v3 ? 3 : 2;
}
