/* Tries library/picker.c on processors and systems that are pretended: one with all that x86-64-v3 has, and each that lacks one thing
 * of it; and with words that MORPHD_CPU may have. It prints how many there were, and ends with 1 where the wrong build is picked.
 *
 *     cc -Wall -Wextra -Werror -I include checks/picker.c -o picker && ./picker
 */
#include <cpuid.h>
#include <stdio.h>

/* What cpuid tells in `b` and `c` of each leaf, and what the system keeps; all of it is there at first. */
static const unsigned int LEAVES[3] = {1, 7, 0x80000001};
static unsigned int words[3][2], kept;
static int missing = -1;

static int pretended(unsigned int leaf, unsigned int *a, unsigned int *b, unsigned int *c, unsigned int *d) {
    for (int i = 0; i < 3; i++) {
        if (leaf != LEAVES[i] || missing == i) continue;
        *a = *d = 0;
        *b = words[i][0];
        *c = words[i][1];
        return 1;
    }
    return 0;
}

static unsigned int kept_by_system(void) {
    return kept;
}

#define PRETENDED
#define __get_cpuid(leaf, a, b, c, d) pretended(leaf, a, b, c, d)
#define __get_cpuid_count(leaf, part, a, b, c, d) ((part) == 0 && pretended(leaf, a, b, c, d))
#include "../library/picker.c"

/* What x86-64-v3 wants: the leaf, 0 for b or 1 for c, the bit. */
static const struct {
    int leaf, word, bit;
} WANTED[9] = {{0, 1, 12}, {0, 1, 22}, {0, 1, 27}, {0, 1, 28}, {0, 1, 29}, {1, 0, 3}, {1, 0, 5}, {1, 0, 8}, {2, 1, 5}};
static int tried, wrong;

/* The bits that are wanted and no others, or all. */
static void whole(unsigned int others) {
    for (int i = 0; i < 3; i++) words[i][0] = words[i][1] = others;
    for (int i = 0; i < 9; i++) words[WANTED[i].leaf][WANTED[i].word] |= 1u << WANTED[i].bit;
    kept = others | 6;
    missing = -1;
}

static void picks(unsigned int build, const char *what, int which) {
    pick();
    tried++;
    if (morphd_build() == build) return;
    printf("%s %d: the build for x86-64-v%u is picked\n", what, which, (unsigned int)morphd_build());
    wrong = 1;
}

int main(void) {
    const char *values[6] = {"v2", "v3", "", "V2", "v2 ", "2"};
    unsetenv("MORPHD_CPU");
    for (int others = 0; others < 2; others++) {
        whole(others ? ~0u : 0);
        picks(3, "a processor with all", others);
        for (int i = 0; i < 9; i++) {
            whole(others ? ~0u : 0);
            words[WANTED[i].leaf][WANTED[i].word] &= ~(1u << WANTED[i].bit);
            picks(2, "a processor without feature", i);
        }
        for (int bit = 1; bit < 3; bit++) {
            whole(others ? ~0u : 0);
            kept &= ~(1u << bit);
            picks(2, "a system without registers", bit);
        }
        for (int i = 0; i < 3; i++) {
            whole(others ? ~0u : 0);
            missing = i;
            picks(2, "a processor without leaf", i);
        }
    }
    whole(0);
    for (int i = 0; i < 6; i++) {
        setenv("MORPHD_CPU", values[i], 1);
        picks(i == 0 ? 2 : 3, "MORPHD_CPU", i);
    }
    if (!wrong) printf("the right build is picked on %d pretended processors, systems and environments\n", tried);
    return wrong;
}
