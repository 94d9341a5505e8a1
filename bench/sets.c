// Leptonica at the commands of bench/sets.py: `sets NAME ACROSS LEVELS ROUNDS` reads the picture `set`, prints the least
// milliseconds of the rounds, and writes what it made to the file `leptonica`. Outside the frame is no pixel to look at.
#include <leptonica/allheaders.h>
#include <stdio.h>
#include <stdlib.h>
#include <string.h>
#include <time.h>

static double now(void) {
    struct timespec t;
    clock_gettime(CLOCK_MONOTONIC, &t);
    return t.tv_sec * 1e3 + t.tv_nsec / 1e6;
}

// The places (x, y) from the middle that lie in the disc, or in the whole square.
static SEL *element(int across, int is_disc) {
    int middle = across / 2;
    SEL *made = selCreate(across, across, "element");
    selSetOrigin(made, middle, middle);
    for (int y = -middle; y <= middle; y++)
        for (int x = -middle; x <= middle; x++)
            if (!is_disc || x * x + y * y <= middle * middle) selSetElement(made, y + middle, x + middle, SEL_HIT);
    return made;
}

static PIX *eroded(PIX *set, SEL *sel, int across, int is_disc) {
    return is_disc ? pixErode(NULL, set, sel) : pixErodeBrick(NULL, set, across, across);
}

static PIX *dilated(PIX *set, SEL *sel, int across, int is_disc) {
    return is_disc ? pixDilate(NULL, set, sel) : pixDilateBrick(NULL, set, across, across);
}

static void take(PIX **place, PIX *made) {
    pixDestroy(place);
    *place = made;
}

// Each residue's mark is the number of erosions before it and one; what the last erosion leaves has the mark of the depth and one.
static PIX *skeleton(PIX *set, SEL *sel, int across, int is_disc, int levels) {
    PIX *marks = pixCreate(pixGetWidth(set), pixGetHeight(set), 8), *now = pixClone(set);
    for (int n = 0; n < levels; n++) {
        PIX *next = eroded(now, sel, across, is_disc), *opened = dilated(next, sel, across, is_disc);
        PIX *residue = pixSubtract(NULL, now, opened);
        pixSetMasked(marks, residue, n + 1);
        pixDestroy(&opened);
        pixDestroy(&residue);
        take(&now, next);
    }
    pixSetMasked(marks, now, levels + 1);
    pixDestroy(&now);
    return marks;
}

// The volumes of the openings by 0, 1, .. up to as many times the element as there are levels.
static PIX *spectrum(PIX *set, SEL *sel, int across, int is_disc, int levels, int *volumes) {
    PIX *now = pixClone(set);
    pixCountPixels(set, &volumes[0], NULL);
    for (int n = 1; n <= levels; n++) {
        take(&now, eroded(now, sel, across, is_disc));
        PIX *opened = pixClone(now);
        for (int i = 0; i < n; i++) take(&opened, dilated(opened, sel, across, is_disc));
        pixCountPixels(opened, &volumes[n], NULL);
        pixDestroy(&opened);
    }
    return now;
}

int main(int count, char **words) {
    if (count != 6) return 2;
    const char *name = words[1];
    int across = atoi(words[2]), is_disc = strcmp(words[3], "disc") == 0, levels = atoi(words[4]), rounds = atoi(words[5]);
    resetMorphBoundaryCondition(SYMMETRIC_MORPH_BC);
    SEL *sel = element(across, is_disc);
    PIX *set = pixRead("set");
    int volumes[256];
    double best = 1e18;
    for (int i = 0; i < rounds; i++) {
        PIX *made;
        double begun = now();
        if (strcmp(name, "opening") == 0) {
            PIX *less = eroded(set, sel, across, is_disc);
            made = dilated(less, sel, across, is_disc);
            pixDestroy(&less);
        } else if (strcmp(name, "skeleton") == 0) {
            made = skeleton(set, sel, across, is_disc, levels);
        } else {
            made = spectrum(set, sel, across, is_disc, levels, volumes);
        }
        double taken = now() - begun;
        if (taken < best) best = taken;
        if (i == 0 && strcmp(name, "spectrum") != 0) pixWrite("leptonica", made, IFF_PNM);
        pixDestroy(&made);
    }
    if (strcmp(name, "spectrum") == 0) {
        FILE *file = fopen("leptonica", "w");
        for (int n = 0; n <= levels; n++) fprintf(file, "V %d %d\n", n, volumes[n]);
        fclose(file);
    }
    printf("%.2f\n", best);
    return 0;
}
