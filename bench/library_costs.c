// Calls of libmorphd for `make costs`: `library_costs NAME` makes pictures without a pattern and works on them.
#include <morphd.h>
#include <stdio.h>
#include <stdlib.h>
#include <string.h>

enum { SMALL = 48, WIDE = 2048, HIGH = 512, SET_HIGH = 2048, LARGE = 63 };

static uint32_t state = 1;

// Numbers without a pattern, the same at each run.
static uint32_t next(void) {
    state = state * 1664525u + 1013904223u;
    return state >> 16;
}

static uint8_t *bytes(size_t count, uint32_t limit) {
    uint8_t *made = malloc(count);
    if (made == NULL) exit(2);
    for (size_t i = 0; i < count; i++) made[i] = (uint8_t)(next() % limit);
    return made;
}

// All pixels of a square, or those of its disc.
static uint8_t *element(int across, int is_disc) {
    uint8_t *made = malloc((size_t)across * (size_t)across);
    if (made == NULL) exit(2);
    int middle = across / 2;
    for (int y = -middle; y <= middle; y++)
        for (int x = -middle; x <= middle; x++)
            made[(y + middle) * across + x + middle] = !is_disc || x * x + y * y <= middle * middle;
    return made;
}

// The diagonal of a square.
static uint8_t *diagonal(int across) {
    uint8_t *made = calloc((size_t)across, (size_t)across);
    if (made == NULL) exit(2);
    for (int i = 0; i < across; i++) made[i * across + i] = 1;
    return made;
}

static void done(int32_t answer) {
    if (answer != MORPHD_DONE) {
        fprintf(stderr, "answer %d\n", answer);
        exit(1);
    }
}

// The sides of a picture, and those of an element from its middle.
typedef struct {
    uint32_t width, height, across;
} sides;

static void flat_u8(uint32_t operation, uint32_t k, sides s, const uint8_t *samples, const uint8_t *b, uint8_t *out) {
    size_t count = (size_t)s.width * s.height;
    done(morphd_flat_u8(operation, k, s.width, s.height, 255, samples, count,
                        b, (size_t)s.across * s.across, s.across, s.across, s.across / 2, s.across / 2, out, count));
}

static void flat_set(uint32_t operation, uint32_t k, sides s, const uint8_t *pixels, const uint8_t *b, uint8_t *out) {
    size_t count = (size_t)s.width * s.height;
    done(morphd_flat_set(operation, k, s.width, s.height, pixels, count,
                         b, (size_t)s.across * s.across, s.across, s.across, s.across / 2, s.across / 2, out, count));
}

// Each operation on small pictures, over and over: what a call takes beside its work.
static void small_calls(void) {
    sides small = {SMALL, SMALL, 3};
    uint8_t *samples = bytes(SMALL * SMALL, 256), *pixels = bytes(SMALL * SMALL, 2), *b = element(3, 0), *out = bytes(SMALL * SMALL, 256);
    for (int round = 0; round < 200; round++)
        for (uint32_t operation = MORPHD_ERODE; operation <= MORPHD_RANK; operation++) {
            flat_u8(operation, 5, small, samples, b, out);
            flat_set(operation, 5, small, pixels, b, out);
        }
}

// Large filters over several strips of rows, of which the later ones have rows of the earlier ones in sight.
static void strips(void) {
    size_t count = (size_t)WIDE * HIGH;
    uint8_t *samples = bytes(count, 256), *square = element(LARGE, 0), *disc = element(LARGE, 1), *out = bytes(count, 256);
    flat_u8(MORPHD_OPEN, 0, (sides){WIDE, HIGH, LARGE}, samples, square, out);
    flat_u8(MORPHD_GRADIENT, 0, (sides){WIDE, HIGH, LARGE}, samples, disc, out);
    flat_u8(MORPHD_RANK, 500, (sides){WIDE, HIGH, 31}, samples, element(31, 1), out);
}

// What is made where the caller's rows stand: rectangles, tall ones by blocks of rows, two steps with one strip between, few offsets, and
// chords of long runs.
static void standing_rows(void) {
    size_t count = (size_t)WIDE * HIGH;
    uint8_t *samples = bytes(count, 256), *square = element(LARGE, 0), *low = element(15, 0), *small = element(3, 0), *out = bytes(count, 256);
    flat_u8(MORPHD_ERODE, 0, (sides){WIDE, HIGH, LARGE}, samples, square, out);
    flat_u8(MORPHD_OPEN, 0, (sides){WIDE, HIGH, LARGE}, samples, square, out);
    flat_u8(MORPHD_OPEN, 0, (sides){WIDE, HIGH, 15}, samples, low, out);
    flat_u8(MORPHD_GRADIENT, 0, (sides){WIDE, HIGH, 3}, samples, small, out);
    flat_u8(MORPHD_ERODE, 0, (sides){WIDE, HIGH, 5}, samples, element(5, 1), out);
    flat_u8(MORPHD_ERODE, 0, (sides){WIDE, HIGH, 15}, samples, element(15, 1), out);
    flat_u8(MORPHD_ERODE, 0, (sides){WIDE, HIGH, 31}, samples, element(31, 1), out);
}

// Openings, top-hats and gradients by crosses, discs and slanted lines: strips of two extrema, of which the first's rows are moved on to the
// next strip.
static void composites(void) {
    size_t count = (size_t)WIDE * HIGH;
    uint8_t *samples = bytes(count, 256), *out = bytes(count, 256);
    uint8_t *cross = element(3, 1), *disc = element(5, 1), *large = element(15, 1), *slanted = diagonal(41);
    flat_u8(MORPHD_OPEN, 0, (sides){WIDE, HIGH, 3}, samples, cross, out);
    flat_u8(MORPHD_GRADIENT, 0, (sides){WIDE, HIGH, 3}, samples, cross, out);
    flat_u8(MORPHD_CLOSE, 0, (sides){WIDE, HIGH, 5}, samples, disc, out);
    flat_u8(MORPHD_GRADIENT, 0, (sides){WIDE, HIGH, 5}, samples, disc, out);
    flat_u8(MORPHD_WHITE_TOP_HAT, 0, (sides){WIDE, HIGH, 15}, samples, large, out);
    flat_u8(MORPHD_OPEN, 0, (sides){WIDE, HIGH, 41}, samples, slanted, out);
    // so wide that memory holds few more rows of a strip than the second step looks at beyond it
    size_t more = (size_t)8192 * 400;
    flat_u8(MORPHD_CLOSE, 0, (sides){8192, 400, 101}, bytes(more, 256), diagonal(101), bytes(more, 256));
}

// Differences that no kernel makes for all rows at once: gradients by a rectangle beside its origin and in frames of few columns, and top-hats
// through a plane in small frames.
static void differences(void) {
    size_t count = (size_t)WIDE * HIGH, narrow = (size_t)17 * 8192;
    uint8_t *samples = bytes(count, 256), *beside = calloc(11, 5), *out = bytes(count, 256), *small = element(3, 0), *cross = element(3, 1);
    if (beside == NULL) exit(2);
    for (int i = 0; i < 5; i++) memset(beside + 11 * i + 6, 1, 5);
    done(morphd_flat_u8(MORPHD_GRADIENT, 0, WIDE, HIGH, 255, samples, count, beside, 55, 11, 5, 0, 2, out, count));
    done(morphd_flat_u16(MORPHD_GRADIENT, 0, 17, 8192, 65535, (uint16_t *)samples, narrow, small, 9, 3, 3, 1, 1, (uint16_t *)out, narrow));
    for (int round = 0; round < 100; round++) flat_u8(MORPHD_WHITE_TOP_HAT, 0, (sides){65, 60, 3}, samples, cross, out);
}

// On frames of one row and of few, over and over: what is asked for and filled there.
static void low_frames(void) {
    sides one = {8192, 1, 15}, few = {65, 64, 9};
    uint8_t *samples = bytes(8192, 256), *square = element(15, 0), *disc = element(9, 1), *out = bytes(8192, 256);
    for (int round = 0; round < 100; round++) {
        flat_u8(MORPHD_ERODE, 0, one, samples, square, out);
        flat_u8(MORPHD_OPEN, 0, one, samples, square, out);
        flat_u8(MORPHD_ERODE, 0, few, samples, disc, out);
    }
}

static void set_strips(void) {
    size_t count = (size_t)WIDE * SET_HIGH;
    uint8_t *pixels = bytes(count, 2), *disc = element(LARGE, 1), *out = bytes(count, 2);
    flat_set(MORPHD_CLOSE, 0, (sides){WIDE, SET_HIGH, LARGE}, pixels, disc, out);
    flat_set(MORPHD_RANK, 60, (sides){WIDE, SET_HIGH, 15}, pixels, element(15, 1), out);
}

// Rows of a result, a few at a time.
static void rows(void) {
    size_t count = (size_t)WIDE * HIGH, few = (size_t)WIDE * 64;
    uint8_t *samples = bytes(count, 256), *disc = element(LARGE, 1), *out = bytes(few, 256);
    for (uint32_t row = 0; row < HIGH; row += 64)
        done(morphd_flat_rows_u8(MORPHD_DILATE, 0, row, WIDE, HIGH, 255, samples, count,
                                 disc, LARGE * LARGE, LARGE, LARGE, LARGE / 2, LARGE / 2, out, few));
}

// A skeleton of 254 levels, the set that it restores, and a spectrum.
static void iterated(void) {
    uint32_t side = 256;
    size_t count = (size_t)side * side;
    uint8_t *pixels = bytes(count, 2), *b = element(3, 0), *marks = bytes(count, 2), *out = bytes(count, 2);
    uint64_t volumes[17];
    memset(pixels + 20 * side, 1, 200 * side);
    done(morphd_skeleton(254, side, side, pixels, count, b, 9, 3, 3, 1, 1, marks, count));
    done(morphd_restore_u8(254, side, side, 255, marks, count, b, 9, 3, 3, 1, 1, out, count));
    done(morphd_spectrum_u8(16, side, side, 255, bytes(count, 256), count, element(5, 1), 25, 5, 5, 2, 2, volumes, 17));
}

int main(int argc, char **argv) {
    const struct {
        const char *name;
        void (*run)(void);
    } workloads[] = {{"small_calls", small_calls}, {"strips", strips}, {"standing_rows", standing_rows},
                     {"composites", composites}, {"differences", differences}, {"low_frames", low_frames}, {"set_strips", set_strips},
                     {"rows", rows}, {"iterated", iterated}};
    for (size_t i = 0; argc == 2 && i < sizeof workloads / sizeof *workloads; i++)
        if (strcmp(argv[1], workloads[i].name) == 0) {
            workloads[i].run();
            return 0;
        }
    fputs("which workload?\n", stderr);
    return 2;
}
