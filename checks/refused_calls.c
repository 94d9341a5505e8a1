/* Refuses each allocation of a call in turn, once alone and once with all behind it, for calls of each kind on a small picture,
 * and for some on a wide one: a call that was refused memory answers 50 and leaves `out` as it was; what it took is free again;
 * and a later call makes what the first one made. It is linked with --wrap=malloc and the like. */
#include <limits.h>
#include <morphd.h>
#include <stdio.h>
#include <string.h>

#define SMALL 9
#define WIDE 8192
#define HIGH 160
#define MOST (WIDE * HIGH)
#define OPERATORS 23
#define CALLS 59
/* Of those that go by strips, all but the rank: without memory that takes long; and what grains are measured by, by kernels. */
#define ON_WIDE(number) (((number) < 11 && (number) != 6) || ((number) >= OPERATORS && (number) < FIRST_OF_PLAIN))
/* From here on the element is one that only the slow programs take. */
#define FIRST_OF_PLAIN 48

void *__real_malloc(size_t size);
void *__real_realloc(void *old, size_t size);
void __real_free(void *old);

static long calls, first_refused, last_refused, held;

static int is_refused(void) {
    calls++;
    return first_refused <= calls && calls <= last_refused;
}

void *__wrap_malloc(size_t size) {
    if (is_refused()) return NULL;
    void *block = __real_malloc(size);
    held += block != NULL;
    return block;
}

void *__wrap_realloc(void *old, size_t size) {
    if (is_refused()) return NULL;
    void *block = __real_realloc(old, size);
    held += block != NULL && old == NULL;
    return block;
}

void __wrap_free(void *old) {
    held -= old != NULL;
    __real_free(old);
}

static uint32_t width, height;
static uint8_t bytes[MOST], ones[9] = {1, 1, 1, 1, 1, 1, 1, 1, 1}, cross[9] = {0, 1, 0, 1, 1, 1, 0, 1, 0},
               side[3] = {0, 0, 1};
static uint16_t words[MOST];
/* Markers. */
static uint8_t bytes_from[MOST];
static uint16_t words_from[MOST];

/* Room for each kind of result; the call writes where it is told. */
static union {
    uint8_t bytes[MOST];
    uint16_t words[MOST];
    uint64_t volumes[4];
    uint32_t numbers[2 * MOST];
} out, first, before;
/* How many components are told. */
static uint32_t told, told_first;

#define BOX ones, 9, 3, 3, 1, 1
#define RIGHT side, 3, 3, 1, 0, 0
#define CROSS cross, 9, 3, 3, 1, 1
#define LINE ones, 5, 5, 1, 2, 0

static int32_t operator_call(int number) {
    size_t count = (size_t)width * height;
    switch (number) {
    case 0: return morphd_flat_u8(MORPHD_OPEN, 0, width, height, 255, bytes, count, CROSS, out.bytes, count);
    case 1: return morphd_flat_u16(MORPHD_GRADIENT, 0, width, height, 65535, words, count, CROSS, out.words, count);
    case 2: return morphd_flat_u16(MORPHD_WHITE_TOP_HAT, 0, width, height, 65535, words, count, CROSS, out.words, count);
    case 3: return morphd_flat_u8(MORPHD_BLACK_TOP_HAT, 0, width, height, 255, bytes, count, CROSS, out.bytes, count);
    case 4: return morphd_flat_u8(MORPHD_ERODE, 0, width, height, 255, bytes, count, BOX, out.bytes, count);
    case 5: return morphd_flat_u8(MORPHD_BLACK_TOP_HAT, 0, width, height, 255, bytes, count, BOX, out.bytes, count);
    case 6: return morphd_flat_u8(MORPHD_RANK, 5, width, height, 255, bytes, count, BOX, out.bytes, count);
    case 7: return morphd_flat_u16(MORPHD_OPEN, 0, width, height, 65535, words, count, BOX, out.words, count);
    case 8: return morphd_flat_set(MORPHD_CLOSE, 0, width, height, bytes, count, BOX, out.bytes, count);
    case 9: return morphd_threshold_u8(100, width, height, 255, bytes, count, out.bytes, count);
    case 10: return morphd_threshold_u16(900, width, height, 65535, words, count, out.bytes, count);
    case 11: return morphd_hit_or_miss_u8(width, height, 255, bytes, count, BOX, RIGHT, out.bytes, count);
    case 12: return morphd_hit_or_miss_u16(width, height, 65535, words, count, BOX, RIGHT, out.words, count);
    case 13: return morphd_hit_or_miss_set(width, height, bytes, count, BOX, RIGHT, out.bytes, count);
    case 14: return morphd_skeleton(2, width, height, bytes, count, BOX, out.bytes, count);
    case 15: return morphd_restore_u8(2, width, height, 255, bytes, count, BOX, out.bytes, count);
    case 16: return morphd_restore_u16(2, width, height, 65535, words, count, BOX, out.bytes, count);
    case 17: return morphd_spectrum_u8(3, width, height, 255, bytes, count, BOX, out.volumes, 4);
    case 18: return morphd_spectrum_u16(3, width, height, 65535, words, count, BOX, out.volumes, 4);
    case 19: return morphd_spectrum_set(3, width, height, bytes, count, BOX, out.volumes, 4);
    case 20: return morphd_flat_rows_u8(MORPHD_ERODE, 0, 3, width, height, 255, bytes, count, BOX, out.bytes, 4 * width);
    case 21: return morphd_flat_rows_u16(MORPHD_GRADIENT, 0, 0, width, height, 65535, words, count, BOX, out.words, width);
    default: return morphd_flat_rows_set(MORPHD_RANK, 5, 8, width, height, bytes, count, BOX, out.bytes, width);
    }
}

/* The samples of an image, and of a marker that is the same without its first samples. */
#define U8 width, height, 255, bytes, count
#define U16 width, height, 65535, words, count
#define SET width, height, bytes, count
#define MARKER_U8 width, height, 255, bytes_from, count
#define MARKER_U16 width, height, 65535, words_from, count
#define MARKER_SET width, height, bytes_from, count
#define TO_BYTES out.bytes, count
#define TO_WORDS out.words, count
#define TO_NUMBERS out.numbers, count
#define TO_ROWS out.numbers + MOST, MOST

static int32_t grain_call(int number) {
    size_t count = (size_t)width * height;
    switch (number) {
    case 0: return morphd_reconstruct_u8(MORPHD_BY_DILATION, MARKER_U8, U8, BOX, TO_BYTES);
    case 1: return morphd_reconstruct_u8(MORPHD_BY_EROSION, MARKER_U8, U8, CROSS, TO_BYTES);
    case 2: return morphd_reconstruct_u16(MORPHD_BY_DILATION, MARKER_U16, U16, CROSS, TO_WORDS);
    case 3: return morphd_reconstruct_u16(MORPHD_BY_EROSION, MARKER_U16, U16, BOX, TO_WORDS);
    case 4: return morphd_reconstruct_set(MORPHD_BY_DILATION, MARKER_SET, SET, BOX, TO_BYTES);
    case 5: return morphd_reconstruct_set(MORPHD_BY_EROSION, MARKER_SET, SET, CROSS, TO_BYTES);
    case 6: return morphd_fill_set(SET, CROSS, TO_BYTES);
    case 7: return morphd_fill_u8(U8, CROSS, TO_BYTES);
    case 8: return morphd_fill_u16(U16, BOX, TO_WORDS);
    case 9: return morphd_clear_border_set(SET, BOX, TO_BYTES);
    case 10: return morphd_clear_border_u8(U8, BOX, TO_BYTES);
    case 11: return morphd_clear_border_u16(U16, CROSS, TO_WORDS);
    case 12: return morphd_extrema_h_u8(MORPHD_MAXIMA, 40, U8, BOX, TO_BYTES);
    case 13: return morphd_extrema_h_u16(MORPHD_MINIMA, 4000, U16, CROSS, TO_WORDS);
    case 14: return morphd_extrema_regional_u8(MORPHD_MINIMA, U8, CROSS, TO_BYTES);
    case 15: return morphd_extrema_regional_u16(MORPHD_MAXIMA, U16, BOX, TO_BYTES);
    case 16: return morphd_label_set(SET, CROSS, TO_NUMBERS, &told);
    case 17: return morphd_regions_set(SET, BOX, TO_NUMBERS, &told);
    case 18: return morphd_area_set(5, SET, CROSS, TO_BYTES);
    case 19: return morphd_distance_set(MORPHD_CITY_BLOCK, 9, SET, TO_NUMBERS);
    case 20: return morphd_distance_set(MORPHD_CHESSBOARD, 9, SET, TO_NUMBERS);
    case 21: return morphd_distance_set(MORPHD_SQUARED_EUCLID, 99, SET, TO_NUMBERS);
    case 22: return morphd_components_set(SET, BOX, TO_NUMBERS, TO_ROWS, &told);
    case 23: return morphd_area_u8(MORPHD_AREA_OPENING, 5, U8, BOX, TO_BYTES);
    case 24: return morphd_area_u16(MORPHD_AREA_CLOSING, 5, U16, CROSS, TO_WORDS);
    case 25: return morphd_reconstruct_u8(MORPHD_BY_DILATION, MARKER_U8, U8, LINE, TO_BYTES);
    case 26: return morphd_reconstruct_set(MORPHD_BY_EROSION, MARKER_SET, SET, LINE, TO_BYTES);
    case 27: return morphd_fill_u16(U16, LINE, TO_WORDS);
    case 28: return morphd_clear_border_set(SET, LINE, TO_BYTES);
    case 29: return morphd_extrema_h_u8(MORPHD_MINIMA, 9, U8, LINE, TO_BYTES);
    case 30: return morphd_extrema_regional_u16(MORPHD_MAXIMA, U16, LINE, TO_BYTES);
    case 31: return morphd_label_set(SET, LINE, TO_NUMBERS, &told);
    case 32: return morphd_regions_set(SET, LINE, TO_ROWS, &told);
    case 33: return morphd_components_set(SET, LINE, TO_NUMBERS, TO_ROWS, &told);
    case 34: return morphd_area_u8(MORPHD_AREA_CLOSING, 3, U8, LINE, TO_BYTES);
    default: return morphd_area_set(3, SET, LINE, TO_BYTES);
    }
}

static int32_t call(int number) {
    return number < OPERATORS ? operator_call(number) : grain_call(number - OPERATORS);
}

/* A call with some allocations refused; none where the first is 0. */
static int32_t refusing(int number, long first_one, long last_one) {
    out = before;
    told = 0;
    calls = 0;
    first_refused = first_one;
    last_refused = last_one;
    int32_t answer = call(number);
    first_refused = last_refused = 0;
    return answer;
}

static int fails(int number, long allocation, const char *what) {
    printf("call %d on %u x %u, allocation %ld: %s\n", number, width, height, allocation, what);
    return 1;
}

/* Whether all is as the call made it when nothing was refused. */
static int is_as_first(void) {
    return memcmp(&out, &first, sizeof out) == 0 && told == told_first;
}

/* What is wrong with a call from whose allocations these are refused, or nothing. */
static const char *wrong(int number, long first_one, long last_one) {
    int32_t answer = refusing(number, first_one, last_one);
    int is_kept = memcmp(&out, &before, sizeof out) == 0 && told == 0;
    /* A call may do without memory that it would have liked, but not without any. */
    if (answer != MORPHD_MEMORY && answer != MORPHD_DONE) return "another answer";
    if (answer == MORPHD_DONE && first_one == 1 && last_one == LONG_MAX) return "made without memory";
    if (answer == MORPHD_MEMORY && !is_kept) return "out is written";
    if (answer == MORPHD_DONE && !is_as_first()) return "another result";
    if (held != 0) return "memory is not freed";
    if (refusing(number, 0, 0) != MORPHD_DONE || !is_as_first()) return "not made again";
    return NULL;
}

/* Refuses each allocation of a call; the number of those, or -1. */
static long tried(int number) {
    if (refusing(number, 0, 0) != MORPHD_DONE) return -fails(number, 0, "not made");
    long allocations = calls;
    first = out;
    told_first = told;
    for (long allocation = 1; allocation <= allocations; allocation++) {
        const char *what = wrong(number, allocation, LONG_MAX);
        if (!what && height == SMALL) what = wrong(number, allocation, allocation);
        if (what) return -fails(number, allocation, what);
    }
    return allocations;
}

/* Tries calls on a picture; how many allocations they have, or -1. */
static long all_tried(uint32_t columns, uint32_t rows) {
    long allocations = 0;
    width = columns;
    height = rows;
    for (int number = 0; number < CALLS; number++) {
        if (rows > SMALL && !ON_WIDE(number)) continue;
        long some = tried(number);
        if (some <= 0) return -1;
        allocations += some;
    }
    return allocations;
}

int main(void) {
    for (int i = 0; i < MOST; i++) {
        bytes[i] = i * 37 % 3 ? i * 37 : 0;
        words[i] = i * 3571;
        bytes_from[i] = i % 5 ? 0 : bytes[i];
        words_from[i] = i % 5 ? 0 : words[i];
    }
    memset(&before, 0xA5, sizeof before);
    long small = all_tried(SMALL, SMALL), wide = small < 0 ? -1 : all_tried(WIDE, HIGH);
    if (small <= 0 || wide <= 0) return 1;
    printf("%ld allocations of %d calls refused in turn, and %ld on a wide picture\n", small, CALLS, wide);
    return 0;
}
