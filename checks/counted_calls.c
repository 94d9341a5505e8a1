/* Counts what calls of the library ask of malloc and realloc: for each it prints its name, how many pixels its picture has, the
 * most bytes that were held at once, how many times it asked, how many of those before the first sample was written, and what it
 * answers where all are refused. It is linked with --wrap=malloc and the like. */
#include <malloc.h>
#include <morphd.h>
#include <stdio.h>
#include <stdlib.h>
#include <string.h>

#define UNTOUCHED 0xA5
#define LARGEST 255
/* Numbers that are written of the components of a chessboard of 4096 x 2048 pixels: seven of each. */
#define ROOM ((size_t)7 * 4096 * 2048 / 2)

void *__real_malloc(size_t size);
void *__real_realloc(void *old, size_t size);
void __real_free(void *old);

static size_t held, most;
static long asked, asked_before, is_refusing;
static uint8_t *out;

static void *given(void *block, size_t before) {
    held += malloc_usable_size(block) - before;
    if (held > most) most = held;
    return block;
}

static int is_refused(void) {
    asked++;
    asked_before += out[0] == UNTOUCHED && out[1] == UNTOUCHED;
    return is_refusing;
}

void *__wrap_malloc(size_t size) {
    return is_refused() ? NULL : given(__real_malloc(size), 0);
}

void *__wrap_realloc(void *old, size_t size) {
    size_t before = malloc_usable_size(old);
    return is_refused() ? NULL : given(__real_realloc(old, size), before);
}

void __wrap_free(void *old) {
    held -= malloc_usable_size(old);
    __real_free(old);
}

typedef struct {
    const char *name;
    enum { U8, U16, SET, SKELETON, RESTORE, SPECTRUM, THRESHOLD, HIT_OR_MISS, ROWS, RECONSTRUCT_U8, RECONSTRUCT_U16, RECONSTRUCT_SET,
           FILL_U8, FILL_U16, CLEAR_BORDER_SET, EXTREMA_U8, MINIMA_U16, LABEL, REGIONS, COMPONENTS, AREA, AREA_U8, AREA_U16, DISTANCE } call;
    uint32_t number, k, width, height, side;
    /* All pixels of a square, or those of a disc or of a diagonal. */
    enum { BOX, DISC, DIAGONAL } shape;
} Case;

static uint8_t *bytes, *board, *marker, element[LARGEST * LARGEST], far_pixel[3] = {1, 0, 0};
static uint16_t *words, *marker_words;
static uint32_t told, *rows;

static void draw(const Case *c) {
    int middle = c->side / 2;
    for (int y = 0; y < (int)c->side; y++)
        for (int x = 0; x < (int)c->side; x++) {
            int dx = x - middle, dy = y - middle;
            int is_in_disc = dx * dx + dy * dy <= middle * middle;
            element[y * c->side + x] = c->shape == BOX || (c->shape == DISC ? is_in_disc : dx == dy);
        }
}

static int32_t run(const Case *c) {
    uint32_t width = c->width, height = c->height, side = c->side, middle = side / 2;
    size_t count = (size_t)width * height;
    memset(out, UNTOUCHED, 2 * count);
#define ELEMENT element, side * side, side, side, middle, middle
    switch (c->call) {
    case U8: return morphd_flat_u8(c->number, c->k, width, height, 255, bytes, count, ELEMENT, out, count);
    case U16: return morphd_flat_u16(c->number, c->k, width, height, 65535, words, count, ELEMENT, (uint16_t *)out, count);
    case SET: return morphd_flat_set(c->number, c->k, width, height, bytes, count, ELEMENT, out, count);
    case SKELETON: return morphd_skeleton(c->number, width, height, bytes, count, ELEMENT, out, count);
    case RESTORE: return morphd_restore_u8(c->number, width, height, 255, bytes, count, ELEMENT, out, count);
    case SPECTRUM: return morphd_spectrum_u8(c->number, width, height, 255, bytes, count, ELEMENT, (uint64_t *)out, c->number + 1);
    case THRESHOLD: return morphd_threshold_u16(c->number, width, height, 65535, words, count, out, count);
    case HIT_OR_MISS:
        return morphd_hit_or_miss_u8(width, height, 255, bytes, count, ELEMENT, far_pixel, 3, 3, 1, 2, 0, out, count);
    case RECONSTRUCT_U8:
        return morphd_reconstruct_u8(MORPHD_BY_DILATION, width, height, 255, marker, count, width, height, 255, bytes, count, ELEMENT, out,
                                     count);
    case RECONSTRUCT_U16:
        return morphd_reconstruct_u16(MORPHD_BY_EROSION, width, height, 65535, marker_words, count, width, height, 65535, words, count,
                                      ELEMENT, (uint16_t *)out, count);
    case RECONSTRUCT_SET:
        return morphd_reconstruct_set(MORPHD_BY_DILATION, width, height, marker, count, width, height, board, count, ELEMENT, out, count);
    case FILL_U8: return morphd_fill_u8(width, height, 255, bytes, count, ELEMENT, out, count);
    case FILL_U16: return morphd_fill_u16(width, height, 65535, words, count, ELEMENT, (uint16_t *)out, count);
    case CLEAR_BORDER_SET: return morphd_clear_border_set(width, height, board, count, ELEMENT, out, count);
    case EXTREMA_U8: return morphd_extrema_h_u8(MORPHD_MINIMA, c->number, width, height, 255, bytes, count, ELEMENT, out, count);
    case MINIMA_U16: return morphd_extrema_regional_u16(MORPHD_MINIMA, width, height, 65535, words, count, ELEMENT, out, count);
    case LABEL: return morphd_label_set(width, height, board, count, ELEMENT, (uint32_t *)out, count, &told);
    case REGIONS: return morphd_regions_set(width, height, board, count, ELEMENT, (uint32_t *)out, ROOM, &told);
    case COMPONENTS:
        return morphd_components_set(width, height, board, count, ELEMENT, (uint32_t *)out, count, rows, ROOM, &told);
    case AREA_U8: return morphd_area_u8(c->number, c->k, width, height, 255, bytes, count, ELEMENT, out, count);
    case AREA_U16: return morphd_area_u16(c->number, c->k, width, height, 65535, words, count, ELEMENT, (uint16_t *)out, count);
    case AREA: return morphd_area_set(c->number, width, height, board, count, ELEMENT, out, count);
    case DISTANCE: return morphd_distance_set(c->number, UINT32_MAX, width, height, bytes, count, (uint32_t *)out, count);
    default: return morphd_flat_rows_u8(c->number, c->k, height / 2, width, height, 255, bytes, count, ELEMENT, out, count / 2);
    }
}

static const Case cases[] = {
    {"erosion_u8_box_15", U8, MORPHD_ERODE, 0, 4096, 2048, 15, BOX},
    {"erosion_u8_box_15_again", U8, MORPHD_ERODE, 0, 4096, 512, 15, BOX},
    {"erosion_u8_disc_31", U8, MORPHD_ERODE, 0, 4096, 2048, 31, DISC},
    {"dilation_u8_disc_255", U8, MORPHD_DILATE, 0, 8192, 512, 255, DISC},
    {"dilation_u16_disc_255", U16, MORPHD_DILATE, 0, 8192, 512, 255, DISC},
    {"erosion_set_box_255", SET, MORPHD_ERODE, 0, 8192, 2048, 255, BOX},
    {"gradient_u16_box_3", U16, MORPHD_GRADIENT, 0, 4096, 2048, 3, BOX},
    {"rank_u8_box_5", U8, MORPHD_RANK, 13, 4096, 1024, 5, BOX},
    {"rank_u16_disc_31", U16, MORPHD_RANK, 300, 2048, 1024, 31, DISC},
    {"rank_set_box_15", SET, MORPHD_RANK, 100, 4096, 2048, 15, BOX},
    {"rank_u8_box_101", U8, MORPHD_RANK, 5101, 2048, 1024, 101, BOX},
    {"rank_u16_box_101", U16, MORPHD_RANK, 5101, 2048, 512, 101, BOX},
    {"rows_u8_box_15", ROWS, MORPHD_DILATE, 0, 4096, 2048, 15, BOX},
    {"threshold_u16", THRESHOLD, 300, 0, 4096, 2048, 1, BOX},
    {"opening_u8_box_15", U8, MORPHD_OPEN, 0, 4096, 2048, 15, BOX},
    {"opening_u8_box_255", U8, MORPHD_OPEN, 0, 4096, 2048, 255, BOX},
    {"opening_u8_disc_5", U8, MORPHD_OPEN, 0, 4096, 2048, 5, DISC},
    {"gradient_u16_disc_5", U16, MORPHD_GRADIENT, 0, 4096, 2048, 5, DISC},
    {"opening_u8_disc_31", U8, MORPHD_OPEN, 0, 4096, 2048, 31, DISC},
    {"opening_u16_disc_15", U16, MORPHD_OPEN, 0, 4096, 2048, 15, DISC},
    {"closing_u16_disc_63", U16, MORPHD_CLOSE, 0, 4096, 2048, 63, DISC},
    {"opening_u8_disc_127", U8, MORPHD_OPEN, 0, 4096, 2048, 127, DISC},
    {"closing_u16_disc_127", U16, MORPHD_CLOSE, 0, 4096, 2048, 127, DISC},
    {"opening_u8_disc_255", U8, MORPHD_OPEN, 0, 4096, 2048, 255, DISC},
    {"opening_u16_disc_255", U16, MORPHD_OPEN, 0, 4096, 1024, 255, DISC},
    {"gradient_u16_disc_255", U16, MORPHD_GRADIENT, 0, 4096, 1024, 255, DISC},
    {"opening_u16_diagonal_81", U16, MORPHD_OPEN, 0, 4096, 2048, 81, DIAGONAL},
    {"white_top_hat_u8_disc_31", U8, MORPHD_WHITE_TOP_HAT, 0, 4096, 2048, 31, DISC},
    {"white_top_hat_u16_disc_31", U16, MORPHD_WHITE_TOP_HAT, 0, 2048, 2048, 31, DISC},
    {"black_top_hat_u16_disc_15", U16, MORPHD_BLACK_TOP_HAT, 0, 4096, 2048, 15, DISC},
    {"closing_set_disc_15", SET, MORPHD_CLOSE, 0, 4096, 2048, 15, DISC},
    {"hit_or_miss_u8_box_1", HIT_OR_MISS, 0, 0, 2048, 2048, 1, BOX},
    {"skeleton_2_levels", SKELETON, 2, 0, 2048, 2048, 3, BOX},
    {"skeleton_254_levels", SKELETON, 254, 0, 2048, 2048, 3, BOX},
    {"restore_254_levels", RESTORE, 254, 0, 2048, 2048, 3, BOX},
    {"spectrum_u8_32_levels", SPECTRUM, 32, 0, 1024, 1024, 3, DISC},
    {"reconstruction_u8", RECONSTRUCT_U8, 0, 0, 2048, 2048, 3, BOX},
    {"reconstruction_u16", RECONSTRUCT_U16, 0, 0, 2048, 2048, 3, DISC},
    {"reconstruction_set", RECONSTRUCT_SET, 0, 0, 4096, 2048, 3, BOX},
    {"fill_u8", FILL_U8, 0, 0, 2048, 2048, 3, DISC},
    {"fill_u16", FILL_U16, 0, 0, 2048, 2048, 3, BOX},
    {"clear_border_set", CLEAR_BORDER_SET, 0, 0, 4096, 2048, 3, BOX},
    {"h_minima_u8", EXTREMA_U8, 40, 0, 2048, 2048, 3, BOX},
    {"regional_minima_u16", MINIMA_U16, 0, 0, 2048, 2048, 3, DISC},
    {"label_four", LABEL, 0, 0, 4096, 2048, 3, DISC},
    {"label_eight", LABEL, 0, 0, 4096, 2048, 3, BOX},
    {"regions_four", REGIONS, 0, 0, 4096, 2048, 3, DISC},
    {"regions_eight", REGIONS, 0, 0, 4096, 2048, 3, BOX},
    {"components_four", COMPONENTS, 0, 0, 4096, 2048, 3, DISC},
    {"components_eight", COMPONENTS, 0, 0, 4096, 2048, 3, BOX},
    {"area_opening_u8", AREA_U8, MORPHD_AREA_OPENING, 9, 1024, 1024, 3, BOX},
    {"area_closing_u16", AREA_U16, MORPHD_AREA_CLOSING, 9, 1024, 1024, 3, DISC},
    {"area_set", AREA, 2, 0, 4096, 2048, 3, DISC},
    {"distance_city_block", DISTANCE, MORPHD_CITY_BLOCK, 0, 4096, 2048, 1, BOX},
    {"distance_chessboard", DISTANCE, MORPHD_CHESSBOARD, 0, 4096, 2048, 1, BOX},
    {"distance_squared_euclid", DISTANCE, MORPHD_SQUARED_EUCLID, 0, 4096, 2048, 1, BOX},
};

int main(void) {
    size_t largest = (size_t)8192 * 2048;
    bytes = __real_malloc(largest);
    words = __real_malloc(2 * largest);
    out = __real_malloc(4 * ROOM);
    rows = __real_malloc(4 * ROOM);
    board = __real_malloc(largest);
    marker = __real_malloc(largest);
    marker_words = __real_malloc(2 * largest);
    if (!bytes || !words || !out || !rows || !board || !marker || !marker_words) return 1;
    for (size_t i = 0; i < largest; i++) {
        bytes[i] = i * 2654435761u >> 24 & 127;
        words[i] = i * 2654435761u >> 17;
        /* a chessboard in rows of 4096 pixels, which has the most components */
        board[i] = (i ^ i >> 12) & 1;
        marker[i] = i % 64 ? 0 : bytes[i];
        marker_words[i] = i % 64 ? 65535 : words[i];
    }
    for (size_t number = 0; number < sizeof cases / sizeof *cases; number++) {
        const Case *c = &cases[number];
        draw(c);
        most = asked = asked_before = is_refusing = 0;
        int32_t answer = run(c);
        if (answer != MORPHD_DONE || held != 0) {
            printf("%s: answered %d, and holds %zu bytes\n", c->name, answer, held);
            return 1;
        }
        size_t peak = most;
        long times = asked, before = asked_before;
        is_refusing = 1;
        answer = run(c);
        printf("%s %zu %zu %ld %ld %d\n", c->name, (size_t)c->width * c->height, peak, times, before, answer);
        fflush(stdout);
    }
    return 0;
}
