/* libmorphd: flat mathematical morphology on arrays in memory.
 *
 *     uint8_t samples[5] = {3, 1, 4, 1, 5}, ones[3] = {1, 1, 1}, out[5];
 *     int32_t answer = morphd_flat_u8(MORPHD_ERODE, 0, 5, 1, 9, samples, 5, ones, 3, 3, 1, 1, 0, out, 5);
 *
 * What the functions take
 *
 * An image: its width and height in pixels; for levels of grey its maxval, the greatest level that a sample may have; its
 * samples by rows from the top, each row from the left, without gaps; and `count`, how many samples the array has, which is
 * width times height. It has 1 to 8192 columns, 1 to 8192 rows and at most 16777216 samples.
 *   _u8    levels of one byte; maxval is from 1 to 255
 *   _u16   levels of two bytes; maxval is from 256 to 65535
 *   _set   a byte for each pixel; any but 0 is in the set. Sets that are made have the bytes 0 and 1, as bool has
 * An element: a bitmap of a byte a pixel, any but 0 being in the element; its length; its width and height, from 1 to 255
 * pixels each; and the column and the row of its origin, counted from 0.
 * The array for the result, and its length in samples, which is that of the image but where a function says otherwise.
 *
 * What they make
 *
 * S is the samples under the element at a place (x, y) of the image: those at (x + i - element_x, y + j - element_y) for each
 * column i and row j of the bitmap that is in the element. What lies outside the image is left out. The element turned round
 * has each of its pixels on the other side of its origin.
 * Reconstructions, labels and what follows from them take an element that tells what hangs together: from a place it shows the
 * places that it covers there. Whether it has the pixel at its origin changes nothing. Where it covers the four or the eight
 * neighbours, in whatever bitmap, a call is fast; under any other element it takes many times as long.
 *
 * Who owns what
 *
 * All arrays are the caller's. No call keeps a pointer; what a call takes by malloc and realloc it frees before it returns. A
 * call reads what its const pointers point to, and writes `out` alone, and `components` where it has that. The caller keeps that
 *   - each pointer points to an array of that length; where the length is 0, it is not null and aligned all the same;
 *   - `components` points to one number;
 *   - `out` and `components` overlap nothing else that the call is given;
 *   - arrays of uint16_t, uint32_t and uint64_t are aligned, and so is `components`;
 *   - nobody writes those arrays while a call runs, or reads `out` or `components`;
 *   - no call runs in a signal handler, or in a child that a process with threads has forked;
 *   - malloc, realloc and free are of one allocator, and align as the C standard says.
 * Every call tests the rest. Any number of threads may call at once.
 *
 * Answers
 *
 * 0 (MORPHD_DONE): `out` has the result. Any other answer is the first of these that holds, and `out` is as it was:
 *   1. the call's first numbers (operation, k of a threshold, levels, method, kind, h, least, metric, top): MORPHD_PARAM
 *   2. the image: MORPHD_SIZE, MORPHD_LENGTH, MORPHD_MAXVAL, MORPHD_SAMPLE; a mask in the same way behind its marker, and then
 *      both: MORPHD_FRAME, MORPHD_LEVELS
 *   3. out_count is not the length of the result, or not that of rows of it that are asked for: MORPHD_LENGTH
 *   4. the element: MORPHD_SIZE, MORPHD_LENGTH, MORPHD_ORIGIN, MORPHD_EMPTY; then a second one in the same way
 *   5. what the operation asks of the element's pixels: MORPHD_NO_ORIGIN, MORPHD_PARAM (k of a rank), MORPHD_OVERLAP,
 *      MORPHD_ONE_WAY
 * MORPHD_MEMORY may come in the place of the result, or of 5, since the element has to be in memory for that. The flat calls
 * and thresholds write strips of rows: all that can be refused is asked for before the first is written. A later strip for
 * which there is no memory is made sample by sample, slowly, and the answer is 0.
 *
 * Of every function but morphd_build it is proved that it makes and answers what this file says. docs/dev/DEFINITIONS.md has the
 * operators, docs/PROTOCOL.md the numbers, docs/LIBRARY.md programs.
 *
 * Processors
 *
 * There are two builds of each function, for x86-64-v2 and for x86-64-v3. As the library is loaded, the latter is taken where the
 * processor and the system have all that it needs, unless MORPHD_CPU is v2 in the environment. Both make the same.
 */
#ifndef MORPHD_H
#define MORPHD_H

#include <stddef.h>
#include <stdint.h>

#ifdef __cplusplus
extern "C" {
#endif

/* Operations of the flat calls. */
enum {
    MORPHD_ERODE = 0,         /* the least of S, or maxval (1 of a set) where S is empty */
    MORPHD_DILATE = 1,        /* the greatest of S, or 0 where S is empty */
    MORPHD_OPEN = 2,          /* an erosion, then a dilation by the element turned round */
    MORPHD_CLOSE = 3,         /* a dilation, then an erosion by the element turned round */
    MORPHD_GRADIENT = 4,      /* the dilation less the erosion, and 0 where that is below 0 */
    MORPHD_WHITE_TOP_HAT = 5, /* the image less its opening, in the same way */
    MORPHD_BLACK_TOP_HAT = 6, /* the closing less the image, in the same way */
    MORPHD_RANK = 7           /* sample number min(k, m) of the m samples of S in rising order, from 1 */
};

/* Methods of reconstruction. */
enum {
    MORPHD_BY_DILATION = 0, /* the marker rises under the mask */
    MORPHD_BY_EROSION = 1   /* the marker falls onto the mask */
};

/* Kinds of extrema. */
enum {
    MORPHD_MAXIMA = 0, /* domes, and plateaus that have no higher neighbour */
    MORPHD_MINIMA = 1  /* basins, and plateaus that have no lower neighbour */
};

/* Kinds of area operators. */
enum {
    MORPHD_AREA_OPENING = 0, /* peaks of too few pixels are cut off */
    MORPHD_AREA_CLOSING = 1  /* pits of too few pixels are filled up */
};

/* Metrics of distances. */
enum {
    MORPHD_CITY_BLOCK = 0,    /* steps to the places above, to the left, to the right and below */
    MORPHD_CHESSBOARD = 1,    /* steps to these and to the four at the corners */
    MORPHD_SQUARED_EUCLID = 2 /* the square of the straight way */
};

/* Answers. */
enum {
    MORPHD_DONE = 0,
    MORPHD_LENGTH = 11,    /* an array is not as long as its sides say, or `out` not as long as the result, or no rows of it */
    MORPHD_SIZE = 22,      /* sides that no image, or no element, has */
    MORPHD_MAXVAL = 23,    /* a maxval outside its limits */
    MORPHD_SAMPLE = 25,    /* a sample over the maxval */
    MORPHD_ORIGIN = 31,    /* the origin lies outside the bitmap */
    MORPHD_EMPTY = 32,     /* no pixel of the bitmap is in the element */
    MORPHD_NO_ORIGIN = 45, /* a rank or a skeleton by an element without the pixel at its origin */
    MORPHD_OVERLAP = 46,   /* the two elements share a pixel, seen from their origins */
    MORPHD_PARAM = 47,     /* an operation, method, kind or metric, k, levels, h, least or top outside its limits */
    MORPHD_MEMORY = 50,    /* malloc or realloc gave no memory */
    MORPHD_FRAME = 53,     /* a marker and a mask of other widths or heights */
    MORPHD_LEVELS = 54,    /* a marker and a mask of other maxvals */
    MORPHD_ONE_WAY = 55    /* a pixel of the element has none on the other side of its origin */
};

/* The version of the release that this file came with. */
#define MORPHD_VERSION "0.1.0"

/* The version of this file, which is 1: it rises when a function or a number changes its meaning. */
uint32_t morphd_version(void);

/* Which build runs: 2 that for x86-64-v2, 3 that for x86-64-v3. */
uint32_t morphd_build(void);

/* A flat operation, one of the eight above; the result has the image's maxval. MORPHD_RANK alone looks at `k`, which is there
 * from 1 to the number of the element's pixels; the element then has the pixel at its origin. */
int32_t morphd_flat_u8(
    uint32_t operation, uint32_t k,
    uint32_t width, uint32_t height, uint8_t maxval, const uint8_t *samples, size_t count,
    const uint8_t *element, size_t element_count, uint32_t element_width, uint32_t element_height, uint32_t element_x, uint32_t element_y,
    uint8_t *out, size_t out_count);
int32_t morphd_flat_u16(
    uint32_t operation, uint32_t k,
    uint32_t width, uint32_t height, uint16_t maxval, const uint16_t *samples, size_t count,
    const uint8_t *element, size_t element_count, uint32_t element_width, uint32_t element_height, uint32_t element_x, uint32_t element_y,
    uint16_t *out, size_t out_count);
int32_t morphd_flat_set(
    uint32_t operation, uint32_t k,
    uint32_t width, uint32_t height, const uint8_t *pixels, size_t count,
    const uint8_t *element, size_t element_count, uint32_t element_width, uint32_t element_height, uint32_t element_x, uint32_t element_y,
    uint8_t *out, size_t out_count);

/* Some rows of what a flat operation of one step makes: MORPHD_ERODE, MORPHD_DILATE, MORPHD_GRADIENT or MORPHD_RANK; any other
 * answers MORPHD_PARAM. So several threads can share one picture: each calls with the same image and another `first_row`, and
 * makes rows of its own. `out` gets as many rows of the result as it has room for, from `first_row` on, counted from 0, with the
 * samples that morphd_flat_* gives them. Nothing else of the result is made or written. out_count is the width or a multiple of
 * it, and all these rows lie in the image; else the answer is MORPHD_LENGTH. */
int32_t morphd_flat_rows_u8(
    uint32_t operation, uint32_t k, uint32_t first_row,
    uint32_t width, uint32_t height, uint8_t maxval, const uint8_t *samples, size_t count,
    const uint8_t *element, size_t element_count, uint32_t element_width, uint32_t element_height, uint32_t element_x, uint32_t element_y,
    uint8_t *out, size_t out_count);
int32_t morphd_flat_rows_u16(
    uint32_t operation, uint32_t k, uint32_t first_row,
    uint32_t width, uint32_t height, uint16_t maxval, const uint16_t *samples, size_t count,
    const uint8_t *element, size_t element_count, uint32_t element_width, uint32_t element_height, uint32_t element_x, uint32_t element_y,
    uint16_t *out, size_t out_count);
int32_t morphd_flat_rows_set(
    uint32_t operation, uint32_t k, uint32_t first_row,
    uint32_t width, uint32_t height, const uint8_t *pixels, size_t count,
    const uint8_t *element, size_t element_count, uint32_t element_width, uint32_t element_height, uint32_t element_x, uint32_t element_y,
    uint8_t *out, size_t out_count);

/* The set of the places with level `k` or more; `k` is from 0 to 65535. */
int32_t morphd_threshold_u8(
    uint32_t k,
    uint32_t width, uint32_t height, uint8_t maxval, const uint8_t *samples, size_t count,
    uint8_t *out, size_t out_count);
int32_t morphd_threshold_u16(
    uint32_t k,
    uint32_t width, uint32_t height, uint16_t maxval, const uint16_t *samples, size_t count,
    uint8_t *out, size_t out_count);

/* The erosion by `hit` less the dilation by `miss`, and 0 where that is below 0: of a set, the places where `hit` fits into it
 * and `miss` beside it. The elements share no pixel, seen from their origins. The result has the image's maxval. */
int32_t morphd_hit_or_miss_u8(
    uint32_t width, uint32_t height, uint8_t maxval, const uint8_t *samples, size_t count,
    const uint8_t *hit, size_t hit_count, uint32_t hit_width, uint32_t hit_height, uint32_t hit_x, uint32_t hit_y,
    const uint8_t *miss, size_t miss_count, uint32_t miss_width, uint32_t miss_height, uint32_t miss_x, uint32_t miss_y,
    uint8_t *out, size_t out_count);
int32_t morphd_hit_or_miss_u16(
    uint32_t width, uint32_t height, uint16_t maxval, const uint16_t *samples, size_t count,
    const uint8_t *hit, size_t hit_count, uint32_t hit_width, uint32_t hit_height, uint32_t hit_x, uint32_t hit_y,
    const uint8_t *miss, size_t miss_count, uint32_t miss_width, uint32_t miss_height, uint32_t miss_x, uint32_t miss_y,
    uint16_t *out, size_t out_count);
int32_t morphd_hit_or_miss_set(
    uint32_t width, uint32_t height, const uint8_t *pixels, size_t count,
    const uint8_t *hit, size_t hit_count, uint32_t hit_width, uint32_t hit_height, uint32_t hit_x, uint32_t hit_y,
    const uint8_t *miss, size_t miss_count, uint32_t miss_width, uint32_t miss_height, uint32_t miss_x, uint32_t miss_y,
    uint8_t *out, size_t out_count);

/* The skeleton of a set, as an image of levels up to levels + 1: n + 1 at a pixel that the n-fold erosion has and its opening
 * has not, for the greatest such n below `levels`; levels + 1 at what `levels` erosions leave; 0 elsewhere. `levels` is from
 * 1 to 254. The element has the pixel at its origin. */
int32_t morphd_skeleton(
    uint32_t levels,
    uint32_t width, uint32_t height, const uint8_t *pixels, size_t count,
    const uint8_t *element, size_t element_count, uint32_t element_width, uint32_t element_height, uint32_t element_x, uint32_t element_y,
    uint8_t *out, size_t out_count);

/* The set that the marks of a skeleton restore: the union, for n from 0 to `levels`, of the n-fold dilations, by the element
 * turned round, of the places marked n + 1. `levels` is from 1 to 254. */
int32_t morphd_restore_u8(
    uint32_t levels,
    uint32_t width, uint32_t height, uint8_t maxval, const uint8_t *samples, size_t count,
    const uint8_t *element, size_t element_count, uint32_t element_width, uint32_t element_height, uint32_t element_x, uint32_t element_y,
    uint8_t *out, size_t out_count);
int32_t morphd_restore_u16(
    uint32_t levels,
    uint32_t width, uint32_t height, uint16_t maxval, const uint16_t *samples, size_t count,
    const uint8_t *element, size_t element_count, uint32_t element_width, uint32_t element_height, uint32_t element_x, uint32_t element_y,
    uint8_t *out, size_t out_count);

/* Volumes: out[n] is the sum of all samples after n erosions and then n dilations by the element turned round, for n from 0 to
 * `levels`, which is from 1 to 32. out_count is levels + 1. */
int32_t morphd_spectrum_u8(
    uint32_t levels,
    uint32_t width, uint32_t height, uint8_t maxval, const uint8_t *samples, size_t count,
    const uint8_t *element, size_t element_count, uint32_t element_width, uint32_t element_height, uint32_t element_x, uint32_t element_y,
    uint64_t *out, size_t out_count);
int32_t morphd_spectrum_u16(
    uint32_t levels,
    uint32_t width, uint32_t height, uint16_t maxval, const uint16_t *samples, size_t count,
    const uint8_t *element, size_t element_count, uint32_t element_width, uint32_t element_height, uint32_t element_x, uint32_t element_y,
    uint64_t *out, size_t out_count);
int32_t morphd_spectrum_set(
    uint32_t levels,
    uint32_t width, uint32_t height, const uint8_t *pixels, size_t count,
    const uint8_t *element, size_t element_count, uint32_t element_width, uint32_t element_height, uint32_t element_x, uint32_t element_y,
    uint64_t *out, size_t out_count);

/* The reconstruction of a mask from a marker, which have the same sides and the same maxval; so has the result. out_count is the
 * number of their samples. MORPHD_BY_DILATION: of the marker and the mask the lesser sample is taken at each place. Then each
 * sample rises to the greatest under the element, but not over the mask, until none rises. MORPHD_BY_EROSION: the greater sample
 * is taken, and each falls to the least under the element, but not under the mask, until none falls. Of sets the first is the
 * pixels from which a path within the mask leads to one of the marker; a path goes from a place to one that the element covers
 * there, and so on. Any other method answers MORPHD_PARAM. */
int32_t morphd_reconstruct_u8(
    uint32_t method,
    uint32_t marker_width, uint32_t marker_height, uint8_t marker_maxval, const uint8_t *marker, size_t marker_count,
    uint32_t mask_width, uint32_t mask_height, uint8_t mask_maxval, const uint8_t *mask, size_t mask_count,
    const uint8_t *element, size_t element_count, uint32_t element_width, uint32_t element_height, uint32_t element_x, uint32_t element_y,
    uint8_t *out, size_t out_count);
int32_t morphd_reconstruct_u16(
    uint32_t method,
    uint32_t marker_width, uint32_t marker_height, uint16_t marker_maxval, const uint16_t *marker, size_t marker_count,
    uint32_t mask_width, uint32_t mask_height, uint16_t mask_maxval, const uint16_t *mask, size_t mask_count,
    const uint8_t *element, size_t element_count, uint32_t element_width, uint32_t element_height, uint32_t element_x, uint32_t element_y,
    uint16_t *out, size_t out_count);
int32_t morphd_reconstruct_set(
    uint32_t method,
    uint32_t marker_width, uint32_t marker_height, const uint8_t *marker, size_t marker_count,
    uint32_t mask_width, uint32_t mask_height, const uint8_t *mask, size_t mask_count,
    const uint8_t *element, size_t element_count, uint32_t element_width, uint32_t element_height, uint32_t element_x, uint32_t element_y,
    uint8_t *out, size_t out_count);

/* The set with its holes filled: all but the places from which a path outside of it leads to the border, which is the first and
 * the last column and row of the image. */
int32_t morphd_fill_set(
    uint32_t width, uint32_t height, const uint8_t *pixels, size_t count,
    const uint8_t *element, size_t element_count, uint32_t element_width, uint32_t element_height, uint32_t element_x, uint32_t element_y,
    uint8_t *out, size_t out_count);

/* The set without the pixels from which a path within it leads to one at the border. */
int32_t morphd_clear_border_set(
    uint32_t width, uint32_t height, const uint8_t *pixels, size_t count,
    const uint8_t *element, size_t element_count, uint32_t element_width, uint32_t element_height, uint32_t element_x, uint32_t element_y,
    uint8_t *out, size_t out_count);

/* Levels of grey with their holes filled: each place rises to the least level that a path from it to the border has to reach. A
 * path reaches the levels of its places. */
int32_t morphd_fill_u8(
    uint32_t width, uint32_t height, uint8_t maxval, const uint8_t *samples, size_t count,
    const uint8_t *element, size_t element_count, uint32_t element_width, uint32_t element_height, uint32_t element_x, uint32_t element_y,
    uint8_t *out, size_t out_count);
int32_t morphd_fill_u16(
    uint32_t width, uint32_t height, uint16_t maxval, const uint16_t *samples, size_t count,
    const uint8_t *element, size_t element_count, uint32_t element_width, uint32_t element_height, uint32_t element_x, uint32_t element_y,
    uint16_t *out, size_t out_count);

/* The image less its reconstruction by dilation from its own border: from the marker that has the samples of the first and the
 * last column and row, and 0 within. */
int32_t morphd_clear_border_u8(
    uint32_t width, uint32_t height, uint8_t maxval, const uint8_t *samples, size_t count,
    const uint8_t *element, size_t element_count, uint32_t element_width, uint32_t element_height, uint32_t element_x, uint32_t element_y,
    uint8_t *out, size_t out_count);
int32_t morphd_clear_border_u16(
    uint32_t width, uint32_t height, uint16_t maxval, const uint16_t *samples, size_t count,
    const uint8_t *element, size_t element_count, uint32_t element_width, uint32_t element_height, uint32_t element_x, uint32_t element_y,
    uint16_t *out, size_t out_count);

/* MORPHD_MAXIMA: the reconstruction by dilation of the image from the image less h, stopping at 0: h is cut off each dome, and
 * domes of a height up to h are gone. MORPHD_MINIMA: the reconstruction by erosion of the image from the image and h, stopping at
 * the maxval: each basin is filled up by h, and basins of a depth up to h are gone. h is from 1 to 65535. Any other kind or h
 * answers MORPHD_PARAM. */
int32_t morphd_extrema_h_u8(
    uint32_t kind, uint32_t h,
    uint32_t width, uint32_t height, uint8_t maxval, const uint8_t *samples, size_t count,
    const uint8_t *element, size_t element_count, uint32_t element_width, uint32_t element_height, uint32_t element_x, uint32_t element_y,
    uint8_t *out, size_t out_count);
int32_t morphd_extrema_h_u16(
    uint32_t kind, uint32_t h,
    uint32_t width, uint32_t height, uint16_t maxval, const uint16_t *samples, size_t count,
    const uint8_t *element, size_t element_count, uint32_t element_width, uint32_t element_height, uint32_t element_x, uint32_t element_y,
    uint16_t *out, size_t out_count);

/* The set of what that takes away or adds with h = 1. By the four or the eight neighbours these are, for MORPHD_MAXIMA, the
 * plateaus of a level over 0 that have no higher neighbour, and for MORPHD_MINIMA those of a level under the maxval that have no
 * lower one. Any other kind answers MORPHD_PARAM. */
int32_t morphd_extrema_regional_u8(
    uint32_t kind,
    uint32_t width, uint32_t height, uint8_t maxval, const uint8_t *samples, size_t count,
    const uint8_t *element, size_t element_count, uint32_t element_width, uint32_t element_height, uint32_t element_x, uint32_t element_y,
    uint8_t *out, size_t out_count);
int32_t morphd_extrema_regional_u16(
    uint32_t kind,
    uint32_t width, uint32_t height, uint16_t maxval, const uint16_t *samples, size_t count,
    const uint8_t *element, size_t element_count, uint32_t element_width, uint32_t element_height, uint32_t element_x, uint32_t element_y,
    uint8_t *out, size_t out_count);

/* Components: two pixels of a set are of one component where a path within the set leads from one to the other. With each pixel
 * the element has the one on the other side of its origin; else these calls answer MORPHD_ONE_WAY. Components are counted by their
 * first pixels, by rows from the top. */

/* The labels of a set: 0 for what is not in it, and for each pixel the number of its component, from 1. `*components` is how many
 * there are; it is written where the answer is 0. */
int32_t morphd_label_set(
    uint32_t width, uint32_t height, const uint8_t *pixels, size_t count,
    const uint8_t *element, size_t element_count, uint32_t element_width, uint32_t element_height, uint32_t element_x, uint32_t element_y,
    uint32_t *out, size_t out_count, uint32_t *components);

/* What is told of each component: seven numbers, one component after the other. These are the column and the row of its first
 * pixel, how many pixels it has, and its first column, first row, last column and last row. They come at the front of `out`, which
 * may be longer, and keeps what stands behind them; out_count may be 0. `*components` is how many components there are. Where
 * out_count is less than seven times that, the answer is MORPHD_LENGTH: that is found last, and `*components` is written then too,
 * and where the answer is 0. */
int32_t morphd_regions_set(
    uint32_t width, uint32_t height, const uint8_t *pixels, size_t count,
    const uint8_t *element, size_t element_count, uint32_t element_width, uint32_t element_height, uint32_t element_x, uint32_t element_y,
    uint32_t *out, size_t out_count, uint32_t *components);

/* Both by one search: the labels in `out`, the seven numbers of each component in `regions`, and `*components`. `out` has a place
 * for each pixel; `regions` is as `out` of morphd_regions_set is. The answer is 0 where both are written, and else both are as they
 * were. Where `regions` is too short the answer is MORPHD_LENGTH: that is found last, and `*components` is written then too. It takes
 * little more time than either call alone. */
int32_t morphd_components_set(
    uint32_t width, uint32_t height, const uint8_t *pixels, size_t count,
    const uint8_t *element, size_t element_count, uint32_t element_width, uint32_t element_height, uint32_t element_x, uint32_t element_y,
    uint32_t *out, size_t out_count, uint32_t *regions, size_t regions_count, uint32_t *components);

/* The components of a set that have `least` pixels or more. `least` is not 0. */
int32_t morphd_area_set(
    uint32_t least,
    uint32_t width, uint32_t height, const uint8_t *pixels, size_t count,
    const uint8_t *element, size_t element_count, uint32_t element_width, uint32_t element_height, uint32_t element_x, uint32_t element_y,
    uint8_t *out, size_t out_count);

/* MORPHD_AREA_OPENING: at each place the greatest level at which it belongs to a large component, or 0 where there is none. Of a
 * level these are the components of the set of all places with that level or more that have `least` pixels or more.
 * MORPHD_AREA_CLOSING: the maxval less the area opening of the maxval less each sample. `least` is not 0. Any other kind
 * answers MORPHD_PARAM. */
int32_t morphd_area_u8(
    uint32_t kind, uint32_t least,
    uint32_t width, uint32_t height, uint8_t maxval, const uint8_t *samples, size_t count,
    const uint8_t *element, size_t element_count, uint32_t element_width, uint32_t element_height, uint32_t element_x, uint32_t element_y,
    uint8_t *out, size_t out_count);
int32_t morphd_area_u16(
    uint32_t kind, uint32_t least,
    uint32_t width, uint32_t height, uint16_t maxval, const uint16_t *samples, size_t count,
    const uint8_t *element, size_t element_count, uint32_t element_width, uint32_t element_height, uint32_t element_x, uint32_t element_y,
    uint16_t *out, size_t out_count);

/* Distances: 0 for what is not in the set, and for each pixel how far the nearest place of the image is that is not in it, or `top`
 * where that is less or there is no such place. Outside of the image nothing is near. `top` is not 0. */
int32_t morphd_distance_set(
    uint32_t metric, uint32_t top,
    uint32_t width, uint32_t height, const uint8_t *pixels, size_t count,
    uint32_t *out, size_t out_count);

#ifdef __cplusplus
}
#endif

#endif
