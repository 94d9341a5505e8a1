/* Two threads that call libmorphd at once: both read the same pictures and elements, each writes results of its own, and of one result
 * each makes a half of the rows. What both make has to be the same. With a word behind its name each also writes the other's place, so that
 * it is seen that this is told. */
#include <morphd.h>
#include <pthread.h>
#include <stdio.h>
#include <string.h>

#define WIDTH 150
#define HEIGHT 130
#define COUNT (WIDTH * HEIGHT)
#define ELEMENT ones, 25, 5, 5, 2, 2
#define TURNS 2

static uint8_t bytes[COUNT], pixels[COUNT], ones[25], halves[COUNT], whole[COUNT];
static uint16_t words[COUNT];
static int is_spoiled;

/* What one thread makes. */
struct made {
    unsigned number, faults, components;
    uint8_t bytes[8][COUNT], sets[8][COUNT], marks[COUNT], least[COUNT], hits[COUNT], filled[COUNT], rebuilt[COUNT], areas[COUNT];
    uint16_t words[8][COUNT];
    uint32_t labels[COUNT], regions[7 * COUNT], distances[COUNT];
    uint64_t volumes[5];
};

static struct made both[2];

static void flat(struct made *it) {
    for (uint32_t kind = 0; kind < 8; kind++) {
        it->faults += morphd_flat_u8(kind, 9, WIDTH, HEIGHT, 255, bytes, COUNT, ELEMENT, it->bytes[kind], COUNT) != 0;
        it->faults += morphd_flat_u16(kind, 9, WIDTH, HEIGHT, 4095, words, COUNT, ELEMENT, it->words[kind], COUNT) != 0;
        it->faults += morphd_flat_set(kind, 9, WIDTH, HEIGHT, pixels, COUNT, ELEMENT, it->sets[kind], COUNT) != 0;
    }
}

static void others(struct made *it) {
    const uint8_t miss[25] = {1};
    it->faults += morphd_threshold_u8(100, WIDTH, HEIGHT, 255, bytes, COUNT, it->least, COUNT) != 0;
    it->faults += morphd_hit_or_miss_set(WIDTH, HEIGHT, pixels, COUNT, ones, 1, 1, 1, 0, 0, miss, 25, 5, 5, 2, 2, it->hits, COUNT) != 0;
    it->faults += morphd_skeleton(3, WIDTH, HEIGHT, pixels, COUNT, ELEMENT, it->marks, COUNT) != 0;
    it->faults += morphd_spectrum_set(4, WIDTH, HEIGHT, pixels, COUNT, ELEMENT, it->volumes, 5) != 0;
    it->faults += morphd_reconstruct_u8(0, WIDTH, HEIGHT, 255, it->bytes[0], COUNT, WIDTH, HEIGHT, 255, bytes, COUNT, ELEMENT, it->rebuilt, COUNT) != 0;
    it->faults += morphd_fill_u8(WIDTH, HEIGHT, 255, bytes, COUNT, ELEMENT, it->filled, COUNT) != 0;
    it->faults += morphd_components_set(WIDTH, HEIGHT, pixels, COUNT, ELEMENT, it->labels, COUNT, it->regions, 7 * COUNT, &it->components) != 0;
    it->faults += morphd_area_u8(0, 40, WIDTH, HEIGHT, 255, bytes, COUNT, ELEMENT, it->areas, COUNT) != 0;
    it->faults += morphd_distance_set(0, 1000, WIDTH, HEIGHT, pixels, COUNT, it->distances, COUNT) != 0;
}

/* Its half of one result. */
static void half(struct made *it) {
    uint32_t first = is_spoiled ? 0 : it->number * (HEIGHT / 2);
    it->faults += morphd_flat_rows_u8(0, 0, first, WIDTH, HEIGHT, 255, bytes, COUNT, ELEMENT, halves + first * WIDTH, COUNT / 2) != 0;
}

static void *works(void *given) {
    struct made *it = given;
    for (int turn = 0; turn < TURNS; turn++) {
        flat(it);
        others(it);
        half(it);
    }
    return NULL;
}

int main(int count, char **names) {
    (void)names;
    pthread_t other;
    uint32_t state = 1;
    is_spoiled = count > 1;
    memset(ones, 1, sizeof ones);
    for (int i = 0; i < COUNT; i++) {
        state = state * 1664525u + 1013904223u;
        bytes[i] = (uint8_t)(state >> 24);
        words[i] = (uint16_t)(state >> 20);
        pixels[i] = bytes[i] < 200;
    }
    both[1].number = 1;
    if (pthread_create(&other, NULL, works, &both[1])) return 3;
    works(&both[0]);
    if (pthread_join(other, NULL)) return 3;
    both[1].number = 0;
    if (both[0].faults || memcmp(&both[0], &both[1], sizeof both[0])) return 1;
    if (morphd_flat_u8(0, 0, WIDTH, HEIGHT, 255, bytes, COUNT, ELEMENT, whole, COUNT)) return 2;
    return !is_spoiled && memcmp(whole, halves, COUNT) ? 2 : 0;
}
