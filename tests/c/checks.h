/* What calls.c checks with: it counts, and it lends the calls buffers between guard cells. */
#include <stdio.h>
#include <stdlib.h>
#include <string.h>

#include "sprettuhol.h"

#define GUARD 16
#define MOST_BYTES 65600 /* a little more than any call takes */
#define MOST_SAMPLES 131200
#define FILL 0x5a

/* A table's rows have the line that they are on, which the message of a failure has too. */
#define FOR_EACH(rows) for (size_t k = 0; k < sizeof rows / sizeof *rows && (row = rows[k].line) > 0; k++)
#define CHECK(holds) check(__FILE__, __LINE__, holds)

static unsigned long checks;
static int row;

/* What the calls read, and what they write. */
static uint8_t given_bytes[MOST_BYTES], byte_cells[MOST_BYTES + 2 * GUARD];
static int16_t given_samples[MOST_SAMPLES], sample_cells[MOST_SAMPLES + 2 * GUARD];
static uint8_t *const bytes = byte_cells + GUARD;
static int16_t *const samples = sample_cells + GUARD;

/* Eight states, at 1 to 8, with a guard on both sides. The indices are above 88. Two counts are about to stop. */
#define CELLS (SPR_MS_MOST_CHANNELS + 2)
static const int16_t old_predictors[CELLS] = {FILL, 77, -77, 78, -78, 79, -79, 80, -80, FILL};
static const uint8_t old_indices[CELLS] = {FILL, 200, 201, 202, 203, 204, 205, 206, 207, FILL};
static const uint32_t old_counts[CELLS] = {FILL, 1000, UINT32_MAX - 1, 1001, 1002, UINT32_MAX, 1003, 1004, 1005, FILL};
static int16_t predictors[CELLS];
static uint8_t indices[CELLS];
static uint32_t counts[CELLS];
static int16_t (*const all_predictors)[SPR_MS_MOST_CHANNELS] = (int16_t (*)[SPR_MS_MOST_CHANNELS])(predictors + 1);
static uint8_t (*const all_indices)[SPR_MS_MOST_CHANNELS] = (uint8_t (*)[SPR_MS_MOST_CHANNELS])(indices + 1);
static uint32_t (*const all_counts)[SPR_MS_MOST_CHANNELS] = (uint32_t (*)[SPR_MS_MOST_CHANNELS])(counts + 1);

/* A state by itself: the predictor, the step index, and the count of clipped steps. */
struct state {
    int16_t p;
    uint8_t i;
    uint32_t c;
};

static void check(const char *file, int line, int holds)
{
    checks++;
    if (holds)
        return;
    printf("%s:%d: this does not hold, of row %d\n", file, line, row);
    exit(1);
}

static void noise(void *to, size_t n)
{
    static uint32_t x = 1;
    for (size_t k = 0; k < n; k++) {
        x = x * 1664525 + 1013904223;
        ((uint8_t *)to)[k] = (uint8_t)(x >> 24);
    }
}

static void fill(void)
{
    memset(byte_cells, FILL, sizeof byte_cells);
    memset(sample_cells, FILL, sizeof sample_cells);
    memcpy(predictors, old_predictors, sizeof predictors);
    memcpy(indices, old_indices, sizeof indices);
    memcpy(counts, old_counts, sizeof counts);
}

static int filled(const void *from, size_t n)
{
    const uint8_t *cells = from;
    return n == 0 || (cells[0] == FILL && memcmp(cells, cells + 1, n - 1) == 0);
}

/* No more was written than the first n bytes and the first m samples. */
static int kept(size_t n, size_t m)
{
    return filled(byte_cells, GUARD) && filled(bytes + n, MOST_BYTES + GUARD - n) &&
           filled(sample_cells, GUARD * sizeof *samples) &&
           filled(samples + m, (MOST_SAMPLES + GUARD - m) * sizeof *samples);
}

/* The states, but for the first few, and the guards are as they were filled. */
static int stay_but(size_t few)
{
    const size_t k = 1 + few;
    return predictors[0] == old_predictors[0] && indices[0] == old_indices[0] && counts[0] == old_counts[0] &&
           memcmp(predictors + k, old_predictors + k, (CELLS - k) * sizeof *predictors) == 0 &&
           memcmp(indices + k, old_indices + k, CELLS - k) == 0 &&
           memcmp(counts + k, old_counts + k, (CELLS - k) * sizeof *counts) == 0;
}

static int same(struct state s, struct state t)
{
    return s.p == t.p && s.i == t.i && s.c == t.c;
}

/* One of the eight states, counted from 1, as it was filled and as it is. */
static struct state old_state(size_t k)
{
    return (struct state){old_predictors[k], old_indices[k], old_counts[k]};
}

static struct state new_state(size_t k)
{
    return (struct state){predictors[k], indices[k], counts[k]};
}
