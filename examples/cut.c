/* Three ima4 blocks are encoded as one run, and the run is decoded in two parts. If the decoder's state goes
 * over the cut, no sample moves. If the second part starts from a zeroed state, samples move, for a block's
 * header has no room for the low seven bits of the predictor. */
#include <stdio.h>
#include <stdlib.h>

#include "sprettuhol.h"

#define BLOCKS 3
#define SAMPLES (BLOCKS * SPR_IMA4_BLOCK_SAMPLES)

struct state {
    int16_t predictor;
    uint8_t step_index;
    uint32_t clipped;
};

/* A made-up vowel: every 60 samples a pulse, which rings on and dies away. */
static void speak(int16_t samples[SAMPLES])
{
    int last = 0, before = 0;
    for (int k = 0; k < SAMPLES; k++) {
        int next = (28 * last - 15 * before) / 16 + (k % 60 == 0 ? 2500 : 0);
        before = last;
        last = next;
        samples[k] = (int16_t)next;
    }
}

/* All lengths here fit. */
static void expect_done(uint8_t refusal)
{
    if (refusal != SPR_DONE)
        exit(EXIT_FAILURE);
}

static struct state decode(const uint8_t *bytes, size_t blocks, struct state from, int16_t *samples)
{
    expect_done(spr_decode_ima4(bytes, blocks * SPR_IMA4_BLOCK_BYTES, &from.predictor, &from.step_index,
                                &from.clipped, samples, blocks * SPR_IMA4_BLOCK_SAMPLES));
    return from;
}

int main(void)
{
    const struct state zero = {0, 0, 0};
    struct state end = zero;
    int16_t spoken[SAMPLES], whole[SAMPLES], parts[SAMPLES];
    uint8_t bytes[BLOCKS * SPR_IMA4_BLOCK_BYTES];
    speak(spoken);
    expect_done(spr_encode_ima4(spoken, SAMPLES, &end.predictor, &end.step_index, &end.clipped, bytes,
                                sizeof bytes));
    decode(bytes, BLOCKS, zero, whole);

    for (int carry = 1; carry >= 0; carry--) {
        uint32_t moved, first;
        uint16_t peak;
        struct state cut = decode(bytes, 1, zero, parts);
        decode(bytes + SPR_IMA4_BLOCK_BYTES, BLOCKS - 1, carry ? cut : zero, parts + SPR_IMA4_BLOCK_SAMPLES);
        expect_done(spr_loss(whole, SAMPLES, parts, SAMPLES, &moved, &first, &peak));
        printf("state %s: %u of %d samples moved\n", carry ? "carried" : "zeroed", (unsigned)moved, SAMPLES);
    }
    return 0;
}
