/* Repacks MS blocks, and says of each whether a byte changed, and if so, whether that moves a sample. */
#include <inttypes.h>
#include <stdio.h>

#include "sprettuhol.h"

static int16_t before[SPR_LOSS_MOST_SAMPLES], after[SPR_LOSS_MOST_SAMPLES];
static uint8_t repacked[SPR_MS_MOST_BYTES];

/* Reports the samples of a block and those of what it was repacked to. */
static uint8_t report(uint8_t channels, const uint8_t *block, size_t len)
{
    const size_t samples = SPR_MS_SAMPLES(channels, len);
    uint32_t count, first, clipped[SPR_MS_MOST_CHANNELS];
    uint16_t peak;
    uint8_t refusal = spr_decode_ms(channels, block, len, before, samples, &clipped);
    if (refusal == SPR_DONE)
        refusal = spr_decode_ms(channels, repacked, len, after, samples, &clipped);
    if (refusal == SPR_DONE)
        refusal = spr_loss(before, samples, after, samples, &count, &first, &peak);
    if (refusal != SPR_DONE)
        return refusal;
    if (first == SPR_NOWHERE)
        puts("changed, but no sample moved");
    else
        printf("changed %" PRIu32 " first %" PRIu32 " peak %" PRIu16 "\n", count, first, peak);
    return SPR_DONE;
}

static void repack(uint8_t channels, const uint8_t *block, size_t len)
{
    /* The length that is passed is never more than the buffer has. A block that is longer is refused anyway. */
    const size_t room = len < sizeof repacked ? len : sizeof repacked;
    uint8_t changed = 0;
    uint8_t refusal = spr_repack_ms(channels, block, len, repacked, room, &changed);
    if (refusal == SPR_DONE && changed)
        refusal = report(channels, block, len);
    else if (refusal == SPR_DONE)
        puts("same");
    if (refusal == SPR_REFUSED_CHANNELS)
        puts("refused: a block has one to eight channels");
    else if (refusal == SPR_REFUSED_LENGTHS)
        puts("refused: no block has that length");
    else if (refusal == SPR_REFUSED_STEP_INDEX)
        puts("refused: a header has a step index above 88");
}

int main(void)
{
    const uint8_t clips[] = {0xf6, 0x7f, 0x00, 0x00, 0x07}; /* its nibble 7 passes 32767 */
    const uint8_t marked[] = {0x00, 0x00, 0x00, 0x2a, 0x17}; /* its fourth byte is not 0 */
    const uint8_t broken[] = {0x00, 0x00, 0xc8, 0x00, 0x17}; /* its step index is 200 */
    const uint8_t plain[] = {0x00, 0x00, 0x00, 0x00, 0x17};
    repack(1, clips, sizeof clips);
    repack(1, marked, sizeof marked);
    repack(1, plain, sizeof plain);
    repack(1, broken, sizeof broken);
    repack(2, plain, sizeof plain);
    repack(9, plain, sizeof plain);
    return 0;
}
