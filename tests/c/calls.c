/* Checks every sentence of include/sprettuhol.h that a program can check. It prints how many checks there
 * were, or the line of the first that fails, with the line of the table's row that it was about. */
#include "checks.h"
#include "rules.h"
#include "seek.h"

static void laws(void)
{
    static const struct {
        int line, sample, mu, of_mu, a, of_a;
    } rows[] = {
        {__LINE__, 0, 0xff, 0, 0xd5, 8},
        {__LINE__, -4, 0x7f, 0, 0x55, -8},
        {__LINE__, 1000, 0xce, 988, 0xfa, 1008},
        {__LINE__, -1000, 0x4e, -988, 0x7a, -1008},
        {__LINE__, 32767, 0x80, 32124, 0xaa, 32256},
        {__LINE__, -32768, 0x00, -32124, 0x2a, -32256},
    };
    FOR_EACH(rows) {
        const int16_t sample = (int16_t)rows[k].sample;
        CHECK(spr_encode_ulaw(sample) == rows[k].mu && spr_decode_ulaw((uint8_t)rows[k].mu) == rows[k].of_mu);
        CHECK(spr_encode_alaw(sample) == rows[k].a && spr_decode_alaw((uint8_t)rows[k].a) == rows[k].of_a);
    }
    for (row = 0; row < 256; row++) {
        CHECK((spr_decode_ulaw((uint8_t)row) == 0) == (row == 0x7f || row == 0xff));
        CHECK(spr_decode_alaw((uint8_t)row) != 0);
    }
    for (row = 32636; row < 32768; row++) {
        CHECK(spr_decode_ulaw(spr_encode_ulaw((int16_t)row)) == 32124);
        CHECK(spr_decode_ulaw(spr_encode_ulaw((int16_t)(-row - 1))) == -32124);
    }
}

static void nibbles(void)
{
    static const struct {
        int line, encode, predictor, index, in, out, next, next_index;
        uint32_t count, next_count;
    } rows[] = {
        {__LINE__, 0, 0, 0, 7, 11, 11, 8, 5, 5},
        {__LINE__, 0, 0, 0, 15, -11, -11, 8, 0, 0},
        {__LINE__, 0, 0, 0, 8, 0, 0, 0, 5, 5},
        {__LINE__, 0, 0, 255, 0, 4095, 4095, 87, 5, 5},
        {__LINE__, 0, 0, 88, 7, 32767, 32767, 88, 0, 1},
        {__LINE__, 0, 0, 88, 15, -32768, -32768, 88, 5, 6},
        {__LINE__, 0, 32756, 0, 7, 32767, 32767, 8, 5, 5},
        {__LINE__, 0, 32757, 0, 7, 32767, 32767, 8, 5, 6},
        {__LINE__, 0, -32757, 0, 15, -32768, -32768, 8, 5, 5},
        {__LINE__, 0, -32758, 0, 15, -32768, -32768, 8, 5, 6},
        {__LINE__, 0, 32757, 0, 7, 32767, 32767, 8, 4294967293, 4294967294},
        {__LINE__, 0, 32757, 0, 7, 32767, 32767, 8, 4294967294, 4294967295},
        {__LINE__, 0, 32757, 0, 7, 32767, 32767, 8, 4294967295, 4294967295},
        {__LINE__, 0, 32756, 0, 7, 32767, 32767, 8, 4294967294, 4294967294},
        {__LINE__, 0, 32756, 0, 7, 32767, 32767, 8, 4294967295, 4294967295},
        {__LINE__, 1, 0, 0, 0, 0, 0, 0, 5, 5},
        {__LINE__, 1, 0, 0, -1, 9, -1, 0, 0, 0},
        {__LINE__, 1, 0, 0, 32767, 7, 11, 8, 5, 5},
        {__LINE__, 1, 32758, 0, 32767, 5, 32766, 4, 5, 5},
        {__LINE__, 1, 32766, 0, 32767, 1, 32767, 0, 5, 5},
        {__LINE__, 1, -32767, 0, -32768, 9, -32768, 0, 5, 5},
        {__LINE__, 1, 0, 88, 32767, 4, 32767, 88, 0, 1},
        {__LINE__, 1, 0, 88, -32768, 12, -32768, 88, 5, 6},
        {__LINE__, 1, 32767, 88, 32767, 0, 32767, 87, 4294967294, 4294967295},
        {__LINE__, 1, 32767, 88, 32767, 0, 32767, 87, 4294967295, 4294967295},
    };
    FOR_EACH(rows) {
        int16_t *p = predictors + 1;
        uint8_t *i = indices + 1;
        uint32_t *c = counts + 1;
        fill();
        *p = (int16_t)rows[k].predictor, *i = (uint8_t)rows[k].index, *c = rows[k].count;
        CHECK(rows[k].out == (rows[k].encode ? spr_encode_adpcm_ima((int16_t)rows[k].in, p, i, c)
                                             : spr_decode_adpcm_ima((uint8_t)rows[k].in, p, i, c)));
        CHECK(*p == rows[k].next && *i == rows[k].next_index && *c == rows[k].next_count && stay_but(1));
    }
}

static int same_but_count(struct state s, struct state t)
{
    return s.p == t.p && s.i == t.i;
}

/* All bytes at all indices: of these only the low four bits count, and of those only what is up to 88. The counts
 * are 0 and the last two, and none of them changes anything else. */
static void all_nibbles(void)
{
    for (row = 0; row < 256 * 256; row++) {
        const int16_t from = given_samples[row], x = given_samples[row + 1];
        const uint8_t byte = (uint8_t)(row % 256), raw = (uint8_t)(row / 256), low = raw < 88 ? raw : 88;
        const struct state given = {from, raw, 0u - (uint32_t)row % 3}, lowered = {from, low, 5};
        struct state s = given, t = lowered, u = given;
        const int16_t out = decode_one(byte, &s);
        CHECK(out == s.p && s.i <= 88);
        CHECK(out == decode_one(byte & 15, &t) && same_but_count(s, t));
        s = given, t = lowered;
        const uint8_t nibble = encode_one(x, &s);
        CHECK(nibble <= 15 && nibble == encode_one(x, &t) && same_but_count(s, t));
        CHECK(decode_one(nibble, &u) == s.p && same(s, u));
    }
}

static void ima4_lengths(void)
{
    const size_t n = SPR_IMA4_BLOCK_BYTES, m = SPR_IMA4_BLOCK_SAMPLES, most = SPR_IMA4_MOST_BLOCKS;
    const struct {
        int line, number;
        size_t n, m;
    } rows[] = {
        {__LINE__, SPR_DONE, 0, 0},
        {__LINE__, SPR_DONE, n, m},
        {__LINE__, SPR_DONE, n * most, m * most},
        {__LINE__, SPR_REFUSED_BLOCKS, n * (most + 1), m * (most + 1)},
        {__LINE__, SPR_REFUSED_BLOCKS, n - 1, m},
        {__LINE__, SPR_REFUSED_BLOCKS, n + 1, m},
        {__LINE__, SPR_REFUSED_BLOCKS, n, m - 1},
        {__LINE__, SPR_REFUSED_BLOCKS, n, m + 1},
        {__LINE__, SPR_REFUSED_BLOCKS, n, 0},
        {__LINE__, SPR_REFUSED_BLOCKS, 0, m},
        {__LINE__, SPR_REFUSED_BLOCKS, 2 * n, m},
    };
    FOR_EACH(rows) {
        const int taken = rows[k].number == SPR_DONE, moves = taken && rows[k].n > 0;
        int16_t *p = predictors + 1;
        uint8_t *i = indices + 1;
        uint32_t *c = counts + 1;
        fill();
        CHECK(spr_decode_ima4(given_bytes, rows[k].n, p, i, c, samples, rows[k].m) == rows[k].number);
        CHECK(kept(0, taken ? rows[k].m : 0) && stay_but(1) && stay_but(0) == !moves);
        fill();
        CHECK(spr_encode_ima4(given_samples, rows[k].m, p, i, c, bytes, rows[k].n) == rows[k].number);
        CHECK(kept(taken ? rows[k].n : 0, 0) && stay_but(1) && stay_but(0) == !moves);
    }
}

/* The first sample of a block whose bytes, but for the second of the header, are 0. The count is kept, whether the
 * rest of the state is or not. */
static void ima4_headers(void)
{
    static const struct {
        int line, header, predictor, index, first;
    } rows[] = {
        {__LINE__, 0, 100, 0, 100},      {__LINE__, 0, 127, 0, 127},      {__LINE__, 0, 128, 0, 0},
        {__LINE__, 0, -127, 0, -127},    {__LINE__, 0, -128, 0, 0},       {__LINE__, 88, 100, 88, 4195},
        {__LINE__, 88, 100, 200, 4095},  {__LINE__, 127, 100, 88, 4195},  {__LINE__, 127, 100, 127, 4095},
    };
    FOR_EACH(rows) {
        const uint8_t block[34] = {0, (uint8_t)rows[k].header};
        struct state s = {(int16_t)rows[k].predictor, (uint8_t)rows[k].index, 9}, t = s;
        CHECK(spr_decode_ima4(block, 34, &s.p, &s.i, &s.c, samples, 64) == SPR_DONE);
        CHECK(samples[0] == rows[k].first);
        ima4_decoded(block, 1, &t);
        CHECK(same(s, t) && (rows[k].header > 0 || (samples[63] == rows[k].first && s.c == 9)));
        by_record(block, rows[k].predictor, rows[k].index, rows[k].first);
    }
}

/* A block up and one down, from the ends of the range, so that the second one's header is taken: every step is
 * clipped. So is every step of an encoder that is held at the end. */
static void ima4_counts(void)
{
    static const struct {
        int line;
        uint32_t count, one, two;
    } rows[] = {
        {__LINE__, 0, 64, 128},
        {__LINE__, 5, 69, 133},
        {__LINE__, 4294967167, 4294967231, 4294967295},
        {__LINE__, 4294967168, 4294967232, 4294967295},
        {__LINE__, 4294967232, 4294967295, 4294967295},
        {__LINE__, 4294967295, 4294967295, 4294967295},
    };
    uint8_t run[68] = {0x7f, 0x80 | 88}, block[34];
    int16_t held[64];
    memset(run + 2, 0x77, 32), memset(run + 36, 0xff, 32), run[34] = 0x80, run[35] = 88;
    for (size_t k = 0; k < 64; k++)
        held[k] = 32767;
    FOR_EACH(rows) {
        struct state s = {0, 0, rows[k].count}, t = s, u = {0, 88, rows[k].count};
        CHECK(spr_decode_ima4(run, 34, &s.p, &s.i, &s.c, samples, 64) == SPR_DONE && s.c == rows[k].one);
        CHECK(spr_decode_ima4(run, 68, &t.p, &t.i, &t.c, samples, 128) == SPR_DONE && t.c == rows[k].two);
        CHECK(spr_encode_ima4(held, 64, &u.p, &u.i, &u.c, block, 34) == SPR_DONE && u.c == rows[k].one);
        index_clips(run, rows[k].count, rows[k].two);
    }
}

/* 9 blocks that were encoded, whole and cut. */
static void ima4_encodes(struct state start)
{
    struct state s = start, t = start;
    CHECK(spr_encode_ima4(given_samples, 64 * 9, &s.p, &s.i, &s.c, bytes, 34 * 9) == SPR_DONE);
    ima4_encoded(9, &t);
    CHECK(same(s, t));
    s = start;
    CHECK(spr_encode_ima4(given_samples, 64 * 4, &s.p, &s.i, &s.c, bytes + 34 * 9, 34 * 4) == SPR_DONE);
    CHECK(spr_encode_ima4(given_samples + 64 * 4, 64 * 5, &s.p, &s.i, &s.c, bytes + 34 * 13, 34 * 5) == SPR_DONE);
    CHECK(memcmp(bytes, bytes + 34 * 9, 34 * 9) == 0 && same(s, t));
}

/* These, and 9 of noise, whole and cut. */
static void ima4_decodes(struct state start)
{
    struct state s = start, t = start;
    memcpy(bytes + 34 * 9, given_bytes, 34 * 9);
    CHECK(spr_decode_ima4(bytes, 34 * 18, &s.p, &s.i, &s.c, samples, 64 * 18) == SPR_DONE);
    ima4_decoded(bytes, 18, &t);
    CHECK(same(s, t));
    s = start;
    CHECK(spr_decode_ima4(bytes, 34 * 5, &s.p, &s.i, &s.c, samples + 64 * 18, 64 * 5) == SPR_DONE);
    CHECK(spr_decode_ima4(bytes + 34 * 5, 34 * 13, &s.p, &s.i, &s.c, samples + 64 * 23, 64 * 13) == SPR_DONE);
    CHECK(memcmp(samples, samples + 64 * 18, 64 * 18 * sizeof *samples) == 0 && same(s, t));
}

/* Every second count is so high that it stops within the run. */
static void ima4_runs(void)
{
    for (row = 0; row < 256; row++) {
        const struct state start = {77, (uint8_t)row, row % 2 ? UINT32_MAX - (uint32_t)row / 8 : (uint32_t)row};
        ima4_encodes(start);
        ima4_decodes(start);
    }
}

/* Strict reading: what it makes of the number that channels and lengths give. */
static int strictly(uint8_t channels, const uint8_t *block, int number)
{
    for (size_t c = 0; number == SPR_DONE && c < channels; c++)
        if (block[4 * c + 2] > 88)
            number = SPR_REFUSED_STEP_INDEX;
    return number;
}

typedef uint8_t decoder(uint8_t, const uint8_t *, size_t, int16_t *, size_t, uint32_t (*)[SPR_MS_MOST_CHANNELS]);

static void ms_decode(decoder *decode, uint8_t channels, size_t n, size_t m, int number)
{
    const int taken = number == SPR_DONE;
    fill();
    CHECK(decode(channels, given_bytes, n, samples, m, all_counts) == number);
    CHECK(kept(0, taken ? m : 0) && stay_but(taken ? SPR_MS_MOST_CHANNELS : 0));
    if (taken)
        ms_decoded(channels, m);
}

/* Both readings, and the encoder, on given bytes and samples, of lengths that may fit. */
static void ms_call(uint8_t channels, size_t n, size_t m, int number)
{
    const int taken = number == SPR_DONE;
    ms_decode(spr_decode_ms_lenient, channels, n, m, number);
    ms_decode(spr_decode_ms, channels, n, m, strictly(channels, given_bytes, number));
    fill();
    CHECK(spr_encode_ms(channels, given_samples, m, all_predictors, all_indices, all_counts, bytes, n) == number);
    CHECK(kept(taken ? n : 0, 0) && stay_but(taken ? channels : 0));
    if (taken)
        ms_encoded(channels, m);
}

static void ms_lengths(void)
{
    static const struct {
        int line, number, channels;
        size_t n, m;
    } rows[] = {
        {__LINE__, SPR_REFUSED_LENGTHS, 1, 0, 0},        {__LINE__, SPR_REFUSED_LENGTHS, 1, 3, 0},
        {__LINE__, SPR_DONE, 1, 4, 1},                   {__LINE__, SPR_REFUSED_LENGTHS, 1, 4, 0},
        {__LINE__, SPR_REFUSED_LENGTHS, 1, 4, 2},        {__LINE__, SPR_DONE, 1, 5, 3},
        {__LINE__, SPR_DONE, 1, 65535, 131063},          {__LINE__, SPR_REFUSED_LENGTHS, 1, 65536, 131065},
        {__LINE__, SPR_REFUSED_LENGTHS, 2, 0, 0},        {__LINE__, SPR_REFUSED_LENGTHS, 2, 4, 0},
        {__LINE__, SPR_DONE, 2, 8, 2},                   {__LINE__, SPR_REFUSED_LENGTHS, 2, 8, 1},
        {__LINE__, SPR_REFUSED_LENGTHS, 2, 12, 10},      {__LINE__, SPR_DONE, 2, 16, 18},
        {__LINE__, SPR_DONE, 2, 65528, 131042},          {__LINE__, SPR_REFUSED_LENGTHS, 2, 65536, 131058},
        {__LINE__, SPR_DONE, 3, 12, 3},                  {__LINE__, SPR_REFUSED_LENGTHS, 3, 16, 11},
        {__LINE__, SPR_DONE, 3, 24, 27},                 {__LINE__, SPR_DONE, 3, 65532, 131043},
        {__LINE__, SPR_DONE, 8, 32, 8},                  {__LINE__, SPR_REFUSED_LENGTHS, 8, 32, 9},
        {__LINE__, SPR_REFUSED_LENGTHS, 8, 48, 40},      {__LINE__, SPR_DONE, 8, 64, 72},
        {__LINE__, SPR_DONE, 8, 65504, 130952},          {__LINE__, SPR_REFUSED_LENGTHS, 8, 65536, 131016},
        {__LINE__, SPR_REFUSED_CHANNELS, 0, 4, 1},       {__LINE__, SPR_REFUSED_CHANNELS, 9, 36, 9},
        {__LINE__, SPR_REFUSED_CHANNELS, 255, 1020, 255}, {__LINE__, SPR_REFUSED_CHANNELS, 9, 3, 3},
    };
    FOR_EACH(rows)
        ms_call((uint8_t)rows[k].channels, rows[k].n, rows[k].m, rows[k].number);
    static const int16_t two[SPR_MS_SAMPLES(2 & 3, 16 | 0)] = {0}, one[SPR_MS_SAMPLES(1 & 3, 4 | 1)] = {0};
    CHECK(sizeof two == 18 * sizeof *two && sizeof one == 3 * sizeof *one);
    CHECK(SPR_MS_SAMPLES(0, 4) == 0 && SPR_MS_SAMPLES(-1, 4) == 0 && SPR_MS_SAMPLES(9, 36) == 0);
    CHECK(SPR_MS_MOST_CHANNELS == 8 && SPR_MS_MOST_BYTES == 65535);
    CHECK(SPR_LOSS_MOST_SAMPLES == SPR_MS_SAMPLES(1, SPR_MS_MOST_BYTES));
}

typedef uint8_t repacker(uint8_t, const uint8_t *, size_t, uint8_t *, size_t, uint8_t *);

/* Repacking is decoding and encoding, from the header's indices, lowered; a second time changes nothing. */
static void ms_repack(repacker *repack, uint8_t channels, const uint8_t *block, size_t n, size_t n2, int number)
{
    uint8_t changed[3] = {FILL, FILL, FILL}, *twice = bytes + n, *again = bytes + 2 * n;
    fill();
    CHECK(repack(channels, block, n, bytes, n2, changed + 1) == number);
    CHECK(kept(number == SPR_DONE ? n : 0, 0) && changed[0] == FILL && changed[2] == FILL);
    if (number != SPR_DONE) {
        CHECK(changed[1] == FILL);
        return;
    }
    CHECK(changed[1] == (memcmp(block, bytes, n) != 0));
    if (3 * n > MOST_BYTES) /* no room for the other two */
        return;
    for (size_t c = 0; c < channels; c++)
        indices[1 + c] = block[4 * c + 2] < 88 ? block[4 * c + 2] : 88;
    const size_t m = SPR_MS_SAMPLES(channels, n);
    CHECK(spr_decode_ms_lenient(channels, block, n, samples, m, all_counts) == SPR_DONE);
    CHECK(spr_encode_ms(channels, samples, m, all_predictors, all_indices, all_counts, again, n) == SPR_DONE);
    CHECK(memcmp(bytes, again, n) == 0);
    CHECK(repack(channels, bytes, n, twice, n, changed + 1) == SPR_DONE);
    CHECK(changed[1] == 0 && memcmp(bytes, twice, n) == 0);
}

/* Both readings; the lenient one is the last, so that its bytes can be looked at. */
static void repack_call(uint8_t channels, const uint8_t *block, size_t n, size_t n2, int number)
{
    ms_repack(spr_repack_ms, channels, block, n, n2, strictly(channels, block, number));
    ms_repack(spr_repack_ms_lenient, channels, block, n, n2, number);
}

static void repacks(void)
{
    static const struct {
        int line;
        uint8_t in[5], out[5];
    } rows[] = {
        {__LINE__, {0, 0, 0, 0, 0x17}, {0, 0, 0, 0, 0x17}},
        {__LINE__, {0xf6, 0x7f, 0, 0, 7}, {0xf6, 0x7f, 0, 0, 5}},
        {__LINE__, {0, 0, 200, 0, 0}, {0, 0, 88, 0, 0}},
        {__LINE__, {0, 0, 0, 42, 0x17}, {0, 0, 0, 0, 0x17}},
    };
    FOR_EACH(rows) {
        repack_call(1, rows[k].in, 5, 5, SPR_DONE);
        CHECK(memcmp(bytes, rows[k].out, 5) == 0);
    }
}

/* What SPR_MS_SAMPLES counts the calls take, and where it is 0 they refuse: to 300 bytes, and about the most. */
static void ms_count(uint8_t channels)
{
    const int refusal = channels >= 1 && channels <= 8 ? SPR_REFUSED_LENGTHS : SPR_REFUSED_CHANNELS;
    for (row = 0; row < 65540; row += row == 300 ? 65200 : 1) {
        const size_t n = (size_t)row, m = SPR_MS_SAMPLES(channels, n);
        const int number = m > 0 ? SPR_DONE : refusal;
        ms_call(channels, n, m, number);
        repack_call(channels, given_bytes, n, n, number);
        repack_call(channels, given_bytes, n, n + 1, refusal);
    }
}

/* Every index in the place of one header's, beside the highest that is taken. Where that channel is not used, its
 * place is data. */
static void ms_index(uint8_t channels, size_t channel)
{
    const size_t n = 32 * (size_t)channels;
    for (row = 0; row < 256; row++) {
        given_bytes[4 * channel + 2] = (uint8_t)row;
        ms_call(channels, n, SPR_MS_SAMPLES(channels, n), SPR_DONE);
        repack_call(channels, given_bytes, n, n, SPR_DONE);
    }
    given_bytes[4 * channel + 2] = 88;
}

static void set_indices(uint8_t index)
{
    for (size_t c = 0; c < SPR_MS_MOST_CHANNELS; c++)
        given_bytes[4 * c + 2] = index;
}

/* The first channel, the last one, and one that is not used. Then all lengths, with indices of 88 and of 200. */
static void ms_indices(void)
{
    static const uint8_t numbers[] = {0, 1, 2, 3, 4, 5, 6, 7, 8, 9, 255};
    uint8_t headers[4 * SPR_MS_MOST_CHANNELS];
    memcpy(headers, given_bytes, sizeof headers);
    set_indices(88);
    for (uint8_t channels = 1; channels <= SPR_MS_MOST_CHANNELS; channels++) {
        ms_index(channels, 0);
        ms_index(channels, channels - 1u);
        if (channels < SPR_MS_MOST_CHANNELS)
            ms_index(channels, channels);
    }
    for (size_t k = 0; k < 2 * sizeof numbers; k++) {
        set_indices(k % 2 ? 200 : 88);
        ms_count(numbers[k / 2]);
    }
    memcpy(given_bytes, headers, sizeof headers);
}

/* The three numbers stand between guards, and are the filled ones after a refusal. */
static void loss_call(const int16_t *one, size_t n, const int16_t *other, size_t n2, const uint32_t expected[4])
{
    uint32_t count[3], first[3];
    uint16_t peak[3];
    memset(count, FILL, sizeof count), memset(first, FILL, sizeof first), memset(peak, FILL, sizeof peak);
    const uint32_t wide = count[0];
    const uint16_t narrow = peak[0];
    const int taken = expected[0] == SPR_DONE;
    CHECK(spr_loss(one, n, other, n2, count + 1, first + 1, peak + 1) == expected[0]);
    CHECK(count[0] == wide && count[1] == (taken ? expected[1] : wide) && count[2] == wide);
    CHECK(first[0] == wide && first[1] == (taken ? expected[2] : wide) && first[2] == wide);
    CHECK(peak[0] == narrow && peak[1] == (taken ? expected[3] : narrow) && peak[2] == narrow);
}

static void losses(void)
{
    static const uint32_t same[4] = {SPR_DONE, 0, SPR_NOWHERE, 0}, refused[4] = {SPR_REFUSED_LENGTHS};
    static const struct {
        int line;
        int16_t before[3], after[3];
        uint32_t expected[4];
    } rows[] = {
        {__LINE__, {1, 2, 3}, {1, 2, 3}, {SPR_DONE, 0, SPR_NOWHERE, 0}},
        {__LINE__, {1, 2, 3}, {1, 5, 1}, {SPR_DONE, 2, 1, 3}},
        {__LINE__, {9, 2, 3}, {1, 2, 3}, {SPR_DONE, 1, 0, 8}},
        {__LINE__, {0, 0, 32767}, {0, 0, 0}, {SPR_DONE, 1, 2, 32767}},
        {__LINE__, {0, 0, -32768}, {0, 0, 0}, {SPR_DONE, 1, 2, 32768}},
        {__LINE__, {-32767, 0, 0}, {32767, 0, 1}, {SPR_DONE, 2, 0, 65534}},
        {__LINE__, {-32768, 0, 1}, {32767, 1, 0}, {SPR_DONE, 3, 0, 65535}},
    };
    FOR_EACH(rows) {
        loss_call(rows[k].before, 3, rows[k].after, 3, rows[k].expected);
        loss_call(rows[k].after, 3, rows[k].before, 3, rows[k].expected);
        loss_call(rows[k].before, 3, rows[k].after, 2, refused);
        loss_call(rows[k].before, 0, rows[k].after, 0, same);
    }
    const size_t most = SPR_LOSS_MOST_SAMPLES;
    const uint32_t last[4] = {SPR_DONE, 1, (uint32_t)most - 1, 1};
    memcpy(samples, given_samples, sizeof given_samples);
    samples[most - 1] ^= 1;
    loss_call(given_samples, most, samples, most, last);
    loss_call(given_samples, most, given_samples, most, same);
    loss_call(given_samples, most + 1, given_samples, most + 1, refused);
    loss_call(given_samples, most + 1, given_samples, most, refused);
}

/* The calls that read have left what they read alone. */
int main(void)
{
    static uint8_t first_bytes[MOST_BYTES];
    static int16_t first_samples[MOST_SAMPLES];
    noise(given_bytes, sizeof given_bytes);
    noise(given_samples, sizeof given_samples);
    memcpy(first_bytes, given_bytes, sizeof given_bytes);
    memcpy(first_samples, given_samples, sizeof given_samples);
    CHECK(spr_version() == SPR_VERSION);
    laws();
    nibbles();
    all_nibbles();
    ima4_lengths();
    ima4_headers();
    ima4_counts();
    ima4_runs();
    index_lengths();
    index_counts();
    index_records();
    seek_heads();
    seek_lengths();
    seek_places();
    seek_states();
    seek_runs();
    seek_cuts();
    ms_lengths();
    repacks();
    ms_indices();
    losses();
    CHECK(memcmp(first_bytes, given_bytes, sizeof given_bytes) == 0);
    CHECK(memcmp(first_samples, given_samples, sizeof given_samples) == 0);
    printf("calls: %lu checks\n", checks);
    return 0;
}
