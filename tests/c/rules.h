/* What calls.c holds whole blocks to: the rules of their headers, and single nibbles, whose counts it holds to the
 * rule of clipping. An index it holds to single blocks. */

/* The differences that nibbles stand for are made of these. */
static const int steps[89] = {
    7, 8, 9, 10, 11, 12, 13, 14, 16, 17, 19, 21, 23, 25, 28, 31, 34, 37, 41, 45, 50, 55, 60, 66, 73, 80, 88, 97,
    107, 118, 130, 143, 157, 173, 190, 209, 230, 253, 279, 307, 337, 371, 408, 449, 494, 544, 598, 658, 724,
    796, 876, 963, 1060, 1166, 1282, 1411, 1552, 1707, 1878, 2066, 2272, 2499, 2749, 3024, 3327, 3660, 4026,
    4428, 4871, 5358, 5894, 6484, 7132, 7845, 8630, 9493, 10442, 11487, 12635, 13899, 15289, 16818, 18500,
    20350, 22385, 24623, 27086, 29794, 32767,
};

/* The count behind a nibble: one more if the exact sum is outside of a sample's range, up to the last number. */
static uint32_t count_behind(uint8_t nibble, struct state s)
{
    const int step = steps[s.i < 88 ? s.i : 88];
    const int d = step / 8 + (nibble & 4 ? step : 0) + (nibble & 2 ? step / 2 : 0) + (nibble & 1 ? step / 4 : 0);
    const int sum = nibble & 8 ? s.p - d : s.p + d;
    return (sum < -32768 || sum > 32767) && s.c < 4294967295 ? s.c + 1 : s.c;
}

/* One nibble from a state, which moves on. Its count is held to the rule. */
static int16_t decode_one(uint8_t nibble, struct state *s)
{
    const uint32_t count = count_behind(nibble, *s);
    const int16_t sample = spr_decode_adpcm_ima(nibble, &s->p, &s->i, &s->c);
    CHECK(s->c == count);
    return sample;
}

/* One sample, likewise. */
static uint8_t encode_one(int16_t sample, struct state *s)
{
    const struct state before = *s;
    const uint8_t nibble = spr_encode_adpcm_ima(sample, &s->p, &s->i, &s->c);
    CHECK(s->c == count_behind(nibble, before));
    return nibble;
}

/* The samples, against the rule of the header and single nibbles from a state, which moves on. No header has a
 * count. */
static void ima4_decoded(const uint8_t *run, size_t blocks, struct state *s)
{
    for (size_t k = 0; k < 64 * blocks; k++) {
        const uint8_t *block = run + k / 64 * 34;
        const int16_t head = (int16_t)(block[0] << 8 | (block[1] & 128));
        const uint8_t index = (block[1] & 127) < 88 ? block[1] & 127 : 88;
        if (k % 64 == 0 && (s->i != index || abs(s->p - head) > 127))
            s->p = head, s->i = index;
        CHECK(samples[k] == decode_one((uint8_t)(block[2 + k % 64 / 2] >> k % 2 * 4), s));
    }
}

/* The bytes, against the given samples, as single nibbles. */
static void ima4_encoded(size_t blocks, struct state *s)
{
    s->i = s->i < 88 ? s->i : 88;
    for (size_t k = 0; k < 64 * blocks; k++) {
        const uint8_t *block = bytes + k / 64 * 34;
        CHECK(k % 64 > 0 || (block[0] << 8 | block[1]) == (((uint16_t)s->p & 0xff80) | s->i));
        CHECK((block[2 + k % 64 / 2] >> k % 2 * 4 & 15) == encode_one(given_samples[k], s));
    }
}

/* State number k of a record, which has no count, with that one. */
static struct state state_of(const uint8_t *record, size_t k, uint32_t count)
{
    const uint8_t *state = record + 4 + 3 * k;
    return (struct state){(int16_t)(state[0] << 8 | state[1]), state[2], count};
}

/* The bytes, from the state before block `first` on, against single blocks from a state, which moves on. */
static void ima4_indexed(const uint8_t *run, size_t first, size_t blocks, size_t every, struct state *s)
{
    CHECK((size_t)(bytes[0] << 8 | bytes[1]) == 2 + 3 * ((blocks + every - 1) / every));
    CHECK(bytes[2] == 1 && bytes[3] == every);
    for (size_t k = first; k < blocks; k++) {
        int16_t out[64];
        CHECK(k % every > 0 || same(*s, state_of(bytes, k / every, s->c)));
        CHECK(spr_decode_ima4(run + 34 * k, 34, &s->p, &s->i, &s->c, out, 64) == SPR_DONE);
    }
}

/* Nibble k of a channel, counted from 1; the upper bits are others'. */
static uint8_t nibble_of(const uint8_t *block, size_t channels, size_t channel, size_t k)
{
    const size_t byte = (k - 1) / 2;
    return (uint8_t)(block[4 * (channels * (byte / 4 + 1) + channel) + byte % 4] >> (k - 1) % 2 * 4);
}

/* The samples and the counts, against the given bytes. */
static void ms_decoded(size_t channels, size_t m)
{
    for (size_t c = 0; c < channels; c++) {
        const uint8_t *head = given_bytes + 4 * c;
        struct state s = {(int16_t)(head[0] | head[1] << 8), head[2], 0};
        CHECK(samples[c] == s.p);
        for (size_t k = 1; k < m / channels; k++) {
            const uint8_t nibble = nibble_of(given_bytes, channels, c, k);
            CHECK(samples[channels * k + c] == decode_one(nibble, &s));
        }
        CHECK(counts[1 + c] == s.c);
    }
    for (size_t c = channels; c < SPR_MS_MOST_CHANNELS; c++)
        CHECK(counts[1 + c] == 0);
}

/* The bytes and the states, against the given samples, indices and counts. */
static void ms_encoded(size_t channels, size_t m)
{
    for (size_t c = 0; c < channels; c++) {
        const uint8_t *head = bytes + 4 * c;
        struct state s = {given_samples[c], old_indices[1 + c], old_counts[1 + c]};
        CHECK((int16_t)(head[0] | head[1] << 8) == s.p && head[2] == s.i && head[3] == 0);
        for (size_t k = 1; k < m / channels; k++) {
            const uint8_t nibble = nibble_of(bytes, channels, c, k) & 15;
            CHECK(nibble == encode_one(given_samples[channels * k + c], &s));
        }
        CHECK(same(new_state(1 + c), s));
    }
}
