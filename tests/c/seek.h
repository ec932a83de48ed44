/* What calls.c checks of the index of a run: the record, decoding from a block on, and the record made again. */

/* The index of a given run, written to the bytes. */
static void index_call(size_t n, uint8_t every, size_t m, int number)
{
    const int taken = number == SPR_DONE;
    struct state s = old_state(1);
    fill();
    CHECK(spr_ima4_index(given_bytes, n, every, predictors + 1, indices + 1, counts + 1, bytes, m) == number);
    CHECK(kept(taken ? m : 0, 0) && stay_but(taken ? 1 : 0));
    if (!taken)
        return;
    ima4_indexed(given_bytes, 0, n / 34, every, &s);
    CHECK(same(new_state(1), s));
}

static void index_lengths(void)
{
    static const struct {
        int line, number, every;
        size_t n, m;
    } rows[] = {
        {__LINE__, SPR_DONE, 1, 0, 4},                   {__LINE__, SPR_DONE, 64, 0, 4},
        {__LINE__, SPR_DONE, 1, 34, 7},                  {__LINE__, SPR_DONE, 64, 34, 7},
        {__LINE__, SPR_DONE, 64, 34 * 64, 7},            {__LINE__, SPR_DONE, 64, 34 * 65, 10},
        {__LINE__, SPR_DONE, 1, 34 * 1024, 3076},        {__LINE__, SPR_DONE, 63, 34 * 1024, 55},
        {__LINE__, SPR_REFUSED_BLOCKS, 1, 33, 7},        {__LINE__, SPR_REFUSED_BLOCKS, 1, 35, 7},
        {__LINE__, SPR_REFUSED_BLOCKS, 1, 1, 4},         {__LINE__, SPR_REFUSED_BLOCKS, 1, 34 * 1025, 3079},
        {__LINE__, SPR_REFUSED_BLOCKS, 0, 33, 7},        {__LINE__, SPR_REFUSED_BLOCKS, 1, 33, 0},
        {__LINE__, SPR_REFUSED_INDEX, 0, 34, 7},         {__LINE__, SPR_REFUSED_INDEX, 65, 34, 7},
        {__LINE__, SPR_REFUSED_INDEX, 255, 34, 7},       {__LINE__, SPR_REFUSED_INDEX, 0, 0, 4},
        {__LINE__, SPR_REFUSED_INDEX, 1, 34, 6},         {__LINE__, SPR_REFUSED_INDEX, 1, 34, 8},
        {__LINE__, SPR_REFUSED_INDEX, 1, 34, 4},         {__LINE__, SPR_REFUSED_INDEX, 1, 34, 0},
        {__LINE__, SPR_REFUSED_INDEX, 1, 0, 3},          {__LINE__, SPR_REFUSED_INDEX, 1, 0, 7},
        {__LINE__, SPR_REFUSED_INDEX, 64, 34 * 64, 10},  {__LINE__, SPR_REFUSED_INDEX, 64, 34 * 65, 7},
    };
    FOR_EACH(rows)
        index_call(rows[k].n, (uint8_t)rows[k].every, rows[k].m, rows[k].number);
    static const uint8_t none[SPR_IMA4_INDEX_BYTES(0, 64)] = {0}, five[SPR_IMA4_INDEX_BYTES(4 | 1, 2 & 3)] = {0};
    CHECK(sizeof none == 4 && sizeof five == 13 && SPR_IMA4_INDEX_BYTES(SPR_IMA4_MOST_BLOCKS, 1) == 3076);
    CHECK(SPR_IMA4_INDEX_BYTES(SPR_IMA4_MOST_BLOCKS + 1, 1) == 0);
    CHECK(SPR_IMA4_INDEX_BYTES(1, 0) == 0 && SPR_IMA4_INDEX_BYTES(1, 65) == 0);
}

/* What SPR_IMA4_INDEX_BYTES counts the call takes, and where it is 0 it refuses: to 130 blocks, and about the
 * most. */
static void index_counts(void)
{
    static const uint8_t numbers[] = {0, 1, 2, 3, 32, 63, 64, 65, 255};
    for (size_t k = 0; k < sizeof numbers; k++)
        for (row = 0; row < 1030; row += row == 130 ? 890 : 1) {
            const uint8_t every = numbers[k];
            const size_t blocks = (size_t)row, m = SPR_IMA4_INDEX_BYTES(blocks, every);
            const int refusal = blocks > SPR_IMA4_MOST_BLOCKS ? SPR_REFUSED_BLOCKS : SPR_REFUSED_INDEX;
            index_call(34 * blocks, every, m, m > 0 ? SPR_DONE : refusal);
            index_call(34 * blocks, every, m + 3, refusal);
        }
}

/* Of blocks of 0. The first state is the one that is given, which the decoder keeps, or takes the headers'. */
static void index_records(void)
{
    static const struct {
        int line, predictor, index, every;
        size_t blocks, m;
        uint8_t record[13];
    } rows[] = {
        {__LINE__, 300, 200, 1, 0, 4, {0, 2, 1, 1}},
        {__LINE__, 300, 200, 64, 0, 4, {0, 2, 1, 64}},
        {__LINE__, 300, 200, 1, 2, 10, {0, 8, 1, 1, 1, 44, 200, 0, 0, 0}},
        {__LINE__, -2, 0, 1, 3, 13, {0, 11, 1, 1, 255, 254, 0, 255, 254, 0, 255, 254, 0}},
        {__LINE__, -2, 0, 2, 3, 10, {0, 8, 1, 2, 255, 254, 0, 255, 254, 0}},
        {__LINE__, -2, 89, 3, 3, 7, {0, 5, 1, 3, 255, 254, 89}},
    };
    static const uint8_t run[34 * 3] = {0};
    FOR_EACH(rows) {
        const size_t n = 34 * rows[k].blocks, m = 64 * rows[k].blocks;
        const uint8_t every = (uint8_t)rows[k].every;
        struct state s = {(int16_t)rows[k].predictor, (uint8_t)rows[k].index, 9}, t = s;
        fill();
        CHECK(spr_ima4_index(run, n, every, &s.p, &s.i, &s.c, bytes, rows[k].m) == SPR_DONE);
        CHECK(kept(rows[k].m, 0) && memcmp(bytes, rows[k].record, rows[k].m) == 0);
        CHECK(spr_decode_ima4(run, n, &t.p, &t.i, &t.c, samples, m) == SPR_DONE && same(s, t) && s.c == 9);
    }
}

/* A given run from a block on. The states of the record are believed, and none of it is written. The count is that
 * of the blocks from there on. */
static void from_call(const uint8_t *record, size_t len, size_t n, size_t from, size_t m, int number)
{
    const int taken = number == SPR_DONE;
    int16_t *p = predictors + 1, out[64];
    uint8_t *i = indices + 1;
    fill();
    memcpy(bytes, record, len);
    CHECK(spr_decode_ima4_from(given_bytes, n, bytes, len, from, p, i, counts + 1, samples, m) == number);
    CHECK(kept(len, taken ? m : 0) && memcmp(bytes, record, len) == 0 && stay_but(taken ? 1 : 0));
    if (!taken)
        return;
    const size_t every = record[3];
    struct state s = state_of(record, from / every, 0);
    for (size_t k = from / every * every; k < from; k++)
        CHECK(spr_decode_ima4(given_bytes + 34 * k, 34, &s.p, &s.i, &s.c, out, 64) == SPR_DONE);
    s.c = 0;
    ima4_decoded(given_bytes + 34 * from, n / 34 - from, &s);
    CHECK(same(new_state(1), s));
}

/* The record of a given run again. The states behind the block are written, and nothing else. */
static void reindex_call(const uint8_t *record, size_t len, size_t n, size_t from, int number)
{
    const size_t every = record[3];
    fill();
    memcpy(bytes, record, len);
    CHECK(spr_ima4_reindex(given_bytes, n, from, bytes, len) == number);
    if (number != SPR_DONE) {
        CHECK(kept(len, 0) && memcmp(bytes, record, len) == 0);
        return;
    }
    CHECK(kept(len, 0) && memcmp(bytes, record, 4 + 3 * (from / every + 1)) == 0);
    struct state s = state_of(record, from / every, 0);
    ima4_indexed(given_bytes, from / every * every, n / 34, every, &s);
}

/* A record with that head, whose states are noise. */
static const uint8_t *record_of(const uint8_t head[4])
{
    static uint8_t record[SPR_IMA4_INDEX_BYTES(SPR_IMA4_MOST_BLOCKS, 1) + 3];
    noise(record, sizeof record);
    return memcpy(record, head, 4);
}

static void seek_call(const uint8_t head[4], size_t len, size_t n, size_t from, size_t m, int number)
{
    from_call(record_of(head), len, n, from, m, number);
    reindex_call(record_of(head), len, n, from, number);
}

/* Block 4 of 5, by records that fit them or do not. */
static void seek_heads(void)
{
    static const struct {
        int line, number;
        uint8_t head[4];
        size_t len;
    } rows[] = {
        {__LINE__, SPR_DONE, {0, 11, 1, 2}, 13},          {__LINE__, SPR_DONE, {0, 17, 1, 1}, 19},
        {__LINE__, SPR_DONE, {0, 8, 1, 4}, 10},           {__LINE__, SPR_DONE, {0, 5, 1, 64}, 7},
        {__LINE__, SPR_REFUSED_INDEX, {0, 11, 1, 2}, 0},  {__LINE__, SPR_REFUSED_INDEX, {0, 11, 1, 2}, 3},
        {__LINE__, SPR_REFUSED_INDEX, {0, 11, 1, 2}, 4},  {__LINE__, SPR_REFUSED_INDEX, {0, 11, 1, 2}, 12},
        {__LINE__, SPR_REFUSED_INDEX, {0, 11, 1, 2}, 14}, {__LINE__, SPR_REFUSED_INDEX, {0, 8, 1, 2}, 10},
        {__LINE__, SPR_REFUSED_INDEX, {0, 11, 0, 2}, 13}, {__LINE__, SPR_REFUSED_INDEX, {0, 11, 2, 2}, 13},
        {__LINE__, SPR_REFUSED_INDEX, {0, 11, 1, 1}, 13}, {__LINE__, SPR_REFUSED_INDEX, {0, 11, 1, 3}, 13},
        {__LINE__, SPR_REFUSED_INDEX, {0, 5, 1, 0}, 7},   {__LINE__, SPR_REFUSED_INDEX, {0, 2, 1, 0}, 4},
        {__LINE__, SPR_REFUSED_INDEX, {0, 5, 1, 65}, 7},  {__LINE__, SPR_REFUSED_INDEX, {0, 5, 1, 255}, 7},
        {__LINE__, SPR_REFUSED_INDEX, {0, 10, 1, 2}, 13}, {__LINE__, SPR_REFUSED_INDEX, {0, 13, 1, 2}, 13},
        {__LINE__, SPR_REFUSED_INDEX, {1, 11, 1, 2}, 13}, {__LINE__, SPR_REFUSED_INDEX, {11, 0, 1, 2}, 13},
    };
    FOR_EACH(rows) {
        const int number = rows[k].number, of_samples = number == SPR_DONE ? SPR_REFUSED_BLOCKS : number;
        seek_call(rows[k].head, rows[k].len, 34 * 5, 4, 64, number);
        seek_call(rows[k].head, rows[k].len, 34 * 5 + 1, 4, 64, SPR_REFUSED_BLOCKS);
        from_call(record_of(rows[k].head), rows[k].len, 34 * 5, 4, 65, of_samples);
    }
}

/* The record of 5 blocks, or of the most, by runs and blocks that fit it or do not. */
static void seek_lengths(void)
{
    static const uint8_t none[4] = {0, 2, 1, 1}, five[4] = {0, 11, 1, 2};
    static const uint8_t most[4] = {12, 2, 1, 1}, more[4] = {12, 5, 1, 1};
    static const struct {
        int line, number;
        size_t n, from, m;
    } rows[] = {
        {__LINE__, SPR_DONE, 34 * 5, 0, 320},               {__LINE__, SPR_DONE, 34 * 5, 4, 64},
        {__LINE__, SPR_DONE, 34 * 6, 4, 128},               {__LINE__, SPR_REFUSED_BLOCKS, 34 * 5 - 1, 4, 64},
        {__LINE__, SPR_REFUSED_BLOCKS, 34 * 5 + 1, 4, 64},  {__LINE__, SPR_REFUSED_BLOCKS, 34 * 5 + 1, 5, 0},
        {__LINE__, SPR_REFUSED_INDEX, 34 * 4, 3, 64},       {__LINE__, SPR_REFUSED_INDEX, 34 * 7, 3, 256},
        {__LINE__, SPR_REFUSED_INDEX, 34 * 5, 5, 0},        {__LINE__, SPR_REFUSED_INDEX, 34 * 5, 6, 64},
        {__LINE__, SPR_REFUSED_INDEX, 34 * 5, 5, 64},       {__LINE__, SPR_REFUSED_INDEX, 34 * 5, SIZE_MAX, 384},
    };
    FOR_EACH(rows)
        seek_call(five, 13, rows[k].n, rows[k].from, rows[k].m, rows[k].number);
    seek_call(none, 4, 0, 0, 0, SPR_REFUSED_INDEX);
    seek_call(most, 3076, 34 * 1024, 0, 64 * 1024, SPR_DONE);
    seek_call(most, 3076, 34 * 1024, 1023, 64, SPR_DONE);
    seek_call(more, 3079, 34 * 1025, 1023, 128, SPR_REFUSED_BLOCKS);
    for (size_t m = 0; m < 64 * 6; m++)
        from_call(record_of(five), 13, 34 * 5, 3, m, m == 64 * 2 ? SPR_DONE : SPR_REFUSED_BLOCKS);
}

/* 20 blocks, from each of them on. */
static void seek_places(void)
{
    static const uint8_t numbers[] = {1, 2, 3, 7, 19, 20, 64};
    for (size_t k = 0; k < sizeof numbers; k++)
        for (row = 0; row < 20; row++) {
            const size_t len = SPR_IMA4_INDEX_BYTES(20, numbers[k]), from = (size_t)row;
            const uint8_t head[4] = {0, (uint8_t)(len - 2), 1, numbers[k]};
            seek_call(head, len, 34 * 20, from, 64 * (20 - from), SPR_DONE);
        }
}

/* A block twice, by a record: its state is believed, with the index as it is. */
static void by_record(const uint8_t *block, int predictor, int index, int first)
{
    const uint8_t state[3] = {(uint8_t)((uint16_t)predictor >> 8), (uint8_t)predictor, (uint8_t)index};
    uint8_t run[68], record[10] = {0, 8, 1, 1};
    struct state s = {(int16_t)predictor, (uint8_t)index, 0}, t;
    memcpy(run, block, 34), memcpy(run + 34, block, 34), memcpy(record + 4, state, 3);
    CHECK(spr_decode_ima4(run, 34, &s.p, &s.i, &s.c, samples, 64) == SPR_DONE);
    CHECK(spr_ima4_reindex(run, 68, 0, record, 10) == SPR_DONE);
    t = state_of(record, 1, s.c);
    CHECK(same(s, t) && memcmp(record + 4, state, 3) == 0);
    CHECK(spr_decode_ima4_from(run, 68, record, 10, 0, &t.p, &t.i, &t.c, samples, 128) == SPR_DONE);
    CHECK(samples[0] == first && spr_decode_ima4(run, 34, &s.p, &s.i, &s.c, samples, 64) == SPR_DONE && same(s, t));
}

/* Two blocks whose every step is clipped: the count of indexing goes on, and that of decoding begins at the block. */
static void index_clips(const uint8_t run[68], uint32_t count, uint32_t behind)
{
    for (uint8_t every = 1; every <= 2; every++) {
        const size_t len = SPR_IMA4_INDEX_BYTES(2, every);
        struct state s = {0, 0, count}, t = s, u = s;
        uint8_t record[10];
        CHECK(spr_ima4_index(run, 68, every, &s.p, &s.i, &s.c, record, len) == SPR_DONE && s.c == behind);
        CHECK(spr_decode_ima4_from(run, 68, record, len, 0, &t.p, &t.i, &t.c, samples, 128) == SPR_DONE);
        CHECK(spr_decode_ima4_from(run, 68, record, len, 1, &u.p, &u.i, &u.c, samples, 64) == SPR_DONE);
        CHECK(t.c == 128 && u.c == 64);
    }
}

/* Six blocks of 0, which keep a small predictor: each sample is that of the last state at or before the block. */
static void seek_states(void)
{
    static const uint8_t run[34 * 6] = {0}, first[13] = {0, 11, 1, 2, 0, 5, 0, 0, 9, 0, 255, 253, 0};
    static const struct {
        int line, sample;
        uint8_t states[9];
    } rows[] = {
        {__LINE__, 5, {0, 5, 0, 0, 5, 0, 0, 5, 0}},
        {__LINE__, 5, {0, 5, 0, 0, 5, 0, 0, 5, 0}},
        {__LINE__, 9, {0, 5, 0, 0, 9, 0, 0, 9, 0}},
        {__LINE__, 9, {0, 5, 0, 0, 9, 0, 0, 9, 0}},
        {__LINE__, -3, {0, 5, 0, 0, 9, 0, 255, 253, 0}},
        {__LINE__, -3, {0, 5, 0, 0, 9, 0, 255, 253, 0}},
    };
    FOR_EACH(rows) {
        const int16_t x = (int16_t)rows[k].sample;
        const size_t m = 64 * (6 - k);
        struct state s = {1, 255, 9};
        uint8_t record[13];
        memcpy(record, first, 13);
        CHECK(spr_decode_ima4_from(run, sizeof run, record, 13, k, &s.p, &s.i, &s.c, samples, m) == SPR_DONE);
        CHECK(samples[0] == x && samples[m - 1] == x && same(s, (struct state){x, 0, 0}));
        CHECK(spr_ima4_reindex(run, sizeof run, k, record, 13) == SPR_DONE);
        CHECK(memcmp(record, first, 4) == 0 && memcmp(record + 4, rows[k].states, 9) == 0);
    }
}

/* 18 blocks with an index; then with others encoded from a block on, by the state there, and reindexed. */
static void reindexed(uint8_t run[34 * 18], size_t from, uint8_t every, struct state start, struct state there)
{
    uint8_t record[4 + 3 * 18], anew[4 + 3 * 18];
    const size_t len = SPR_IMA4_INDEX_BYTES(18, every), n = 34 * (18 - from), m = 64 * (18 - from);
    struct state s = start, t = start, *u = &there;
    CHECK(spr_ima4_index(run, 34 * 18, every, &s.p, &s.i, &s.c, record, len) == SPR_DONE);
    CHECK(spr_encode_ima4(given_samples + 5000, m, &u->p, &u->i, &u->c, run + 34 * from, n) == SPR_DONE);
    CHECK(spr_ima4_reindex(run, 34 * 18, from, record, len) == SPR_DONE);
    CHECK(spr_ima4_index(run, 34 * 18, every, &t.p, &t.i, &t.c, anew, len) == SPR_DONE);
    CHECK(memcmp(record, anew, len) == 0);
}

/* 18 blocks with every index, from each of them on, where the count is that of the blocks that are left. */
static void seek_runs(void)
{
    static uint8_t run[34 * 18], record[4 + 3 * 18];
    static int16_t whole[64 * 18];
    for (row = 0; row < 64 * 18; row++) {
        const uint8_t every = (uint8_t)(row / 18 + 1);
        const size_t from = (size_t)row % 18, len = SPR_IMA4_INDEX_BYTES(18, every), m = 64 * (18 - from);
        const struct state start = {77, (uint8_t)row, 9};
        struct state s = start, t = start, u = start;
        CHECK(spr_encode_ima4(given_samples + row, 64 * 18, &s.p, &s.i, &s.c, run, 34 * 18) == SPR_DONE);
        s = start;
        CHECK(spr_decode_ima4(run, 34 * 18, &s.p, &s.i, &s.c, whole, 64 * 18) == SPR_DONE);
        CHECK(spr_ima4_index(run, 34 * 18, every, &t.p, &t.i, &t.c, record, len) == SPR_DONE && same(s, t));
        CHECK(spr_decode_ima4(run, 34 * from, &u.p, &u.i, &u.c, samples, 64 * from) == SPR_DONE);
        t = (struct state){1, 255, 3};
        CHECK(spr_decode_ima4_from(run, 34 * 18, record, len, from, &t.p, &t.i, &t.c, samples, m) == SPR_DONE);
        t.c += u.c;
        CHECK(memcmp(samples, whole + 64 * from, m * sizeof *samples) == 0 && same(s, t));
        reindexed(run, from, every, start, u);
    }
}

/* A run in two, the second indexed from the state that the first one's index hands back. */
static void seek_cuts(void)
{
    static uint8_t run[34 * 18], record[4 + 3 * 18];
    static int16_t whole[64 * 18];
    const struct state start = {77, 200, 9};
    struct state s = start;
    CHECK(spr_encode_ima4(given_samples, 64 * 18, &s.p, &s.i, &s.c, run, 34 * 18) == SPR_DONE);
    s = start;
    CHECK(spr_decode_ima4(run, 34 * 18, &s.p, &s.i, &s.c, whole, 64 * 18) == SPR_DONE);
    for (row = 0; row < 18; row++) {
        const size_t cut = (size_t)row, n = 34 * (18 - cut), m = 64 * (18 - cut);
        const size_t len = SPR_IMA4_INDEX_BYTES(cut, 5), other = SPR_IMA4_INDEX_BYTES(18 - cut, 5);
        const uint8_t *rest = run + 34 * cut;
        struct state t = start;
        CHECK(spr_ima4_index(run, 34 * cut, 5, &t.p, &t.i, &t.c, record, len) == SPR_DONE);
        const uint32_t before = t.c;
        CHECK(spr_ima4_index(rest, n, 5, &t.p, &t.i, &t.c, record, other) == SPR_DONE && same(s, t));
        CHECK(spr_decode_ima4_from(rest, n, record, other, 0, &t.p, &t.i, &t.c, samples, m) == SPR_DONE);
        t.c += before;
        CHECK(memcmp(samples, whole + 64 * cut, m * sizeof *samples) == 0 && same(s, t));
    }
}
