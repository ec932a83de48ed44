/* The C interface of Sprettuhol, for C99 and later, and for C++11 and later.
 *
 * Sprettuhol encodes and decodes speech by the mu-law and A-law of G.711 and by IMA ADPCM: single nibbles,
 * runs of ima4 blocks, and MS blocks. It indexes runs of ima4 blocks, repacks MS blocks, and reports what differs
 * between two runs of samples. Every function is proved to meet its contract; docs/PROMISES.md has the promises.
 *
 * 'MS' is IMA ADPCM as WAV files have it, format 0x0011. It is not Microsoft ADPCM, format 0x0002.
 *
 * From the top of the repository, a program is compiled and linked by
 *
 *     cc -Iinclude -c program.c -o program.o
 *     cc program.o -Ltarget/staticlib -lsprettuhol -o program
 *
 * What holds for all calls:
 *
 * - Every call ends. Whatever the values and the lengths are, it does what it says, or refuses by a number.
 * - A refusal changes nothing: buffers, states and all other numbers hold what they held.
 * - Nothing is allocated, nothing is kept from one call to the next, nothing is locked, and nothing of the
 *   process is touched but what is passed, and the stack. So several threads may call at once, each with
 *   buffers and numbers of its own to write to. What is only read they may share.
 *
 * What the caller owes, and no library can test:
 *
 * - A pointer x that goes with a length x_len points to at least that many elements. Any other points to
 *   one number, or in the calls on MS blocks to one array of eight.
 * - Every pointer is aligned for its type.
 * - No pointer is null, not even where the length is 0: the compiler may count on it.
 * - What is behind a pointer that is not to const overlaps with nothing else that is passed, and no other
 *   thread uses it during the call, even if the call is refused: a state may then be stored as it was.
 */
#ifndef SPRETTUHOL_H
#define SPRETTUHOL_H

#include <stddef.h>
#include <stdint.h>

/* The version of this header, 0.6.0: 10,000 for each major number, 100 for each minor one, 1 for each patch. */
#define SPR_VERSION 600

/* What the calls that can refuse return. Each number is given for its cause alone, and always then; the
 * channel number is tested before the lengths, and these before the step indices of a block. An index of a run is
 * tested after the run's bytes and before its samples. No call returns 4, which is the program repack's. */
#define SPR_DONE 0
#define SPR_REFUSED_CHANNELS 1   /* MS: the channel number is not 1 to 8 */
#define SPR_REFUSED_LENGTHS 2    /* MS, loss: a length is not allowed, or two do not fit each other */
#define SPR_REFUSED_BLOCKS 3     /* ima4: not 34 bytes and 64 samples a block, or over 1,024 blocks */
#define SPR_REFUSED_INDEX 5      /* ima4 index: not 1 to 64 blocks a state, an unfitting record, or no such block */
#define SPR_REFUSED_STEP_INDEX 8 /* MS, read strictly: a step index above 88 in a header */

#define SPR_NOWHERE UINT32_MAX /* spr_loss: there is no first place that differs */

#define SPR_IMA4_BLOCK_BYTES 34
#define SPR_IMA4_BLOCK_SAMPLES 64
#define SPR_IMA4_MOST_BLOCKS 1024    /* of a run */
#define SPR_MS_MOST_BYTES 65535      /* of a block */
#define SPR_MS_MOST_CHANNELS 8       /* of a block; and so many states, or counts, a call takes */
#define SPR_LOSS_MOST_SAMPLES 131063 /* of a run; as many as the longest MS block has */

/* How many samples an MS block has, those of all channels together. A block of one channel has a length n of 4
 * to 65,535, and 2n-7 samples. A block of c channels, from two up, has a length of 4c times one or more, up to
 * 65,535, and 2n-7c samples: one for each channel, and eight for each channel in every 4c bytes behind the
 * headers. It is 0 where the calls refuse the channel number or the length. It is a constant if both arguments
 * are, and evaluates them more than once. */
#define SPR_MS_SAMPLES(channels, block_len)                                                              \
    ((channels) < 1 || (channels) > SPR_MS_MOST_CHANNELS ||                                              \
             (size_t)(block_len) < 4 * (size_t)(channels) ||                                             \
             (size_t)(block_len) / (SPR_MS_MOST_BYTES + 1) != 0                                          \
         ? (size_t)0                                                                                     \
     : (channels) == 1 || (size_t)(block_len) % (4 * (size_t)(channels)) == 0                            \
         ? 2 * (size_t)(block_len) - 7 * (size_t)(channels)                                              \
         : (size_t)0)

/* How many bytes the index of a run has: 4, and 3 for each state, of which there is one for each `every` blocks,
 * and one for those that are left. It is 0 where the calls refuse the number of blocks or `every`. It is a
 * constant if both arguments are, and evaluates them more than once. */
#define SPR_IMA4_INDEX_BYTES(blocks, every)                                                              \
    ((every) < 1 || (every) > 64 || (size_t)(blocks) / (SPR_IMA4_MOST_BLOCKS + 1) != 0                   \
         ? (size_t)0                                                                                     \
         : 4 + 3 * (((size_t)(blocks) + (size_t)(every) - 1) / (size_t)(every)))

#ifdef __cplusplus
extern "C" {
#endif

/* The version of the library that is linked. If it is not SPR_VERSION, this header is of another one. */
uint32_t spr_version(void);

/* G.711. These four take every value, and refuse nothing. */

/* The sample that a mu-law code stands for. Of 0x7f and of 0xff it is 0. */
int16_t spr_decode_ulaw(uint8_t encoded);

/* The mu-law code of a sample. Those above 32,635 come back from it as 32,124, and those below -32,636 as
 * -32,124. */
uint8_t spr_encode_ulaw(int16_t linear);

/* The sample that an A-law code stands for, which is never 0. */
int16_t spr_decode_alaw(uint8_t encoded);

/* The A-law code of a sample. 0 comes back from it as 8. */
uint8_t spr_encode_alaw(int16_t linear);

/* IMA ADPCM. A state is three numbers: the predictor, which is the last sample, the step index, and how many
 * steps so far were clipped. A decoder or an encoder starts from 0, 0 and 0, and goes on from the state that the
 * call before has left.
 *
 * A step is clipped if the exact sum of the predictor and the difference that the nibble stands for is below
 * -32,768 or above 32,767; the new predictor is then that end of the range. A sum of exactly -32,768 or 32,767 is
 * not clipped. The count stops at 4,294,967,295. It changes no sample, no byte and neither of the other two
 * numbers: a caller that does not want it passes a number of 0 and looks no further. */

/* One nibble to the sample that is returned. Reads the state and writes the next one: the predictor is then
 * the sample, the index 0 to 88, and the count one more if the step was clipped. Of `nibble` the low four bits
 * matter, an index above 88 is read as 88, and nothing is refused. */
int16_t spr_decode_adpcm_ima(uint8_t nibble, int16_t *predictor, uint8_t *step_index, uint32_t *clipped);

/* One sample to the nibble that is returned, 0 to 15. Reads the state and writes the next one, which is what
 * decoding the nibble makes of it. An index above 88 is read as 88, and nothing is refused. */
uint8_t spr_encode_adpcm_ima(int16_t sample, int16_t *predictor, uint8_t *step_index, uint32_t *clipped);

/* A run of 0 to 1,024 ima4 blocks to samples. A block is 34 bytes, two of header and 64 nibbles, the low half
 * of a byte first. The header is, high byte first, the top nine bits of a predictor and seven of an index.
 *
 * Reads `bytes` and the state. Writes all of `samples`, and the state behind the last block: a run may be cut
 * at any block's edge, if the second part is decoded from the state that the first has left.
 *
 * At each block the state is kept, if its index equals the header's, which is lowered to 88 if above, and its
 * predictor is within 127 of the header's. Else both are taken from the header. The state's own index is not
 * lowered first, so one above 88 is never kept. The count is kept at every block, and is not looked at. Where
 * there are no blocks the state stays as it was given.
 *
 * SPR_REFUSED_BLOCKS: `bytes_len` is not 34 for each block, or `samples_len` not 64, or there are over 1,024
 * blocks. Then neither `samples` nor the state changes. */
uint8_t spr_decode_ima4(const uint8_t *bytes, size_t bytes_len, int16_t *predictor, uint8_t *step_index,
                        uint32_t *clipped, int16_t *samples, size_t samples_len);

/* Samples to a run of 0 to 1,024 ima4 blocks.
 *
 * Reads `samples` and the state. Writes all of `bytes`, and the state behind the last sample: a run may be cut
 * as in decoding. An index above 88 is lowered to 88 before the first header is written. Where there are no
 * blocks the state stays as it was given.
 *
 * SPR_REFUSED_BLOCKS: as in decoding. Then neither `bytes` nor the state changes. */
uint8_t spr_encode_ima4(const int16_t *samples, size_t samples_len, int16_t *predictor, uint8_t *step_index,
                        uint32_t *clipped, uint8_t *bytes, size_t bytes_len);

/* The index of a run of 0 to 1,024 ima4 blocks: states of its decoder, by which decoding can start at any block.
 * They are those before block 0 and before each `every`-th after it; `every` is 1 to 64. With m states it is a
 * record of 4 + 3 * m bytes, which SPR_IMA4_INDEX_BYTES counts:
 *
 *     2 + 3 * m, in two bytes, high byte first; 1, the version; `every`;
 *     then for each state: the predictor, in two bytes, high byte first; the step index
 *
 * A state is the decoder's own, before it looks at the block's header. The first is the one that is given, with
 * its index as it is, even above 88. The record has no counts.
 *
 * An index cannot know whether it is stale. If blocks have changed since, the calls below go on from states that
 * are no longer the run's, and refuse nothing. So reindex where blocks are replaced; and where others may replace
 * them, keep a name of the run's bytes beside the index, such as a hash, and compare it first.
 *
 * Reads `bytes` and the state. Writes all of `record`, and the state behind the last block, which is where the
 * next run's index starts; the count goes on over all blocks, as in decoding. Where there are no blocks the record
 * is 0, 2, 1, `every`, and the state stays as it was given.
 *
 * SPR_REFUSED_BLOCKS: `bytes_len` is not 34 for each block, or there are over 1,024 blocks. SPR_REFUSED_INDEX:
 * `every` is not 1 to 64, or `record_len` is not what SPR_IMA4_INDEX_BYTES says. Then neither `record` nor the
 * state changes. */
uint8_t spr_ima4_index(const uint8_t *bytes, size_t bytes_len, uint8_t every, int16_t *predictor,
                       uint8_t *step_index, uint32_t *clipped, uint8_t *record, size_t record_len);

/* An indexed run to samples, from block `from` on, counted from 0. It starts from the last state that is kept at
 * or before that block, so it decodes at most `every` - 1 blocks more than it hands back.
 *
 * Reads `bytes` and `record`, whose states are believed: any two bytes are a predictor, and any one is an index.
 * Writes all of `samples`, and the state behind the last block. The state is only written: what it was does not
 * matter. Its count is of the blocks from block `from` on, whatever `every` is.
 *
 * SPR_REFUSED_BLOCKS: `bytes_len` as in indexing. SPR_REFUSED_INDEX: `record_len`, or one of the first four bytes
 * of `record`, is not that of an index of so many blocks, or there is no block `from`, as in a run of no blocks.
 * SPR_REFUSED_BLOCKS again: `samples_len` is not 64 for each block from there on. Then neither `samples` nor the
 * state changes. */
uint8_t spr_decode_ima4_from(const uint8_t *bytes, size_t bytes_len, const uint8_t *record, size_t record_len,
                             size_t from, int16_t *predictor, uint8_t *step_index, uint32_t *clipped,
                             int16_t *samples, size_t samples_len);

/* The index again, of a run whose blocks from block `from` on were replaced, one for one.
 *
 * Reads `bytes`, and the last state that is kept at or before that block, which is believed. Writes the states
 * behind that block. All else of `record` stays as it was, byte for byte, and no state is handed back.
 *
 * SPR_REFUSED_BLOCKS: `bytes_len` as in indexing. SPR_REFUSED_INDEX: as in decoding from a block. Then `record`
 * does not change. */
uint8_t spr_ima4_reindex(const uint8_t *bytes, size_t bytes_len, size_t from, uint8_t *record,
                         size_t record_len);

/* One MS block to samples; SPR_MS_SAMPLES says which lengths there are, and how many samples. For each channel
 * there is a header of four bytes: the predictor, low byte first, the index, and a byte that is ignored. Behind
 * all headers come the nibbles, four bytes of each channel in turn, the low half of a byte first. Samples are
 * interleaved: one of each channel in turn. The channels keep their order; which of them belongs to which
 * loudspeaker is a matter of the file that has the block.
 *
 * Reads `block` and writes all of `samples`. Each channel starts from its header, whose predictor is the first
 * sample. No state goes in or comes back: a block decodes by itself. Writes to `clipped` how many steps of each
 * channel were clipped in this block, and 0 for the channels that are not there.
 *
 * This call reads strictly. The step table ends at 88, so an index above 88 is a fault: of the file, or of
 * whoever took these bytes for a block. The headers of the channels used are looked at; with one channel the
 * seventh byte is data, whatever it is.
 *
 * SPR_REFUSED_CHANNELS: `channels` is not 1 to 8. SPR_REFUSED_LENGTHS: `block_len` is not allowed, or
 * `samples_len` does not fit it. SPR_REFUSED_STEP_INDEX: a header has an index above 88. Then neither `samples`
 * nor `clipped` changes. */
uint8_t spr_decode_ms(uint8_t channels, const uint8_t *block, size_t block_len, int16_t *samples,
                      size_t samples_len, uint32_t (*clipped)[SPR_MS_MOST_CHANNELS]);

/* The same, read leniently: an index above 88 is taken as 88, and nothing is refused for it. */
uint8_t spr_decode_ms_lenient(uint8_t channels, const uint8_t *block, size_t block_len, int16_t *samples,
                              size_t samples_len, uint32_t (*clipped)[SPR_MS_MOST_CHANNELS]);

/* Samples to one MS block.
 *
 * Reads `samples` and the index of each channel; the predictors that are passed do not matter, for the first
 * sample of a channel takes the place of its predictor. Writes all of `block`, and the states behind the last
 * samples. The header has the index as it is given, even above 88, and a fourth byte of 0; it has no count, and
 * each channel's goes on from the one that is given. The first nibble
 * lowers such an index; a block of one sample for each channel has none, and hands the index back as given. A block
 * that is written from an index above 88 is refused by the calls that read strictly, so pass indices of 0 to 88.
 *
 * All three arrays have eight elements, whatever the channel number is. Those of channels that are not there come
 * back as they went in.
 *
 * SPR_REFUSED_CHANNELS and SPR_REFUSED_LENGTHS: as in decoding. Then neither `block` nor a state changes. */
uint8_t spr_encode_ms(uint8_t channels, const int16_t *samples, size_t samples_len,
                      int16_t (*predictors)[SPR_MS_MOST_CHANNELS],
                      uint8_t (*step_indices)[SPR_MS_MOST_CHANNELS], uint32_t (*clipped)[SPR_MS_MOST_CHANNELS],
                      uint8_t *block, size_t block_len);

/* An MS block, decoded and encoded again, from the indices of its own header.
 *
 * Reads `block`, strictly, as spr_decode_ms does. Writes all of `repacked`, and to `changed` 1 if any byte differs
 * from the block's, else 0. Repacking what was repacked changes nothing.
 *
 * SPR_REFUSED_CHANNELS: `channels` is not 1 to 8. SPR_REFUSED_LENGTHS: `block_len` is not allowed, or
 * `repacked_len` is another. SPR_REFUSED_STEP_INDEX: as in decoding. Then neither `repacked` nor `changed`
 * changes. */
uint8_t spr_repack_ms(uint8_t channels, const uint8_t *block, size_t block_len, uint8_t *repacked,
                      size_t repacked_len, uint8_t *changed);

/* The same, read leniently: an index above 88 is taken as 88, and `repacked` has 88. */
uint8_t spr_repack_ms_lenient(uint8_t channels, const uint8_t *block, size_t block_len, uint8_t *repacked,
                              size_t repacked_len, uint8_t *changed);

/* What differs between two runs of equal length, 0 to 131,063 samples.
 *
 * Reads both runs, which may be one. Writes to `count` how many places differ, to `first` the first of them,
 * counted from 0, or SPR_NOWHERE, and to `peak` the largest absolute difference, 0 if there is none. The peak is
 * up to 65,535, and must never be stored in a signed 16-bit number.
 *
 * SPR_REFUSED_LENGTHS: the lengths differ, or are above 131,063. Then none of the three numbers changes. */
uint8_t spr_loss(const int16_t *before, size_t before_len, const int16_t *after, size_t after_len,
                 uint32_t *count, uint32_t *first, uint16_t *peak);

#ifdef __cplusplus
}
#endif

#endif
