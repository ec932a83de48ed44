/* spandsp: the laws, and its "IMA4", which is an MS block of one channel, each by itself. */
#include "peer.h"
#include <spandsp.h>
#include <spandsp/version.h>

static const char *version(void) { return "of " SPANDSP_RELEASE_DATETIME_STRING; }

static size_t law(const struct job *job, unsigned char *in, size_t len, unsigned char *out) {
    g711_state_t *state = g711_init(NULL, strcmp(job->codec, "alaw") ? G711_ULAW : G711_ALAW);
    size_t done;
    if (job->decode)
        done = 2 * (size_t)g711_decode(state, (int16_t *)out, in, (int)len);
    else
        done = (size_t)g711_encode(state, out, (int16_t *)in, (int)(len / 2));
    g711_free(state);
    return done;
}

static size_t ms(const struct job *job, unsigned char *in, size_t len, unsigned char *out) {
    ima_adpcm_state_t *state = ima_adpcm_init(NULL, IMA_ADPCM_IMA4, 0);
    size_t done = 0, samples = 2 * job->block - 7;
    size_t each = job->decode ? job->block : 2 * samples;
    for (size_t at = 0; at + each <= len; at += each)
        if (job->decode)
            done += 2 * (size_t)ima_adpcm_decode(state, (int16_t *)(out + done), in + at, (int)each);
        else
            done += (size_t)ima_adpcm_encode(state, out + done, (int16_t *)(in + at), (int)samples);
    ima_adpcm_free(state);
    return done;
}

static size_t run(const struct job *job, unsigned char *in, size_t len, unsigned char *out) {
    return (strcmp(job->codec, "ms") ? law : ms)(job, in, len, out);
}
