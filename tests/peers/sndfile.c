/* libsndfile, on files in memory. */
#include "peer.h"
#include <sndfile.h>

struct memory {
    unsigned char *bytes;
    sf_count_t len, at;
};

static sf_count_t length(void *user) { return ((struct memory *)user)->len; }

static sf_count_t tell(void *user) { return ((struct memory *)user)->at; }

static sf_count_t seek(sf_count_t by, int whence, void *user) {
    struct memory *memory = user;
    sf_count_t from = whence == SEEK_SET ? 0 : whence == SEEK_CUR ? memory->at : memory->len;
    return memory->at = from + by;
}

static sf_count_t take(void *to, sf_count_t count, void *user) {
    struct memory *memory = user;
    sf_count_t left = memory->len - memory->at;
    if (count > left) count = left;
    memcpy(to, memory->bytes + memory->at, (size_t)count);
    memory->at += count;
    return count;
}

static sf_count_t put(const void *from, sf_count_t count, void *user) {
    struct memory *memory = user;
    memcpy(memory->bytes + memory->at, from, (size_t)count);
    memory->at += count;
    if (memory->at > memory->len) memory->len = memory->at;
    return count;
}

static SF_VIRTUAL_IO calls = {length, seek, take, put, tell};

static int format(const char *codec) {
    if (!strcmp(codec, "mulaw")) return SF_FORMAT_RAW | SF_FORMAT_ULAW;
    if (!strcmp(codec, "alaw")) return SF_FORMAT_RAW | SF_FORMAT_ALAW;
    if (!strcmp(codec, "ms")) return SF_FORMAT_WAV | SF_FORMAT_IMA_ADPCM;
    return SF_FORMAT_AIFF | SF_FORMAT_IMA_ADPCM;
}

static const char *version(void) {
    const char *name = sf_version_string();
    return strncmp(name, "libsndfile-", 11) ? name : name + 11;
}

static size_t run(const struct job *job, unsigned char *in, size_t len, unsigned char *out) {
    struct memory memory = {job->decode ? in : out, job->decode ? (sf_count_t)len : 0, 0};
    SF_INFO info = {.samplerate = 22050, .channels = job->channels, .format = format(job->codec)};
    /* a file says what it is; of raw codes it has to be told */
    if (job->decode && (info.format & SF_FORMAT_TYPEMASK) != SF_FORMAT_RAW) info.format = 0;
    SNDFILE *file = sf_open_virtual(&calls, job->decode ? SFM_READ : SFM_WRITE, &info, &memory);
    if (!file) {
        fprintf(stderr, "libsndfile: %s\n", sf_strerror(NULL));
        exit(1);
    }
    sf_count_t done;
    if (job->decode)
        done = sf_readf_short(file, (short *)out, info.frames);
    else
        done = sf_write_short(file, (short *)in, (sf_count_t)len / 2);
    sf_close(file);
    return job->decode ? (size_t)done * 2 * (size_t)info.channels : (size_t)memory.len;
}
