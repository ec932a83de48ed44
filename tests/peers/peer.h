/* PROGRAM version, or PROGRAM decode|encode CODEC CHANNELS BLOCK IN OUT RUNS: has a library do the work
 * in memory, so many times, writes what came to OUT, and prints the best time in nanoseconds. The file
 * that includes this one says how the library is asked. */
#include <stdio.h>
#include <stdlib.h>
#include <string.h>
#include <time.h>

struct job {
    int decode;        /* or else encode */
    const char *codec; /* mulaw, alaw, ms or ima4 */
    int channels;
    size_t block; /* bytes of an MS block, for a library that reads no WAV file */
};

static const char *version(void);
/* Fills `out`, which has room for all that can come, and returns how many bytes. */
static size_t run(const struct job *job, unsigned char *in, size_t len, unsigned char *out);

static double now(void) {
    struct timespec at;
    clock_gettime(CLOCK_MONOTONIC, &at);
    return 1e9 * (double)at.tv_sec + (double)at.tv_nsec;
}

int main(int argc, char **argv) {
    if (argc == 2 && !strcmp(argv[1], "version")) return puts(version()) < 0;
    if (argc != 8) return 2;
    struct job job = {!strcmp(argv[1], "decode"), argv[2], atoi(argv[3]), (size_t)atol(argv[4])};
    FILE *from = fopen(argv[5], "rb"), *to = fopen(argv[6], "wb");
    if (!from || !to || fseek(from, 0, SEEK_END)) return 2;
    size_t len = (size_t)ftell(from), filled = 0;
    unsigned char *in = malloc(len), *out = malloc(4 * len + 65536);
    rewind(from);
    if (!in || !out || fread(in, 1, len, from) != len) return 2;
    double best = 1e18;
    for (int runs = atoi(argv[7]); runs > 0; runs--) {
        double began = now();
        filled = run(&job, in, len, out);
        double took = now() - began;
        best = took < best ? took : best;
    }
    printf("%.0f\n", best);
    return fwrite(out, 1, filled, to) != filled || fclose(to);
}
