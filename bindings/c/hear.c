// Reads the announcement's sound file back, `hear DATA FILE 16|24`: bits, rate and count must be those of the first job of the folder DATA, and every
// number the sample's, rounded by the C library. The status is 1 where something differs, 2 where nothing could be read.
#include "render.h"
#include <math.h>
#include <stdio.h>
#include <stdlib.h>

static void hold(bool holds, const char *what, const char *name) {
    if (holds) return;
    fprintf(stderr, "%s: %s\n", name, what);
    exit(1);
}

static uint8_t *read_all(const char *name, size_t *length) {
    FILE *file = fopen(name, "rb");
    const long size = file == NULL || fseek(file, 0, SEEK_END) != 0 ? -1 : ftell(file);
    uint8_t *bytes = size < 0 ? NULL : malloc((size_t)size + 1);
    if (bytes == NULL) give_up("cannot be read", name);
    rewind(file);
    *length = fread(bytes, 1, (size_t)size, file);
    if (*length != (size_t)size || fclose(file) != 0) give_up("cannot be read", name);
    return bytes;
}

// The numbers of a file, whose count the reader tells where it has no room.
static int32_t *numbers_of(const char *name, kipawnore_heard *heard) {
    size_t length;
    uint8_t *bytes = read_all(name, &length);
    *heard = kipawnore_read_sound(bytes, length, NULL, 0);
    int32_t *numbers = malloc((heard->count + 1) * sizeof *numbers);
    if (numbers == NULL) give_up("no memory", name);
    *heard = kipawnore_read_sound(bytes, length, numbers, heard->count);
    free(bytes);
    return numbers;
}

static double rounded(double sample, uint64_t bits) {
    const double most = bits == 16 ? 32767.0 : 8388607.0;
    return fmin(fmax(nearbyint(bits == 16 ? sample : 256.0 * sample), -most - 1.0), most);
}

static void compare(const job *job, const int32_t *numbers, uint64_t bits, const char *name) {
    double samples[MOST_FPERIOD];
    kipawnore_voice voice = voice_of(job);
    for (size_t frame = 0; frame < job->frames; frame++) {
        const size_t made = render_frame(job, frame, &voice, samples);
        for (size_t i = 0; i < made; i++) hold(*numbers++ == rounded(samples[i], bits), "a number is not that of its sample", name);
    }
}

int main(int count, char **words) {
    if (count != 4) give_up("usage: hear DATA FILE 16|24", words[0]);
    const char *name = words[2];
    const uint64_t bits = strtoul(words[3], NULL, 10);
    job job = read_job(words[1], 0);
    kipawnore_heard heard;
    int32_t *numbers = numbers_of(name, &heard);
    hold(heard.number == KIPAWNORE_DONE, "is refused", name);
    hold(heard.bits == bits && heard.rate == job.configuration.rate, "has other bits or another rate than it should", name);
    hold(heard.count == job.samples, "has not as many samples as the Rust makes", name);
    compare(&job, numbers, bits, name);
    printf("%s: read back, %zu numbers of %d bits, each that of its sample\n", name, heard.count, (int)heard.bits);
    free(numbers);
    free_job(&job);
    return 0;
}
