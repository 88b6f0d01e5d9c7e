#include "job.h"
#include <inttypes.h>
#include <stdio.h>
#include <stdlib.h>
#include <string.h>

enum { LINE = 512, NAME = 64, PATH = 4096 };

_Noreturn void give_up(const char *what, const char *name) {
    fprintf(stderr, "%s: %s\n", name, what);
    exit(2);
}

static FILE *open_in(const char *folder, const char *name, char path[PATH]) {
    int length = snprintf(path, PATH, "%s/%s", folder, name);
    if (length < 0 || length >= PATH) give_up("too long a path", name);
    FILE *file = fopen(path, "rb");
    if (file == NULL) give_up("cannot be read; the folder of the jobs is bindings/data", path);
    return file;
}

// A stream of 32-bit floats, low byte first, widened. Gives their count.
static size_t read_stream(const char *folder, const char *name, double **floats) {
    char path[PATH];
    FILE *file = open_in(folder, name, path);
    size_t count = 0, room = 1 << 10;
    double *read = malloc(room * sizeof *read);
    uint8_t b[4];
    while (read != NULL && fread(b, 1, sizeof b, file) == sizeof b) {
        if (count == room) read = realloc(read, (room *= 2) * sizeof *read);
        if (read == NULL) break;
        uint32_t bits = b[0] | (uint32_t)b[1] << 8 | (uint32_t)b[2] << 16 | (uint32_t)b[3] << 24;
        float narrow;
        memcpy(&narrow, &bits, sizeof narrow);
        read[count++] = narrow;
    }
    if (read == NULL || ferror(file) || ftell(file) != (long)(count * 4)) give_up("not a stream of floats", path);
    fclose(file);
    *floats = read;
    return count;
}

// The line of a job, after the heading.
static void find_line(const char *folder, size_t which, char line[LINE]) {
    char path[PATH];
    FILE *file = open_in(folder, "jobs.txt", path);
    for (size_t i = 0; i <= which + 1; i++) {
        if (fgets(line, LINE, file) == NULL) give_up("has no such job", path);
    }
    fclose(file);
}

// Reads the line, and gives the name of the stream of spectra.
static void read_line(const char *line, job *read, char name[NAME]) {
    kipawnore_configuration *c = &read->configuration;
    int log;
    int fields = sscanf(line, "%63s %zu %zu %" SCNu64 " %d %" SCNu64 " %lf %lf %lf %zu %lf %lf %lf %zu %" SCNx64, name, &c->nmcp, &c->nlpf,
                        &c->stage, &log, &c->rate, &c->alpha, &c->beta, &c->volume, &c->fperiod, &c->nodata, &c->low, &c->high,
                        &read->samples, &read->checksum);
    if (fields != 15) give_up("not a job", line);
    c->log = log != 0;
}

job read_job(const char *folder, size_t which) {
    job read = { 0 };
    char line[LINE], name[NAME];
    find_line(folder, which, line);
    read_line(line, &read, name);
    read.frames = read_stream(folder, "announcement.lf0", &read.lf0);
    size_t entries = read_stream(folder, name, &read.spectra), taps = read_stream(folder, "announcement.lpf", &read.taps);
    if (entries != read.frames * read.configuration.nmcp || taps != read.frames * read.configuration.nlpf) {
        give_up("not as long as the job says", name);
    }
    return read;
}

void free_job(job *job) {
    free(job->lf0);
    free(job->spectra);
    free(job->taps);
}

const double *spectrum_of(const job *job, size_t frame) {
    return job->spectra + frame * job->configuration.nmcp;
}

const double *taps_of(const job *job, size_t frame) {
    return job->taps + frame * job->configuration.nlpf;
}

uint64_t one_nan(uint64_t bits) {
    const uint64_t infinity = 0x7ff0000000000000, sign = 0x8000000000000000;
    return (bits & ~sign) > infinity ? 0x7ff8000000000000 : bits;
}

uint64_t summed(uint64_t sum, const double *samples, size_t count) {
    const uint64_t factor = 6364136223846793005;
    for (size_t i = 0; i < count; i++) {
        uint64_t bits;
        memcpy(&bits, &samples[i], sizeof bits);
        sum = sum * factor + one_nan(bits);
    }
    return sum;
}
