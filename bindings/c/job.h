// A job of the announcement: how its voice is opened, its frames, and what the Rust makes of them (data/jobs.txt).
#pragma once
#include "kipawnore.h"

typedef struct {
    kipawnore_configuration configuration;
    size_t frames;
    double *lf0, *spectra, *taps; // of all frames, one after the other
    size_t samples;
    uint64_t checksum;
} job;

// The jobs of data/jobs.txt are counted from 0.
enum { JOBS = 4 };

// Ends the program with a message.
_Noreturn void give_up(const char *what, const char *name);

// Reads a job from the data's folder.
job read_job(const char *folder, size_t which);
void free_job(job *job);

// One frame of a job.
const double *spectrum_of(const job *job, size_t frame);
const double *taps_of(const job *job, size_t frame);

// A float's bits as they are, but those of every NaN as 7ff8000000000000.
uint64_t one_nan(uint64_t bits);

// The checksum of data/jobs.txt after so many more samples: their bits in a row, all NaNs taken as one.
uint64_t summed(uint64_t sum, const double *samples, size_t count);
