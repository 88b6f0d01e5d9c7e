// The measured errors of one function, beside the band that document 01 allows it.
#ifndef MEASURE_H
#define MEASURE_H

#include <stdbool.h>
#include <stdint.h>

typedef __float128 quad;

typedef struct {
    const char *function;
    const char *error; // what is measured, in words
    int band;          // the error may be at most 2^-band
    bool has_stage;    // whether it takes an s, as the powers do
    uint64_t stage;    // the s of the arguments that are visited
    uint64_t arguments;
    uint64_t fixed; // answers that must be one certain value: those outside, and the exact points
    uint64_t wrong; // how many of these were not
    quad worst;
    double worst_at;
    uint64_t worst_stage;
} Measure;

// Asks our function for its answer to one argument, and notes how good that is.
typedef void Visit(Measure *measure, double argument);

// Notes how far an answer inside is from the exact value. A NaN counts as infinitely far.
void note_error(Measure *measure, double argument, quad error);

// Notes an answer that must have the bits of `expected`, all NaNs taken as one.
void note_fixed(Measure *measure, double argument, double answer, double expected);

void print_heading(void);

// Prints the line of a function. True where the band holds and every fixed answer was right.
bool print_measure(const Measure *measure);

#endif
