// The bridge's calls of the two filters, in one form. The inputs: the filter, its stages, alpha, volume, the lengths
// of seven arrays, then the arrays: samples, coefficients, increments, and the taps, which are d11, d12, d22, d21 of
// the one filter, and d of the other. The answers: the filter's number, and the arrays after it.
#include <stddef.h>
#include <stdint.h>

uint64_t kipawnore_mlsa_stretch(double *samples, size_t nsamples, double *c, size_t nc, const double *increments, size_t nincrements,
                                double alpha, double volume, double *d11, size_t nd11, double *d12, size_t nd12, double *d21,
                                size_t nd21, double *d22, size_t nd22);
uint64_t kipawnore_mglsa_stretch(double *samples, size_t nsamples, double *c, size_t nc, const double *increments, size_t nincrements,
                                 double alpha, double volume, uint64_t stages, double *d, size_t nd);

void *memcpy(void *to, const void *from, size_t size);
_Noreturn void leave(int status);

enum { MLSA, MGLSA };
enum { SAMPLES, C, INCREMENTS, D11, D12, D22, D21, ARRAYS, D = D11, ROOM = 1024 };

typedef struct { uint64_t filter, stages; double alpha, volume; uint64_t lengths[ARRAYS]; } Asked;

static uint64_t call(const Asked *asked, double *const *at) {
    const uint64_t *n = asked->lengths;
    if (asked->filter == MGLSA)
        return kipawnore_mglsa_stretch(at[SAMPLES], n[SAMPLES], at[C], n[C], at[INCREMENTS], n[INCREMENTS], asked->alpha,
                                       asked->volume, asked->stages, at[D], n[D]);
    return kipawnore_mlsa_stretch(at[SAMPLES], n[SAMPLES], at[C], n[C], at[INCREMENTS], n[INCREMENTS], asked->alpha, asked->volume,
                                  at[D11], n[D11], at[D12], n[D12], at[D21], n[D21], at[D22], n[D22]);
}

// Answers a request whose inputs are read; gives the number of answers.
size_t filter(const uint64_t *inputs, uint64_t *answers) {
    static double arrays[ARRAYS * ROOM];
    double *at[ARRAYS];
    Asked asked;
    memcpy(&asked, inputs, sizeof asked);
    size_t words = 0;
    for (size_t array = 0; array < ARRAYS; array++) {
        if (asked.lengths[array] > ROOM) leave(3);
        at[array] = arrays + words;
        words += asked.lengths[array];
    }
    memcpy(arrays, inputs + sizeof asked / 8, words * 8);
    answers[0] = call(&asked, at);
    memcpy(answers + 1, arrays, words * 8);
    return 1 + words;
}
