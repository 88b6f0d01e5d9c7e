// Writing a whole sound file and reading one by pointers, as shim.c has the excitation's functions. The callers' side is src/sound_calls.rs.
#include "shim.h"

typedef struct { Word number, bytes, held; } Written;
typedef struct { Word number, bits, rate, count; } Heard;

Written *kipawnore_write_sound(Written *after, Word bits, Word rate, const double *samples, Word nsamples, unsigned char *out, Word nout);
Heard *kipawnore_read_sound(Heard *after, const unsigned char *bytes, Word nbytes, int *out, Word nout);

void shim_write_sound(Written *after, Word bits, Word rate, const double *samples, Word nsamples, unsigned char *out, Word nout) {
    kipawnore_write_sound(after, bits, rate, samples, nsamples, out, nout);
}

void shim_read_sound(Heard *after, const unsigned char *bytes, Word nbytes, int *out, Word nout) {
    kipawnore_read_sound(after, bytes, nbytes, out, nout);
}
