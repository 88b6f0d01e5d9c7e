// The calls on a voice by pointers, as shim.c has the excitation's functions. The callers' side is src/shim.rs.
#include "shim.h"

typedef struct { double d11[6], d12[6], d21[384], d22[6]; } Zero;
typedef struct { double d[512]; } NonZero;

typedef struct {
    Word nmcp, nlpf, stage;
    _Bool log;
    Word rate;
    double alpha, beta, volume;
    Word fperiod;
    double nodata, low, high;
} Configuration;

typedef struct {
    Configuration configuration;
    Word meter, left;
    _Bool first;
    Pulse pulse;
    double line[64], lpf[64];
    Random random;
    double coefficients[64], increments[64], targets[64];
    Zero zero;
    NonZero nonzero;
} Voice;

typedef struct { Word number; Voice voice; } Answered;
typedef struct { Word number, made; Voice voice; } Drawn;
typedef struct { Word number, bytes; } Saved;

_Static_assert(sizeof(Configuration) == 96 && sizeof(Voice) == 10552, "the sizes that src/shim.rs has too");

Answered *kipawnore_open(Answered *after, Configuration configuration);
Answered *kipawnore_give(Answered *after, Voice voice, double lf0, const double *spectrum, Word nspectrum, const double *lpf, Word nlpf);
Drawn *kipawnore_draw(Drawn *after, Voice voice, double *out, Word nout, Word start);
Drawn *kipawnore_whole_frame(Drawn *after, Voice voice, double lf0, const double *spectrum, Word nspectrum, const double *lpf, Word nlpf,
                             double *out, Word nout, Word start);
Answered *kipawnore_restore(Answered *after, Voice voice, const unsigned char *bytes, Word nbytes);
// Two words come back in registers.
Saved kipawnore_save(Voice voice, unsigned char *out, Word nout);

// Those of a voice give the number of document 01.
Word shim_open(Voice *voice, const Configuration *configuration) {
    Answered after;
    kipawnore_open(&after, *configuration);
    *voice = after.voice;
    return after.number;
}

Word shim_give(Voice *voice, double lf0, const double *spectrum, Word nspectrum, const double *lpf, Word nlpf) {
    Answered after;
    kipawnore_give(&after, *voice, lf0, spectrum, nspectrum, lpf, nlpf);
    *voice = after.voice;
    return after.number;
}

Word shim_draw(Voice *voice, double *out, Word nout, Word start, Word *made) {
    Drawn after;
    kipawnore_draw(&after, *voice, out, nout, start);
    *voice = after.voice;
    *made = after.made;
    return after.number;
}

Word shim_whole_frame(Voice *voice, double lf0, const double *spectrum, Word nspectrum, const double *lpf, Word nlpf, double *out,
                      Word nout, Word start, Word *made) {
    Drawn after;
    kipawnore_whole_frame(&after, *voice, lf0, spectrum, nspectrum, lpf, nlpf, out, nout, start);
    *voice = after.voice;
    *made = after.made;
    return after.number;
}

Word shim_save(const Voice *voice, unsigned char *out, Word nout, Word *bytes) {
    Saved saved = kipawnore_save(*voice, out, nout);
    *bytes = saved.bytes;
    return saved.number;
}

Word shim_restore(Voice *voice, const unsigned char *bytes, Word nbytes) {
    Answered after;
    kipawnore_restore(&after, *voice, bytes, nbytes);
    *voice = after.voice;
    return after.number;
}
