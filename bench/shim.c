// The excitation's functions of our archives that take and give structs by value, once more by pointers: what a caller in C
// makes of them, one copy of a struct in and one out. The callers' side is src/shim.rs.
#include "shim.h"

typedef struct { Word made; Pulse pulse; Random random; } Stretch;

Pulse *kipawnore_start(Pulse *after, Pulse pulse, _Bool voiced, double period, Word fperiod);
Pulse *kipawnore_end(Pulse *after, Pulse pulse);
Stretch *kipawnore_stretch(Stretch *after, Pulse pulse, Random random, double *line, Word nline, const double *lpf, Word nlpf, double *out,
                           Word nout);

void shim_start(Pulse *pulse, _Bool voiced, double period, Word fperiod) {
    Pulse after;
    kipawnore_start(&after, *pulse, voiced, period, fperiod);
    *pulse = after;
}

void shim_end(Pulse *pulse) {
    Pulse after;
    kipawnore_end(&after, *pulse);
    *pulse = after;
}

Word shim_stretch(Pulse *pulse, Random *random, double *line, Word nline, const double *lpf, Word nlpf, double *out, Word nout) {
    Stretch after;
    kipawnore_stretch(&after, *pulse, *random, line, nline, lpf, nlpf, out, nout);
    *pulse = after.pulse;
    *random = after.random;
    return after.made;
}
