#include "measure.h"

#include <inttypes.h>
#include <math.h>
#include <quadmath.h>
#include <stdio.h>
#include <string.h>

enum { SHOWN = 5 }; // how many wrong answers are shown

void note_error(Measure *measure, double argument, quad error) {
    measure->arguments++;
    if (error <= measure->worst) return;
    measure->worst = isnanq(error) ? HUGE_VALQ : error;
    measure->worst_at = argument;
    measure->worst_stage = measure->stage;
}

static uint64_t bits_of(double x) {
    uint64_t bits;
    memcpy(&bits, &x, sizeof bits);
    return bits;
}

void note_fixed(Measure *measure, double argument, double answer, double expected) {
    measure->fixed++;
    if (bits_of(answer) == bits_of(expected) || (isnan(answer) && isnan(expected))) return;
    measure->wrong++;
    if (measure->wrong > SHOWN) return;
    printf("%s: of %a", measure->function, argument);
    if (measure->has_stage) printf(" with s %" PRIu64, measure->stage);
    printf(" ours %a, expected %a\n", answer, expected);
}

void print_heading(void) {
    printf("%-14s %-14s %10s %8s %6s   %-8s %-6s %s\n", "function", "error", "arguments", "fixed", "wrong", "worst",
           "band", "at");
}

bool print_measure(const Measure *measure) {
    bool held = measure->worst <= ldexpq(1, -measure->band) && measure->wrong == 0;
    char worst[16] = "0", band[16];
    if (measure->worst > 0) snprintf(worst, sizeof worst, "2^%.1f", (double)log2q(measure->worst));
    snprintf(band, sizeof band, "2^-%d", measure->band);
    printf("%-14s %-14s %10" PRIu64 " %8" PRIu64 " %6" PRIu64 "   %-8s %-6s %a", measure->function, measure->error,
           measure->arguments, measure->fixed, measure->wrong, worst, band, measure->worst_at);
    if (measure->has_stage) printf(", s %" PRIu64, measure->worst_stage);
    printf("%s\n", held ? "" : "  BROKEN");
    fflush(stdout);
    return held;
}
