#include "arguments.h"

#include <float.h>
#include <math.h>

static uint64_t state;

void seed_arguments(uint64_t seed) {
    state = seed;
}

// The next random word: splitmix64, as in src/generator.rs.
static uint64_t word(void) {
    state += 0x9E3779B97F4A7C15;
    uint64_t a = (state ^ (state >> 30)) * 0xBF58476D1CE4E5B9;
    uint64_t b = (a ^ (a >> 27)) * 0x94D049BB133111EB;
    return b ^ (b >> 31);
}

// A number in [0, 1).
static double unit(void) {
    return (double)(word() >> 11) * 0x1p-53;
}

static double of_any_size(int least, int most) {
    int exponent = least + (int)(word() % (uint64_t)(most - least + 1));
    return ldexp(1 + unit(), exponent);
}

void around(Measure *measure, Visit *visit, double centre, int steps) {
    visit(measure, centre);
    double below = centre, above = centre;
    for (int i = 0; i < steps; i++) {
        below = nextafter(below, -INFINITY);
        above = nextafter(above, INFINITY);
        visit(measure, below);
        visit(measure, above);
    }
}

void evenly(Measure *measure, Visit *visit, double low, double high, int count) {
    for (int i = 0; i < count; i++) visit(measure, low + unit() * (high - low));
}

void of_all_sizes(Measure *measure, Visit *visit, int least, int most, int count) {
    for (int i = 0; i < count; i++) visit(measure, of_any_size(least, most));
}

void of_all_sizes_and_signs(Measure *measure, Visit *visit, int least, int most, int count) {
    for (int i = 0; i < count; i++) {
        double size = of_any_size(least, most);
        visit(measure, word() & 1 ? size : -size);
    }
}

void powers_of_two(Measure *measure, Visit *visit, int least, int most) {
    for (int exponent = least; exponent <= most; exponent++) {
        around(measure, visit, ldexp(1, exponent), 1);
        around(measure, visit, -ldexp(1, exponent), 1);
    }
}

void around_one(Measure *measure, Visit *visit, int count) {
    for (int exponent = -53; exponent < 0; exponent++) {
        around(measure, visit, 1 + ldexp(1, exponent), STEPS);
        around(measure, visit, 1 - ldexp(1, exponent), STEPS);
    }
    for (int i = 0; i < count; i++) {
        double distance = of_any_size(-52, -2);
        visit(measure, word() & 1 ? 1 + distance : 1 - distance);
    }
}

void specials(Measure *measure, Visit *visit) {
    const double sizes[] = {0, INFINITY, NAN, DBL_TRUE_MIN, DBL_MIN, DBL_MAX};
    for (unsigned i = 0; i < sizeof sizes / sizeof *sizes; i++) {
        visit(measure, sizes[i]);
        visit(measure, -sizes[i]);
    }
}
