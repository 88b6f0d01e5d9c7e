// a^-s and a^(-1/s) for a from 2^-120 to 2^120 and s from 1 to 8; all others are outside.
#include "arguments.h"
#include "functions.h"
#include "ours.h"

#include <math.h>
#include <quadmath.h>

enum { SIZE = 120, STAGES = 8 };

static quad whole_power(quad base, uint64_t exponent) {
    quad product = 1;
    for (uint64_t i = 0; i < exponent; i++) product *= base;
    return product;
}

// Notes an answer that must be fixed and says so, or leaves it to the caller to measure.
static bool is_fixed(Measure *measure, double a, double answer) {
    bool inside = a >= ldexp(1, -SIZE) && a <= ldexp(1, SIZE) && measure->stage >= 1 && measure->stage <= STAGES;
    if (inside && a != 1) return false;
    note_fixed(measure, a, answer, inside ? 1 : NAN);
    return true;
}

// The bands speak of products: no other power is needed to hold our answers to them.
static void visit_power(Measure *measure, double a) {
    double answer = kipawnore_inverse_power(a, measure->stage);
    if (is_fixed(measure, a, answer)) return;
    note_error(measure, a, fabsq(answer * whole_power(a, measure->stage) - 1));
}

static void visit_root(Measure *measure, double a) {
    double answer = kipawnore_inverse_root(a, measure->stage);
    if (is_fixed(measure, a, answer)) return;
    note_error(measure, a, fabsq(whole_power(answer, measure->stage) * a - 1));
}

// Stages on either side of the eight, and some that are among the eight in their low bits only.
static void stages_outside(Measure *measure, Visit *visit) {
    const uint64_t stages[] = {0, STAGES + 1, 1ull << 32, (1ull << 32) + 1, 1ull << 63, UINT64_MAX};
    for (unsigned i = 0; i < sizeof stages / sizeof *stages; i++) {
        measure->stage = stages[i];
        visit(measure, 1);
        visit(measure, 2);
    }
}

static bool over_stages(Measure measure, Visit *visit) {
    stages_outside(&measure, visit);
    for (measure.stage = 1; measure.stage <= STAGES; measure.stage++) {
        specials(&measure, visit);
        for (int exponent = -SIZE; exponent <= SIZE; exponent++)
            around(&measure, visit, ldexp(1, exponent), STEPS);
        powers_of_two(&measure, visit, -1074, 1023);
        around_one(&measure, visit, 200000);
        of_all_sizes(&measure, visit, -SIZE, SIZE - 1, 700000);
        evenly(&measure, visit, 0.1, 10, 400000);
    }
    return print_measure(&measure);
}

bool measure_inverse_power(void) {
    Measure measure = {.function = "inverse_power", .error = "|r a^s - 1|", .band = 44, .has_stage = true};
    return over_stages(measure, visit_power);
}

bool measure_inverse_root(void) {
    Measure measure = {.function = "inverse_root", .error = "|r^s a - 1|", .band = 40, .has_stage = true};
    return over_stages(measure, visit_root);
}
