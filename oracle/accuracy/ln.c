// ln of positive normal finite numbers; all others are outside.
#include "arguments.h"
#include "functions.h"
#include "ours.h"

#include <float.h>
#include <math.h>
#include <quadmath.h>

static void visit(Measure *measure, double x) {
    double answer = kipawnore_ln(x);
    if (!(x >= DBL_MIN && x <= DBL_MAX)) {
        note_fixed(measure, x, answer, NAN);
    } else if (x == 1) {
        note_fixed(measure, x, answer, 0);
    } else {
        quad exact = logq(x);
        note_error(measure, x, fabsq((answer - exact) / exact));
    }
}

// 2^k m for every k, with m where it begins, where t changes sign, and where it ends.
static void around_ends_of_m(Measure *measure) {
    for (int k = -1022; k <= 1023; k++) {
        around(measure, visit, ldexp(0.75, k), STEPS);
        around(measure, visit, ldexp(1, k), STEPS);
        around(measure, visit, ldexp(1.5, k), STEPS);
    }
}

bool measure_ln(void) {
    Measure measure = {.function = "ln", .error = "relative", .band = 48};
    specials(&measure, visit);
    around(&measure, visit, DBL_MIN, STEPS);
    around(&measure, visit, DBL_MAX, STEPS);
    around_ends_of_m(&measure);
    around_one(&measure, visit, 3000000);
    powers_of_two(&measure, visit, -1074, 1023);
    of_all_sizes(&measure, visit, -1022, 1023, 4000000);
    evenly(&measure, visit, 0, 1, 3000000);
    return print_measure(&measure);
}
