// exp on -708 to 709; +infinity above, 0 below, NaN from NaN.
#include "arguments.h"
#include "functions.h"
#include "ours.h"

#include <math.h>
#include <quadmath.h>

static const double LOW = -708, HIGH = 709;

static void visit(Measure *measure, double x) {
    double answer = kipawnore_exp(x);
    if (isnan(x)) {
        note_fixed(measure, x, answer, NAN);
    } else if (x > HIGH) {
        note_fixed(measure, x, answer, INFINITY);
    } else if (x < LOW) {
        note_fixed(measure, x, answer, 0);
    } else if (x == 0) {
        note_fixed(measure, x, answer, 1);
    } else {
        quad exact = expq(x);
        note_error(measure, x, fabsq((answer - exact) / exact));
    }
}

// Every multiple of half of ln 2: at the odd ones k changes, at the even ones the rest changes sign.
static void around_multiples(Measure *measure) {
    for (int halves = -2 * 1022; halves <= 2 * 1023; halves++)
        around(measure, visit, (double)(halves * M_LN2q / 2), STEPS);
}

bool measure_exp(void) {
    Measure measure = {.function = "exp", .error = "relative", .band = 48};
    specials(&measure, visit);
    around(&measure, visit, LOW, STEPS);
    around(&measure, visit, HIGH, STEPS);
    around_multiples(&measure);
    powers_of_two(&measure, visit, -1074, 10);
    evenly(&measure, visit, LOW, HIGH, 5000000);
    evenly(&measure, visit, -8, 8, 4000000);
    of_all_sizes_and_signs(&measure, visit, -60, 8, 1000000);
    return print_measure(&measure);
}
