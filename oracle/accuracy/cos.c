// cos up to 2^20 in size; all others are outside.
#include "arguments.h"
#include "functions.h"
#include "ours.h"

#include <math.h>
#include <quadmath.h>

static const double LIMIT = 0x1p20;

static void visit(Measure *measure, double x) {
    double answer = kipawnore_cos(x);
    if (!(fabs(x) <= LIMIT)) {
        note_fixed(measure, x, answer, NAN);
    } else if (x == 0) {
        note_fixed(measure, x, answer, 1);
    } else {
        note_error(measure, x, fabsq(answer - cosq(x)));
    }
}

// Every multiple of half of pi, of both signs, from the first one on, `stride` of them apart.
static void around_multiples(Measure *measure, int first, int stride, int steps) {
    int last = (int)(LIMIT / M_PI_2q);
    for (int halves = first; halves <= last; halves += stride) {
        double x = (double)(halves * M_PI_2q);
        around(measure, visit, x, steps);
        around(measure, visit, -x, steps);
    }
}

// Every whole number: a guess of k may be made from the whole part.
static void around_whole_numbers(Measure *measure) {
    for (double whole = 1; whole < LIMIT; whole++) around(measure, visit, whole, 1);
}

bool measure_cos(void) {
    Measure measure = {.function = "cos", .error = "absolute", .band = 44};
    specials(&measure, visit);
    around(&measure, visit, LIMIT, STEPS);
    around(&measure, visit, -LIMIT, STEPS);
    // All multiples; then, with more steps, a spread of the odd multiples of pi, where k changes.
    around_multiples(&measure, 1, 1, 1);
    around_multiples(&measure, 2, 4 * 97, STEPS);
    around_whole_numbers(&measure);
    powers_of_two(&measure, visit, -1074, 20);
    evenly(&measure, visit, -LIMIT, LIMIT, 3000000);
    evenly(&measure, visit, -8, 8, 2000000);
    of_all_sizes_and_signs(&measure, visit, -60, 19, 1000000);
    return print_measure(&measure);
}
