// Measures the errors of our four functions against quadmath. See ../README.md.
// Status: 0 every band holds, 1 one is broken or an answer is wrong, 2 a seed that is no number.
#include "arguments.h"
#include "functions.h"

#include <stdio.h>
#include <stdlib.h>

static const char DEFAULT_SEED[] = "1";

int main(void) {
    const char *text = getenv("ORACLE_SEED");
    if (text == NULL) text = DEFAULT_SEED;
    char *end;
    uint64_t seed = strtoull(text, &end, 10);
    if (end == text || *end != '\0') {
        fprintf(stderr, "accuracy: ORACLE_SEED is not a number: %s\n", text);
        return 2;
    }
    printf("seed %s; ours against quadmath\n", text);
    print_heading();
    bool (*const measures[])(void) = {measure_exp, measure_ln, measure_cos, measure_inverse_power,
                                      measure_inverse_root};
    bool held = true;
    for (unsigned i = 0; i < sizeof measures / sizeof *measures; i++) {
        seed_arguments(seed);
        held &= measures[i]();
    }
    return held ? 0 : 1;
}
