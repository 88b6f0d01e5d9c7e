// The measurements, one file each. True where a function keeps its band and its fixed answers.
#ifndef FUNCTIONS_H
#define FUNCTIONS_H

#include <stdbool.h>

bool measure_exp(void);
bool measure_ln(void);
bool measure_cos(void);
bool measure_inverse_power(void);
bool measure_inverse_root(void);

#endif
