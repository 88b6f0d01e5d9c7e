// Our functions in libexports.a. A NaN says that the argument is outside; exp has no outside.
#ifndef OURS_H
#define OURS_H

#include <stdint.h>

double kipawnore_exp(double x);
double kipawnore_ln(double x);
double kipawnore_cos(double x);
double kipawnore_inverse_power(double a, uint64_t s);
double kipawnore_inverse_root(double a, uint64_t s);

#endif
