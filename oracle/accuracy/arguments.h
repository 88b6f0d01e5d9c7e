// Sets of arguments, each visited in turn.
#ifndef ARGUMENTS_H
#define ARGUMENTS_H

#include "measure.h"

// How many floats on either side of a place belong to it.
enum { STEPS = 20 };

void seed_arguments(uint64_t seed);

// The centre and `steps` floats on either side.
void around(Measure *measure, Visit *visit, double centre, int steps);

// Random, evenly spread over [low, high).
void evenly(Measure *measure, Visit *visit, double low, double high, int count);

// Random floats in size from 2^least up to below 2^(most + 1), every power of two alike.
void of_all_sizes(Measure *measure, Visit *visit, int least, int most, int count);

// The same, of both signs.
void of_all_sizes_and_signs(Measure *measure, Visit *visit, int least, int most, int count);

// Every power of two from 2^least to 2^most and one step either side, of both signs.
void powers_of_two(Measure *measure, Visit *visit, int least, int most);

// 1 + 2^-e and 1 - 2^-e for every e, with their neighbours, and random ones between.
void around_one(Measure *measure, Visit *visit, int count);

// Zeros, infinities, a NaN, the smallest and the largest, of both signs.
void specials(Measure *measure, Visit *visit);

#endif
