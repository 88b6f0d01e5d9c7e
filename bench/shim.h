// What the shims share: the words of our archives' structs. No header of a system is read.
//
// A struct that is given back is written where the first argument points, which the answer then is: on x86-64 that is how a struct comes back by
// value, and it is how our modules say it.
#pragma once
typedef unsigned long Word;

typedef struct { double pitch, counter, increment, end; } Pulse;
typedef struct { Word next, used; double queue[64]; } Random;
