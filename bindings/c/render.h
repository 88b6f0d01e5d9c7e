// A job rendered frame by frame. Where a call is refused, the program ends with a message.
#pragma once
#include "job.h"

// The most samples of a frame.
enum { MOST_FPERIOD = 4800 };

// Ends the program where a call is refused.
void require(uint64_t number, const char *call);

// A fresh voice for a job.
kipawnore_voice voice_of(const job *job);

// Renders a frame of a job with its voice, and gives the count of its samples.
size_t render_frame(const job *job, size_t frame, kipawnore_voice *voice, double out[MOST_FPERIOD]);
