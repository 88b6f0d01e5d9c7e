// For C and C++, the voice, six calls in libexport_voice.a, and sound files, five calls in libexport_sound.a; each with its answer by value. What
// they answer is document 01's, and for sound files document 02's (L4), proved for every input. No call allocates, keeps anything or reads a
// clock; voices may be used in any threads. A call with a voice takes some 190 KiB of stack.
//
// The scale of a sample: 1.0 is one step of 16 bits, so full scale is 32,768 and not 1.
//
// A caller owes three things. A pointer with a length goes with that many elements, aligned as C aligns them; NULL goes with a length
// of 0. A buffer that is written overlaps nothing else that is handed in. A flag is false or true: an assignment always makes it
// so, raw bytes copied over it might not. Anything else is answered by a number.
#ifndef KIPAWNORE_H
#define KIPAWNORE_H

#include <stdbool.h>
#include <stddef.h>
#include <stdint.h>

#ifdef __cplusplus
extern "C" {
#endif

// What a call answers. Where several apply, the first in this order: 0, 1, 2, 14, then 3 to 13. A refused call returns the voice it was handed, but for 1 and 11.
// In writing a sound file the order is 1, 22, 23. In reading one it is that of the file, 20 before 21 at the same chunk, and 23 last.
enum {
    KIPAWNORE_DONE = 0,
    KIPAWNORE_LIMIT_BROKEN = 1,     // open: the voice returned is idle. Sound: bits are neither 16 nor 24, or a rate is not 1 to 192,000
    KIPAWNORE_VOICE_IDLE = 2,       // all but open and restore
    KIPAWNORE_SAMPLES_LEFT = 3,     // give: the last frame is not drawn to its end
    KIPAWNORE_SPECTRUM_LENGTH = 4,  // give: it is not nmcp
    KIPAWNORE_TAP_COUNT = 5,        // give: it is not nlpf
    KIPAWNORE_NOT_FINITE = 6,       // give: lf0, a spectrum entry or a tap
    KIPAWNORE_ENTRY_BEYOND = 7,     // give: stage 1 or more, a spectrum entry beyond 2^20 in size
    KIPAWNORE_METER_FULL = 8,       // give: meter and fperiod come to more than 2^63 - 1
    KIPAWNORE_ARGUMENT_OUTSIDE = 9, // give: preparing meets an argument outside ln, cos or power
    KIPAWNORE_NOTHING_LEFT = 10,    // draw
    KIPAWNORE_NOISE_DRY = 11,       // draw: the samples made stand. No state of the noise leads here
    KIPAWNORE_RECORDS_LONGER = 12,  // save: the buffer is shorter than the records
    KIPAWNORE_RECORDS_WRONG = 13,   // restore: the records are not acceptable
    KIPAWNORE_BUFFER_SHORT = 14,    // whole frame: less room than fperiod
    KIPAWNORE_NOT_SOUND_FILE = 20,  // read sound: not RIFF WAVE, PCM, one channel, 16 or 24 bits
    KIPAWNORE_CHUNK_PAST_END = 21,  // read sound: a chunk runs past the end
    KIPAWNORE_TOO_LONG = 22,        // write sound, sound header: a length does not fit the 32 bits that the file has for it
    KIPAWNORE_ROOM_SHORT = 23       // sound: the buffer is shorter than what goes into it
};

// The room that the largest voice needs to be saved.
#define KIPAWNORE_MOST_BYTES 14672

// What a voice is opened with.
typedef struct {
    size_t nmcp;     // entries of a spectrum, 2 to 64
    size_t nlpf;     // filter taps of a frame, 0 to 64
    uint64_t stage;  // 0 for mel-cepstra, 1 to 8 for line spectral pairs
    bool log;        // whether entry 0 of line spectral pairs is a log gain
    uint64_t rate;   // samples a second, 1 to 192,000
    double alpha;    // strictly between -1 and 1
    double beta;     // the postfilter, 0 to 1
    double volume;   // finite
    size_t fperiod;  // samples a frame, 1 to 4,800
    double nodata;   // the log F0 of an unvoiced frame, finite
    double low;      // the limits of log F0, -20 to 20
    double high;
} kipawnore_configuration;

typedef struct {
    double pitch, counter, increment, end;
} kipawnore_pulse;

typedef struct {
    uint64_t next;
    size_t used;
    double queue[64];
} kipawnore_random;

typedef struct {
    double d11[6], d12[6], d21[384], d22[6];
} kipawnore_zero;

typedef struct {
    double d[512];
} kipawnore_nonzero;

// A voice. It comes from open or restore; one of zeros is idle. A caller may read all of it: the meter counts the samples made, left
// those of the last frame that are still to be drawn. One whose values break restore's rules counts as idle.
typedef struct {
    kipawnore_configuration configuration;
    uint64_t meter;
    size_t left;
    bool first;
    kipawnore_pulse pulse;
    double line[64], lpf[64];
    kipawnore_random random;
    double coefficients[64], increments[64], targets[64];
    kipawnore_zero zero;
    kipawnore_nonzero nonzero;
} kipawnore_voice;

typedef struct {
    uint64_t number;
    kipawnore_voice voice;
} kipawnore_answered;

typedef struct {
    uint64_t number;
    size_t made; // samples, also where the noise is dry
    kipawnore_voice voice;
} kipawnore_drawn;

typedef struct {
    uint64_t number;
    size_t bytes;
} kipawnore_saved;

// A fresh voice.
kipawnore_answered kipawnore_open(kipawnore_configuration configuration);

// A frame: log F0, nmcp entries, nlpf taps. After it fperiod samples are left to draw.
kipawnore_answered kipawnore_give(kipawnore_voice voice, double lf0, const double *spectrum, size_t nspectrum, const double *lpf, size_t nlpf);

// As many samples as are left and as out has room for from start on. Nothing else of out changes; a start past its end leaves no room.
kipawnore_drawn kipawnore_draw(kipawnore_voice voice, double *out, size_t nout, size_t start);

// Give, then draw all of the frame.
kipawnore_drawn kipawnore_whole_frame(kipawnore_voice voice, double lf0, const double *spectrum, size_t nspectrum, const double *lpf, size_t nlpf,
                                      double *out, size_t nout, size_t start);

// The voice as records, from the front of out.
kipawnore_saved kipawnore_save(kipawnore_voice voice, uint8_t *out, size_t nout);

// The voice in the records, in the place of any voice.
kipawnore_answered kipawnore_restore(kipawnore_voice voice, const uint8_t *bytes, size_t nbytes);

// What was written of a sound file. Where it is refused, nothing.
typedef struct {
    uint64_t number;
    size_t bytes;
    size_t held; // samples held back
} kipawnore_written;

// What a sound file is. Where it is refused all is 0, but where the room is short.
typedef struct {
    uint64_t number;
    uint64_t bits; // 16 or 24
    uint64_t rate;
    size_t count; // of samples
} kipawnore_heard;

// The bytes of a sound file before its samples.
#define KIPAWNORE_HEADER_BYTES 44

// A sound file of samples, from the front of out: RIFF WAVE, PCM, one channel, of 16 or 24 bits. The number written is the sample, at 24 bits 256 times
// it, rounded to nearest, ties to even; one outside what the bits hold is held to their end and counted; a NaN is 0. The file has 44 bytes, 2 or
// 3 a sample, and one more where these are odd. It has at most 2,147,483,629 samples of 16 bits, 1,431,655,752 of 24.
kipawnore_written kipawnore_write_sound(uint64_t bits, uint64_t rate, const double *samples, size_t nsamples, uint8_t *out, size_t nout);

// The same file in pieces: the 44 bytes before so many samples; the bytes of any part of them, as often as need be; the 0 or 1 bytes after so many.
kipawnore_written kipawnore_sound_header(uint64_t bits, uint64_t rate, size_t count, uint8_t *out, size_t nout);
kipawnore_written kipawnore_sound_part(uint64_t bits, const double *samples, size_t nsamples, uint8_t *out, size_t nout);
kipawnore_written kipawnore_sound_pad(uint64_t bits, size_t count, uint8_t *out, size_t nout);

// The numbers of a sound file, from the front of out; unknown chunks are skipped. A file of n bytes has fewer than n / 2 samples, so room for n / 2 is
// always enough. With too little room, or none, the answer is 23 and tells bits, rate and count.
kipawnore_heard kipawnore_read_sound(const uint8_t *bytes, size_t nbytes, int32_t *out, size_t nout);

// The layout of the archives. C++ has no underscore before the word.
#ifdef __cplusplus
#define KIPAWNORE_ASSERT static_assert
#else
#define KIPAWNORE_ASSERT _Static_assert
#endif
KIPAWNORE_ASSERT(sizeof(size_t) == 8 && sizeof(bool) == 1 && sizeof(double) == 8, "the archives are of a processor of 64 bits");
KIPAWNORE_ASSERT(sizeof(kipawnore_configuration) == 96, "configuration");
KIPAWNORE_ASSERT(offsetof(kipawnore_configuration, log) == 24 && offsetof(kipawnore_configuration, rate) == 32, "the flag of the log gain");
KIPAWNORE_ASSERT(offsetof(kipawnore_configuration, fperiod) == 64 && offsetof(kipawnore_configuration, high) == 88, "configuration's end");
KIPAWNORE_ASSERT(sizeof(kipawnore_pulse) == 32 && sizeof(kipawnore_random) == 528, "pulse train and noise");
KIPAWNORE_ASSERT(sizeof(kipawnore_zero) == 3216 && sizeof(kipawnore_nonzero) == 4096, "the filters");
KIPAWNORE_ASSERT(offsetof(kipawnore_voice, meter) == 96 && offsetof(kipawnore_voice, left) == 104, "meter and samples left");
KIPAWNORE_ASSERT(offsetof(kipawnore_voice, first) == 112 && offsetof(kipawnore_voice, pulse) == 120, "the first flag");
KIPAWNORE_ASSERT(offsetof(kipawnore_voice, line) == 152 && offsetof(kipawnore_voice, lpf) == 664, "line and taps");
KIPAWNORE_ASSERT(offsetof(kipawnore_voice, random) == 1176, "noise");
KIPAWNORE_ASSERT(offsetof(kipawnore_voice, coefficients) == 1704 && offsetof(kipawnore_voice, increments) == 2216, "coefficients");
KIPAWNORE_ASSERT(offsetof(kipawnore_voice, targets) == 2728, "targets");
KIPAWNORE_ASSERT(offsetof(kipawnore_voice, zero) == 3240 && offsetof(kipawnore_voice, nonzero) == 6456, "where the filters are");
KIPAWNORE_ASSERT(sizeof(kipawnore_voice) == 10552, "voice");
KIPAWNORE_ASSERT(offsetof(kipawnore_answered, voice) == 8 && sizeof(kipawnore_answered) == 10560, "answered");
KIPAWNORE_ASSERT(offsetof(kipawnore_drawn, voice) == 16 && sizeof(kipawnore_drawn) == 10568, "drawn");
KIPAWNORE_ASSERT(sizeof(kipawnore_saved) == 16, "saved");
KIPAWNORE_ASSERT(offsetof(kipawnore_written, bytes) == 8 && offsetof(kipawnore_written, held) == 16, "what was written");
KIPAWNORE_ASSERT(offsetof(kipawnore_heard, bits) == 8 && offsetof(kipawnore_heard, rate) == 16, "width and rate");
KIPAWNORE_ASSERT(offsetof(kipawnore_heard, count) == 24, "the count of samples");
KIPAWNORE_ASSERT(sizeof(kipawnore_written) == 24 && sizeof(kipawnore_heard) == 32, "written and heard");
#undef KIPAWNORE_ASSERT

#ifdef __cplusplus
}
#endif
#endif
