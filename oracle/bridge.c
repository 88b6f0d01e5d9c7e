// Reaches our archives on a machine whose processor cannot run them: an x86-64 program without a C
// library, run under an emulator. It reads requests on standard input and answers each on standard
// output: operation, count, then count inputs (pairs for multiply, add and the powers); count answers.
// A stretch, a start and an end of the excitation, the calls on spectra (bridge_spectrum.c), those of the filters
// (bridge_filter.c), those of the voices (bridge_voice.c, bridge_rest.c) and those on sound files (bridge_sound.c) come one a
// request: the count is that of the words.
// Every word is 8 bytes, little-endian. The driver's side is src/bridge.rs.
#include <stddef.h>
#include <stdint.h>

double kipawnore_sqrt(double x);
uint64_t kipawnore_wrapping_mul(uint64_t a, uint64_t b);
uint64_t kipawnore_wrapping_add(uint64_t a, uint64_t b);
uint64_t kipawnore_bits_of(double x);
double kipawnore_float_of(uint64_t b);
double kipawnore_exp(double x);
double kipawnore_ln(double x);
double kipawnore_cos(double x);
double kipawnore_inverse_power(double a, uint64_t s);
double kipawnore_inverse_root(double a, uint64_t s);

void *memcpy(void *to, const void *from, size_t size);

typedef struct { double pitch, counter, increment, end_pitch; } Pulse;
typedef struct { uint64_t next; size_t used; double queue[64]; } Random;
typedef struct { size_t made; Pulse pulse; Random random; } Stretch;
Stretch kipawnore_stretch(Pulse pulse, Random random, double *line, size_t nline, const double *lpf, size_t nlpf, double *out, size_t nout);
Pulse kipawnore_start(Pulse pulse, _Bool voiced, double period, uint64_t fperiod);
Pulse kipawnore_end(Pulse pulse);

size_t spectrum(const uint64_t *inputs, uint64_t *answers);
size_t filter(const uint64_t *inputs, uint64_t *answers);
size_t voice(const uint64_t *inputs, uint64_t *answers);
size_t sound(const uint64_t *inputs, uint64_t *answers);

enum { SQRT, MULTIPLY, ADD, FLOAT_OF, BITS_OF, ROUND_TRIP, EXP, LN, COS, INVERSE_POWER, INVERSE_ROOT, STRETCH, START, END, SPECTRUM, FILTER, VOICE, SOUND, OPERATIONS };
enum { READ = 0, WRITE = 1, EXIT = 60, MOST = 1 << 16, TAPS = 64, STATE_WORDS = (sizeof(Pulse) + sizeof(Random)) / 8 };

static uint64_t inputs[2 * MOST];
static uint64_t answers[MOST];

static long system_call(long number, long a, long b, long c) {
    long result;
    __asm__ volatile("syscall" : "=a"(result) : "a"(number), "D"(a), "S"(b), "d"(c) : "rcx", "r11", "memory");
    return result;
}

_Noreturn void leave(int status) {
    for (;;) system_call(EXIT, status, 0, 0);
}

// Reads or writes `size` bytes in full. Returns 0 at the end of the input before the first byte;
// an end in the middle, or an error, ends the program.
static int transfer(int call, void *bytes, size_t size) {
    size_t done = 0;
    while (done < size) {
        long step = system_call(call, call, (long)bytes + (long)done, (long)(size - done));
        if (step == 0 && done == 0) return 0;
        if (step <= 0) leave(2);
        done += (size_t)step;
    }
    return 1;
}

static double as_double(uint64_t bits) {
    union { uint64_t bits; double value; } u = { .bits = bits };
    return u.value;
}

static uint64_t as_bits(double value) {
    union { double value; uint64_t bits; } u = { .value = value };
    return u.bits;
}

static size_t arity(uint64_t operation) {
    switch (operation) {
        case MULTIPLY: case ADD: case INVERSE_POWER: case INVERSE_ROOT: return 2;
        default: return 1;
    }
}

static uint64_t answer(uint64_t operation, const uint64_t *input) {
    double x = as_double(input[0]);
    switch (operation) {
        case SQRT: return as_bits(kipawnore_sqrt(x));
        case MULTIPLY: return kipawnore_wrapping_mul(input[0], input[1]);
        case ADD: return kipawnore_wrapping_add(input[0], input[1]);
        case FLOAT_OF: return as_bits(kipawnore_float_of(input[0]));
        case BITS_OF: return kipawnore_bits_of(x);
        case EXP: return as_bits(kipawnore_exp(x));
        case LN: return as_bits(kipawnore_ln(x));
        case COS: return as_bits(kipawnore_cos(x));
        case INVERSE_POWER: return as_bits(kipawnore_inverse_power(x, input[1]));
        case INVERSE_ROOT: return as_bits(kipawnore_inverse_root(x, input[1]));
        default: return kipawnore_bits_of(kipawnore_float_of(input[0])); // ROUND_TRIP
    }
}

// The inputs: nlpf, count, pulse, random, line, lpf. The answers: made, count samples, pulse, random, line.
static size_t stretch(void) {
    static double line[TAPS], lpf[TAPS], samples[MOST / 2];
    static struct { uint64_t nlpf, count; Pulse pulse; Random random; } asked;
    memcpy(&asked, inputs, sizeof asked);
    size_t nlpf = asked.nlpf, count = asked.count;
    if (nlpf > TAPS || count > MOST / 2) leave(3);
    memcpy(line, inputs + 2 + STATE_WORDS, nlpf * 8);
    memcpy(lpf, inputs + 2 + STATE_WORDS + nlpf, nlpf * 8);
    Stretch after = kipawnore_stretch(asked.pulse, asked.random, line, nlpf, lpf, nlpf, samples, count);
    answers[0] = after.made;
    memcpy(answers + 1, samples, count * 8);
    memcpy(answers + 1 + count, (char *)&after + offsetof(Stretch, pulse), STATE_WORDS * 8);
    memcpy(answers + 1 + count + STATE_WORDS, line, nlpf * 8);
    return 1 + count + STATE_WORDS + nlpf;
}

// The inputs: a pulse, then for a start voiced, period, fperiod. The answer is a pulse.
static size_t start_or_end(uint64_t operation) {
    Pulse pulse;
    memcpy(&pulse, inputs, sizeof pulse);
    pulse = operation == START ? kipawnore_start(pulse, inputs[4] != 0, as_double(inputs[5]), inputs[6]) : kipawnore_end(pulse);
    memcpy(answers, &pulse, sizeof pulse);
    return sizeof pulse / 8;
}

// Answers a request whose inputs are read; gives the number of answers.
static size_t answer_all(uint64_t operation, size_t count) {
    switch (operation) {
        case STRETCH: return stretch();
        case START: case END: return start_or_end(operation);
        case SPECTRUM: return spectrum(inputs, answers);
        case FILTER: return filter(inputs, answers);
        case VOICE: return voice(inputs, answers);
        case SOUND: return sound(inputs, answers);
    }
    size_t words = arity(operation);
    for (size_t i = 0; i < count; i++) answers[i] = answer(operation, inputs + i * words);
    return count;
}

void serve(void) {
    uint64_t request[2];
    while (transfer(READ, request, sizeof request)) {
        if (request[0] >= OPERATIONS || request[1] > MOST) leave(3);
        size_t count = request[1];
        if (count > 0 && !transfer(READ, inputs, count * arity(request[0]) * 8)) leave(2);
        transfer(WRITE, answers, answer_all(request[0], count) * 8);
    }
    leave(0);
}

// The stack is aligned at entry; a call puts it where the calling convention wants it.
__asm__(".globl _start\n_start:\n    call serve\n");
