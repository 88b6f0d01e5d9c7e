// The bridge's voices, kept here by their slot, so that a call sends only what it is given. The inputs: what to do, the
// slot; to open the configuration, to write the voice; to give, to draw and for a whole frame lf0, the lengths of spectrum,
// taps and buffer, the start, then the three arrays. The answers: to open the number; to read the voice; to give, to draw and
// for a whole frame the number, the samples made (0 to give), the buffer after it.
#include "bridge_voice.h"

// The words of a voice that hold a flag: the rest of such a word is nobody's.
enum { LOG_GAIN = offsetof(Configuration, log) / 8, FIRST = offsetof(Voice, first) / 8 };

typedef struct { double lf0; size_t nspectrum, nlpf, nout, start; } Asked;

static Voice voices[SLOTS];

static Configuration configuration(const uint64_t *words) {
    Configuration read;
    memcpy(&read, words, sizeof read);
    read.log = words[LOG_GAIN] != 0;
    return read;
}

static void write_voice(Voice *voice, const uint64_t *words) {
    memcpy(voice, words, sizeof *voice);
    voice->configuration = configuration(words);
    voice->first = words[FIRST] != 0;
}

static size_t read_voice(const Voice *voice, uint64_t *words) {
    memcpy(words, voice, sizeof *voice);
    words[LOG_GAIN] = voice->configuration.log;
    words[FIRST] = voice->first;
    return VOICE_WORDS;
}

static size_t open_voice(Voice *voice, const uint64_t *words, uint64_t *answers) {
    Answered opened = kipawnore_open(configuration(words));
    *voice = opened.voice;
    answers[0] = opened.number;
    return 1;
}

// Gives, draws or does a whole frame.
static size_t call(uint64_t what, Voice *voice, const uint64_t *words, uint64_t *answers) {
    static double arrays[ROOM];
    Asked a;
    memcpy(&a, words, sizeof a);
    if (a.nspectrum > ROOM || a.nlpf > ROOM || a.nout > ROOM || a.nspectrum + a.nlpf + a.nout > ROOM) leave(3);
    memcpy(arrays, words + sizeof a / 8, (a.nspectrum + a.nlpf + a.nout) * 8);
    double *spectrum = arrays, *lpf = spectrum + a.nspectrum, *out = lpf + a.nlpf;
    Drawn drawn;
    if (what == GIVE) {
        Answered given = kipawnore_give(*voice, a.lf0, spectrum, a.nspectrum, lpf, a.nlpf);
        drawn = (Drawn){ .number = given.number, .made = 0, .voice = given.voice };
    } else if (what == DRAW) {
        drawn = kipawnore_draw(*voice, out, a.nout, a.start);
    } else {
        drawn = kipawnore_whole_frame(*voice, a.lf0, spectrum, a.nspectrum, lpf, a.nlpf, out, a.nout, a.start);
    }
    *voice = drawn.voice;
    answers[0] = drawn.number;
    answers[1] = drawn.made;
    memcpy(answers + 2, out, a.nout * 8);
    return 2 + a.nout;
}

// Answers a request whose inputs are read; gives the number of answers.
size_t voice(const uint64_t *inputs, uint64_t *answers) {
    uint64_t what = inputs[0];
    const uint64_t *words = inputs + 2;
    if (inputs[1] >= SLOTS) leave(3);
    Voice *voice = &voices[inputs[1]];
    switch (what) {
        case OPEN: return open_voice(voice, words, answers);
        case READ: return read_voice(voice, answers);
        case WRITE: write_voice(voice, words); return 0;
        case SAVE: case RESTORE: case CUT: return rest(what, voices, inputs[1], words, answers);
        default: return call(what, voice, words, answers); // GIVE, DRAW, WHOLE_FRAME
    }
}
