// Saving and restoring the bridge's voices. The inputs: to save or to restore the number of bytes, then the bytes of the buffer, in
// whole words; to cut the number of steps, then of each the room to draw into, the bytes of the buffer to save into, the slot of
// the voice that is restored into. The answers: to save the number, the bytes reported, the buffer after it; to restore the number; of each
// step the number of the draw, the samples made, those of the save, the number of the restore, the samples' buffer, the bytes' buffer.
#include "bridge_voice.h"

// bridge.c has room for as many answers.
enum { MOST = 1 << 16, MOST_BYTES = ROOM * 8, STEP_WORDS = 5 };
// What the buffers of a step hold before it, and the number of a restore that was not asked for, since the save was refused.
enum { BEFORE = 0xA5 };
#define NOT_ASKED UINT64_MAX

typedef struct { size_t room, length, into; } Step;

static uint8_t bytes[MOST_BYTES];

static size_t words_of(size_t length) {
    return (length + 7) / 8;
}

// Puts the buffer of so many bytes into whole words.
static void put_bytes(uint64_t *answers, size_t length) {
    if (length > 0) answers[words_of(length) - 1] = 0;
    memcpy(answers, bytes, length);
}

static size_t save(const Voice *voice, size_t length, uint64_t *answers) {
    Saved saved = kipawnore_save(*voice, bytes, length);
    answers[0] = saved.number;
    answers[1] = saved.bytes;
    put_bytes(answers + 2, length);
    return 2 + words_of(length);
}

static size_t restore(Voice *voice, size_t length, uint64_t *answers) {
    Answered restored = kipawnore_restore(*voice, bytes, length);
    *voice = restored.voice;
    answers[0] = restored.number;
    return 1;
}

// Draws, saves and, where that is done, restores into another voice, with which it goes on.
static size_t step(Voice *voice, const Voice *into, const Step *asked, uint64_t *answers) {
    static double samples[ROOM];
    for (size_t i = 0; i < asked->room; i++) samples[i] = 1.0;
    for (size_t i = 0; i < asked->length; i++) bytes[i] = BEFORE;
    Drawn drawn = kipawnore_draw(*voice, samples, asked->room, 0);
    Saved saved = kipawnore_save(drawn.voice, bytes, asked->length);
    uint64_t number = NOT_ASKED;
    if (saved.number == 0) {
        Answered restored = kipawnore_restore(*into, bytes, saved.bytes);
        number = restored.number;
        *voice = restored.voice;
    } else {
        *voice = drawn.voice;
    }
    memcpy(answers, (uint64_t[STEP_WORDS]){ drawn.number, drawn.made, saved.number, saved.bytes, number }, STEP_WORDS * 8);
    memcpy(answers + STEP_WORDS, samples, asked->room * 8);
    put_bytes(answers + STEP_WORDS + asked->room, asked->length);
    return STEP_WORDS + asked->room + words_of(asked->length);
}

static size_t cut(Voice *voices, size_t slot, const uint64_t *words, uint64_t *answers) {
    const size_t count = words[0];
    size_t done = 0;
    for (size_t i = 0; i < count; i++) {
        Step asked;
        memcpy(&asked, words + 1 + 3 * i, sizeof asked);
        if (asked.room > ROOM || asked.length > MOST_BYTES || asked.into >= SLOTS) leave(3);
        if (done + STEP_WORDS + asked.room + words_of(asked.length) > MOST) leave(3);
        done += step(&voices[slot], &voices[asked.into], &asked, answers + done);
    }
    return done;
}

size_t rest(uint64_t what, Voice *voices, size_t slot, const uint64_t *words, uint64_t *answers) {
    if (what == CUT) return cut(voices, slot, words, answers);
    size_t length = words[0];
    if (length > MOST_BYTES) leave(3);
    memcpy(bytes, words + 1, length);
    return what == SAVE ? save(&voices[slot], length, answers) : restore(&voices[slot], length, answers);
}
