// What the tests in C share: checks that are counted, the numbers that came up, and whole voices compared.
#pragma once
#include "job.h"

// Counts a check, and prints it where it fails.
#define CHECK(holds) check((holds), #holds, __FILE__, __LINE__)
void check(bool holds, const char *what, const char *file, int line);

// The same of a call's number, which then counts as seen.
#define ANSWERS(number, wanted) answers((number), (wanted), #number, __FILE__, __LINE__)
void answers(uint64_t number, uint64_t wanted, const char *what, const char *file, int line);

// Whether two voices are the same bit for bit, all NaNs taken as one.
bool same_voice(const kipawnore_voice *one, const kipawnore_voice *other);

// A voice that must open.
kipawnore_voice opened(kipawnore_configuration configuration);

// The voice of a job in the middle of its second voiced frame, from which some samples are drawn.
enum { BUSY_DRAWN = 8 };
kipawnore_voice busy_voice(const job *job);

// The records of a voice that must be saved. Gives their length.
size_t saved(const kipawnore_voice *voice, uint8_t records[KIPAWNORE_MOST_BYTES]);

// A word, low byte first, in a buffer.
uint64_t word_at(const uint8_t *bytes);
void put_word(uint8_t *bytes, uint64_t word);

// The bytes of a record, and where its value is.
enum { RECORD = 16, VALUE = 8 };

// The tests, one file each.
void test_layout(const char *folder);
void test_refusals(const char *folder);
void test_announcement(const char *folder);
void test_sound(void);
