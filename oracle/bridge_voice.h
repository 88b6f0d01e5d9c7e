// The voice by shorter names, and what the bridge is asked to do with the voices that it keeps in slots.
#pragma once
#include "../bindings/c/kipawnore.h"

typedef kipawnore_configuration Configuration;
typedef kipawnore_voice Voice;
typedef kipawnore_answered Answered;
typedef kipawnore_drawn Drawn;
typedef kipawnore_saved Saved;

enum { GIVE, DRAW, WHOLE_FRAME, OPEN, READ, WRITE, SAVE, RESTORE, CUT };
enum { SLOTS = 4, ROOM = 1 << 14, VOICE_WORDS = sizeof(Voice) / 8 };

void *memcpy(void *to, const void *from, size_t size);
_Noreturn void leave(int status);

// Saves, restores or cuts (bridge_rest.c).
size_t rest(uint64_t what, Voice *voices, size_t slot, const uint64_t *words, uint64_t *answers);
