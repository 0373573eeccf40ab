/* Times of dagcbor_check, of dagcbor_tape, and of dagcbor_spell of that tape (least.h). */
#include "least.h"

static void tape(Block *it) {
    dagcbor_tape(it->bytes, it->length, it->tape, it->length, &it->count);
}

static void spell(Block *it) {
    dagcbor_spell(it->bytes, it->length, it->tape, it->count, it->out, it->length, &it->needed);
}

int main(int count, char **words) {
    return measure_files((Call[CALLS]){check, tape, spell}, count, words);
}
