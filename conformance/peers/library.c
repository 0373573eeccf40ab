/* The proved library: what a block is spelled as from its tokens, its kind and its links; or the refusal's name and place. */
#include "lines.h"

#include "dagcbor.h"

static void answer(const uint8_t *block, size_t length) {
    size_t count, place, needed;
    dagcbor_token *tape = malloc((length + 1) * sizeof *tape);
    uint8_t *again = malloc(length + 1), *links = malloc(length + 1);
    int32_t kind = dagcbor_tokens(block, length, tape, length, &count, &place);
    if (kind < 0) {
        printf("refused %s %zu", dagcbor_name_of_code(kind), place);
    } else if (dagcbor_spell(block, length, tape, count, again, length, &needed) != kind) {
        printf("refused to write");
    } else {
        printf("ok ");
        put(again, needed);
        printf(" %s", dagcbor_name_of_code(kind));
        dagcbor_links(block, length, links, length, &needed);
        for (size_t i = 0; i < needed; i += 1 + links[i]) putchar(' '), put(links + i + 1, links[i]);
    }
    free(tape), free(again), free(links);
}
