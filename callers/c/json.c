/* Calls the functions of DAG-JSON for each row of their table: json TABLE. Prints the number of
 * rows, or the row that gets another answer. */
#include "dagcbor_memory.h"
#include "rows.h"

static size_t place;

static int32_t from_json(const uint8_t *text, size_t length, uint8_t *out, size_t room,
                         size_t *needed) {
    place = 99;
    return dagcbor_from_json(text, length, out, room, needed, &place);
}

static int are_right_both(char *const field[5]) {
    static uint8_t text[MOST], block[MOST], written[MOST];
    size_t length = from_hex(field[0], text, 0), count = from_hex(field[2], block, 0);
    size_t size = from_hex(field[4], written, 0);
    int read = atoi(field[1]), told = atoi(field[3]);
    const uint8_t *bytes = dagcbor_from(text, length), *it = dagcbor_from(block, count);
    if (!puts_right(from_json, bytes, length, read, block, read < 0 ? 0 : count)) return 0;
    if (read < 0 ? place > length : place != length) return 0;
    return strcmp(field[3], "-") == 0 || puts_right(dagcbor_to_json, it, count, told, written, size);
}

int main(int count, char **words) {
    int rows = count == 2 ? rows_of(words[1], 5, are_right_both) : 0;
    printf("%d texts and blocks\n", rows);
    return !rows;
}
