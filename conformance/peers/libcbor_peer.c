/* libcbor: loads one item and serializes it; it has no canonical option. */
#include "lines.h"

#include <cbor.h>

static void answer(const uint8_t *block, size_t length) {
    struct cbor_load_result result;
    cbor_item_t *item = cbor_load(block, length, &result);
    unsigned char *again = NULL;
    size_t room = 0;
    if (!item) {
        printf(result.error.code == CBOR_ERR_MEMERROR ? "refused memory" : "refused error");
    } else if (result.read < length) {
        printf("refused trailing");
    } else {
        size_t written = cbor_serialize_alloc(item, &again, &room);
        printf("ok ");
        put(again, written);
    }
    free(again);
    if (item) cbor_decref(&item);
}
