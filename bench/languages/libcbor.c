/* Times of dagcbor_check, of libcbor's stream of tokens from the first byte to the last, which knows
   nothing of what stands in what, and of its cbor_load with the release of the tree (least.h). */
#include "least.h"
#include <cbor.h>

static void stream(Block *it) {
    size_t at = 0;
    while (at < it->length) {
        struct cbor_decoder_result result =
            cbor_stream_decode(it->bytes + at, it->length - at, &cbor_empty_callbacks, NULL);
        if (result.status != CBOR_DECODER_FINISHED) break;
        at += result.read;
    }
    it->is_good &= at == it->length;
}

static void load(Block *it) {
    struct cbor_load_result result;
    cbor_item_t *item = cbor_load(it->bytes, it->length, &result);
    it->is_good &= item != NULL && result.read == it->length;
    if (item != NULL) cbor_decref(&item);
}

int main(int count, char **words) {
    return measure_files((Call[CALLS]){check, stream, load}, count, words);
}
