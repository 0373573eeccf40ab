/* Reads frames of a host's stream (AT Protocol) by libdagcbor_memory_ffi.a, one after the other: it
   prints the kind of each, and for a commit what is verified of it from its frame alone.

     events FILE

   A line is a frame: `commit BYTES`, with the number of bytes of the answer; the number of another
   kind; or the name of why the commit is not verified. The status is 0 if each frame is read and its
   line is written, and 2 if memory runs out, which says nothing of the frame. */
#include "asking.h"
#include <stdio.h>

enum { MOST = 1 << 22 };

int main(int count, char **paths) {
    static uint8_t bytes[MOST];
    FILE *file = count == 2 ? fopen(paths[1], "rb") : NULL;
    if (!file) return 2;
    size_t length = fread(bytes, 1, MOST, file), at = 0, body, end;
    if (!feof(file)) return fclose(file), 2;
    fclose(file);
    while (at < length) {
        int32_t kind = dagcbor_event_frame(bytes + at, length - at, &body, &end);
        Lent nothing = {dagcbor_from(NULL, 0), 0};
        Question it = {.bytes = {bytes + at, end}, .root = nothing, .rev = nothing};
        if (kind == DAGCBOR_FRAME_COMMIT) ask(&it, event_of);
        if (kind == DAGCBOR_NO_MEMORY || it.code == DAGCBOR_NO_MEMORY) return 2;
        if (kind < 0) return printf("%s at %zu\n", dagcbor_name_of_code(kind), at), 1;
        if (kind != DAGCBOR_FRAME_COMMIT) printf("kind %d\n", (int)kind);
        else if (it.code == DAGCBOR_VERIFIED) printf("commit %zu\n", it.needed);
        else printf("%s\n", dagcbor_name_of_code(it.code));
        free(it.answer);
        at += end;
    }
    return ferror(stdout) || fflush(stdout) != 0 ? 2 : 0;
}
