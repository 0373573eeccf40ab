/* The heap of libdagcbor_memory_ffi.a, over that of C. A program with another heap defines these
 * three calls over it. C++ compiles this too. */
#include <stdlib.h>

#ifdef __cplusplus
extern "C" {
#endif

/* Says if there is memory, and where; if there is none, a pointer to anything but NULL. */
struct room {
    size_t is_there;
    void *at;
};

static struct room room_at(void *at) {
    static char none[16];
    struct room room = {at != NULL, at ? at : none};
    return room;
}

struct room rattle_alloc(size_t size, size_t align) {
    return room_at(malloc(size ? size : align));
}

/* `kept` bytes of the old memory are kept; if there is no room, it stays as it was. */
struct room rattle_realloc(void *old, size_t kept, size_t size, size_t align) {
    (void)kept;
    return room_at(realloc(old, size ? size : align));
}

void rattle_dealloc(void *old) { free(old); }

#ifdef __cplusplus
}
#endif
