// The heap of the runs (faults/runs), in place of the toolchain's, and the call by which their devices fail.
// A run asks for the fault by one of the calls at the end; `stop_refusing` says if it came.
#include <stdlib.h>

static unsigned long wanted_allocation, wanted_call; // which one is refused; 0: none
static unsigned long allocations, calls;             // how many there were
static int every_allocation, came;

static int refuses(void) {
    if (!wanted_allocation)
        return 0;
    allocations++;
    if (allocations == wanted_allocation || every_allocation)
        return came = 1;
    return 0;
}

// What the toolchain's compiled code calls: these say if there is room, and where.
struct room {
    unsigned long is_there;
    void *at;
};

static char nowhere;

static struct room room_at(void *at) {
    struct room room = {at != NULL, at ? at : &nowhere};
    return room;
}

struct room rattle_alloc(size_t size, size_t align) {
    return room_at(refuses() ? NULL : malloc(size ? size : align));
}

struct room rattle_realloc(void *old, size_t kept, size_t size, size_t align) {
    (void)kept;
    return room_at(refuses() ? NULL : realloc(old, size ? size : align));
}

void rattle_dealloc(void *old) { free(old); }

// What the runs call.

unsigned long stop_refusing(void) {
    wanted_allocation = wanted_call = 0;
    allocations = calls = 0;
    every_allocation = 0;
    int it = came;
    came = 0;
    return it;
}

void refuse_nth(unsigned long n) {
    stop_refusing();
    wanted_allocation = n;
}

void refuse_all(void) {
    refuse_nth(1);
    every_allocation = 1;
}

void fail_nth(unsigned long n) {
    stop_refusing();
    wanted_call = n;
}

unsigned long fails_now(void) {
    if (!wanted_call)
        return 0;
    calls++;
    if (calls == wanted_call)
        return came = 1;
    return 0;
}
