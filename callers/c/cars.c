/* Reads a CAR file, of version 1 or 2, and prints a line for each root, and for each section its
   CID and the number of the verdict on its block:

       cars FILE

   The last line is 'end', or the number of the refusal and where it stands in the file. At most one
   section is in memory beside a piece, and nothing is reserved from a length that the file
   announces. The status is 0 if the end is reached. */
#include "car.h"
#include <inttypes.h>
#include <stdio.h>

enum { PIECE = 1 << 16, GIVEN_UP = 2 };

static void give_up(const char *why) {
    fprintf(stderr, "cars: %s\n", why);
    exit(GIVEN_UP);
}

/* Reads a piece more. */
static void fill(Car *car, FILE *file) {
    static uint8_t piece[PIECE];
    size_t count = fread(piece, 1, PIECE, file);
    if (ferror(file)) give_up("input failed");
    car->is_whole = count < PIECE;
    if (!car_gather(car, piece, count)) give_up("out of memory");
}

static void print_cid(const char *before, const uint8_t *cid, size_t length) {
    char text[DAGCBOR_CID_TEXT_MOST];
    size_t count;
    dagcbor_cid_text(cid, length, (uint8_t *)text, sizeof text, &count);
    printf("%s%.*s", before, (int)count, text);
}

static int32_t print_roots(Car *car, FILE *file) {
    int32_t code;
    while ((code = car_header(car)) == DAGCBOR_CAR_MORE) fill(car, file);
    const uint8_t *roots = car->roots.start;
    for (size_t at = 0; at < car->roots.used; at += 1 + roots[at]) {
        print_cid("root ", roots + at + 1, roots[at]);
        puts("");
    }
    return code;
}

/* Prints the next section; or returns why there is none. */
static int32_t print_section(Car *car, FILE *file) {
    size_t places[3];
    int32_t code;
    while ((code = car_section(car, SIZE_MAX, places)) == DAGCBOR_CAR_MORE) fill(car, file);
    if (!is_verdict(code)) return code;
    print_cid("", car->bytes + places[0], places[1] - places[0]);
    printf(" %" PRId32 "\n", code);
    return DAGCBOR_CAR_SECTION;
}

int main(int count, char **words) {
    FILE *file = count == 2 ? fopen(words[1], "rb") : NULL;
    if (!file) give_up("no file is named that can be read");
    Car car;
    car_start(&car);
    int32_t code = print_roots(&car, file);
    while (code == DAGCBOR_CAR_HEADER || code == DAGCBOR_CAR_SECTION)
        code = print_section(&car, file);
    if (code == CAR_NO_MEMORY) give_up("out of memory");
    if (code == DAGCBOR_CAR_END) puts("end");
    else printf("%" PRId32 " at %" PRIu64 "\n", code, car.walk.place);
    car_free(&car);
    fclose(file);
    if (ferror(stdout) || fflush(stdout) != 0) give_up("output failed");
    return code != DAGCBOR_CAR_END;
}
