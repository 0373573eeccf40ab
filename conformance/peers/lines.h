/* The loop of the peers in C: a line of hexadecimal in, and a line out, which `answer` prints. */
#ifndef LINES_H
#define LINES_H

#define _GNU_SOURCE
#include <stdint.h>
#include <stdio.h>
#include <stdlib.h>

static void answer(const uint8_t *bytes, size_t length);

static void put(const uint8_t *bytes, size_t length) {
    for (size_t i = 0; i < length; i++) printf("%02x", bytes[i]);
}

static int digit(char it) { return it <= '9' ? it - '0' : (it | 32) - 'a' + 10; }

int main(void) {
    char *line = NULL;
    size_t room = 0;
    for (ssize_t got; (got = getline(&line, &room, stdin)) >= 0;) {
        size_t length = (size_t)got / 2;
        uint8_t *bytes = malloc(length + 1);
        for (size_t i = 0; i < length; i++) bytes[i] = digit(line[2 * i]) << 4 | digit(line[2 * i + 1]);
        answer(bytes, length);
        putchar('\n');
        fflush(stdout);
        free(bytes);
    }
    free(line);
    return 0;
}

#endif
