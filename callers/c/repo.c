/* Reads repositories by libdagcbor_memory_ffi.a: for each file the length of its answer, or the
   line that tells why it is not one.

     repo FILE..
     repo -c FILE..      for the commit alone
     repo -k KEY FILE..  for the file that proves which record the key has

   The status is 0 if there is an answer for all, and it is written. */
#include "asking.h"
#include <stdio.h>
#include <string.h>

/* The bytes of a file, which the caller frees, and their length; NULL if they cannot be read. */
static uint8_t *bytes_of(const char *path, size_t *length) {
    FILE *file = fopen(path, "rb");
    long end = -1;
    if (file && fseek(file, 0, SEEK_END) == 0) end = ftell(file);
    uint8_t *bytes = end < 0 ? NULL : malloc((size_t)end + 1);
    *length = end < 0 ? 0 : (size_t)end;
    if (bytes) rewind(file);
    if (bytes && fread(bytes, 1, *length, file) < *length) {
        free(bytes);
        bytes = NULL;
    }
    if (file) fclose(file);
    return bytes;
}

int main(int count, char **words) {
    Question it = {0};
    Call *call = repository_of;
    int status = 0, first = 1;
    if (count > 2 && strcmp(words[1], "-c") == 0) call = commit_of, first = 2;
    if (count > 3 && strcmp(words[1], "-k") == 0) {
        call = proof_of, first = 3;
        it.key = (Lent){(const uint8_t *)words[2], strlen(words[2])};
    }
    for (int i = first; i < count; i++) {
        uint8_t *file = bytes_of(words[i], &it.bytes.length);
        it.bytes.at = file;
        it.code = DAGCBOR_NO_MEMORY;
        if (file) ask(&it, call);
        if (it.code == DAGCBOR_NO_MEMORY) fprintf(stderr, "%s: not read\n", words[i]);
        else if (it.code == DAGCBOR_REPOSITORY) printf("%zu\n", it.needed);
        else printf("%zu %.*s", it.needed, (int)it.needed, (const char *)it.answer);
        status |= it.code != DAGCBOR_REPOSITORY;
        free(file);
    }
    free(it.answer);
    return ferror(stdout) || fflush(stdout) != 0 ? 2 : status;
}
