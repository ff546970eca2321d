/* Reading a whole file, and writing the words of a verdict, for the examples. */
#ifndef REALM_FILES_H
#define REALM_FILES_H
#include "realm.h"
#include <stdint.h>
#include <stdio.h>
#include <stdlib.h>

struct realm_text { uint8_t *bytes; size_t length; };

/* The bytes of a file, never at a null pointer; the program ends where it can't be read. */
static struct realm_text read_file(const char *name) {
    struct realm_text text = {malloc(1), 0};
    size_t room = 1, got = 1;
    FILE *file = fopen(name, "rb");
    if (!file || !text.bytes) { perror(name); exit(5); }
    while (got) {
        if (text.length == room) text.bytes = realloc(text.bytes, room *= 2);
        if (!text.bytes) { perror(name); exit(7); }
        got = fread(text.bytes + text.length, 1, room - text.length, file);
        text.length += got;
    }
    if (ferror(file)) { perror(name); exit(5); }
    fclose(file);
    return text;
}

/* Writes the word of a number, and a space before it. */
static inline void put_word(uint32_t kind, uint32_t number) {
    uint8_t word[16];
    uint64_t length;
    if (realm_word(kind, number, word, sizeof word, &length) == REALM_DONE) printf(" %.*s", (int)length, (char *)word);
}
#endif
