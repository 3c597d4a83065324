/* input.h: how an example reads what it is given: a number, and a card's file. */
#ifndef INPUT_H
#define INPUT_H

#include <ctype.h>
#include <errno.h>
#include <stddef.h>
#include <stdint.h>
#include <stdio.h>
#include <stdlib.h>

/* Reads a decimal number that is the whole word and at most the limit. Returns whether it is one. */
static inline int read_number(const char *word, uint32_t limit, uint32_t *number) {
    char *end;
    errno = 0;
    unsigned long value = strtoul(word, &end, 10);
    if (!isdigit((unsigned char)word[0]) || *end != '\0' || errno != 0 || value > limit)
        return 0;
    *number = (uint32_t)value;
    return 1;
}

/* Reads the file's first card_n bytes, or all if it has fewer, and how many they are. Lend a byte more than the longest card
 * has: then a file too long is refused by the library and not cut. Returns whether the file was read. */
static inline int read_file(const char *name, uint8_t *card, size_t card_n, size_t *length) {
    FILE *file = fopen(name, "rb");
    if (file == NULL)
        return 0;
    *length = fread(card, 1, card_n, file);
    int failed = ferror(file);
    return fclose(file) == 0 && !failed;
}

#endif
