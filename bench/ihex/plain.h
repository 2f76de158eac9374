/* A plain reader of Intel HEX with the same checks as the proved one, to measure it against. */
#ifndef PLAIN_H
#define PLAIN_H
#include <stddef.h>

struct place {
    size_t line, position;
};

/* Reads a text into an image. Answers 0, or the refusal's number, with the line and position that it names. */
int plain_fill(const unsigned char *text, size_t length, unsigned char *image, size_t size, struct place *where);

/* The same with a table of 256 digit values in the place of comparisons. */
int table_fill(const unsigned char *text, size_t length, unsigned char *image, size_t size, struct place *where);

#endif
