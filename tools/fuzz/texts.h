/* Random texts: of all bytes, of Prolog's bytes, of its tokens, of whole clauses, of given files; whole and damaged. */
#ifndef FUZZ_TEXTS_H
#define FUZZ_TEXTS_H

#include "random.h"

enum { LONGEST_MADE = 65600 };

struct text {
    size_t length;
    uint8_t bytes[LONGEST_MADE];
};

void read_file(const char *path);
uint8_t prolog_byte(struct random *random);
void make_text(struct random *random, struct text *text);

#endif
