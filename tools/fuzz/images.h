/* Packs: a plain reading of their form, from document 02 and not from the archive; and random images and nodes, whole and damaged. */
#ifndef FUZZ_IMAGES_H
#define FUZZ_IMAGES_H

#include "texts.h"

enum { KIND, ARITY, START, LENGTH, NUMBERS };
enum { MOST_NODES = 1023, MOST_MADE = MOST_NODES + 3, LONGEST_BODY = 65535, LONGEST_LINE = 65535, BODY_AT = 3, LINE_AT = BODY_AT, FIELD_BYTES = 2 };

/* Four numbers a node. */
struct nodes {
    size_t count;
    uint32_t numbers[NUMBERS * MOST_MADE];
};

/* Form 1 or 2; the line field is of form 2 alone, else 0. */
struct form {
    uint32_t version, line;
};

/* The versions that a reader knows, from the least to the most. */
struct versions {
    uint32_t least, most;
};

/* Whether the bytes are a pack of such a version, 0, 18 or 14; if so, this is its form, and these are its nodes. */
uint32_t plain_unpack(const struct text *image, struct versions known, struct form *form, struct nodes *nodes);

/* Whether `count` of the numbers are nodes of a pack that is no longer than it may be, with spellings in bytes of this length: 0, 14 or 13. */
uint32_t plain_verdict(uint32_t version, size_t length, const struct nodes *nodes, size_t numbers, size_t count);

/* The image of nodes that have a pack. */
void plain_pack(const struct form *form, const uint8_t *bytes, const struct nodes *nodes, size_t count, struct text *image);

struct form some_form(struct random *random);

/* Most are packs, of either form. */
void make_image(struct random *random, struct text *image);
void damage_image(struct random *random, struct text *image);

/* Nodes that are a tree, most of them, and their bytes. */
void make_nodes(struct random *random, struct text *bytes, struct nodes *nodes);
void damage_nodes(struct random *random, size_t length, struct nodes *nodes);

#endif
