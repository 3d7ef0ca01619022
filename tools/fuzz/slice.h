/* Slices that are placed so that an access past one of their ends shows. */
#ifndef FUZZ_SLICE_H
#define FUZZ_SLICE_H

#include "random.h"

enum place {
    EXACT,        /* malloc'ed at its exact length (null for 0): ASan sees every access past an end by code that is built with ASan */
    FENCED,       /* known bytes on both sides: a write by any code shows after the call */
    BEFORE_GUARD, /* it ends with a page, and the next page cannot be touched: an access by any code faults; known bytes before it */
    BEHIND_GUARD, /* it starts with a page, and the page before cannot be touched; known bytes behind it */
    PLACES
};

/* What is alive at the same time has pages of its own. */
enum role { TEXT_SLICE, OTHER_TEXT_SLICE, NODES_SLICE, LENT_SLICE, RECORD_SLICE, ROLES };

enum { LARGEST_SLICE = 65600 };

struct slice {
    uint8_t *at;
    size_t size;
    enum role role;
    enum place place;
    uint8_t fence; /* the known byte around it */
};

/* A place for all slices, or -1. */
extern int only_place;

void map_pages(void);
enum place some_place(struct random *random);
struct slice new_slice(enum role role, enum place place, size_t size, uint8_t fence);
/* A slice of these bytes, somewhere. */
struct slice copy_of(struct random *random, enum role role, const void *from, size_t size);
bool is_fence_whole(const struct slice *slice);
void free_slice(struct slice *slice);

#endif
