/* The reader that is fed chunks: feed, finish and start, with readers that these calls gave, damaged ones and ones that are made up. */
#ifndef FUZZ_CHUNKS_H
#define FUZZ_CHUNKS_H

#include "texts.h"

/* The text in chunks of some sizes, and some calls with other readers. */
void run_chunks(struct random *random, const struct text *text);

#endif
