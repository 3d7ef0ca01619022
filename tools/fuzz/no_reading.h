/* Where refusal 11 points, by its definition: at the first token that cannot stand. No clause begins with the tokens up to and including it, whatever may
 * follow, and one begins with those before it. Only the public calls are asked. */
#ifndef FUZZ_NO_READING_H
#define FUZZ_NO_READING_H

#include "report.h"
#include "texts.h"

/* The clause behind this cursor of the text is refused by 11. */
void check_no_reading(struct random *random, const struct text *text, struct cursor at, size_t refused_at);

#endif
