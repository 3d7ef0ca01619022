/* The calls that take packs and nodes: unpack, unpack_either, the two moves, and pack_nodes in both forms. */
#ifndef FUZZ_PACKS_H
#define FUZZ_PACKS_H

#include "texts.h"

/* Some images and nodes; `packed` is a pack that pack_clause gave, of either form, or nothing. */
void run_packs(struct random *random, const struct text *packed);

#endif
