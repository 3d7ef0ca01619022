/* Layout texts: a plain reading of them, from document 01 and not from the archive. */
#ifndef FUZZ_LAYOUTS_H
#define FUZZ_LAYOUTS_H

#include "texts.h"

/* What stands at an offset: of this kind (enum thrinvage_layout_kind), up to `end`; or a refusal's number, and where it points. */
struct plain_layout {
    uint32_t number;
    size_t refused_at;
    uint64_t kind;
    size_t end;
};

/* The offset is the text's length at most. */
struct plain_layout plain_layout(const struct text *text, size_t offset);

#endif
