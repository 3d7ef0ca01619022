/* What `read` and `stream` share: a token as a line, as the probe (docs/PROBE.md) writes it. */
#ifndef TOKENS_H
#define TOKENS_H

#include <inttypes.h>
#include <stdio.h>

#include "thrinvage.h"

/* In the order of enum thrinvage_kind. */
static const char *const KINDS[] = {
    "name", "variable", "string", "number", "open", "open_ct", "close", "open_list", "close_list", "open_curly", "close_curly", "bar",
    "double_bar", "comma", "end",
};

static inline void print_cursor(uint64_t offset, uint64_t line, uint64_t column) {
    printf(" %" PRIu64 " %" PRIu64 " %" PRIu64, offset, line, column);
}

/* A float's value has the bits of the double: memcpy them to one to compute with it. */
static inline void print_value(const struct thrinvage_token *t) {
    if (t->value_kind == THRINVAGE_INTEGER)
        printf(" %" PRIu64, t->value);
    else if (t->value_kind == THRINVAGE_FLOAT)
        printf(" f%016" PRIx64, t->value);
    else
        printf(" -");
}

static inline void print_token(const struct thrinvage_token *t) {
    printf("token %s %" PRIu64, KINDS[t->kind], t->start);
    print_cursor(t->offset, t->line, t->column);
    print_value(t);
    printf(" %" PRIu64 "\n", t->layout);
}

#endif
