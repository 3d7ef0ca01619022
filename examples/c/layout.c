/* Compares thrinvage_only_layout with the token call, on every text of up to six bytes out of thirteen. A newline and a comma are put behind the text:
 * the comma is then the first token exactly if nothing but layout stands before it. At every offset thrinvage_layout_end is where the first token starts,
 * or the text's length if that is the comma; and the layout call leads from there, text by text, to where the token call has its token, or to the same
 * refusal. Prints the counts; status 1 says that something differs.
 */
#include <stdio.h>

#include "thrinvage.h"

#define LONGEST 6
static const uint8_t BYTES[] = {' ', '\t', '\n', '\r', '%', '/', '*', 'a', '0', '.', '\'', '\\', 128};

static unsigned long texts, of_layout, differ;

static int by_function(const uint8_t *text, size_t length) {
    struct thrinvage_token t = {0};
    return thrinvage_next_token(text, length, 0, 0, 0, &t, THRINVAGE_FILE) == THRINVAGE_END_OF_TEXT && thrinvage_only_layout(text, length, 0);
}

/* Writes two bytes behind the text. */
static int by_comma(uint8_t *text, size_t length) {
    struct thrinvage_token t = {0};
    text[length] = '\n';
    text[length + 1] = ',';
    return thrinvage_next_token(text, length + 2, 0, 0, 0, &t, THRINVAGE_FILE) == THRINVAGE_READ && t.start == length + 1;
}

/* Whether the layout at the offset ends where the token call, with the two bytes behind the text, reads a token or refuses it. Refusals 1 and 5 do not say
 * where that is: they point behind the token's start, or into a comment. */
static int ends_at_token(const uint8_t *text, size_t length, size_t offset) {
    struct thrinvage_token t = {0};
    uint32_t number = thrinvage_next_token(text, length + 2, offset, 0, 0, &t, THRINVAGE_FILE);
    size_t start = number == THRINVAGE_READ ? t.start : t.refused_at;
    return number == THRINVAGE_END_OF_TEXT || number == THRINVAGE_FOREIGN_BYTE ||
           thrinvage_layout_end(text, length, offset) == (start < length ? start : length);
}

/* From the offset on, one layout text behind another, to where none is or one is refused. Returns the last number, or 99 if one does not start where the one
 * before it ended, or is empty. */
static uint32_t pass_layout(const uint8_t *text, size_t length, struct thrinvage_layout *at) {
    for (;;) {
        uint64_t from = at->offset;
        uint32_t number = thrinvage_next_layout(text, length, at->offset, at->line, at->column, at);
        if (number != THRINVAGE_READ || at->kind == THRINVAGE_NO_LAYOUT)
            return number;
        if (at->start != from || at->offset <= from)
            return 99;
    }
}

/* Whether the layout texts lead from the offset to the token's start, and the token says where they began; or to the token call's own refusal. What is
 * refused in the token itself is refused there or behind. */
static int leads_to_token(const uint8_t *text, size_t length, size_t offset) {
    struct thrinvage_token t = {0};
    struct thrinvage_layout at = {.offset = offset};
    uint32_t number = thrinvage_next_token(text, length, offset, 0, 0, &t, THRINVAGE_FILE);
    uint32_t passed = pass_layout(text, length, &at);
    if (passed != THRINVAGE_READ)
        return passed == number && at.refused_at == t.refused_at;
    return number == THRINVAGE_READ ? t.start == at.offset && t.layout == offset : t.refused_at >= at.offset;
}

/* This text, and each that goes on from it. */
static void try_from(uint8_t *text, size_t length) {
    int layout = by_comma(text, length);
    texts++;
    of_layout += layout;
    differ += layout != by_function(text, length);
    for (size_t offset = 0; offset <= length; offset++)
        differ += !ends_at_token(text, length, offset) + !leads_to_token(text, length, offset);
    if (length < LONGEST)
        for (size_t i = 0; i < sizeof BYTES; i++) {
            text[length] = BYTES[i];
            try_from(text, length + 1);
        }
}

int main(void) {
    uint8_t text[LONGEST + 2];
    try_from(text, 0);
    printf("%lu texts, %lu of layout alone, %lu differ\n", texts, of_layout, differ);
    return differ != 0;
}
