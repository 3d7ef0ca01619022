#include "layouts.h"
#include "thrinvage.h"

static bool is_blank(uint8_t byte)
{
    return byte == ' ' || byte == '\t' || byte == '\n' || byte == '\r';
}

static bool is_foreign(uint8_t byte)
{
    return (byte < ' ' && !is_blank(byte)) || byte > '~';
}

static struct plain_layout found(uint64_t kind, size_t end)
{
    return (struct plain_layout){.kind = kind, .end = end};
}

static struct plain_layout refused(uint32_t number, size_t at)
{
    return (struct plain_layout){.number = number, .refused_at = at};
}

static struct plain_layout blanks(const struct text *text, size_t end)
{
    while (end < text->length && is_blank(text->bytes[end]))
        end++;
    return found(THRINVAGE_BLANKS, end);
}

static struct plain_layout line_comment(const struct text *text, size_t end)
{
    for (; end < text->length; end++) {
        if (is_foreign(text->bytes[end]))
            return refused(THRINVAGE_FOREIGN_BYTE, end);
        if (text->bytes[end] == '\n')
            return found(THRINVAGE_LINE_COMMENT, end + 1);
    }
    return found(THRINVAGE_LINE_COMMENT, end);
}

/* Its text starts behind the opening mark: `/` `*` `/` is not closed. */
static struct plain_layout bracketed_comment(const struct text *text, size_t slash)
{
    if (slash + 2 == text->length)
        return refused(THRINVAGE_END_OF_TEXT, text->length);
    for (size_t at = slash + 2; at < text->length; at++) {
        if (is_foreign(text->bytes[at]))
            return refused(THRINVAGE_FOREIGN_BYTE, at);
        if (at > slash + 2 && text->bytes[at - 1] == '*' && text->bytes[at] == '/')
            return found(THRINVAGE_BRACKETED_COMMENT, at + 1);
    }
    return refused(THRINVAGE_UNCLOSED_COMMENT, slash);
}

/* It opens a comment or starts a token: the next byte says which. */
static struct plain_layout slash(const struct text *text, size_t offset)
{
    if (offset + 1 == text->length)
        return refused(THRINVAGE_END_OF_TEXT, text->length);
    if (is_foreign(text->bytes[offset + 1]))
        return refused(THRINVAGE_FOREIGN_BYTE, offset + 1);
    return text->bytes[offset + 1] == '*' ? bracketed_comment(text, offset) : found(THRINVAGE_NO_LAYOUT, offset);
}

struct plain_layout plain_layout(const struct text *text, size_t offset)
{
    if (offset == text->length)
        return refused(THRINVAGE_END_OF_TEXT, offset);
    uint8_t first = text->bytes[offset];
    if (is_foreign(first))
        return refused(THRINVAGE_FOREIGN_BYTE, offset);
    if (is_blank(first))
        return blanks(text, offset);
    if (first == '%')
        return line_comment(text, offset);
    return first == '/' ? slash(text, offset) : found(THRINVAGE_NO_LAYOUT, offset);
}
