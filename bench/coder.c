/* A plain coder of packs, both forms, as a C programmer writes it: what bench times the archive's coder beside, and compares its answers with.
 * It checks what the archive's checks, and writes nothing on a refusal; so each direction goes over the nodes twice. Its calls are those of thrinvage.h. */
#include <stdbool.h>
#include <string.h>

#include "thrinvage.h"

/* The image's first bytes: the version, the length of what follows, in form 2 the line, the count of nodes. Then each node: kind, arity, length of the
 * spelling. */
enum { LENGTH_AT = 1, BODY_AT = 3, LINE_AT = 3, FIELD_BYTES = 2, NODE_BYTES = 5, ARITY_AT = 1, SPELLING_LENGTH_AT = 3 };
enum { KIND, ARITY, START, LENGTH, NUMBERS };
enum { MOST = 65535 };

/* The arities of each kind. */
static const struct {
    uint32_t least, most;
} ARITIES[] = {{0, 0}, {0, 0}, {1, MOST}, {1, 1}, {2, 2}, {1, MOST}, {2, MOST}, {1, 1}, {0, 0}, {0, 0}};

static uint32_t two_bytes(const uint8_t *at)
{
    return (uint32_t)at[0] << 8 | at[1];
}

static void put_two_bytes(uint8_t *at, size_t number)
{
    at[0] = (uint8_t)(number >> 8);
    at[1] = (uint8_t)number;
}

static inline size_t count_at(uint8_t version)
{
    return version == 2 ? LINE_AT + FIELD_BYTES : BODY_AT;
}

/* A node takes its children from the stack of those before it, and is left there for its parent. */
static bool takes_children(uint32_t kind, uint32_t arity, size_t *stack)
{
    if (kind >= sizeof ARITIES / sizeof *ARITIES || arity < ARITIES[kind].least || arity > ARITIES[kind].most || arity > *stack)
        return false;
    *stack -= arity;
    *stack += 1;
    return true;
}

/* Inline, here and below, so that a call for one form has the code of that form alone. */
static inline bool is_pack(uint8_t version, const uint8_t *image, size_t length)
{
    size_t at = count_at(version) + FIELD_BYTES, stack = 0;
    if (length < at || two_bytes(image + LENGTH_AT) != length - BODY_AT)
        return false;
    size_t count = two_bytes(image + at - FIELD_BYTES);
    if (count > THRINVAGE_MOST_NODES)
        return false;
    for (size_t i = 0; i < count; i++) {
        if (length - at < NODE_BYTES || !takes_children(image[at], two_bytes(image + at + ARITY_AT), &stack))
            return false;
        size_t spelling = two_bytes(image + at + SPELLING_LENGTH_AT);
        at += NODE_BYTES;
        if (length - at < spelling)
            return false;
        at += spelling;
    }
    return stack == 1 && at == length;
}

static inline uint32_t unpack(uint8_t version, const uint8_t *image, size_t length, uint32_t *nodes, size_t room, uint64_t *count)
{
    if (!is_pack(version, image, length))
        return THRINVAGE_NO_PACK;
    size_t at = count_at(version) + FIELD_BYTES, nodes_left = two_bytes(image + at - FIELD_BYTES);
    if (room < NUMBERS * nodes_left)
        return THRINVAGE_NO_ROOM;
    *count = nodes_left;
    for (; nodes_left > 0; nodes_left--, nodes += NUMBERS) {
        nodes[KIND] = image[at];
        nodes[ARITY] = two_bytes(image + at + ARITY_AT);
        nodes[START] = (uint32_t)at + NODE_BYTES;
        nodes[LENGTH] = two_bytes(image + at + SPELLING_LENGTH_AT);
        at = nodes[START] + nodes[LENGTH];
    }
    return THRINVAGE_READ;
}

uint32_t coder_unpack(const uint8_t *image, size_t length, uint32_t *nodes, size_t room, uint64_t *count)
{
    return length == 0 || image[0] != 1 ? THRINVAGE_NO_PACK : unpack(1, image, length, nodes, room, count);
}

uint32_t coder_unpack_either(const uint8_t *image, size_t length, uint32_t *nodes, size_t room, struct thrinvage_unpacked *unpacked)
{
    if (length == 0)
        return THRINVAGE_NO_PACK;
    if (image[0] != 1 && image[0] != 2)
        return THRINVAGE_UNKNOWN_VERSION;
    uint32_t number = unpack(image[0], image, length, nodes, room, &unpacked->count);
    if (number == THRINVAGE_READ) {
        unpacked->form = image[0];
        unpacked->line = image[0] == 2 ? two_bytes(image + LINE_AT) : 0;
    }
    return number;
}

/* The length of the body that these nodes have, from the count on, or 0 where unpacking would not accept them. */
static size_t body_length(size_t length, const uint32_t *nodes, size_t count)
{
    size_t body = FIELD_BYTES, stack = 0;
    for (; count > 0; count--, nodes += NUMBERS) {
        if (!takes_children(nodes[KIND], nodes[ARITY], &stack) || nodes[LENGTH] > MOST || (uint64_t)nodes[START] + nodes[LENGTH] > length)
            return 0;
        body += NODE_BYTES + nodes[LENGTH];
    }
    return stack == 1 ? body : 0;
}

static inline uint32_t pack_nodes(uint8_t version, uint16_t line, const uint8_t *bytes, size_t length, const uint32_t *nodes, size_t numbers, size_t count,
                                  uint8_t *out, size_t room, uint64_t *packed)
{
    size_t body = count > THRINVAGE_MOST_NODES || count > numbers / NUMBERS ? 0 : body_length(length, nodes, count);
    if (body == 0)
        return THRINVAGE_NO_PACK;
    body += count_at(version) - BODY_AT;
    if (body > MOST)
        return THRINVAGE_TOO_LONG;
    if (room < BODY_AT + body)
        return THRINVAGE_NO_ROOM;
    out[0] = version;
    put_two_bytes(out + LENGTH_AT, body);
    if (version == 2)
        put_two_bytes(out + LINE_AT, line);
    out += count_at(version);
    put_two_bytes(out, count);
    out += FIELD_BYTES;
    for (; count > 0; count--, nodes += NUMBERS) {
        out[0] = (uint8_t)nodes[KIND];
        put_two_bytes(out + ARITY_AT, nodes[ARITY]);
        put_two_bytes(out + SPELLING_LENGTH_AT, nodes[LENGTH]);
        if (nodes[LENGTH] > 0)
            memcpy(out + NODE_BYTES, bytes + nodes[START], nodes[LENGTH]);
        out += NODE_BYTES + nodes[LENGTH];
    }
    *packed = BODY_AT + body;
    return THRINVAGE_READ;
}

uint32_t coder_pack_nodes(const uint8_t *bytes, size_t length, const uint32_t *nodes, size_t numbers, size_t count, uint8_t *out, size_t room,
                          uint64_t *packed)
{
    return pack_nodes(1, 0, bytes, length, nodes, numbers, count, out, room, packed);
}

uint32_t coder_pack_nodes_form_2(const uint8_t *bytes, size_t length, const uint32_t *nodes, size_t numbers, size_t count, uint16_t line, uint8_t *out,
                                 size_t room, uint64_t *packed)
{
    return pack_nodes(2, line, bytes, length, nodes, numbers, count, out, room, packed);
}

/* The head is written anew, and all from the count on is copied. */
static inline uint32_t move(uint8_t from, uint8_t to, const uint8_t *image, size_t length, uint8_t *out, size_t room, uint64_t *moved)
{
    if (length == 0)
        return THRINVAGE_NO_PACK;
    if (image[0] != from)
        return THRINVAGE_UNKNOWN_VERSION;
    if (!is_pack(from, image, length))
        return THRINVAGE_NO_PACK;
    size_t copied = length - count_at(from), body = count_at(to) - BODY_AT + copied;
    if (body > MOST)
        return THRINVAGE_TOO_LONG;
    if (room < BODY_AT + body)
        return THRINVAGE_NO_ROOM;
    out[0] = to;
    put_two_bytes(out + LENGTH_AT, body);
    if (to == 2)
        put_two_bytes(out + LINE_AT, 0);
    memcpy(out + count_at(to), image + count_at(from), copied);
    *moved = BODY_AT + body;
    return THRINVAGE_READ;
}

uint32_t coder_move_up(const uint8_t *image, size_t length, uint8_t *out, size_t room, uint64_t *moved)
{
    return move(1, 2, image, length, out, room, moved);
}

uint32_t coder_move_down(const uint8_t *image, size_t length, uint8_t *out, size_t room, uint64_t *moved)
{
    return move(2, 1, image, length, out, room, moved);
}
