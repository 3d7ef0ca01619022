#include "images.h"
#include "thrinvage.h"
#include <string.h>

enum { LENGTH_AT = 1, NODE_BYTES = 5, ARITY_AT = 1, SPELLING_LENGTH_AT = 3 };

/* ---- the forms: the line stands between the length and the count, and all else is the same */

static size_t count_at(uint32_t version)
{
    return version == 2 ? LINE_AT + FIELD_BYTES : BODY_AT;
}

static size_t nodes_at(uint32_t version)
{
    return count_at(version) + FIELD_BYTES;
}

/* ---- the plain reading */

static uint32_t field(const uint8_t *at)
{
    return 256u * at[0] + at[1];
}

static bool is_arity(uint32_t kind, uint32_t arity)
{
    switch (kind) {
    case THRINVAGE_PLAIN:
    case THRINVAGE_NEGATIVE:
    case THRINVAGE_EMPTY_LIST:
    case THRINVAGE_EMPTY_CURLY: return arity == 0;
    case THRINVAGE_PREFIX:
    case THRINVAGE_CURLY: return arity == 1;
    case THRINVAGE_INFIX: return arity == 2;
    case THRINVAGE_CALL:
    case THRINVAGE_LIST: return arity >= 1;
    case THRINVAGE_LIST_TAIL: return arity >= 2;
    default: return false;
    }
}

/* From the root back to the first: each node fills one of the places that are open, and opens one for each child. */
static bool is_one_tree(const uint32_t *numbers, size_t count)
{
    uint64_t open = 1;
    for (size_t i = count; i > 0; i--) {
        const uint32_t *node = numbers + NUMBERS * (i - 1);
        if (open == 0 || !is_arity(node[KIND], node[ARITY]))
            return false;
        open = open - 1 + node[ARITY];
    }
    return open == 0;
}

static bool is_pack(const struct text *image, struct form *form, struct nodes *nodes)
{
    const uint8_t *bytes = image->bytes;
    size_t at = nodes_at(bytes[0]);
    if (image->length < at || field(bytes + LENGTH_AT) + BODY_AT != image->length)
        return false;
    *form = (struct form){bytes[0], bytes[0] == 2 ? field(bytes + LINE_AT) : 0};
    nodes->count = field(bytes + count_at(bytes[0]));
    if (nodes->count > MOST_NODES)
        return false;
    for (uint32_t *node = nodes->numbers; node < nodes->numbers + NUMBERS * nodes->count; node += NUMBERS) {
        if (at + NODE_BYTES > image->length)
            return false;
        node[KIND] = bytes[at];
        node[ARITY] = field(bytes + at + ARITY_AT);
        node[START] = (uint32_t)at + NODE_BYTES;
        node[LENGTH] = field(bytes + at + SPELLING_LENGTH_AT);
        at = node[START] + node[LENGTH];
    }
    return at == image->length && is_one_tree(nodes->numbers, nodes->count);
}

uint32_t plain_unpack(const struct text *image, struct versions known, struct form *form, struct nodes *nodes)
{
    if (image->length > 0 && (image->bytes[0] < known.least || image->bytes[0] > known.most))
        return THRINVAGE_UNKNOWN_VERSION;
    return image->length > 0 && is_pack(image, form, nodes) ? THRINVAGE_READ : THRINVAGE_NO_PACK;
}

uint32_t plain_verdict(uint32_t version, size_t length, const struct nodes *nodes, size_t numbers, size_t count)
{
    if (count > MOST_NODES || NUMBERS * count > numbers || !is_one_tree(nodes->numbers, count))
        return THRINVAGE_NO_PACK;
    uint64_t body = nodes_at(version) - BODY_AT;
    for (const uint32_t *node = nodes->numbers; node < nodes->numbers + NUMBERS * count; node += NUMBERS) {
        if (node[LENGTH] > LONGEST_BODY || node[LENGTH] > length || node[START] > length - node[LENGTH])
            return THRINVAGE_NO_PACK;
        body += NODE_BYTES + node[LENGTH];
    }
    return body > LONGEST_BODY ? THRINVAGE_TOO_LONG : THRINVAGE_READ;
}

/* ---- writing; what does not fit is cut off */

static void add(struct text *image, const uint8_t *bytes, size_t length)
{
    size_t left = LONGEST_MADE - image->length;
    length = length < left ? length : left;
    if (length > 0)
        memcpy(image->bytes + image->length, bytes, length);
    image->length += length;
}

static void put_field(uint8_t *at, size_t number)
{
    at[0] = (uint8_t)(number / 256);
    at[1] = (uint8_t)number;
}

static void add_field(struct text *image, size_t number)
{
    uint8_t bytes[FIELD_BYTES];
    put_field(bytes, number);
    add(image, bytes, sizeof bytes);
}

static void add_node(struct text *image, const uint32_t *node)
{
    uint8_t bytes[NODE_BYTES] = {(uint8_t)node[KIND]};
    put_field(bytes + ARITY_AT, node[ARITY]);
    put_field(bytes + SPELLING_LENGTH_AT, node[LENGTH]);
    add(image, bytes, sizeof bytes);
}

static void let_length_agree(struct text *image)
{
    if (image->length >= BODY_AT)
        put_field(image->bytes + LENGTH_AT, image->length - BODY_AT);
}

void plain_pack(const struct form *form, const uint8_t *bytes, const struct nodes *nodes, size_t count, struct text *image)
{
    const uint8_t head[BODY_AT] = {(uint8_t)form->version};
    image->length = 0;
    add(image, head, sizeof head);
    if (form->version == 2)
        add_field(image, form->line);
    add_field(image, count);
    for (const uint32_t *node = nodes->numbers; node < nodes->numbers + NUMBERS * count; node += NUMBERS) {
        add_node(image, node);
        add(image, bytes + node[START], node[LENGTH]);
    }
    let_length_agree(image);
}

/* ---- random trees */

#define PICK(random, from) ((from)[random_below(random, sizeof(from) / sizeof *(from))])

static uint32_t some_edge(struct random *random)
{
    static const uint32_t edges[] = {0, 1, 2, 3, 9, 10, 255, 256, 1022, 1023, 1024, 1025, 65534, 65535};
    return PICK(random, edges);
}

static uint32_t some_line(struct random *random)
{
    return random_one_in(random, 2) ? some_edge(random) : (uint32_t)random_below(random, LONGEST_LINE + 1);
}

struct form some_form(struct random *random)
{
    if (random_one_in(random, 2))
        return (struct form){1, 0};
    return (struct form){2, some_line(random)};
}

static uint32_t some_kind(struct random *random, size_t arity)
{
    static const uint32_t none[] = {THRINVAGE_PLAIN, THRINVAGE_PLAIN, THRINVAGE_NEGATIVE, THRINVAGE_EMPTY_LIST, THRINVAGE_EMPTY_CURLY};
    static const uint32_t one[] = {THRINVAGE_CALL, THRINVAGE_PREFIX, THRINVAGE_LIST, THRINVAGE_CURLY};
    static const uint32_t two[] = {THRINVAGE_CALL, THRINVAGE_INFIX, THRINVAGE_LIST, THRINVAGE_LIST_TAIL};
    static const uint32_t more[] = {THRINVAGE_CALL, THRINVAGE_LIST, THRINVAGE_LIST_TAIL};
    switch (arity) {
    case 0: return PICK(random, none);
    case 1: return PICK(random, one);
    case 2: return PICK(random, two);
    default: return PICK(random, more);
    }
}

/* Most are small. Some are as large as may be, and a little larger. */
static size_t some_count(struct random *random)
{
    if (random_one_in(random, 40))
        return 1 + random_below(random, MOST_MADE);
    if (random_one_in(random, 40))
        return MOST_NODES - 1 + random_below(random, MOST_MADE - MOST_NODES + 2);
    return 1 + random_below(random, random_one_in(random, 4) ? 30 : 6);
}

static uint32_t some_spelling_length(struct random *random)
{
    static const uint32_t longer[] = {9, 10, 255, 256, 1023, 1024};
    return random_one_in(random, 60) ? PICK(random, longer) : (uint32_t)random_below(random, 6);
}

/* Of the trees before it a node takes some. Leaves are a quarter, a half, three quarters or all. */
static size_t some_arity(struct random *random, size_t trees, size_t leaves)
{
    static const size_t most = 4;
    if (trees == 0 || random_below(random, 4) < leaves)
        return 0;
    return 1 + random_below(random, trees < most ? trees : most);
}

/* The last node takes all trees that are left. */
static void make_tree(struct random *random, struct nodes *nodes)
{
    size_t trees = 0, leaves = 1 + random_below(random, 4);
    nodes->count = some_count(random);
    for (size_t i = 0; i < nodes->count; i++) {
        size_t arity = i + 1 == nodes->count ? trees : some_arity(random, trees, leaves);
        uint32_t *node = nodes->numbers + NUMBERS * i;
        node[KIND] = some_kind(random, arity);
        node[ARITY] = (uint32_t)arity;
        node[START] = 0;
        node[LENGTH] = some_spelling_length(random);
        trees = trees - arity + 1;
    }
}

static size_t body_of(const struct nodes *nodes)
{
    size_t body = FIELD_BYTES;
    for (size_t i = 0; i < nodes->count; i++)
        body += NODE_BYTES + nodes->numbers[NUMBERS * i + LENGTH];
    return body;
}

/* One spelling becomes so long that the body is about as long as it may be, in either form: 65,528 to 65,537 bytes in form 1, two more in form 2. */
static void make_long(struct random *random, struct nodes *nodes)
{
    uint32_t *node = nodes->numbers + NUMBERS * random_below(random, nodes->count);
    size_t body = LONGEST_BODY - 7 + random_below(random, 10);
    node[LENGTH] = 0;
    size_t others = body_of(nodes);
    node[LENGTH] = (uint32_t)(others < body ? body - others : 0);
}

/* Bytes of all kinds, and such as stand in the fields. */
static void fill_bytes(struct random *random, struct text *bytes, size_t length)
{
    bytes->length = length < LONGEST_MADE ? length : LONGEST_MADE;
    for (size_t i = 0; i < bytes->length; i += sizeof(uint64_t)) {
        uint64_t some = random_next(random), small = some & 0x0303030303030303u;
        size_t left = bytes->length - i;
        memcpy(bytes->bytes + i, some >> 63 ? &some : &small, left < sizeof some ? left : sizeof some);
    }
}

/* ---- nodes */

static uint32_t *some_node(struct random *random, struct nodes *nodes)
{
    return nodes->numbers + NUMBERS * random_below(random, nodes->count);
}

static uint32_t some_number(struct random *random, size_t near)
{
    static const uint32_t far[] = {65536, 65537, 1u << 24, 1u << 31, UINT32_MAX - 1, UINT32_MAX};
    switch (random_below(random, 4)) {
    case 0: return some_edge(random);
    case 1: return PICK(random, far);
    case 2: return (uint32_t)(near + random_below(random, 3)) - 1;
    default: return (uint32_t)random_below(random, near + 1);
    }
}

static void swap_nodes(struct random *random, struct nodes *nodes)
{
    uint32_t kept[NUMBERS], *one = some_node(random, nodes), *other = some_node(random, nodes);
    memcpy(kept, one, sizeof kept);
    memmove(one, other, sizeof kept);
    memcpy(other, kept, sizeof kept);
}

/* A spelling that ends with the bytes, or one behind them. */
static void end_with_bytes(struct random *random, size_t length, uint32_t *node)
{
    node[LENGTH] = (uint32_t)random_below(random, length + 1);
    node[START] = (uint32_t)(length - node[LENGTH]) + random_one_in(random, 2);
}

/* Each spelling is all of the bytes: with some hundred nodes that is too long. */
static void spell_all(size_t length, struct nodes *nodes)
{
    for (uint32_t *node = nodes->numbers; node < nodes->numbers + NUMBERS * nodes->count; node += NUMBERS) {
        node[START] = 0;
        node[LENGTH] = (uint32_t)length;
    }
}

void damage_nodes(struct random *random, size_t length, struct nodes *nodes)
{
    uint32_t *node = some_node(random, nodes);
    size_t left = node[START] < length ? length - node[START] : 0;
    switch (random_below(random, 9)) {
    case 0: node[KIND] = random_one_in(random, 2) ? (uint32_t)random_below(random, 11) : some_number(random, 256); break;
    case 1: node[ARITY] = random_one_in(random, 2) ? (uint32_t)random_below(random, 4) : some_number(random, nodes->count); break;
    case 2: node[START] = some_number(random, length); break;
    case 3: node[LENGTH] = some_number(random, left); break;
    case 4: swap_nodes(random, nodes); break;
    case 5: end_with_bytes(random, length, node); break;
    case 6: make_long(random, nodes); break;
    case 7: spell_all(length, nodes); break;
    default: nodes->count = random_below(random, nodes->count) + 1; break;
    }
}

/* Spellings that overlap, as they come. */
static void place_spellings(struct random *random, size_t length, struct nodes *nodes)
{
    for (uint32_t *node = nodes->numbers; node < nodes->numbers + NUMBERS * nodes->count; node += NUMBERS) {
        node[LENGTH] = node[LENGTH] < length ? node[LENGTH] : (uint32_t)length;
        node[START] = (uint32_t)random_below(random, length - node[LENGTH] + 1);
    }
}

void make_nodes(struct random *random, struct text *bytes, struct nodes *nodes)
{
    bool is_long = random_one_in(random, 200);
    fill_bytes(random, bytes, is_long ? LONGEST_BODY - 10 + random_below(random, 20) : random_below(random, random_one_in(random, 4) ? 4000 : 20));
    make_tree(random, nodes);
    if (is_long)
        make_long(random, nodes);
    place_spellings(random, bytes->length, nodes);
}

/* ---- images */

/* What stands behind the version is a pack in both forms. In form 1 it is two nodes; in form 2 their first bytes are line 2, the count 256, and the first
 * of as many nodes, and the others stand in the second node's spelling. Only the version tells which it is. */
static void make_twofold(struct random *random, struct text *image)
{
    enum { OTHERS = 254, FIRST_LENGTH = 256 * THRINVAGE_PREFIX, FIRST_LEFT = FIRST_LENGTH - 3, ROOT_LENGTH = 20 };
    static struct text spelling;
    static struct nodes nodes = {.count = 2, .numbers = {THRINVAGE_NEGATIVE, 0, 0, 0, THRINVAGE_PREFIX, 1, 0, 0}};
    const uint32_t leaf[NUMBERS] = {THRINVAGE_PLAIN, 0, 0, 0}, root[NUMBERS] = {THRINVAGE_CALL, OTHERS + 1, 0, ROOT_LENGTH};
    struct form form = {1, 0};
    fill_bytes(random, &spelling, FIRST_LEFT);
    for (size_t more = OTHERS; more > 0; more--)
        add_node(&spelling, leaf);
    add_node(&spelling, root);
    add(&spelling, spelling.bytes, ROOT_LENGTH);
    nodes.numbers[NUMBERS + LENGTH] = (uint32_t)spelling.length;
    plain_pack(&form, spelling.bytes, &nodes, nodes.count, image);
    image->bytes[0] = (uint8_t)(1 + random_below(random, 2));
}

void make_image(struct random *random, struct text *image)
{
    static struct text bytes;
    static struct nodes nodes;
    struct form form = some_form(random);
    if (random_one_in(random, 100)) {
        make_twofold(random, image);
        return;
    }
    make_tree(random, &nodes);
    if (random_one_in(random, 100))
        make_long(random, &nodes);
    fill_bytes(random, &bytes, body_of(&nodes));
    place_spellings(random, bytes.length, &nodes);
    if (random_one_in(random, 8))
        swap_nodes(random, &nodes);
    plain_pack(&form, bytes.bytes, &nodes, nodes.count, image);
}

/* Where a node stands, as far as the spellings' lengths lead there. */
static size_t some_node_at(struct random *random, const struct text *image)
{
    uint8_t version = image->bytes[0];
    size_t at = nodes_at(version);
    if (image->length < at)
        return image->length;
    for (size_t more = random_below(random, 1 + field(image->bytes + count_at(version))); more > 0 && at + NODE_BYTES <= image->length; more--)
        at += NODE_BYTES + field(image->bytes + at + SPELLING_LENGTH_AT);
    return at;
}

static void damage_node(struct random *random, struct text *image)
{
    size_t at = some_node_at(random, image);
    if (at + NODE_BYTES > image->length)
        return;
    uint8_t *node = image->bytes + at;
    switch (random_below(random, 4)) {
    case 0: node[0] = (uint8_t)(random_one_in(random, 4) ? some_edge(random) : random_below(random, 12)); break;
    case 1: put_field(node + ARITY_AT, random_one_in(random, 2) ? some_edge(random) : random_below(random, 4)); break;
    case 2: put_field(node + SPELLING_LENGTH_AT, some_edge(random)); break;
    default: put_field(node + SPELLING_LENGTH_AT, image->length - at - NODE_BYTES + random_below(random, 3) - 1); break;
    }
}

/* As many bytes more at a place, or fewer. */
static void put_in(struct random *random, struct text *image, size_t at, size_t count)
{
    if (at > image->length || count > LONGEST_MADE - image->length)
        return;
    memmove(image->bytes + at + count, image->bytes + at, image->length - at);
    for (size_t i = 0; i < count; i++)
        image->bytes[at + i] = (uint8_t)random_below(random, 11);
    image->length += count;
}

static void leave_out(struct text *image, size_t at, size_t count)
{
    if (at + count > image->length)
        return;
    memmove(image->bytes + at, image->bytes + at + count, image->length - at - count);
    image->length -= count;
}

/* The other form's version, or one that there is not. */
static uint8_t some_version(struct random *random, uint8_t version)
{
    static const uint8_t others[] = {0, 3, 4, 127, 128, 254, 255};
    return random_one_in(random, 2) ? (uint8_t)(3 - version) : PICK(random, others);
}

/* Up to 2 off: the bytes of a line. */
static size_t some_near(struct random *random, size_t number)
{
    return number + random_below(random, 5) - 2;
}

static void damage_head(struct random *random, struct text *image)
{
    uint8_t *bytes = image->bytes, *count = bytes + count_at(bytes[0]);
    if (image->length < nodes_at(bytes[0]))
        return;
    switch (random_below(random, 8)) {
    case 0:
    case 1: bytes[0] = some_version(random, bytes[0]); break;
    case 2: put_field(bytes + LENGTH_AT, some_near(random, image->length - BODY_AT)); break;
    case 3: put_field(count, some_near(random, field(count))); break;
    case 4: put_field(bytes + LINE_AT, some_line(random)); break; /* the count in form 1 */
    case 5: put_in(random, image, LINE_AT, FIELD_BYTES); break;
    case 6: leave_out(image, LINE_AT, FIELD_BYTES); break;
    default: put_field(random_one_in(random, 2) ? count : bytes + LENGTH_AT, some_edge(random)); break;
    }
}

/* The end anywhere, or in the head. */
static void cut(struct random *random, struct text *image)
{
    size_t head = nodes_at(2) + 1;
    image->length = random_below(random, random_one_in(random, 2) && head < image->length ? head : image->length);
}

static void lengthen(struct random *random, struct text *image)
{
    static const uint8_t more[10];
    add(image, more, 1 + random_below(random, sizeof more));
}

static void damage_once(struct random *random, struct text *image)
{
    switch (random_below(random, 8)) {
    case 0: image->bytes[random_below(random, image->length)] = (uint8_t)random_next(random); break;
    case 1: put_in(random, image, random_below(random, image->length + 1), 1); break;
    case 2: leave_out(image, random_below(random, image->length), 1); break;
    case 3: cut(random, image); break;
    case 4: lengthen(random, image); break;
    case 5: damage_head(random, image); break;
    default: damage_node(random, image); break;
    }
}

/* An image whose length does not agree is looked at no further, so most do. */
void damage_image(struct random *random, struct text *image)
{
    for (size_t more = 1 + random_below(random, 3); more > 0 && image->length > 0; more--)
        damage_once(random, image);
    if (!random_one_in(random, 3))
        let_length_agree(image);
}
