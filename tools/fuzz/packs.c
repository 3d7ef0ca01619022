/* Each call is made twice, all that it is given in new places each time, and its whole answer must be the plain reading's (images.c). */
#include "packs.h"
#include "images.h"
#include "report.h"
#include "slice.h"
#include "thrinvage.h"
#include <string.h>

/* What a call must answer: the number, and if that is 0, the record and what is written. The record is three fields of unpack_either, else a count. */
struct due {
    uint32_t number;
    uint64_t record[sizeof(struct thrinvage_unpacked) / sizeof(uint64_t)];
    const void *written;
    size_t size;
};

static struct slice filled(struct random *random, enum role role, size_t size, uint8_t fill)
{
    struct slice slice = new_slice(role, some_place(random), size, (uint8_t)random_next(random));
    if (size > 0)
        memset(slice.at, fill, size);
    return slice;
}

static bool is_same(const void *one, const void *other, size_t size)
{
    return size == 0 || memcmp(one, other, size) == 0;
}

static bool is_filled(const uint8_t *from, size_t size, uint8_t with)
{
    for (size_t i = 0; i < size; i++)
        if (from[i] != with)
            return false;
    return true;
}

/* Of what is lent, the size of one. */
static size_t unit(enum call call)
{
    return call == UNPACK || call == EITHER ? sizeof(uint32_t) : 1;
}

static size_t record_size(enum call call)
{
    return call == EITHER ? sizeof(struct thrinvage_unpacked) : sizeof(uint64_t);
}

static uint32_t put(const struct slice *bytes, const struct slice *nodes, void *lent, void *record)
{
    const uint32_t *numbers = (const uint32_t *)nodes->at;
    switch (running.call) {
    case NODES: return thrinvage_pack_nodes(bytes->at, bytes->size, numbers, running.numbers, running.count, lent, running.room, record);
    case NODES_2:
        return thrinvage_pack_nodes_form_2(bytes->at, bytes->size, numbers, running.numbers, running.count, running.line, lent, running.room, record);
    case UNPACK: return thrinvage_unpack(bytes->at, bytes->size, lent, running.room, record);
    case EITHER: return thrinvage_unpack_either(bytes->at, bytes->size, lent, running.room, record);
    case UP: return thrinvage_move_up(bytes->at, bytes->size, lent, running.room, record);
    default: return thrinvage_move_down(bytes->at, bytes->size, lent, running.room, record);
    }
}

static void check_number(uint32_t number, const struct due *due)
{
    must(number < REFUSALS, "no such refusal");
    must(number == THRINVAGE_READ || due->number != THRINVAGE_READ, "what the plain reading takes is refused");
    must(number != THRINVAGE_READ || due->number == THRINVAGE_READ, "what the plain reading refuses is taken");
    must(number == due->number, "the refusal is another than the plain reading's");
}

static void check_written(const struct due *due, const struct slice *lent, uint8_t fill, const struct slice *record)
{
    if (due->number != THRINVAGE_READ) {
        must(is_filled(lent->at, lent->size, fill), "a refusal writes to the lent slice");
        must(is_filled(record->at, record->size, fill), "a refusal writes the record");
        return;
    }
    must(is_same(record->at, due->record, record->size), "another form, line or count than the plain reading's");
    must(is_same(lent->at, due->written, due->size), "something else is written than by the plain reading");
    must(is_filled(lent->at + due->size, lent->size - due->size, fill), "the lent slice is written behind the answer");
}

static void ask(struct random *random, const struct due *due)
{
    uint8_t fill = (uint8_t)random_next(random);
    size_t nodes_size = running.numbers * sizeof(uint32_t);
    struct slice bytes = copy_of(random, TEXT_SLICE, running.bytes, running.length);
    struct slice nodes = copy_of(random, NODES_SLICE, running.nodes, nodes_size);
    struct slice lent = filled(random, LENT_SLICE, running.room * unit(running.call), fill);
    struct slice record = filled(random, RECORD_SLICE, record_size(running.call), fill);
    struct slice *all[] = {&bytes, &nodes, &lent, &record};
    uint32_t number = put(&bytes, &nodes, lent.at, record.at);
    for (size_t i = 0; i < sizeof all / sizeof *all; i++)
        must(is_fence_whole(all[i]), "something is written beside a slice");
    must(is_same(bytes.at, running.bytes, running.length), "the bytes are changed");
    must(is_same(nodes.at, running.nodes, nodes_size), "the nodes are changed");
    check_number(number, due);
    check_written(due, &lent, fill, &record);
    for (size_t i = 0; i < sizeof all / sizeof *all; i++)
        free_slice(all[i]);
}

/* Both answers are the one that is due, so they are alike. */
static void ask_twice(struct random *random, const struct due *due)
{
    ask(random, due);
    ask(random, due);
    count_answers(due->number);
}

/* What is needed, one less, none, or more. */
static size_t some_room(struct random *random, size_t needed, size_t most)
{
    size_t more = needed + random_below(random, 20);
    switch (random_below(random, 6)) {
    case 0: return needed;
    case 1: return needed > 0 ? needed - 1 : 0;
    case 2: return random_below(random, needed + 1);
    case 3: return random_one_in(random, 8) ? most : needed;
    default: return more < most ? more : most;
    }
}

/* ---- the calls on an image */

/* unpack had no number for an unknown version. */
static uint32_t number_of(enum call call, uint32_t number)
{
    return call == UNPACK && number == THRINVAGE_UNKNOWN_VERSION ? THRINVAGE_NO_PACK : number;
}

static struct due due_of_unpacking(enum call call, const struct text *image)
{
    static struct nodes nodes;
    struct versions known = {1, call == EITHER ? 2 : 1};
    struct form form;
    uint32_t number = plain_unpack(image, known, &form, &nodes);
    if (number != THRINVAGE_READ)
        return (struct due){.number = number_of(call, number)};
    struct due due = {THRINVAGE_READ, {nodes.count}, nodes.numbers, NUMBERS * nodes.count * sizeof(uint32_t)};
    if (call == EITHER)
        memcpy(due.record, &(struct thrinvage_unpacked){form.version, form.line, nodes.count}, sizeof due.record);
    return due;
}

/* The nodes of the one form are packed in the other, with no line. */
static struct due due_of_moving(enum call call, const struct text *image)
{
    static struct nodes nodes;
    static struct text moved;
    uint32_t from = call == UP ? 1 : 2;
    struct form form, to = {3 - from, 0};
    uint32_t number = plain_unpack(image, (struct versions){from, from}, &form, &nodes);
    if (number == THRINVAGE_READ)
        number = plain_verdict(to.version, image->length, &nodes, NUMBERS * nodes.count, nodes.count);
    if (number != THRINVAGE_READ)
        return (struct due){.number = number};
    plain_pack(&to, image->bytes, &nodes, nodes.count, &moved);
    return (struct due){THRINVAGE_READ, {moved.length}, moved.bytes, moved.length};
}

static struct due due_of(enum call call, const struct text *image)
{
    return call == UP || call == DOWN ? due_of_moving(call, image) : due_of_unpacking(call, image);
}

static void take(struct random *random, enum call call, const struct text *image, size_t room, struct due due)
{
    if (due.number == THRINVAGE_READ && room * unit(call) < due.size)
        due.number = THRINVAGE_NO_ROOM;
    running = (struct running){.call = call, .room = room, .bytes = image->bytes, .length = image->length};
    ask_twice(random, &due);
}

/* Into some room; where it is taken, into the room that is needed, and into one less. What was written is the same as what is due. */
static struct due try_call(struct random *random, enum call call, const struct text *image)
{
    struct due due = due_of(call, image);
    size_t needed = due.size / unit(call), most = unit(call) == 1 ? LARGEST_SLICE : THRINVAGE_NODE_NUMBERS;
    take(random, call, image, some_room(random, needed, most), due);
    if (due.number != THRINVAGE_READ)
        return due;
    take(random, call, image, needed, due);
    take(random, call, image, needed - 1, due);
    return due;
}

/* ---- pack_nodes */

/* The nodes as the call is given them: `numbers` and `count` may be any. */
struct given_nodes {
    struct form form;
    const struct text *bytes;
    const struct nodes *nodes;
    size_t numbers, count;
};

/* Another reading of "what is packed is unpacked to the same": by the archive itself, form, kinds, arities and spellings. */
static void check_unpacked(struct random *random, const struct given_nodes *given, const struct text *image)
{
    struct due due = try_call(random, EITHER, image);
    must(due.number == THRINVAGE_READ, "packed nodes are not unpacked");
    must(due.record[0] == given->form.version && due.record[1] == given->form.line, "packed nodes are unpacked to another form or line");
    must(due.record[2] == given->count, "packed nodes are unpacked to another count");
    for (size_t i = 0; i < given->count; i++) {
        const uint32_t *packed = given->nodes->numbers + NUMBERS * i, *unpacked = (const uint32_t *)due.written + NUMBERS * i;
        must(packed[KIND] == unpacked[KIND] && packed[ARITY] == unpacked[ARITY] && packed[LENGTH] == unpacked[LENGTH], "packed nodes are unpacked to others");
        must(is_same(given->bytes->bytes + packed[START], image->bytes + unpacked[START], packed[LENGTH]), "a spelling is unpacked to another");
    }
}

static void pack(struct random *random, const struct given_nodes *given, size_t room, const struct text *image, uint32_t verdict)
{
    bool is_short = verdict == THRINVAGE_READ && room < image->length;
    struct due due = {is_short ? THRINVAGE_NO_ROOM : verdict, {image->length}, image->bytes, image->length};
    running = (struct running){.call = given->form.version == 1 ? NODES : NODES_2,
                               .room = room,
                               .bytes = given->bytes->bytes,
                               .length = given->bytes->length,
                               .nodes = given->nodes->numbers,
                               .numbers = given->numbers,
                               .count = given->count,
                               .line = (uint16_t)given->form.line};
    ask_twice(random, &due);
}

static void try_nodes(struct random *random, const struct given_nodes *given)
{
    static struct text image;
    uint32_t verdict = plain_verdict(given->form.version, given->bytes->length, given->nodes, given->numbers, given->count);
    image.length = 0;
    if (verdict == THRINVAGE_READ)
        plain_pack(&given->form, given->bytes->bytes, given->nodes, given->count, &image);
    pack(random, given, some_room(random, image.length, LARGEST_SLICE), &image, verdict);
    if (verdict != THRINVAGE_READ)
        return;
    pack(random, given, image.length, &image, verdict);
    pack(random, given, image.length - 1, &image, verdict);
    check_unpacked(random, given, &image);
}

static size_t some_count(struct random *random, size_t count)
{
    static const size_t far[] = {0, 1, 1022, 1023, 1024, 65535, (size_t)1 << 32, SIZE_MAX / 4, SIZE_MAX / 4 + 1, SIZE_MAX / 4 + 2, SIZE_MAX / 2 + 1, SIZE_MAX - 1, SIZE_MAX};
    if (random_one_in(random, 3))
        return far[random_below(random, sizeof far / sizeof *far)];
    return count + random_below(random, 3) - 1;
}

/* Numbers behind the nodes; how many there are then. */
static size_t add_numbers(struct random *random, struct nodes *nodes)
{
    size_t from = NUMBERS * nodes->count, to = nodes->count < MOST_MADE ? from + NUMBERS : from;
    for (size_t i = from; i < to; i++)
        nodes->numbers[i] = (uint32_t)random_below(random, 3);
    return to;
}

/* As many as there are nodes, most of the time; else the count, or the room of the numbers, is another. */
static void try_counts(struct random *random, const struct text *bytes, struct nodes *nodes)
{
    struct given_nodes given = {some_form(random), bytes, nodes, NUMBERS * nodes->count, nodes->count};
    if (random_one_in(random, 4))
        given.numbers = random_below(random, add_numbers(random, nodes) + 1);
    if (random_one_in(random, 4))
        given.count = some_count(random, nodes->count);
    try_nodes(random, &given);
}

static void try_made_nodes(struct random *random)
{
    static struct text bytes;
    static struct nodes nodes;
    make_nodes(random, &bytes, &nodes);
    for (size_t more = random_below(random, 4); more > 0; more--)
        damage_nodes(random, bytes.length, &nodes);
    try_counts(random, &bytes, &nodes);
}

/* ---- an image */

static void copy_text(struct text *to, const void *bytes, size_t length)
{
    to->length = length;
    memcpy(to->bytes, bytes, length);
}

/* Moved and back again: the same bytes, but for the line, which is then 0. */
static void check_moved(struct random *random, const struct text *image, enum call move, enum call back)
{
    static struct text moved, again;
    struct due due = try_call(random, move, image);
    if (due.number != THRINVAGE_READ)
        return;
    copy_text(&moved, due.written, due.size);
    copy_text(&again, image->bytes, image->length);
    if (move == DOWN)
        memset(again.bytes + LINE_AT, 0, FIELD_BYTES);
    due = try_call(random, back, &moved);
    must(due.number == THRINVAGE_READ && due.size == again.length && is_same(due.written, again.bytes, due.size), "what is moved and moved back is another");
}

/* By each call that takes an image. The nodes of a pack are packed again, in its form and in the other, then damaged. */
static void try_image(struct random *random, const struct text *image)
{
    static struct nodes nodes;
    struct form form;
    try_call(random, UNPACK, image);
    try_call(random, EITHER, image);
    check_moved(random, image, UP, DOWN);
    check_moved(random, image, DOWN, UP);
    if (plain_unpack(image, (struct versions){1, 2}, &form, &nodes) != THRINVAGE_READ)
        return;
    struct given_nodes given = {form, image, &nodes, NUMBERS * nodes.count, nodes.count};
    pack(random, &given, image->length, image, THRINVAGE_READ);
    pack(random, &given, image->length - 1, image, THRINVAGE_READ);
    given.form = (struct form){3 - form.version, 0};
    try_nodes(random, &given);
    for (size_t more = random_below(random, 3); more > 0; more--)
        damage_nodes(random, image->length, &nodes);
    try_counts(random, image, &nodes);
}

/* ---- a round's */

static void some_image(struct random *random, const struct text *packed, struct text *image)
{
    size_t kind = random_below(random, 8);
    if (kind == 0) {
        image->length = random_below(random, random_one_in(random, 100) ? LONGEST_MADE + 1 : 40);
        for (size_t i = 0; i < image->length; i++)
            image->bytes[i] = (uint8_t)random_below(random, random_one_in(random, 2) ? 256 : 3);
    } else if (kind <= 3 && packed->length > 0) {
        image->length = packed->length;
        memcpy(image->bytes, packed->bytes, packed->length);
    } else {
        make_image(random, image);
    }
}

void run_packs(struct random *random, const struct text *packed)
{
    static struct text image;
    for (int more = 2; more > 0; more--) {
        some_image(random, packed, &image);
        if (random_one_in(random, 2))
            damage_image(random, &image);
        try_image(random, &image);
        try_made_nodes(random);
    }
}
