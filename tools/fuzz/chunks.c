/* Each call is made twice, all that it is given in new places each time. What a call leaves in the reader and in the window is said here plainly from document
 * 02 and include/thrinvage.h, for every reader; of a reader that `start` began, what it hands out is what the token call gives on the whole text. */
#include "chunks.h"
#include "report.h"
#include "slice.h"
#include "thrinvage.h"
#include <string.h>

enum { LONGEST_TEXT = THRINVAGE_LONGEST_TEXT, LONGEST_TOKEN = THRINVAGE_LONGEST_TOKEN, FULL_HAND = 1022, MOST_AT_HAND = 1027, WINDOW = THRINVAGE_WINDOW, HALF = 1028 };
enum { MODE, SLASH, OFFSET, LINE, COLUMN, LAYOUT, FROM, TO, PHASE, REFUSAL, REFUSED_AT, TAKEN, FIELDS };
enum { OPEN, ENDED, REFUSED };
enum { INSIDE = 2 };
enum { TOKEN_REFUSED_AT = 3, TOKEN_FIELDS = 9 };

_Static_assert(sizeof(struct thrinvage_reader) == FIELDS * sizeof(uint64_t), "the fields are those of the struct");
_Static_assert(sizeof(struct thrinvage_token) == TOKEN_FIELDS * sizeof(uint64_t), "the fields are those of the struct");

/* A reader with its window. */
struct reader {
    uint64_t fields[FIELDS];
    uint8_t window[WINDOW];
};

/* What a call left behind; what it did not write of the token has the byte `fill`. */
struct left {
    uint32_t number;
    struct reader reader;
    union {
        struct thrinvage_token token;
        uint64_t fields[TOKEN_FIELDS];
    };
    uint8_t fill;
};

/* ---- one call in its places */

static void ask(struct random *random, const struct reader *before, struct left *left)
{
    struct slice reader = copy_of(random, NODES_SLICE, before->fields, sizeof before->fields);
    struct slice window = copy_of(random, LENT_SLICE, before->window, sizeof before->window);
    struct slice chunk = copy_of(random, TEXT_SLICE, running.bytes, running.length);
    struct slice token = new_slice(RECORD_SLICE, some_place(random), sizeof left->token, (uint8_t)random_next(random));
    struct slice *all[] = {&reader, &window, &chunk, &token};
    left->fill = (uint8_t)random_next(random);
    memset(token.at, left->fill, token.size);
    left->number = thrinvage_feed((struct thrinvage_reader *)reader.at, window.at, chunk.at, chunk.size, (struct thrinvage_token *)token.at);
    for (size_t i = 0; i < sizeof all / sizeof *all; i++)
        must(is_fence_whole(all[i]), "something is written beside a slice");
    must(running.length == 0 || memcmp(chunk.at, running.bytes, running.length) == 0, "the chunk is changed");
    memcpy(left->reader.fields, reader.at, reader.size);
    memcpy(left->reader.window, window.at, window.size);
    memcpy(&left->token, token.at, token.size);
    for (size_t i = 0; i < sizeof all / sizeof *all; i++)
        free_slice(all[i]);
}

/* ---- what a reader's numbers mean */

static bool is_refusal(uint64_t number)
{
    return (number >= 1 && number <= 15) || number == 18;
}

/* Numbers that a reader can have: the slash stands in a comment alone, the refusal and its offset behind a refusal alone. */
static bool is_known(const uint64_t *fields)
{
    bool mode = fields[MODE] == INSIDE || (fields[MODE] < INSIDE && fields[SLASH] == 0);
    bool refused = fields[PHASE] == REFUSED && is_refusal(fields[REFUSAL]);
    bool phase = refused || (fields[PHASE] < REFUSED && fields[REFUSAL] == 0 && fields[REFUSED_AT] == 0);
    return mode && phase;
}

static size_t at_hand(const uint64_t *fields)
{
    return fields[TO] - fields[FROM];
}

/* The bytes at hand are in the window, with room for one behind them, the cursor is valid in what was delivered, and the layout since the last token began
 * no later. */
static bool is_sound(const uint64_t *fields)
{
    if (fields[FROM] > fields[TO] || fields[TO] >= WINDOW || fields[OFFSET] > LONGEST_TEXT || fields[OFFSET] + at_hand(fields) > LONGEST_TEXT)
        return false;
    return fields[LINE] <= fields[OFFSET] && fields[COLUMN] <= fields[OFFSET] && fields[LAYOUT] <= fields[OFFSET];
}

/* No more than a text has, and none behind the end. */
static bool is_admitted(const uint64_t *fields, size_t length)
{
    if (!is_sound(fields))
        return false;
    size_t left = fields[PHASE] == ENDED ? 0 : LONGEST_TEXT - fields[OFFSET] - at_hand(fields);
    return length <= left;
}

/* ---- what a call must leave */

static bool is_same_reader(const uint64_t *one, const uint64_t *other)
{
    return memcmp(one, other, FIELDS * sizeof *one) == 0;
}

static bool is_same_window(const struct reader *one, const struct reader *other)
{
    return memcmp(one->window, other->window, WINDOW) == 0;
}

/* The reader keeps the refusal, and is as it was else. */
static void check_refused(const struct reader *before, const struct left *left, size_t taken)
{
    uint64_t due[FIELDS], filled;
    memcpy(due, before->fields, sizeof due);
    due[PHASE] = REFUSED;
    due[REFUSAL] = left->number;
    due[REFUSED_AT] = left->fields[TOKEN_REFUSED_AT];
    due[TAKEN] = taken;
    must(is_same_reader(left->reader.fields, due), "a refused reader keeps something else than its refusal");
    memset(&filled, left->fill, sizeof filled);
    for (size_t i = 0; i < TOKEN_FIELDS; i++)
        must(i == TOKEN_REFUSED_AT || left->fields[i] == filled, "a refusal writes another field of the token");
}

/* 8 at 0, with nothing taken. Numbers that no reader has are replaced by those of one that is not sound. */
static void check_not_valid(const struct reader *before, const struct left *left)
{
    struct reader made_up = {.fields = {[FROM] = 1}};
    must(left->number == THRINVAGE_NOT_VALID, "a reader or a chunk that may not come is not refused by 8");
    must(left->fields[TOKEN_REFUSED_AT] == 0, "refusal 8 points elsewhere than at 0");
    must(is_same_window(before, &left->reader), "refusal 8 writes the window");
    check_refused(is_known(before->fields) ? before : &made_up, left, 0);
}

static void check_repeated(const struct reader *before, const struct left *left)
{
    must(left->number == before->fields[REFUSAL], "a refused reader is refused by another number");
    must(left->fields[TOKEN_REFUSED_AT] == before->fields[REFUSED_AT], "a refused reader is refused elsewhere");
    must(is_same_window(before, &left->reader), "a refused reader's window is written");
    check_refused(before, left, 0);
}

static size_t lesser(size_t a, size_t b)
{
    return a < b ? a : b;
}

/* Until 1,022 are at hand and, where as many were there already, until 1,027. */
static size_t due_taken(size_t hand, size_t length)
{
    size_t most = hand < FULL_HAND ? FULL_HAND : hand < MOST_AT_HAND ? MOST_AT_HAND : hand;
    return lesser(length, most - hand);
}

/* The bytes at hand and those that are taken, where they stand behind the call. */
struct hand {
    const uint8_t *bytes;
    size_t place, length, taken;
};

/* They are moved to the front where half of the window is free; behind them stands the unknown byte, and the rest is as it was. */
static struct hand check_window(const struct reader *before, const struct reader *behind)
{
    struct reader due = *before;
    size_t from = before->fields[FROM], length = at_hand(before->fields);
    struct hand hand = {behind->window, from < HALF ? from : 0, length, due_taken(length, running.length)};
    memmove(due.window + hand.place, before->window + from, length);
    hand.length += hand.taken;
    if (hand.taken > 0)
        memcpy(due.window + hand.place + length, running.bytes, hand.taken);
    due.window[hand.place + hand.length] = 0;
    must(is_same_window(&due, behind), "the window has other bytes than those at hand and those of the chunk");
    hand.bytes += hand.place;
    return hand;
}

static struct cursor cursor_of(const uint64_t *fields)
{
    return (struct cursor){fields[0], fields[1], fields[2]};
}

/* Whether a cursor is the other one, moved on over bytes at hand. */
static bool is_moved(struct cursor at, struct cursor to, const struct hand *hand)
{
    size_t sum = at.offset + hand->length;
    if (to.offset < at.offset || to.offset > sum)
        return false;
    for (const uint8_t *byte = hand->bytes; at.offset < to.offset; byte++, at.offset++) {
        at.line += *byte == '\n';
        at.column = *byte == '\n' ? 0 : at.column + 1;
    }
    return at.line == to.line && at.column == to.column;
}

/* The reader stands at its cursor, with what is not yet read at hand. */
static void check_behind(const struct reader *before, const struct left *left, const struct hand *hand)
{
    const uint64_t *fields = left->reader.fields, *old = before->fields;
    struct cursor at = cursor_of(old + OFFSET), to = cursor_of(fields + OFFSET);
    must(is_moved(at, to, hand), "line, column or offset do not follow the bytes at hand");
    must(is_known(fields) && fields[PHASE] == old[PHASE], "the reader has another phase, or numbers that none has");
    must(fields[TO] == hand->place + hand->length, "the bytes at hand end elsewhere");
    must(fields[FROM] == fields[TO] - (hand->length - (to.offset - at.offset)), "the bytes at hand begin elsewhere");
    must(fields[TAKEN] == hand->taken, "another count of bytes is taken");
}

static void check_token(const struct reader *before, const struct left *left)
{
    const struct thrinvage_token *token = &left->token;
    const uint64_t *fields = left->reader.fields;
    must(token->offset == fields[OFFSET] && token->line == fields[LINE] && token->column == fields[COLUMN], "the reader is not behind its token");
    must(fields[MODE] == 0 && fields[LAYOUT] == fields[OFFSET], "behind a token there is layout");
    must(token->layout == before->fields[LAYOUT], "the layout before a token began elsewhere than the reader knows");
    must(token->refused_at == 0, "what is read is refused at somewhere");
    must(token->start >= before->fields[OFFSET] && token->start < token->offset, "a token starts outside of the bytes at hand");
    must(token->offset - token->start <= LONGEST_TOKEN, "a token is longer than it may be");
    must(token->kind <= THRINVAGE_END && token->value_kind <= THRINVAGE_FLOAT, "no such kind");
    must((token->value_kind != THRINVAGE_NOTHING) == (token->kind == THRINVAGE_NUMBER), "numbers have values, and nothing else has");
}

static void check_waiting(const struct reader *before, const struct left *left)
{
    must(before->fields[PHASE] == OPEN, "more is asked for behind the end");
    must(left->reader.fields[LAYOUT] == before->fields[LAYOUT], "the layout before a token began elsewhere when more is asked for");
    must(at_hand(left->reader.fields) < MOST_AT_HAND, "more is asked for with a token's bytes at hand");
    for (size_t i = 0; i < sizeof left->token; i++)
        must(((const uint8_t *)left->fields)[i] == left->fill, "the token is written, and more is asked for");
}

static void check_refusal_of_text(const struct reader *before, const struct left *left, const struct hand *hand)
{
    bool number = (left->number >= 1 && left->number <= THRINVAGE_OUT_OF_LIMIT) || left->number == THRINVAGE_TOKEN_TOO_LONG;
    bool of_slash = left->number == THRINVAGE_UNCLOSED_COMMENT && left->fields[TOKEN_REFUSED_AT] == before->fields[SLASH];
    size_t at = left->fields[TOKEN_REFUSED_AT], from = before->fields[OFFSET];
    must(number, "no refusal of a text");
    must(of_slash || (at >= from && at <= from + hand->length), "a refusal points outside of the bytes at hand");
    check_refused(before, left, hand->taken);
}

static void check(const struct reader *before, const struct left *left)
{
    bool known = is_known(before->fields);
    if (known && before->fields[PHASE] == REFUSED) {
        check_repeated(before, left);
        return;
    }
    if (!known || !is_admitted(before->fields, running.length)) {
        check_not_valid(before, left);
        return;
    }
    struct hand hand = check_window(before, &left->reader);
    if (left->number == THRINVAGE_READ || left->number == THRINVAGE_MORE)
        check_behind(before, left, &hand);
    if (left->number == THRINVAGE_READ)
        check_token(before, left);
    else if (left->number == THRINVAGE_MORE)
        check_waiting(before, left);
    else
        check_refusal_of_text(before, left, &hand);
}

static bool is_same(const struct left *one, const struct left *other)
{
    bool read = one->number != THRINVAGE_READ || memcmp(&one->token, &other->token, sizeof one->token) == 0;
    bool at = one->number == THRINVAGE_MORE || one->fields[TOKEN_REFUSED_AT] == other->fields[TOKEN_REFUSED_AT];
    return one->number == other->number && read && at && is_same_reader(one->reader.fields, other->reader.fields) && is_same_window(&one->reader, &other->reader);
}

static void feed_twice(struct random *random, const struct reader *before, const uint8_t *chunk, size_t length, struct left *left)
{
    static struct left again;
    running = (struct running){.call = FEED, .bytes = chunk, .length = length, .reader = before->fields};
    ask(random, before, left);
    check(before, left);
    ask(random, before, &again);
    must(is_same(left, &again), "the same call gives another answer");
    count_answers(left->number == THRINVAGE_MORE ? ASKS_FOR_MORE : left->number);
}

/* ---- finish and start: they look at no window */

static void ask_without_window(struct random *random, void (*call)(struct thrinvage_reader *), const uint64_t *before, const uint64_t *due)
{
    for (int more = 2; more > 0; more--) {
        struct slice reader = copy_of(random, NODES_SLICE, before, FIELDS * sizeof *before);
        call((struct thrinvage_reader *)reader.at);
        must(is_fence_whole(&reader), "something is written beside the reader");
        must(is_same_reader((const uint64_t *)reader.at, due), "finish or start leaves another reader");
        free_slice(&reader);
    }
    count_answers(THRINVAGE_READ);
}

/* A refused reader stays refused. */
static void finish_twice(struct random *random, const uint64_t *before, uint64_t *due)
{
    uint64_t made_up[FIELDS] = {[FROM] = 1};
    memcpy(due, is_known(before) ? before : made_up, sizeof made_up);
    due[PHASE] = due[PHASE] == REFUSED ? REFUSED : ENDED;
    due[TAKEN] = 0;
    running = (struct running){.call = FINISH, .reader = before};
    ask_without_window(random, thrinvage_finish, before, due);
}

static void start_twice(struct random *random, const uint64_t *before)
{
    static const uint64_t due[FIELDS];
    running = (struct running){.call = START_READER, .reader = before};
    ask_without_window(random, thrinvage_start, before, due);
}

/* ---- readers that nobody began */

static uint64_t some_number(struct random *random, uint64_t near)
{
    static const uint64_t far[] = {0, 1, 2, 3, 1023, 1024, 1025, 1026, 1027, 1028, 1029, 2055, 2056, 2057, 65534, 65535, 65536, (uint64_t)1 << 32, UINT64_MAX / 2, UINT64_MAX - 1, UINT64_MAX};
    switch (random_below(random, 4)) {
    case 0: return far[random_below(random, sizeof far / sizeof *far)];
    case 1: return near + random_below(random, 5) - 2;
    case 2: return random_below(random, 2060);
    default: return random_next(random) >> random_below(random, 64);
    }
}

static void fill_window(struct random *random, uint8_t *window)
{
    bool of_all = random_one_in(random, 4);
    uint8_t same = prolog_byte(random);
    size_t kind = random_below(random, 3);
    for (size_t i = 0; i < WINDOW; i++)
        window[i] = kind == 0 ? same : of_all ? (uint8_t)random_next(random) : prolog_byte(random);
    if (kind == 0)
        window[random_below(random, WINDOW)] = prolog_byte(random);
}

/* Any numbers. */
static void make_up(struct random *random, struct reader *reader)
{
    for (size_t i = 0; i < FIELDS; i++)
        reader->fields[i] = random_one_in(random, 3) ? some_number(random, 0) : random_below(random, 3);
    fill_window(random, reader->window);
}

/* Numbers that pass for a reader's. */
static void make_up_sound(struct random *random, struct reader *reader)
{
    uint64_t *fields = reader->fields;
    memset(fields, 0, sizeof reader->fields);
    fields[MODE] = random_below(random, 3);
    fields[SLASH] = fields[MODE] == INSIDE ? some_number(random, 0) : 0;
    fields[TO] = random_below(random, WINDOW);
    fields[FROM] = random_below(random, fields[TO] + 1);
    if (random_one_in(random, 2))
        fields[FROM] = fields[TO] - lesser(fields[TO], random_below(random, 2) * 1020 + random_below(random, 12));
    fields[OFFSET] = random_below(random, LONGEST_TEXT - at_hand(fields) + 1);
    if (random_one_in(random, 4))
        fields[OFFSET] = LONGEST_TEXT - at_hand(fields);
    fields[LINE] = random_below(random, fields[OFFSET] + 1);
    fields[COLUMN] = random_below(random, fields[OFFSET] + 1);
    fields[LAYOUT] = random_one_in(random, 2) ? fields[OFFSET] : random_below(random, fields[OFFSET] + 1);
    fields[PHASE] = random_below(random, 2);
    if (random_one_in(random, 6)) {
        fields[PHASE] = REFUSED;
        fields[REFUSAL] = random_below(random, 20);
        fields[REFUSED_AT] = some_number(random, 0);
    }
    fill_window(random, reader->window);
}

static void damage(struct random *random, struct reader *reader)
{
    if (random_one_in(random, 4)) {
        reader->window[random_below(random, WINDOW)] = random_one_in(random, 4) ? (uint8_t)random_next(random) : prolog_byte(random);
        return;
    }
    size_t field = random_below(random, FIELDS);
    reader->fields[field] = some_number(random, reader->fields[field]);
}

/* ---- a reading: the reader that a text goes through */

struct reading {
    const struct text *text;
    struct reader reader;
    size_t fed, calls;
    struct thrinvage_token last;
    bool is_over;
};

/* What the token call gives on the whole: the token, if it is not longer than it may be; its refusal, unless so much of the text is left that the token can
 * be longer. Then 15 at a token's start will do: which of the two it is, is the comparison's. */
static void check_beside_whole(const struct reading *reading, const struct left *left)
{
    const struct text *text = reading->text;
    const struct thrinvage_token *last = &reading->last;
    struct thrinvage_token due;
    uint32_t number = thrinvage_next_token(text->bytes, text->length, last->offset, last->line, last->column, &due, THRINVAGE_FILE);
    if (number == THRINVAGE_READ && due.offset - due.start <= LONGEST_TOKEN) {
        must(left->number == THRINVAGE_READ && memcmp(&left->token, &due, sizeof due) == 0, "not the token of the whole");
        must(left->token.layout == last->offset, "the layout before a token began elsewhere than where the last token ends");
        return;
    }
    must(left->number != THRINVAGE_READ, "a token that the whole has not");
    size_t at = left->fields[TOKEN_REFUSED_AT];
    if (left->number == THRINVAGE_TOKEN_TOO_LONG) {
        bool starts = at >= last->offset && thrinvage_layout_end(text->bytes, text->length, last->offset) == at;
        must(starts && at + LONGEST_TOKEN < text->length + (number == THRINVAGE_BAD_QUOTED || number == THRINVAGE_SET_ASIDE), "15 where no long token starts");
        return;
    }
    must(number != THRINVAGE_READ, "a token that is too long is refused by another number");
    must(left->number == number && at == due.refused_at, "not the refusal of the whole");
}

static bool has_more(const struct reading *reading)
{
    return reading->fed < reading->text->length;
}

static void step(struct random *random, struct reading *reading, const uint8_t *chunk, size_t length)
{
    static struct left left;
    bool may_come = reading->fed + length <= LONGEST_TEXT && !(length > 0 && reading->reader.fields[PHASE] == ENDED);
    bool is_first = may_come && !reading->is_over && reading->text->length <= LONGEST_TEXT;
    feed_twice(random, &reading->reader, chunk, length, &left);
    reading->calls += 1;
    reading->reader = left.reader;
    reading->fed += left.reader.fields[TAKEN];
    reading->is_over = left.number != THRINVAGE_READ && left.number != THRINVAGE_MORE;
    if (is_first && left.number != THRINVAGE_MORE)
        check_beside_whole(reading, &left);
    if (left.number == THRINVAGE_READ)
        reading->last = left.token;
}

/* A reader like this one, damaged, for a few calls; this one goes on as it was. */
static void go_astray(struct random *random, const struct reading *reading)
{
    static struct reader reader;
    static struct left left;
    reader = reading->reader;
    for (size_t more = 1 + random_below(random, 2); more > 0; more--)
        damage(random, &reader);
    for (size_t more = 1 + random_below(random, 4); more > 0; more--) {
        size_t from = random_below(random, reading->text->length + 1);
        size_t length = random_below(random, lesser(reading->text->length - from, 1100) + 1);
        feed_twice(random, &reader, reading->text->bytes + from, length, &left);
        reader = left.reader;
        if (random_one_in(random, 8))
            finish_twice(random, left.reader.fields, reader.fields);
    }
}

/* The rest of the chunk until all of it is taken and more is asked for. */
static void feed_chunk(struct random *random, struct reading *reading, size_t length)
{
    size_t end = reading->fed + length, tokens;
    do {
        tokens = reading->last.offset;
        step(random, reading, reading->text->bytes + reading->fed, end - reading->fed);
        if (random_one_in(random, 30))
            go_astray(random, reading);
    } while (!reading->is_over && (reading->fed < end || tokens != reading->last.offset));
}

/* So many calls at most, as a rule: what is left of the text is not read then. */
static size_t some_calls(struct random *random)
{
    return random_one_in(random, 50) ? 4000 : 60;
}

static size_t some_length(struct random *random, size_t left)
{
    static const size_t most[] = {1, 1, 2, 7, 40, 300, 1030, 4000, LONGEST_MADE};
    size_t length = random_one_in(random, 8) ? 0 : 1 + random_below(random, most[random_below(random, sizeof most / sizeof *most)]);
    return lesser(length, left);
}

static void read_in_chunks(struct random *random, const struct text *text)
{
    static struct reading reading;
    size_t calls = some_calls(random);
    memset(&reading, 0, sizeof reading);
    reading.text = text;
    fill_window(random, reading.reader.window);
    while (has_more(&reading) && !reading.is_over && reading.calls < calls)
        feed_chunk(random, &reading, some_length(random, text->length - reading.fed));
    if (has_more(&reading) && !reading.is_over)
        return;
    uint64_t before[FIELDS];
    memcpy(before, reading.reader.fields, sizeof before);
    finish_twice(random, before, reading.reader.fields);
    for (size_t more = text->length + 1; more > 0 && !reading.is_over; more--)
        step(random, &reading, text->bytes, random_one_in(random, 40) ? lesser(3, text->length) : 0);
    must(reading.is_over, "a text comes to no end");
    step(random, &reading, text->bytes, lesser(random_below(random, 9), text->length));
}

static void feed_made_up(struct random *random, const struct text *text)
{
    static struct reader reader;
    static struct left left;
    (random_one_in(random, 3) ? make_up : make_up_sound)(random, &reader);
    feed_twice(random, &reader, text->bytes, random_below(random, lesser(text->length, 1100) + 1), &left);
    finish_twice(random, reader.fields, left.reader.fields);
    start_twice(random, reader.fields);
}

void run_chunks(struct random *random, const struct text *text)
{
    read_in_chunks(random, text);
    for (int more = 4; more > 0; more--)
        feed_made_up(random, text);
}
