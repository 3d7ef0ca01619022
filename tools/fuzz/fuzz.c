/* Calls the archive with random texts, packs, cursors, rooms, chunks and readers, each call twice in two places, and looks at all that comes back. See tools/README.md.
 * usage: fuzz [--seconds N] [--seed N] [--round N] [--place N] FILE..    (FILEs of Prolog, parts of which are among the texts) */
#include "chunks.h"
#include "images.h"
#include "layouts.h"
#include "no_reading.h"
#include "packs.h"
#include "report.h"
#include "slice.h"
#include "texts.h"
#include "thrinvage.h"
#include <sanitizer/common_interface_defs.h>
#include <stdio.h>
#include <stdlib.h>
#include <string.h>
#include <time.h>

enum { LONGEST_TEXT = 65535, LARGEST_ROOM = 4096 };
static const uint64_t LARGEST_MAGNITUDE = UINT64_C(1) << 63;

/* All begin with the cursor and the refusal's offset. */
union record {
    struct thrinvage_token token;
    struct thrinvage_token_text text;
    struct thrinvage_layout layout;
    struct thrinvage_clause clause;
    uint64_t fields[12];
};
enum { OFFSET_FIELD, LINE_FIELD, COLUMN_FIELD, REFUSED_AT_FIELD };

/* What a call left behind; what it did not write has the byte `fill`. */
struct given {
    uint32_t number;
    uint8_t fill;
    union record record;
    uint8_t lent[LARGEST_SLICE];
};

static struct text now_text;
/* The last pack that was made of it. */
static struct text now_packed;

/* ---- one call in its places */

static size_t record_size(enum call call)
{
    if (call == TEXT)
        return sizeof(struct thrinvage_token_text);
    if (call == LAYOUT_TEXT)
        return sizeof(struct thrinvage_layout);
    return call >= READ ? sizeof(struct thrinvage_clause) : sizeof(struct thrinvage_token);
}

static size_t lent_size(const struct running *asked)
{
    return asked->call == READ ? 2 * asked->room : asked->room;
}

/* A file's number; of some places one that stands for nothing, and so for a file. */
static uint32_t some_file(struct cursor at)
{
    return at.offset % 4 == 3 ? (uint32_t)at.column + 2 : THRINVAGE_FILE;
}

static uint32_t put(const struct running *asked, const struct slice *text, void *lent, void *record)
{
    size_t offset = asked->at.offset, line = asked->at.line, column = asked->at.column;
    switch (asked->call) {
    case TOKEN: return thrinvage_next_token(text->at, text->size, offset, line, column, record, some_file(asked->at));
    case FIELD: return thrinvage_next_token(text->at, text->size, offset, line, column, record, THRINVAGE_FIELD);
    case TEXT: return thrinvage_next_token_text(text->at, text->size, offset, line, column, lent, asked->room, record);
    case LAYOUT_TEXT: return thrinvage_next_layout(text->at, text->size, offset, line, column, record);
    case READ: return thrinvage_read_clause(text->at, text->size, offset, line, column, lent, asked->room, record);
    case LIST: return thrinvage_list_clause(text->at, text->size, offset, line, column, lent, asked->room, record);
    case PACK: return thrinvage_pack_clause(text->at, text->size, offset, line, column, lent, asked->room, record);
    default: return thrinvage_pack_clause_form_2(text->at, text->size, offset, line, column, lent, asked->room, record);
    }
}

static void ask(struct random *random, const struct running *asked, const struct slice *text, struct given *given)
{
    struct slice lent = new_slice(LENT_SLICE, some_place(random), lent_size(asked), (uint8_t)random_next(random));
    struct slice record = new_slice(RECORD_SLICE, some_place(random), record_size(asked->call), (uint8_t)random_next(random));
    given->fill = (uint8_t)random_next(random);
    if (lent.size > 0)
        memset(lent.at, given->fill, lent.size);
    memset(record.at, given->fill, record.size);
    given->number = put(asked, text, lent.at, record.at);
    must(is_fence_whole(text), "something is written beside the text");
    must(is_fence_whole(&lent), "something is written beside the lent slice");
    must(is_fence_whole(&record), "something is written beside the record");
    if (lent.size > 0)
        memcpy(given->lent, lent.at, lent.size);
    memcpy(&given->record, record.at, record.size);
    free_slice(&lent);
    free_slice(&record);
}

/* ---- what must be so of an answer */

static bool is_valid(struct cursor at)
{
    return now_text.length <= LONGEST_TEXT && at.offset <= now_text.length && at.line <= at.offset && at.column <= at.offset;
}

static bool is_untouched(const struct given *given, size_t from, size_t to)
{
    for (size_t i = from; i < to; i++)
        if (given->lent[i] != given->fill)
            return false;
    return true;
}

static struct cursor next_of(const struct given *given)
{
    const uint64_t *fields = given->record.fields;
    return (struct cursor){fields[OFFSET_FIELD], fields[LINE_FIELD], fields[COLUMN_FIELD]};
}

static struct cursor moved(struct cursor at, size_t offset)
{
    for (; at.offset < offset; at.offset++) {
        bool newline = now_text.bytes[at.offset] == '\n';
        at.line += newline;
        at.column = newline ? 0 : at.column + 1;
    }
    return at;
}

static bool is_same_cursor(struct cursor a, struct cursor b)
{
    return a.offset == b.offset && a.line == b.line && a.column == b.column;
}

static bool is_packing(enum call call)
{
    return call == PACK || call == PACK_2;
}

static bool is_refusal_of(enum call call, uint32_t number)
{
    return is_packing(call) ? number <= THRINVAGE_TOO_LONG && number != THRINVAGE_NO_TEXT : number <= THRINVAGE_NO_TEXT;
}

/* The refusals at 0: those of packing, and that of a cursor. */
static bool is_at_start(enum call call, uint32_t number)
{
    return number == THRINVAGE_NOT_VALID || (is_packing(call) && (number == THRINVAGE_TOO_LONG || number == THRINVAGE_NO_ROOM));
}

/* The clause calls' refusals at the clause's first token; 11 has its own place (no_reading.c). */
static bool is_at_first_token(enum call call, uint32_t number)
{
    return call >= READ && (number == THRINVAGE_TOO_MANY_TOKENS || (number == THRINVAGE_NO_ROOM && !is_packing(call)));
}

static bool is_first_token(struct cursor at, size_t start)
{
    struct thrinvage_token token;
    return thrinvage_next_token(now_text.bytes, now_text.length, at.offset, at.line, at.column, &token, THRINVAGE_FILE) == THRINVAGE_READ && token.start == start;
}

/* Of the layout call the whole answer is due. */
static void check_layout_refused(const struct running *asked, const struct given *given)
{
    if (!is_valid(asked->at))
        return;
    struct plain_layout due = plain_layout(&now_text, asked->at.offset);
    must(given->number == due.number, "the layout call refuses what is no fault of layout, or by another number");
    must(given->record.layout.refused_at == due.refused_at, "the layout call refuses elsewhere");
}

static void check_refused(const struct running *asked, const struct given *given)
{
    const uint64_t *fields = given->record.fields;
    uint64_t filled;
    memset(&filled, given->fill, sizeof filled);
    must(is_refusal_of(asked->call, given->number), "no such refusal");
    must(given->number == THRINVAGE_NOT_VALID || is_valid(asked->at), "a text or cursor that is not valid is refused as something else");
    must(given->number != THRINVAGE_NOT_VALID || !is_valid(asked->at), "a valid text and cursor are refused as not valid");
    must(fields[REFUSED_AT_FIELD] <= now_text.length, "a refusal points behind the text");
    must(!is_at_start(asked->call, given->number) || fields[REFUSED_AT_FIELD] == 0, "a refusal points elsewhere than at 0");
    bool first = !is_at_first_token(asked->call, given->number) || is_first_token(asked->at, fields[REFUSED_AT_FIELD]);
    must(first, "refusal 9 or 10 points elsewhere than at the clause's first token");
    for (size_t i = 0; i < record_size(asked->call) / sizeof *fields; i++)
        must(i == REFUSED_AT_FIELD || fields[i] == filled, "a refusal writes another field of the record");
    must(is_untouched(given, 0, lent_size(asked)), "a refusal writes to the lent slice");
    if (asked->call == LAYOUT_TEXT)
        check_layout_refused(asked, given);
}

static void check_token(const struct running *asked, const struct thrinvage_token *token)
{
    must(token->start >= asked->at.offset && token->start < token->offset, "a token starts outside of what was read");
    must(token->layout == asked->at.offset, "the layout before a token began elsewhere than at the cursor");
    must(token->kind <= THRINVAGE_END, "no such kind");
    must(token->value_kind <= THRINVAGE_FLOAT, "no such kind of value");
    must((token->value_kind != THRINVAGE_NOTHING) == (token->kind == THRINVAGE_NUMBER), "numbers have values, and nothing else has");
    must(token->value_kind != THRINVAGE_NOTHING || token->value == 0, "what has no value has one");
    must(token->value <= (token->value_kind == THRINVAGE_INTEGER ? LARGEST_MAGNITUDE : INT64_MAX), "a value is too large, or negative");
}

static void check_text(const struct running *asked, const struct given *given)
{
    const struct thrinvage_token_text *text = &given->record.text;
    must(text->token.kind <= THRINVAGE_STRING, "a token without text has one");
    must(text->part <= THRINVAGE_SCRATCH, "no such part");
    if (text->part == THRINVAGE_SOURCE) {
        must(text->part_start == text->token.start && text->part_end == text->token.offset, "a part of the text is not the token's");
        must(is_untouched(given, 0, asked->room), "the scratch is written for a part of the text");
    } else {
        must(text->part_start == 0 && text->part_end <= asked->room, "a part is not in the scratch");
        must(is_untouched(given, text->part_end, asked->room), "the scratch is written behind the part");
    }
}

static void check_layout(const struct running *asked, const struct given *given)
{
    const struct thrinvage_layout *layout = &given->record.layout;
    struct plain_layout due = plain_layout(&now_text, asked->at.offset);
    must(due.number == THRINVAGE_READ, "the layout call reads what is to be refused");
    must(layout->kind == due.kind, "a layout text is of another kind, or there is none");
    must(layout->start == asked->at.offset, "a layout text starts elsewhere than at the cursor");
    must(layout->offset == due.end, "a layout text ends elsewhere");
}

/* Each node takes its children from the stack of those before; the root is left. */
static bool is_tree(const struct given *given, size_t count)
{
    size_t stack = 0;
    for (size_t i = 0; i < count; i++) {
        uint16_t node[2];
        memcpy(node, given->lent + 4 * i, sizeof node);
        size_t kind = node[1] / 1024, children = node[1] % 1024;
        if (node[0] > MOST_NODES || kind > THRINVAGE_EMPTY_CURLY || children > stack)
            return false;
        stack = stack - children + 1;
    }
    return stack == 1;
}

static void check_tree(const struct running *asked, const struct given *given)
{
    size_t count = given->record.clause.count;
    must(count >= 1 && count <= MOST_NODES && 2 * count <= asked->room, "no such count of nodes");
    must(is_untouched(given, 4 * count, 2 * asked->room), "the tree is written behind its nodes");
    must(is_tree(given, count), "the nodes are no tree");
}

/* Spellings are the text's own: a quoted item that is continued on the next line has its backslash and newline in the line too. */
static bool is_one_line(const uint8_t *bytes, size_t count)
{
    for (size_t i = 0; i < count; i++)
        if (bytes[i] == '\n' && (i == 0 || bytes[i - 1] != '\\'))
            return false;
    return true;
}

static void check_line(const struct running *asked, const struct given *given)
{
    size_t count = given->record.clause.count;
    must(count >= 1 && count <= asked->room, "no such count of bytes");
    must(is_untouched(given, count, asked->room), "the line is written behind its bytes");
    must(is_one_line(given->lent, count), "a line is more than one");
}

static void check_pack(const struct running *asked, const struct given *given)
{
    static struct nodes nodes;
    struct form form;
    uint32_t version = asked->call == PACK ? 1 : 2;
    size_t count = given->record.clause.count;
    must(count >= 1 && count <= asked->room, "no such count of bytes");
    must(is_untouched(given, count, asked->room), "the image is written behind its bytes");
    now_packed.length = count;
    memcpy(now_packed.bytes, given->lent, count);
    must(plain_unpack(&now_packed, (struct versions){version, version}, &form, &nodes) == THRINVAGE_READ, "the image is no pack of this form");
}

/* Where no layout text is, the cursor is the caller's; each other reading moves it. */
static bool must_move(const struct running *asked, const struct given *given)
{
    return asked->call != LAYOUT_TEXT || given->record.layout.kind != THRINVAGE_NO_LAYOUT;
}

static void check_read(const struct running *asked, const struct given *given)
{
    struct cursor next = next_of(given);
    must(is_valid(asked->at), "a text or cursor that is not valid is read");
    must(given->record.fields[REFUSED_AT_FIELD] == 0, "what is read is refused at somewhere");
    must(next.offset >= asked->at.offset + must_move(asked, given) && next.offset <= now_text.length, "the cursor stands still, or behind the text");
    must(is_same_cursor(next, moved(asked->at, next.offset)), "line or column do not follow the text");
    if (asked->call <= TEXT)
        check_token(asked, &given->record.token);
    if (asked->call == TEXT)
        check_text(asked, given);
    else if (asked->call == LAYOUT_TEXT)
        check_layout(asked, given);
    else if (asked->call == READ)
        check_tree(asked, given);
    else if (asked->call == LIST)
        check_line(asked, given);
    else if (is_packing(asked->call))
        check_pack(asked, given);
}

static size_t written_size(const struct running *asked, const struct given *given)
{
    switch (asked->call) {
    case TEXT: return given->record.text.part == THRINVAGE_SCRATCH ? given->record.text.part_end : 0;
    case READ: return 4 * given->record.clause.count;
    case LIST:
    case PACK:
    case PACK_2: return given->record.clause.count;
    default: return 0;
    }
}

static bool is_same(const struct running *asked, const struct given *one, const struct given *other)
{
    if (one->number != other->number || one->number != THRINVAGE_READ)
        return one->number == other->number && one->record.fields[REFUSED_AT_FIELD] == other->record.fields[REFUSED_AT_FIELD];
    return memcmp(&one->record, &other->record, record_size(asked->call)) == 0 && memcmp(one->lent, other->lent, written_size(asked, one)) == 0;
}

/* ---- a text: two copies of it, elsewhere each */

struct copies {
    struct slice one, other;
};

static struct slice copy(struct random *random, enum role role)
{
    struct slice slice = new_slice(role, some_place(random), now_text.length, prolog_byte(random));
    if (slice.size > 0)
        memcpy(slice.at, now_text.bytes, slice.size);
    return slice;
}

static void check_copy(const struct slice *slice)
{
    must(slice->size == 0 || memcmp(slice->at, now_text.bytes, slice->size) == 0, "the text is changed");
}

/* The second call has another copy of the text, other bytes around all slices and in what is lent: it must answer alike. */
static void call_twice(struct random *random, const struct copies *copies, enum call call, struct cursor at, size_t room, struct given *given)
{
    static struct given again;
    running = (struct running){.call = call, .at = at, .room = room, .bytes = now_text.bytes, .length = now_text.length};
    ask(random, &running, &copies->one, given);
    if (given->number == THRINVAGE_READ)
        check_read(&running, given);
    else
        check_refused(&running, given);
    ask(random, &running, &copies->other, &again);
    must(is_same(&running, given, &again), "the same call gives another answer");
    count_answers(given->number);
}

static size_t some_room(struct random *random)
{
    static const size_t most[] = {4, 16, 64, 64, 300, 300, 2100, LARGEST_ROOM};
    return random_below(random, most[random_below(random, sizeof most / sizeof *most)] + 1);
}

/* What reads otherwise than the token call of a file answers as it did here. */
static void check_alike(const struct given *token, const struct given *other)
{
    must(other->number == token->number, "the text call or a field, and the token call of a file, do not refuse alike");
    size_t size = other->number == THRINVAGE_READ ? sizeof(struct thrinvage_token) : 0;
    must(memcmp(&other->record, &token->record, size) == 0, "the text call or a field, and the token call of a file, read different tokens");
    must(size > 0 || other->record.fields[REFUSED_AT_FIELD] == token->record.fields[REFUSED_AT_FIELD], "they refuse at different places");
}

/* The text call reads the token call's token, or refuses it for one of two reasons more. */
static void check_text_beside_token(const struct given *token, const struct given *text)
{
    if (text->number == THRINVAGE_NO_TEXT || text->number == THRINVAGE_NO_ROOM) {
        must(token->number == THRINVAGE_READ, "the text call refuses a token that the token call does not read");
        must(text->record.fields[REFUSED_AT_FIELD] == token->record.token.start, "refusals 9 and 12 do not point at the token");
        return;
    }
    check_alike(token, text);
}

/* The refusals of a token that point at its start. */
static bool is_at_token(uint32_t number)
{
    return number == THRINVAGE_NO_TOKEN || number == THRINVAGE_BAD_QUOTED || number == THRINVAGE_SET_ASIDE || number == THRINVAGE_OUT_OF_LIMIT;
}

/* Behind the last layout text stands the token that the token call gives or refuses; or the layout is refused, as it is by the token call. */
static void check_layout_beside_token(struct cursor at, const struct given *layout, const struct given *token)
{
    size_t refused_at = token->record.fields[REFUSED_AT_FIELD];
    if (layout->number != THRINVAGE_READ) {
        must(token->number == layout->number, "the layout call and the token call do not refuse alike");
        must(refused_at == layout->record.layout.refused_at, "the layout call and the token call refuse at different places");
        return;
    }
    bool is_read = token->number == THRINVAGE_READ;
    must(!is_read || token->record.token.start == at.offset, "a token starts elsewhere than where the layout before it ends");
    must(is_read || refused_at >= at.offset, "a token is refused before it starts");
    must(!is_at_token(token->number) || refused_at == at.offset, "refusal 3, 4, 6 or 7 points elsewhere than at the token");
    must(token->number != THRINVAGE_UNCLOSED_COMMENT, "the token call has a comment where the layout call has none");
}

/* One layout text behind another, from the token call's cursor on. */
static void call_layouts(struct random *random, const struct copies *copies, struct cursor at, const struct given *token)
{
    static struct given given;
    do {
        call_twice(random, copies, LAYOUT_TEXT, at, 0, &given);
        if (given.number == THRINVAGE_READ)
            at = next_of(&given);
    } while (given.number == THRINVAGE_READ && given.record.layout.kind != THRINVAGE_NO_LAYOUT);
    check_layout_beside_token(at, &given, token);
}

/* Whether digits, and nothing else, stand from here to the end of the text. */
static bool is_digits_to_the_end(size_t at)
{
    size_t digits = at;
    while (digits < now_text.length && '0' <= now_text.bytes[digits] && now_text.bytes[digits] <= '9')
        digits++;
    return at < digits && digits == now_text.length;
}

/* A field is read as a file, but for a number that reaches the end of the text: that is one, or out of limit. */
static void check_field_beside_file(struct cursor at, const struct given *file, const struct given *field)
{
    bool digits = is_valid(at) && file->number != THRINVAGE_FOREIGN_BYTE && is_digits_to_the_end(thrinvage_layout_end(now_text.bytes, now_text.length, at.offset));
    must(!digits || file->number == THRINVAGE_END_OF_TEXT, "a file has a number that reaches the end of the text");
    must(!digits || field->number != THRINVAGE_END_OF_TEXT, "a field has no number that reaches the end of the text");
    bool cut_off = file->number == THRINVAGE_END_OF_TEXT && field->number != THRINVAGE_END_OF_TEXT;
    if (!cut_off) {
        check_alike(file, field);
        return;
    }
    bool is_read = field->number == THRINVAGE_READ;
    must(is_read || field->number == THRINVAGE_OUT_OF_LIMIT, "a field refuses otherwise what a file has not to its end");
    must(!is_read || field->record.token.kind == THRINVAGE_NUMBER, "a field reads what is no number to the end of the text");
    must(!is_read || field->record.token.offset == now_text.length, "a field's number that a file has not to its end stops before it");
    uint8_t first = now_text.bytes[is_read ? field->record.token.start : field->record.fields[REFUSED_AT_FIELD]];
    must('0' <= first && first <= '9', "a field's number starts with no digit");
}

static void check_line_beside_tree(const struct given *tree, const struct given *line)
{
    if (tree->number == THRINVAGE_NO_ROOM || line->number == THRINVAGE_NO_ROOM) {
        bool both_read = tree->number == THRINVAGE_READ || line->number == THRINVAGE_READ || tree->number == line->number;
        must(both_read, "list_clause and read_clause do not refuse alike");
        return;
    }
    must(tree->number == line->number, "list_clause and read_clause do not refuse alike");
    must(tree->record.fields[REFUSED_AT_FIELD] == line->record.fields[REFUSED_AT_FIELD], "list_clause and read_clause refuse at different places");
    must(tree->number != THRINVAGE_READ || is_same_cursor(next_of(tree), next_of(line)), "list_clause and read_clause end at different places");
}

/* ---- pack_clause beside the clause call and the token calls */

struct span {
    size_t start, end;
};

static void find_spans(struct cursor at, size_t end, struct span *spans)
{
    struct thrinvage_token token = {.offset = at.offset, .line = at.line, .column = at.column};
    for (size_t i = 0; i < THRINVAGE_MOST_TOKENS && token.offset < end; i++) {
        uint32_t number = thrinvage_next_token(now_text.bytes, now_text.length, token.offset, token.line, token.column, &token, THRINVAGE_FILE);
        must(number == THRINVAGE_READ, "a token of a clause that was read is refused");
        spans[i] = (struct span){token.start, token.offset};
    }
}

/* The clause's nodes, with their spellings in the text, and where its first token starts. */
static uint32_t read_nodes(struct cursor at, struct nodes *nodes, size_t *start, struct thrinvage_clause *clause)
{
    static uint16_t tree[THRINVAGE_TREE_NUMBERS];
    static struct span spans[THRINVAGE_MOST_TOKENS + 1]; /* one more, so that each has one behind it */
    uint32_t number = thrinvage_read_clause(now_text.bytes, now_text.length, at.offset, at.line, at.column, tree, THRINVAGE_TREE_NUMBERS, clause);
    if (number != THRINVAGE_READ)
        return number;
    find_spans(at, clause->offset, spans);
    *start = spans[0].start;
    must(clause->count <= MOST_NODES, "no such count of nodes");
    nodes->count = clause->count;
    for (size_t i = 0; i < nodes->count; i++) {
        uint32_t *node = nodes->numbers + NUMBERS * i;
        const struct span *span = spans + tree[2 * i] % THRINVAGE_MOST_TOKENS;
        node[KIND] = tree[2 * i + 1] / 1024;
        node[ARITY] = tree[2 * i + 1] % 1024;
        node[START] = (uint32_t)span->start;
        node[LENGTH] = (uint32_t)((node[KIND] == THRINVAGE_NEGATIVE ? span[1].end : span->end) - span->start);
    }
    return THRINVAGE_READ;
}

static void check_image(const struct form *form, const struct nodes *nodes, size_t room, const struct given *given)
{
    static struct text image;
    uint32_t number = plain_verdict(form->version, now_text.length, nodes, NUMBERS * nodes->count, nodes->count);
    image.length = 0;
    if (number == THRINVAGE_READ)
        plain_pack(form, now_text.bytes, nodes, nodes->count, &image);
    must(given->number == (room < image.length ? THRINVAGE_NO_ROOM : number), "pack_clause answers by another number than the tree's nodes have");
    bool same = given->record.clause.count == image.length && memcmp(given->lent, image.bytes, image.length) == 0;
    must(given->number != THRINVAGE_READ || same, "pack_clause writes another image than the tree's nodes have");
}

/* The line of form 2 is that of the first token's start, counted on from the cursor, plus one. */
static struct form form_of(enum call call, struct cursor at, size_t start)
{
    return call == PACK ? (struct form){1, 0} : (struct form){2, (uint32_t)moved(at, start).line + 1};
}

static void check_pack_beside_tree(enum call call, struct cursor at, size_t room, const struct given *given)
{
    static struct nodes nodes;
    struct thrinvage_clause clause;
    size_t start;
    uint32_t number = read_nodes(at, &nodes, &start, &clause);
    if (number != THRINVAGE_READ) {
        must(given->number == number, "pack_clause and read_clause do not refuse alike");
        must(given->record.fields[REFUSED_AT_FIELD] == clause.refused_at, "pack_clause and read_clause refuse at different places");
        return;
    }
    struct form form = form_of(call, at, start);
    struct cursor next = {clause.offset, clause.line, clause.column};
    must(form.line <= LONGEST_LINE, "a line is more than fits");
    check_image(&form, &nodes, room, given);
    must(given->number != THRINVAGE_READ || is_same_cursor(next_of(given), next), "pack_clause and read_clause end at different places");
}

static void pack_into(struct random *random, const struct copies *copies, enum call call, struct cursor at, size_t room, struct given *given)
{
    call_twice(random, copies, call, at, room, given);
    check_pack_beside_tree(call, at, room, given);
}

/* Where it is packed, once more into the room that is needed, and into one byte less. */
static void call_pack(struct random *random, const struct copies *copies, enum call call, struct cursor at)
{
    static struct given given;
    bool is_long = now_text.length > LARGEST_ROOM || random_one_in(random, 100);
    pack_into(random, copies, call, at, is_long ? THRINVAGE_IMAGE_BYTES : some_room(random), &given);
    if (given.number != THRINVAGE_READ)
        return;
    size_t needed = given.record.clause.count;
    pack_into(random, copies, call, at, needed, &given);
    pack_into(random, copies, call, at, needed - 1, &given);
}

static void call_the_others(struct random *random, const struct copies *copies, struct cursor at, const struct given *token)
{
    static struct given given, other;
    call_layouts(random, copies, at, token); /* first: what follows goes through layout by itself */
    call_twice(random, copies, FIELD, at, 0, &given);
    check_field_beside_file(at, token, &given);
    call_twice(random, copies, TEXT, at, some_room(random), &given);
    check_text_beside_token(token, &given);
    call_twice(random, copies, READ, at, some_room(random), &given);
    if (given.number == THRINVAGE_NO_READING)
        check_no_reading(random, &now_text, at, given.record.clause.refused_at);
    call_twice(random, copies, LIST, at, some_room(random), &other);
    check_line_beside_tree(&given, &other);
    call_pack(random, copies, PACK, at);
    call_pack(random, copies, PACK_2, at);
}

/* Through the whole text by the token call, which must end; the other calls at some of its cursors, the first and the last among them. */
static void walk(struct random *random, const struct copies *copies)
{
    static struct given token;
    struct cursor at = {0, 0, 0};
    size_t others = now_text.length < 400 ? 4 : now_text.length / 50;
    for (size_t tokens = 0;; tokens++) {
        must(tokens <= now_text.length, "a text has more tokens than bytes");
        call_twice(random, copies, TOKEN, at, 0, &token);
        if (tokens == 0 || token.number != THRINVAGE_READ || random_one_in(random, others))
            call_the_others(random, copies, at, &token);
        if (token.number != THRINVAGE_READ)
            return;
        at = next_of(&token);
    }
}

static size_t some_number(struct random *random)
{
    static const size_t far[] = {SIZE_MAX, SIZE_MAX - 1, SIZE_MAX / 2, SIZE_MAX / 2 + 1, (size_t)1 << 32, ((size_t)1 << 32) - 1, 65535, 65536};
    return random_one_in(random, 3) ? far[random_below(random, sizeof far / sizeof *far)] : random_below(random, now_text.length + 3);
}

/* True ones, valid ones that are not true, ones that are not valid. */
static struct cursor some_cursor(struct random *random)
{
    struct cursor start = {0, 0, 0};
    size_t offset = random_below(random, now_text.length + 1);
    switch (random_below(random, 3)) {
    case 0: return moved(start, offset);
    case 1: return (struct cursor){offset, random_below(random, offset + 1), random_below(random, offset + 1)};
    default: return (struct cursor){random_one_in(random, 2) ? offset : some_number(random), some_number(random), some_number(random)};
    }
}

static void jump(struct random *random, const struct copies *copies)
{
    static struct given token;
    for (int more = 3; more > 0; more--) {
        struct cursor at = some_cursor(random);
        call_twice(random, copies, TOKEN, at, 0, &token);
        call_the_others(random, copies, at, &token);
    }
}

/* A round is made from the seed and its number alone, so that it can be run again by itself. */
static void run_round(void)
{
    struct random random = {seed * 0x2545f4914f6cdd1du + now_round};
    make_text(&random, &now_text);
    now_packed.length = 0;
    struct copies copies = {copy(&random, TEXT_SLICE), copy(&random, OTHER_TEXT_SLICE)};
    walk(&random, &copies);
    jump(&random, &copies);
    check_copy(&copies.one);
    check_copy(&copies.other);
    free_slice(&copies.one);
    free_slice(&copies.other);
    run_packs(&random, &now_packed);
    run_chunks(&random, &now_text);
}

/* ---- the run */

static double seconds_now(void)
{
    struct timespec now;
    clock_gettime(CLOCK_MONOTONIC, &now);
    return (double)now.tv_sec + (double)now.tv_nsec / 1e9;
}

static void usage(void)
{
    fprintf(stderr, "usage: fuzz [--seconds N] [--seed N] [--round N] [--place N] FILE..\n");
    exit(2);
}

int main(int argc, char **argv)
{
    double seconds = 600;
    long long only_round = -1;
    seed = 1;
    for (int i = 1; i < argc; i++) {
        bool more = i + 1 < argc;
        if (strncmp(argv[i], "--", 2) != 0)
            read_file(argv[i]);
        else if (!more)
            usage();
        else if (strcmp(argv[i], "--seconds") == 0)
            seconds = atof(argv[++i]);
        else if (strcmp(argv[i], "--seed") == 0)
            seed = strtoull(argv[++i], NULL, 10);
        else if (strcmp(argv[i], "--round") == 0)
            only_round = atoll(argv[++i]);
        else if (strcmp(argv[i], "--place") == 0)
            only_place = atoi(argv[++i]);
        else
            usage();
    }
    map_pages();
    __sanitizer_set_death_callback(show_case);
    if (only_round >= 0) {
        now_round = (uint64_t)only_round;
        run_round();
    }
    for (double end = seconds_now() + seconds; only_round < 0 && seconds_now() < end; now_round++)
        run_round();
    return show_counts() > 0 ? 0 : 2;
}
