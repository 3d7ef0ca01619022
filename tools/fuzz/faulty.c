/* Faults on purpose, to see that fuzz.c notices them. By the linker's --wrap each call comes here and goes on to the archive, and then the fault whose
 * number stands in the environment as FAULT is put to what it left behind; some lie to the archive instead, so that its own code goes past an end.
 * FAULT=list prints the faults. 0 is none. */
#include "report.h"
#include "thrinvage.h"
#include <stdio.h>
#include <stdlib.h>
#include <string.h>

enum { OFFSET, LINE, COLUMN, REFUSED_AT, KIND, COUNT = 4, START, VALUE_KIND, VALUE, LAYOUT, PART, PART_START, PART_END };
/* Of unpack_either; and where an image's fields stand. */
enum { FORM, FORM_LINE, FORM_COUNT };
enum { LENGTH_AT = 1, BODY_AT = 3, LINE_AT = 3, LONGEST_IMAGE = 65538 };

/* A call that is over. */
struct done {
    enum call call;
    uint8_t *text;
    size_t length, offset, line, column;
    uint8_t *lent;
    size_t lent_size;
    uint64_t *record;
    size_t record_size;
    uint32_t number;
    uint8_t *nodes; /* that packing nodes is given, the reader that is fed, or the record as it was before the layout call */
    size_t nodes_size;
};

static bool is_read(const struct done *done)
{
    return done->number == THRINVAGE_READ;
}

static bool is_token(const struct done *done)
{
    return is_read(done) && (done->call <= TEXT || done->call == FEED);
}

/* ---- the faults: each says whether it could be put */

static void touch(const volatile uint8_t *byte)
{
    (void)*byte;
}

static void change(volatile uint8_t *byte)
{
    *byte ^= 1;
}

static bool reads_past_the_text(struct done *done)
{
    return done->text != NULL && (touch(done->text + done->length), true);
}

static bool reads_before_the_text(struct done *done)
{
    return done->text != NULL && (touch(done->text - 1), true);
}

static bool writes_past(struct done *done, enum call call)
{
    return done->call == call && done->lent != NULL && (change(done->lent + done->lent_size), true);
}

static bool writes_past_the_scratch(struct done *done)
{
    return writes_past(done, TEXT);
}

static bool writes_past_the_tree(struct done *done)
{
    return writes_past(done, READ);
}

static bool writes_past_the_line(struct done *done)
{
    return writes_past(done, LIST);
}

static bool writes_before_what_is_lent(struct done *done)
{
    return done->lent != NULL && (change(done->lent - 1), true);
}

static bool writes_past_the_record(struct done *done)
{
    change((uint8_t *)done->record + done->record_size);
    return true;
}

static bool writes_before_the_record(struct done *done)
{
    change((uint8_t *)done->record - 1);
    return true;
}

static bool changes_the_text(struct done *done)
{
    return done->length > 0 && (change(done->text + done->length / 2), true);
}

static bool writes_on_a_refusal(struct done *done, enum call call)
{
    return done->call == call && !is_read(done) && done->lent_size > 0 && (change(done->lent + done->lent_size / 2), true);
}

static bool touches_the_scratch_on_a_refusal(struct done *done)
{
    return writes_on_a_refusal(done, TEXT);
}

static bool touches_the_tree_on_a_refusal(struct done *done)
{
    return writes_on_a_refusal(done, READ);
}

static bool touches_the_line_on_a_refusal(struct done *done)
{
    return writes_on_a_refusal(done, LIST);
}

static bool moves_the_cursor_on_a_refusal(struct done *done)
{
    return !is_read(done) && (done->record[OFFSET] = done->offset, true);
}

static bool writes_the_last_field_on_a_refusal(struct done *done)
{
    return !is_read(done) && (done->record[done->record_size / 8 - 1] ^= 1, true);
}

static bool refuses_behind_the_text(struct done *done)
{
    return !is_read(done) && (done->record[REFUSED_AT] = done->length + 1, true);
}

static bool refuses_by_13(struct done *done)
{
    return !is_read(done) && (done->number = 13, true);
}

static bool refuses_a_valid_cursor(struct done *done)
{
    return !is_read(done) && done->number != 8 && (done->number = 8, done->record[REFUSED_AT] = 0, true);
}

static bool takes_a_cursor_that_is_not_valid(struct done *done)
{
    return done->number == 8 && (done->number = 1, true);
}

static bool is_refused_at_something_and_read(struct done *done)
{
    return is_read(done) && (done->record[REFUSED_AT] = 1, true);
}

static bool moves_no_cursor(struct done *done)
{
    return is_read(done) && (done->record[OFFSET] = done->offset, true);
}

static bool moves_the_cursor_behind_the_text(struct done *done)
{
    return is_read(done) && (done->record[OFFSET] = done->length + 1, true);
}

static bool counts_a_line_more(struct done *done)
{
    return is_read(done) && (done->record[LINE] += 1, true);
}

static bool counts_a_column_more(struct done *done)
{
    return is_read(done) && (done->record[COLUMN] += 1, true);
}

static bool starts_where_it_ends(struct done *done)
{
    return is_token(done) && (done->record[START] = done->record[OFFSET], true);
}

static bool starts_before_the_cursor(struct done *done)
{
    return is_token(done) && done->offset > 0 && (done->record[START] = done->offset - 1, true);
}

static bool gives_kind_15(struct done *done)
{
    return is_token(done) && (done->record[KIND] = 15, true);
}

static bool gives_value_kind_3(struct done *done)
{
    return is_token(done) && (done->record[VALUE_KIND] = 3, true);
}

static bool gives_a_value_to_no_number(struct done *done)
{
    return is_token(done) && done->record[VALUE_KIND] == 0 && (done->record[VALUE] = 1, true);
}

static bool gives_the_magnitude_behind_the_largest(struct done *done)
{
    return is_token(done) && done->record[VALUE_KIND] == 1 && (done->record[VALUE] = (UINT64_C(1) << 63) + 1, true);
}

static bool gives_a_value_that_differs_now_and_then(struct done *done)
{
    static unsigned turn;
    return is_token(done) && done->record[VALUE_KIND] == 1 && turn++ % 8 == 0 && (done->record[VALUE] ^= 1, true);
}

/* The layout before a token is said to begin there, if that is elsewhere. */
static bool begins_layout_at(struct done *done, uint64_t offset)
{
    return is_token(done) && done->record[LAYOUT] != offset && (done->record[LAYOUT] = offset, true);
}

static bool begins_the_layout_at_the_token(struct done *done)
{
    return begins_layout_at(done, done->record[START]);
}

static bool begins_the_layout_a_byte_early(struct done *done)
{
    return begins_layout_at(done, done->record[LAYOUT] - (done->record[LAYOUT] > 0));
}

static bool begins_the_layout_a_byte_late(struct done *done)
{
    return begins_layout_at(done, done->record[LAYOUT] + 1);
}

static bool begins_the_layout_with_the_text(struct done *done)
{
    return begins_layout_at(done, 0);
}

static bool writes_no_layout(struct done *done)
{
    return begins_layout_at(done, UINT64_C(0xa5a5a5a5a5a5a5a5));
}

static bool gives_part_2(struct done *done)
{
    return done->call == TEXT && is_read(done) && (done->record[PART] = 2, true);
}

static bool shows_a_byte_more(struct done *done)
{
    return done->call == TEXT && is_read(done) && (done->record[PART_END] += 1, true);
}

static bool writes_the_scratch_for_a_part_of_the_text(struct done *done)
{
    return done->call == TEXT && is_read(done) && done->record[PART] == 0 && done->lent_size > 0 && (change(done->lent), true);
}

static bool writes_the_scratch_behind_the_part(struct done *done)
{
    return done->call == TEXT && is_read(done) && done->record[PART] == 1 && done->record[PART_END] < done->lent_size && (change(done->lent + done->lent_size - 1), true);
}

static bool calls_a_name_a_variable(struct done *done)
{
    return is_read(done) && done->record[KIND] == THRINVAGE_NAME && (done->record[KIND] = THRINVAGE_VARIABLE, true);
}

static bool writes_the_tree_behind_its_nodes(struct done *done)
{
    return done->call == READ && is_read(done) && 4 * done->record[COUNT] < done->lent_size && (change(done->lent + done->lent_size - 1), true);
}

static bool counts_a_node_less(struct done *done)
{
    return done->call == READ && is_read(done) && (done->record[COUNT] -= 1, true);
}

static bool forgets_a_child(struct done *done)
{
    uint16_t *root = (uint16_t *)done->lent + 2 * done->record[COUNT] - 1;
    return done->call == READ && is_read(done) && *root % 1024 > 0 && (*root -= 1, true);
}

static bool writes_the_line_behind_its_bytes(struct done *done)
{
    return done->call == LIST && is_read(done) && done->record[COUNT] < done->lent_size && (change(done->lent + done->lent_size - 1), true);
}

static bool breaks_the_line(struct done *done)
{
    return done->call == LIST && is_read(done) && (done->lent[done->record[COUNT] / 2] = '\n', true);
}

static bool lists_no_clause_and_says_3(struct done *done)
{
    return done->call == LIST && done->number == THRINVAGE_NO_READING && (done->number = 3, true);
}

/* ---- where the clause calls' refusals point, and that 11 comes last */

uint32_t __real_thrinvage_next_token(const uint8_t *text, size_t length, size_t offset, size_t line, size_t column,
                                     struct thrinvage_token *token, uint32_t source);

/* Starts of a clause's tokens: the first and the second, those on both sides of the one that is pointed at, or that one, and the last, the end mark's. */
struct starts {
    uint64_t first, second, before, behind, last;
};

static void note_start(struct starts *starts, size_t index, uint64_t pointed, uint64_t start)
{
    if (index == 0)
        *starts = (struct starts){start, start, start, start, start};
    else if (index == 1)
        starts->second = start;
    if (start < pointed)
        starts->before = start;
    if (starts->last <= pointed)
        starts->behind = start;
    starts->last = start;
}

/* As far as the tokens are read and a clause may have them. */
static struct starts find_starts(const struct done *done)
{
    struct starts starts = {0};
    struct thrinvage_token token = {.offset = done->offset, .line = done->line};
    for (size_t i = 0; i < THRINVAGE_MOST_TOKENS && token.kind != THRINVAGE_END; i++) {
        if (__real_thrinvage_next_token(done->text, done->length, token.offset, token.line, 0, &token, THRINVAGE_FILE) != THRINVAGE_READ)
            break;
        note_start(&starts, i, done->record[REFUSED_AT], token.start);
    }
    return starts;
}

/* Whether it is another place than the true one. */
static bool points_at(struct done *done, uint64_t start)
{
    return done->record[REFUSED_AT] != start && (done->record[REFUSED_AT] = start, true);
}

static bool is_11(const struct done *done)
{
    return done->number == THRINVAGE_NO_READING;
}

/* As it was before 11 pointed at the token that cannot stand. */
static bool points_11_at_the_first_token(struct done *done)
{
    return is_11(done) && points_at(done, find_starts(done).first);
}

static bool points_11_a_token_early(struct done *done)
{
    return is_11(done) && points_at(done, find_starts(done).before);
}

static bool points_11_a_token_late(struct done *done)
{
    return is_11(done) && points_at(done, find_starts(done).behind);
}

static bool points_11_a_byte_late(struct done *done)
{
    return is_11(done) && points_at(done, done->record[REFUSED_AT] + 1);
}

static bool points_11_at_the_end_mark(struct done *done)
{
    return is_11(done) && points_at(done, find_starts(done).last);
}

/* As a reader would that stops at the first token that cannot stand. */
static bool says_11_where_a_token_is_refused(struct done *done)
{
    bool is_refused = done->number >= THRINVAGE_UNCLOSED_COMMENT && done->number <= THRINVAGE_OUT_OF_LIMIT;
    return is_refused && (done->number = THRINVAGE_NO_READING, points_at(done, find_starts(done).first), true);
}

static bool says_11_where_there_are_too_many_tokens(struct done *done)
{
    return done->number == THRINVAGE_TOO_MANY_TOKENS && (done->number = THRINVAGE_NO_READING, true);
}

static bool points_9_at_the_second_token(struct done *done)
{
    return done->number == THRINVAGE_NO_ROOM && points_at(done, find_starts(done).second);
}

static bool points_10_at_the_second_token(struct done *done)
{
    return done->number == THRINVAGE_TOO_MANY_TOKENS && points_at(done, find_starts(done).second);
}

/* ---- in the layout call */

static bool is_kind(const struct done *done, uint64_t kind)
{
    return is_read(done) && done->record[KIND] == kind;
}

static bool is_layout(const struct done *done)
{
    return is_read(done) && done->record[KIND] != THRINVAGE_NO_LAYOUT;
}

static bool starts_a_byte_late(struct done *done)
{
    return is_read(done) && (done->record[START] += 1, true);
}

static bool starts_the_layout_where_it_ends(struct done *done)
{
    return is_layout(done) && (done->record[START] = done->record[OFFSET], true);
}

static bool gives_layout_kind_4(struct done *done)
{
    return is_layout(done) && (done->record[KIND] = 4, true);
}

static bool gives_kind(struct done *done, uint64_t kind, uint64_t instead_of)
{
    return is_kind(done, instead_of) && (done->record[KIND] = kind, true);
}

static bool calls_blanks_a_comment(struct done *done)
{
    return gives_kind(done, THRINVAGE_LINE_COMMENT, THRINVAGE_BLANKS);
}

static bool calls_a_comment_blanks(struct done *done)
{
    return gives_kind(done, THRINVAGE_BLANKS, THRINVAGE_LINE_COMMENT);
}

static bool calls_a_line_comment_bracketed(struct done *done)
{
    return gives_kind(done, THRINVAGE_BRACKETED_COMMENT, THRINVAGE_LINE_COMMENT);
}

static bool calls_a_bracketed_comment_a_line(struct done *done)
{
    return gives_kind(done, THRINVAGE_LINE_COMMENT, THRINVAGE_BRACKETED_COMMENT);
}

static bool calls_none_blanks(struct done *done)
{
    return gives_kind(done, THRINVAGE_BLANKS, THRINVAGE_NO_LAYOUT);
}

static bool calls_some_none(struct done *done)
{
    return is_layout(done) && (done->record[KIND] = THRINVAGE_NO_LAYOUT, true);
}

static bool gives_a_kind_that_differs_now_and_then(struct done *done)
{
    static unsigned turn;
    return is_layout(done) && turn++ % 2 == 0 && (done->record[KIND] = done->record[KIND] % 3 + 1, true);
}

/* The layout text ends there, if that is elsewhere and in the text, with line and column as they are there: nothing but the end is wrong. */
static bool ends_layout_at(struct done *done, size_t end)
{
    if (end == done->record[OFFSET] || end > done->length || end < done->offset)
        return false;
    done->record[OFFSET] = done->offset;
    done->record[LINE] = done->line;
    done->record[COLUMN] = done->column;
    for (; done->record[OFFSET] < end; done->record[OFFSET]++) {
        bool newline = done->text[done->record[OFFSET]] == '\n';
        done->record[LINE] += newline;
        done->record[COLUMN] = newline ? 0 : done->record[COLUMN] + 1;
    }
    return true;
}

/* "None" for what is there, the cursor and all. */
static bool sees_no_layout(struct done *done)
{
    return is_layout(done) && (done->record[KIND] = THRINVAGE_NO_LAYOUT, ends_layout_at(done, done->offset));
}

static bool gives_one_blank_alone(struct done *done)
{
    return is_kind(done, THRINVAGE_BLANKS) && ends_layout_at(done, done->offset + 1);
}

static bool ends_blanks_a_byte_late(struct done *done)
{
    return is_kind(done, THRINVAGE_BLANKS) && ends_layout_at(done, done->record[OFFSET] + 1);
}

/* As a reader that knows no returns. */
static bool ends_blanks_at_a_return(struct done *done)
{
    size_t end = done->offset;
    while (end < done->length && done->text[end] != '\r' && end < done->record[OFFSET])
        end++;
    return is_kind(done, THRINVAGE_BLANKS) && end > done->offset && ends_layout_at(done, end);
}

static bool leaves_the_newline_of_a_line_comment(struct done *done)
{
    return is_kind(done, THRINVAGE_LINE_COMMENT) && done->text[done->record[OFFSET] - 1] == '\n' && ends_layout_at(done, done->record[OFFSET] - 1);
}

static bool joins_a_line_comment_with_the_next_byte(struct done *done)
{
    return is_kind(done, THRINVAGE_LINE_COMMENT) && ends_layout_at(done, done->record[OFFSET] + 1);
}

static bool leaves_the_slash_of_a_bracketed_comment(struct done *done)
{
    return is_kind(done, THRINVAGE_BRACKETED_COMMENT) && ends_layout_at(done, done->record[OFFSET] - 1);
}

static bool is_mark(const struct done *done, size_t at, const char *mark)
{
    return at + 1 < done->length && done->text[at] == mark[0] && done->text[at + 1] == mark[1];
}

/* As the desk's editor did: where a comment has another opening mark in it, it goes on to the next closing mark. */
static bool nests_comments(struct done *done)
{
    if (!is_kind(done, THRINVAGE_BRACKETED_COMMENT))
        return false;
    size_t end = done->record[OFFSET], opened = done->offset + 2;
    while (opened < end && !is_mark(done, opened, "/*"))
        opened++;
    size_t closed = end;
    while (closed < done->length && !is_mark(done, closed, "*/"))
        closed++;
    return opened < end && ends_layout_at(done, closed + 2);
}

static bool says(struct done *done, uint32_t number, uint32_t instead_of)
{
    return done->number == instead_of && (done->number = number, true);
}

static bool says_1_for_2(struct done *done)
{
    return says(done, THRINVAGE_END_OF_TEXT, THRINVAGE_UNCLOSED_COMMENT);
}

static bool says_2_for_1(struct done *done)
{
    return says(done, THRINVAGE_UNCLOSED_COMMENT, THRINVAGE_END_OF_TEXT);
}

static bool says_3_for_5(struct done *done)
{
    return says(done, THRINVAGE_NO_TOKEN, THRINVAGE_FOREIGN_BYTE);
}

static bool points_2_a_byte_late(struct done *done)
{
    return done->number == THRINVAGE_UNCLOSED_COMMENT && (done->record[REFUSED_AT] += 1, true);
}

static bool points_5_at_the_comment(struct done *done)
{
    return done->number == THRINVAGE_FOREIGN_BYTE && done->record[REFUSED_AT] != done->offset && (done->record[REFUSED_AT] = done->offset, true);
}

/* Nothing is there, it says, where the text has ended, or where a comment is open or has a foreign byte. */
static bool sees_nothing_where_it_refuses(struct done *done)
{
    if (is_read(done) || done->number == THRINVAGE_NOT_VALID)
        return false;
    done->number = THRINVAGE_READ;
    done->record[REFUSED_AT] = 0;
    done->record[KIND] = THRINVAGE_NO_LAYOUT;
    done->record[START] = done->offset;
    done->record[OFFSET] = done->length;
    return ends_layout_at(done, done->offset), true;
}

/* As if nothing else had been written. */
static bool refuses_at_the_cursor(struct done *done, uint32_t number)
{
    memcpy(done->record, done->nodes, done->nodes_size);
    done->record[REFUSED_AT] = done->offset;
    done->number = number;
    return true;
}

/* By the token call alone it is refused. */
static bool refuses_a_back_quote(struct done *done)
{
    return is_kind(done, THRINVAGE_NO_LAYOUT) && done->text[done->offset] == '`' && refuses_at_the_cursor(done, THRINVAGE_NO_TOKEN);
}

static bool refuses_a_layout_text(struct done *done)
{
    return is_layout(done) && refuses_at_the_cursor(done, THRINVAGE_FOREIGN_BYTE);
}

static bool refuses_where_there_is_none(struct done *done)
{
    return is_kind(done, THRINVAGE_NO_LAYOUT) && refuses_at_the_cursor(done, THRINVAGE_END_OF_TEXT);
}

/* What the token call says of the layout that it passes, and where it ends. */
static bool starts_a_token_in_the_layout(struct done *done)
{
    return is_token(done) && done->record[START] > done->offset && (done->record[START] -= 1, true);
}

static bool starts_in_the_token(struct done *done)
{
    return is_token(done) && done->record[START] + 1 < done->record[OFFSET] && (done->record[START] += 1, true);
}

static bool points_into_the_token(struct done *done)
{
    return (done->number == THRINVAGE_BAD_QUOTED || done->number == THRINVAGE_OUT_OF_LIMIT) && (done->record[REFUSED_AT] += 1, true);
}

/* ---- in the calls for packs */

static bool is_refused(const struct done *done)
{
    return !is_read(done);
}

static uint64_t *counted(const struct done *done)
{
    switch (done->call) {
    case PACK:
    case PACK_2: return done->record + COUNT;
    case EITHER: return done->record + FORM_COUNT;
    default: return done->record;
    }
}

static size_t written_size(const struct done *done)
{
    return done->call == UNPACK || done->call == EITHER ? *counted(done) * 4 * sizeof(uint32_t) : *counted(done);
}

static bool writes_past_what_is_lent(struct done *done)
{
    return writes_past(done, done->call);
}

static bool reads_past_the_nodes(struct done *done)
{
    return done->nodes != NULL && (touch(done->nodes + done->nodes_size), true);
}

static bool changes_the_nodes(struct done *done)
{
    return done->nodes_size > 0 && (change(done->nodes + done->nodes_size / 2), true);
}

static bool writes_what_is_lent_on_a_refusal(struct done *done)
{
    return writes_on_a_refusal(done, done->call);
}

static bool writes_behind_the_answer(struct done *done)
{
    return is_read(done) && written_size(done) < done->lent_size && (change(done->lent + done->lent_size - 1), true);
}

static bool writes_another_first_byte(struct done *done)
{
    return is_read(done) && (change(done->lent), true);
}

static bool writes_another_last_byte(struct done *done)
{
    return is_read(done) && (change(done->lent + written_size(done) - 1), true);
}

static bool writes_another_byte_now_and_then(struct done *done)
{
    static unsigned turn;
    return is_read(done) && turn++ % 8 == 0 && (change(done->lent + written_size(done) / 2), true);
}

/* Of the last node that is unpacked: kind, arity, start, length. */
static bool changes_number(struct done *done, size_t number)
{
    return is_read(done) && (((uint32_t *)done->lent)[4 * (*counted(done) - 1) + number] += 1, true);
}

static bool gives_another_kind(struct done *done)
{
    return changes_number(done, 0);
}

static bool gives_another_arity(struct done *done)
{
    return changes_number(done, 1);
}

static bool gives_another_start(struct done *done)
{
    return changes_number(done, 2);
}

static bool gives_another_length(struct done *done)
{
    return changes_number(done, 3);
}

static bool counts_one_less(struct done *done)
{
    return is_read(done) && (*counted(done) -= 1, true);
}

static bool counts_one_more(struct done *done)
{
    return is_read(done) && (*counted(done) += 1, true);
}

static bool refuses_what_is_read(struct done *done)
{
    return is_read(done) && (done->number = THRINVAGE_NO_PACK, true);
}

static bool reads_what_is_refused(struct done *done)
{
    return is_refused(done) && (done->number = THRINVAGE_READ, true);
}

static bool refuses_by_15(struct done *done)
{
    return is_refused(done) && (done->number = 15, true);
}

static bool says_9_for_14(struct done *done)
{
    return says(done, THRINVAGE_NO_ROOM, THRINVAGE_NO_PACK);
}

static bool says_14_for_9(struct done *done)
{
    return says(done, THRINVAGE_NO_PACK, THRINVAGE_NO_ROOM);
}

static bool says_13_for_14(struct done *done)
{
    return says(done, THRINVAGE_TOO_LONG, THRINVAGE_NO_PACK);
}

static bool says_9_for_13(struct done *done)
{
    return says(done, THRINVAGE_NO_ROOM, THRINVAGE_TOO_LONG);
}

static bool says_3_for_11(struct done *done)
{
    return says(done, THRINVAGE_NO_TOKEN, THRINVAGE_NO_READING);
}

static bool says_14_for_18(struct done *done)
{
    return says(done, THRINVAGE_NO_PACK, THRINVAGE_UNKNOWN_VERSION);
}

static bool says_18_for_14(struct done *done)
{
    return says(done, THRINVAGE_UNKNOWN_VERSION, THRINVAGE_NO_PACK);
}

static bool says_9_for_18(struct done *done)
{
    return says(done, THRINVAGE_NO_ROOM, THRINVAGE_UNKNOWN_VERSION);
}

static bool says_18_of_no_bytes(struct done *done)
{
    return done->length == 0 && (done->number = THRINVAGE_UNKNOWN_VERSION, true);
}

static bool says_18_of_another_version(struct done *done)
{
    return done->length > 0 && done->text[0] != 1 && says_18_for_14(done);
}

static bool refuses_elsewhere_than_at_0(struct done *done)
{
    return done->number == THRINVAGE_NO_ROOM && (done->record[REFUSED_AT] = 1, true);
}

/* ---- in form 2, and in what reads or moves both */

static uint32_t field(const uint8_t *at)
{
    return 256u * at[0] + at[1];
}

static void put_field(uint8_t *at, size_t number)
{
    at[0] = (uint8_t)(number / 256);
    at[1] = (uint8_t)number;
}

/* The line that is written becomes this one, if it is another. */
static bool gives_line(struct done *done, size_t line)
{
    return is_read(done) && field(done->lent + LINE_AT) != line && (put_field(done->lent + LINE_AT, line), true);
}

static bool gives_a_line_more(struct done *done)
{
    return is_read(done) && gives_line(done, field(done->lent + LINE_AT) + 1);
}

static bool gives_a_line_less(struct done *done)
{
    return is_read(done) && gives_line(done, field(done->lent + LINE_AT) - 1);
}

static bool gives_no_line(struct done *done)
{
    return gives_line(done, 0);
}

static bool gives_a_line_of_one_byte(struct done *done)
{
    return is_read(done) && gives_line(done, done->lent[LINE_AT + 1]);
}

static bool gives_the_line_little_endian(struct done *done)
{
    return is_read(done) && gives_line(done, done->lent[LINE_AT] + 256u * done->lent[LINE_AT + 1]);
}

static bool gives_the_line_of_the_cursor(struct done *done)
{
    return gives_line(done, done->line + 1);
}

static bool gives_the_line_behind_the_clause(struct done *done)
{
    return is_read(done) && gives_line(done, done->record[LINE] + 1);
}

static bool gives_the_line_behind_the_first_token(struct done *done)
{
    struct thrinvage_token token;
    return is_read(done) && __real_thrinvage_next_token(done->text, done->length, done->offset, done->line, 0, &token, THRINVAGE_FILE) == 0 && gives_line(done, token.line + 1);
}

/* Though the cursor may have been given another. */
static bool gives_the_line_of_the_text(struct done *done)
{
    size_t newlines = 0;
    for (size_t i = 0; i < done->offset; i++)
        newlines += done->text[i] == '\n';
    return is_read(done) && gives_line(done, field(done->lent + LINE_AT) - done->line + newlines);
}

static bool refuses_line(struct done *done, size_t line)
{
    return is_read(done) && field(done->lent + LINE_AT) == line && (done->number = THRINVAGE_NO_PACK, true);
}

static bool refuses_line_0(struct done *done)
{
    return refuses_line(done, 0);
}

static bool refuses_line_65535(struct done *done)
{
    return refuses_line(done, 65535);
}

static bool writes_version(struct done *done, uint8_t version)
{
    return is_read(done) && (done->lent[0] = version, true);
}

static bool writes_version_1(struct done *done)
{
    return writes_version(done, 1);
}

static bool writes_version_2(struct done *done)
{
    return writes_version(done, 2);
}

/* The line is not counted in it, or is. */
static bool writes_length(struct done *done, size_t more)
{
    return is_read(done) && (put_field(done->lent + LENGTH_AT, field(done->lent + LENGTH_AT) + more), true);
}

static bool forgets_the_line_in_the_length(struct done *done)
{
    return writes_length(done, (size_t)0 - 2);
}

static bool keeps_the_line_in_the_length(struct done *done)
{
    return writes_length(done, 2);
}

/* Form 1 has it too, and the length says so. */
static bool keeps_the_line(struct done *done)
{
    if (!is_read(done) || done->lent_size < done->length)
        return false;
    memcpy(done->lent + LENGTH_AT, done->text + LENGTH_AT, done->length - LENGTH_AT);
    *done->record = done->length;
    return true;
}

static bool takes_what_is_too_long(struct done *done)
{
    return done->number == THRINVAGE_TOO_LONG && (done->number = THRINVAGE_READ, true);
}

static bool says_13_of_the_longest_that_fits(struct done *done)
{
    return is_read(done) && written_size(done) == LONGEST_IMAGE && (done->number = THRINVAGE_TOO_LONG, true);
}

static bool says_13_of_the_longest(struct done *done)
{
    return is_read(done) && done->length == LONGEST_IMAGE && (done->number = THRINVAGE_TOO_LONG, true);
}

static bool takes_a_body_of_65534(struct done *done)
{
    return done->length == BODY_AT + 65534 && takes_what_is_too_long(done);
}

/* What has the other form already is copied. */
static bool takes_the_other_form(struct done *done)
{
    uint8_t other = done->call == UP ? 2 : 1;
    if (done->number != THRINVAGE_UNKNOWN_VERSION || done->text[0] != other || done->lent_size < done->length)
        return false;
    memcpy(done->lent, done->text, done->length);
    *done->record = done->length;
    done->number = THRINVAGE_READ;
    return true;
}

static bool refuses_form_2(struct done *done)
{
    return is_read(done) && done->record[FORM] == 2 && (done->number = THRINVAGE_UNKNOWN_VERSION, true);
}

static bool gives_another_form(struct done *done)
{
    return is_read(done) && (done->record[FORM] = 3 - done->record[FORM], true);
}

/* The clause's, counted from 0. */
static bool gives_the_line_before(struct done *done)
{
    return is_read(done) && done->record[FORM_LINE] > 0 && (done->record[FORM_LINE] -= 1, true);
}

static bool gives_form_1_a_line(struct done *done)
{
    return is_read(done) && done->record[FORM] == 1 && (done->record[FORM_LINE] = 1, true);
}

static bool reads_the_line_little_endian(struct done *done)
{
    uint64_t line = done->record[FORM_LINE];
    return is_read(done) && (done->record[FORM_LINE] = line % 256 * 256 + line / 256, true);
}

static bool writes_the_form_on_a_refusal(struct done *done)
{
    return is_refused(done) && (done->record[FORM] ^= 1, true);
}

/* Spellings start two bytes before where they do. */
static bool counts_starts_as_in_form_1(struct done *done)
{
    if (!is_read(done) || done->record[FORM] != 2)
        return false;
    for (uint32_t *node = (uint32_t *)done->lent; node < (uint32_t *)done->lent + 4 * *counted(done); node += 4)
        node[2] -= 2;
    return true;
}

uint32_t __real_thrinvage_unpack(const uint8_t *image, size_t length, uint32_t *nodes, size_t room, uint64_t *count);
uint32_t __real_thrinvage_unpack_either(const uint8_t *image, size_t length, uint32_t *nodes, size_t room, struct thrinvage_unpacked *unpacked);

static bool shows_form_2(struct done *done)
{
    struct thrinvage_unpacked unpacked;
    if (done->length == 0 || done->text[0] != 2)
        return false;
    done->number = __real_thrinvage_unpack_either(done->text, done->length, (uint32_t *)done->lent, done->lent_size / sizeof(uint32_t), &unpacked);
    if (is_read(done))
        *done->record = unpacked.count;
    return true;
}

/* What is of form 2 is read as if its version were 1: few such are a pack, and of another clause. */
static bool does_not_look_at_the_version(struct done *done)
{
    static uint8_t image[65600];
    if (done->length == 0 || done->text[0] != 2)
        return false;
    memcpy(image, done->text, done->length);
    image[0] = 1;
    done->number = __real_thrinvage_unpack(image, done->length, (uint32_t *)done->lent, done->lent_size / sizeof(uint32_t), done->record);
    return true;
}

/* ---- in the reader that is fed chunks */

enum { READER_MODE, READER_SLASH, READER_OFFSET, READER_LINE, READER_COLUMN, READER_LAYOUT, READER_FROM, READER_PHASE = 8, READER_REFUSAL, READER_REFUSED_AT, READER_TAKEN };
enum { REFUSED_READER = 2, INSIDE_COMMENT = 2 };

static uint64_t *reader_of(const struct done *done)
{
    return (uint64_t *)done->nodes;
}

static bool waits(const struct done *done)
{
    return done->number == THRINVAGE_MORE;
}

static bool has_refused(const struct done *done)
{
    return reader_of(done)[READER_PHASE] == REFUSED_READER;
}

static bool writes_past_the_reader(struct done *done)
{
    return change(done->nodes + done->nodes_size), true;
}

static bool writes_before_the_reader(struct done *done)
{
    return change(done->nodes - 1), true;
}

static bool writes_the_window_behind_the_hand(struct done *done)
{
    return change(done->lent + done->lent_size - 1), true;
}

static bool takes_a_byte_more(struct done *done)
{
    return reader_of(done)[READER_TAKEN] += 1, true;
}

static bool takes_a_byte_less(struct done *done)
{
    return reader_of(done)[READER_TAKEN] > 0 && (reader_of(done)[READER_TAKEN] -= 1, true);
}

static bool forgets_that_it_has_refused(struct done *done)
{
    return has_refused(done) && (memset(reader_of(done) + READER_PHASE, 0, 3 * sizeof(uint64_t)), true);
}

static bool keeps_another_refusal(struct done *done)
{
    return has_refused(done) && (reader_of(done)[READER_REFUSAL] = 3, true);
}

static bool keeps_another_place_of_a_refusal(struct done *done)
{
    return has_refused(done) && (reader_of(done)[READER_REFUSED_AT] += 1, true);
}

static bool loses_a_byte_at_hand(struct done *done)
{
    return !has_refused(done) && (reader_of(done)[READER_FROM] += 1, true);
}

static bool keeps_the_layout_over_a_token(struct done *done)
{
    return is_read(done) && (reader_of(done)[READER_LAYOUT] = done->record[LAYOUT], true);
}

static bool forgets_the_layout(struct done *done)
{
    return waits(done) && reader_of(done)[READER_LAYOUT] < reader_of(done)[READER_OFFSET] && (reader_of(done)[READER_LAYOUT] = reader_of(done)[READER_OFFSET], true);
}

/* As it was, when 1 said that layout was passed. */
static bool keeps_that_layout_was_passed(struct done *done)
{
    return waits(done) && reader_of(done)[READER_LAYOUT] > 1 && reader_of(done)[READER_LAYOUT] < reader_of(done)[READER_OFFSET] && (reader_of(done)[READER_LAYOUT] = 1, true);
}

/* The bytes at hand may go back to before the layout that was passed. */
static bool begins_the_layout_at_hand(struct done *done)
{
    return begins_layout_at(done, done->offset);
}

static bool forgets_a_line_comment(struct done *done)
{
    return waits(done) && reader_of(done)[READER_MODE] == 1 && (reader_of(done)[READER_MODE] = 0, true);
}

static bool forgets_the_comment(struct done *done)
{
    return waits(done) && reader_of(done)[READER_MODE] == INSIDE_COMMENT && (memset(reader_of(done), 0, 2 * sizeof(uint64_t)), true);
}

static bool forgets_where_a_comment_began(struct done *done)
{
    return reader_of(done)[READER_MODE] == INSIDE_COMMENT && (reader_of(done)[READER_SLASH] += 1, true);
}

static bool counts_a_line_more_in_the_reader(struct done *done)
{
    return !has_refused(done) && (reader_of(done)[READER_LINE] += 1, true);
}

static bool counts_no_column_in_the_reader(struct done *done)
{
    return waits(done) && reader_of(done)[READER_COLUMN] > 0 && (reader_of(done)[READER_COLUMN] = 0, true);
}

static bool asks_for_more_instead_of_a_token(struct done *done)
{
    return is_read(done) && (done->number = THRINVAGE_MORE, true);
}

static bool asks_for_more_instead_of_a_refusal(struct done *done)
{
    return !is_read(done) && (done->number = THRINVAGE_MORE, true);
}

static bool refuses_by_1_instead_of_waiting(struct done *done)
{
    return waits(done) && (done->number = THRINVAGE_END_OF_TEXT, true);
}

static bool says_7_for_15(struct done *done)
{
    return done->number == THRINVAGE_TOKEN_TOO_LONG && (done->number = THRINVAGE_OUT_OF_LIMIT, true);
}

static bool says_15_for_7(struct done *done)
{
    return done->number == THRINVAGE_OUT_OF_LIMIT && (done->number = THRINVAGE_TOKEN_TOO_LONG, true);
}

static bool points_8_at_1(struct done *done)
{
    return done->number == THRINVAGE_NOT_VALID && (done->record[REFUSED_AT] = reader_of(done)[READER_REFUSED_AT] = 1, true);
}

static bool points_15_a_byte_late(struct done *done)
{
    return done->number == THRINVAGE_TOKEN_TOO_LONG && (reader_of(done)[READER_REFUSED_AT] = done->record[REFUSED_AT] += 1, true);
}

static bool goes_on_behind_the_end(struct done *done)
{
    return reader_of(done)[READER_PHASE] == 1 && (reader_of(done)[READER_PHASE] = 0, true);
}

/* ---- nothing to put: the archive was told of a byte or a number more than there is */

static bool is_told_of_a_longer_text(struct done *done)
{
    return done->text != NULL;
}

static bool is_told_of_more_room(struct done *done)
{
    return done->lent != NULL;
}

static bool is_told_of_more_nodes(struct done *done)
{
    return done->nodes != NULL;
}

/* ---- nor here: the archive was told the other source */

static bool reads_as_the_other_source(struct done *done)
{
    return done->call == TOKEN || done->call == FIELD;
}

/* Of the calls that have no part in packs, all; of those that read a clause, all at once, as they have one reader; else one call alone. */
enum { CLAUSE_CALLS = CALLS + 1 };
#define FAULT(name) {#name, name, CALLS}
#define FAULT_AT_ONCE(name) {#name "_in_all_clause_calls", name, (enum call)CLAUSE_CALLS}
#define FAULT_IN(call, name) {#name "_in_" #call, name, call}
#define FAULT_IN_TOKENS(name) FAULT_IN(TOKEN, name), FAULT_IN(FIELD, name), FAULT_IN(TEXT, name)
#define FAULT_IN_PACKING(name) FAULT_IN(PACK, name), FAULT_IN(PACK_2, name)
#define FAULT_IN_NODES(name) FAULT_IN(NODES, name), FAULT_IN(NODES_2, name)
#define FAULT_IN_UNPACKING(name) FAULT_IN(UNPACK, name), FAULT_IN(EITHER, name)
#define FAULT_IN_MOVING(name) FAULT_IN(UP, name), FAULT_IN(DOWN, name)
#define FAULT_IN_READERS(name) FAULT_IN(FEED, name), FAULT_IN(FINISH, name), FAULT_IN(START_READER, name)
#define FAULT_IN_CLAUSES(name) FAULT_IN(READ, name), FAULT_IN(LIST, name), FAULT_IN_PACKING(name)
#define FAULT_IN_EACH(name) FAULT_IN_PACKING(name), FAULT_IN_NODES(name), FAULT_IN_UNPACKING(name), FAULT_IN_MOVING(name)

static const struct fault {
    const char *name;
    bool (*put)(struct done *);
    enum call only;
} faults[] = {
    {"none", NULL, CALLS},
    FAULT(reads_past_the_text),
    FAULT(reads_before_the_text),
    FAULT(writes_past_the_scratch),
    FAULT(writes_past_the_tree),
    FAULT(writes_past_the_line),
    FAULT(writes_before_what_is_lent),
    FAULT(writes_past_the_record),
    FAULT(writes_before_the_record),
    FAULT(changes_the_text),
    FAULT(touches_the_scratch_on_a_refusal),
    FAULT(touches_the_tree_on_a_refusal),
    FAULT(touches_the_line_on_a_refusal),
    FAULT(moves_the_cursor_on_a_refusal),
    FAULT(writes_the_last_field_on_a_refusal),
    FAULT(refuses_behind_the_text),
    FAULT(refuses_by_13),
    FAULT(refuses_a_valid_cursor),
    FAULT(takes_a_cursor_that_is_not_valid),
    FAULT(is_refused_at_something_and_read),
    FAULT(moves_no_cursor),
    FAULT(moves_the_cursor_behind_the_text),
    FAULT(counts_a_line_more),
    FAULT(counts_a_column_more),
    FAULT(starts_where_it_ends),
    FAULT(starts_before_the_cursor),
    FAULT(gives_kind_15),
    FAULT(gives_value_kind_3),
    FAULT(gives_a_value_to_no_number),
    FAULT(gives_the_magnitude_behind_the_largest),
    FAULT(gives_a_value_that_differs_now_and_then),
    FAULT_IN_TOKENS(begins_the_layout_at_the_token),
    FAULT_IN_TOKENS(begins_the_layout_a_byte_early),
    FAULT_IN_TOKENS(begins_the_layout_a_byte_late),
    FAULT_IN_TOKENS(begins_the_layout_with_the_text),
    FAULT_IN_TOKENS(writes_no_layout),
    FAULT(gives_part_2),
    FAULT(shows_a_byte_more),
    FAULT(writes_the_scratch_for_a_part_of_the_text),
    FAULT(writes_the_scratch_behind_the_part),
    FAULT_IN(TEXT, calls_a_name_a_variable),
    FAULT(writes_the_tree_behind_its_nodes),
    FAULT(counts_a_node_less),
    FAULT(forgets_a_child),
    FAULT(writes_the_line_behind_its_bytes),
    FAULT(breaks_the_line),
    FAULT(lists_no_clause_and_says_3),
    FAULT(is_told_of_a_longer_text),
    FAULT(is_told_of_more_room),
    /* a field beside a file */
    FAULT_IN(TOKEN, reads_as_the_other_source),
    FAULT_IN(FIELD, reads_as_the_other_source),
    FAULT_IN(FIELD, calls_a_name_a_variable),
    /* the layout call */
    FAULT_IN(LAYOUT_TEXT, reads_past_the_text),
    FAULT_IN(LAYOUT_TEXT, reads_before_the_text),
    FAULT_IN(LAYOUT_TEXT, changes_the_text),
    FAULT_IN(LAYOUT_TEXT, is_told_of_a_longer_text),
    FAULT_IN(LAYOUT_TEXT, writes_past_the_record),
    FAULT_IN(LAYOUT_TEXT, writes_before_the_record),
    FAULT_IN(LAYOUT_TEXT, moves_the_cursor_on_a_refusal),
    FAULT_IN(LAYOUT_TEXT, writes_the_last_field_on_a_refusal),
    FAULT_IN(LAYOUT_TEXT, refuses_behind_the_text),
    FAULT_IN(LAYOUT_TEXT, refuses_by_13),
    FAULT_IN(LAYOUT_TEXT, refuses_a_valid_cursor),
    FAULT_IN(LAYOUT_TEXT, takes_a_cursor_that_is_not_valid),
    FAULT_IN(LAYOUT_TEXT, is_refused_at_something_and_read),
    FAULT_IN(LAYOUT_TEXT, moves_no_cursor),
    FAULT_IN(LAYOUT_TEXT, moves_the_cursor_behind_the_text),
    FAULT_IN(LAYOUT_TEXT, counts_a_line_more),
    FAULT_IN(LAYOUT_TEXT, counts_a_column_more),
    FAULT_IN(LAYOUT_TEXT, starts_a_byte_late),
    FAULT_IN(LAYOUT_TEXT, starts_the_layout_where_it_ends),
    FAULT_IN(LAYOUT_TEXT, gives_layout_kind_4),
    FAULT_IN(LAYOUT_TEXT, calls_blanks_a_comment),
    FAULT_IN(LAYOUT_TEXT, calls_a_comment_blanks),
    FAULT_IN(LAYOUT_TEXT, calls_a_line_comment_bracketed),
    FAULT_IN(LAYOUT_TEXT, calls_a_bracketed_comment_a_line),
    FAULT_IN(LAYOUT_TEXT, calls_none_blanks),
    FAULT_IN(LAYOUT_TEXT, calls_some_none),
    FAULT_IN(LAYOUT_TEXT, gives_a_kind_that_differs_now_and_then),
    FAULT_IN(LAYOUT_TEXT, sees_no_layout),
    FAULT_IN(LAYOUT_TEXT, gives_one_blank_alone),
    FAULT_IN(LAYOUT_TEXT, ends_blanks_a_byte_late),
    FAULT_IN(LAYOUT_TEXT, ends_blanks_at_a_return),
    FAULT_IN(LAYOUT_TEXT, leaves_the_newline_of_a_line_comment),
    FAULT_IN(LAYOUT_TEXT, joins_a_line_comment_with_the_next_byte),
    FAULT_IN(LAYOUT_TEXT, leaves_the_slash_of_a_bracketed_comment),
    FAULT_IN(LAYOUT_TEXT, nests_comments),
    FAULT_IN(LAYOUT_TEXT, says_1_for_2),
    FAULT_IN(LAYOUT_TEXT, says_2_for_1),
    FAULT_IN(LAYOUT_TEXT, says_3_for_5),
    FAULT_IN(LAYOUT_TEXT, points_2_a_byte_late),
    FAULT_IN(LAYOUT_TEXT, points_5_at_the_comment),
    FAULT_IN(LAYOUT_TEXT, sees_nothing_where_it_refuses),
    FAULT_IN(LAYOUT_TEXT, refuses_a_back_quote),
    FAULT_IN(LAYOUT_TEXT, refuses_a_layout_text),
    FAULT_IN(LAYOUT_TEXT, refuses_where_there_is_none),
    FAULT_IN(TOKEN, starts_a_token_in_the_layout),
    FAULT_IN(TOKEN, starts_in_the_token),
    FAULT_IN(TOKEN, says_1_for_2),
    FAULT_IN(TOKEN, points_2_a_byte_late),
    FAULT_IN(TOKEN, points_5_at_the_comment),
    FAULT_IN(TOKEN, points_into_the_token),
    /* refusals 9, 10 and 11 of the clause calls */
    FAULT_IN_CLAUSES(points_11_at_the_first_token),
    FAULT_IN_CLAUSES(points_11_a_token_early),
    FAULT_IN_CLAUSES(points_11_a_token_late),
    FAULT_IN_CLAUSES(points_11_a_byte_late),
    FAULT_IN_CLAUSES(points_11_at_the_end_mark),
    FAULT_AT_ONCE(points_11_at_the_first_token),
    FAULT_AT_ONCE(points_11_a_token_early),
    FAULT_AT_ONCE(points_11_a_token_late),
    FAULT_AT_ONCE(points_11_a_byte_late),
    FAULT_AT_ONCE(points_11_at_the_end_mark),
    FAULT_AT_ONCE(says_11_where_a_token_is_refused),
    FAULT_AT_ONCE(says_11_where_there_are_too_many_tokens),
    FAULT_IN(READ, points_9_at_the_second_token),
    FAULT_IN(LIST, points_9_at_the_second_token),
    FAULT_IN_CLAUSES(points_10_at_the_second_token),
    FAULT_AT_ONCE(points_10_at_the_second_token),
    /* packs */
    FAULT_IN_EACH(reads_past_the_text),
    FAULT_IN_EACH(reads_before_the_text),
    FAULT_IN_NODES(reads_past_the_nodes),
    FAULT_IN_EACH(writes_past_what_is_lent),
    FAULT_IN_EACH(writes_before_what_is_lent),
    FAULT_IN_EACH(writes_past_the_record),
    FAULT_IN_EACH(writes_before_the_record),
    FAULT_IN_EACH(changes_the_text),
    FAULT_IN_NODES(changes_the_nodes),
    FAULT_IN_EACH(writes_what_is_lent_on_a_refusal),
    FAULT_IN_EACH(writes_the_last_field_on_a_refusal),
    FAULT_IN_EACH(writes_behind_the_answer),
    FAULT_IN_EACH(writes_another_first_byte),
    FAULT_IN_EACH(writes_another_last_byte),
    FAULT_IN_EACH(writes_another_byte_now_and_then),
    FAULT_IN_UNPACKING(gives_another_kind),
    FAULT_IN_UNPACKING(gives_another_arity),
    FAULT_IN_UNPACKING(gives_another_start),
    FAULT_IN_UNPACKING(gives_another_length),
    FAULT_IN_EACH(counts_one_less),
    FAULT_IN_EACH(counts_one_more),
    FAULT_IN_EACH(refuses_what_is_read),
    FAULT_IN_EACH(reads_what_is_refused),
    FAULT_IN_EACH(refuses_by_15),
    FAULT_IN_NODES(says_9_for_14),
    FAULT_IN_UNPACKING(says_9_for_14),
    FAULT_IN_MOVING(says_9_for_14),
    FAULT_IN_EACH(says_14_for_9),
    FAULT_IN_NODES(says_13_for_14),
    FAULT_IN(UP, says_13_for_14),
    FAULT_IN_PACKING(says_9_for_13),
    FAULT_IN_NODES(says_9_for_13),
    FAULT_IN(UP, says_9_for_13),
    FAULT_IN_PACKING(says_3_for_11),
    FAULT_IN_PACKING(refuses_elsewhere_than_at_0),
    FAULT_IN_PACKING(refuses_behind_the_text),
    FAULT_IN_PACKING(moves_the_cursor_on_a_refusal),
    FAULT_IN_PACKING(is_refused_at_something_and_read),
    FAULT_IN_PACKING(moves_no_cursor),
    FAULT_IN_PACKING(counts_a_line_more),
    FAULT_IN_PACKING(counts_a_column_more),
    FAULT_IN_PACKING(is_told_of_a_longer_text),
    FAULT_IN_NODES(is_told_of_a_longer_text),
    FAULT_IN_EACH(is_told_of_more_room),
    FAULT_IN_NODES(is_told_of_more_nodes),
    /* the line */
    FAULT_IN(PACK_2, gives_a_line_more),
    FAULT_IN(PACK_2, gives_a_line_less),
    FAULT_IN(PACK_2, gives_no_line),
    FAULT_IN(PACK_2, gives_a_line_of_one_byte),
    FAULT_IN(PACK_2, gives_the_line_little_endian),
    FAULT_IN(PACK_2, gives_the_line_of_the_cursor),
    FAULT_IN(PACK_2, gives_the_line_behind_the_clause),
    FAULT_IN(PACK_2, gives_the_line_behind_the_first_token),
    FAULT_IN(PACK_2, gives_the_line_of_the_text),
    FAULT_IN(NODES_2, gives_a_line_more),
    FAULT_IN(NODES_2, gives_a_line_less),
    FAULT_IN(NODES_2, gives_no_line),
    FAULT_IN(NODES_2, gives_a_line_of_one_byte),
    FAULT_IN(NODES_2, gives_the_line_little_endian),
    FAULT_IN(NODES_2, refuses_line_0),
    FAULT_IN(NODES_2, refuses_line_65535),
    FAULT_IN(EITHER, gives_the_line_before),
    FAULT_IN(EITHER, gives_form_1_a_line),
    FAULT_IN(EITHER, reads_the_line_little_endian),
    FAULT_IN(UP, gives_a_line_more),
    FAULT_IN(UP, gives_a_line_less),
    FAULT_IN(DOWN, keeps_the_line),
    /* the form */
    FAULT_IN(PACK, writes_version_2),
    FAULT_IN(PACK_2, writes_version_1),
    FAULT_IN(NODES, writes_version_2),
    FAULT_IN(NODES_2, writes_version_1),
    FAULT_IN(UP, writes_version_1),
    FAULT_IN(DOWN, writes_version_2),
    FAULT_IN(UNPACK, shows_form_2),
    FAULT_IN(UNPACK, does_not_look_at_the_version),
    FAULT_IN(UNPACK, says_18_for_14),
    FAULT_IN(UNPACK, says_18_of_another_version),
    FAULT_IN(EITHER, refuses_form_2),
    FAULT_IN(EITHER, gives_another_form),
    FAULT_IN(EITHER, writes_the_form_on_a_refusal),
    FAULT_IN(EITHER, counts_starts_as_in_form_1),
    FAULT_IN(EITHER, says_14_for_18),
    FAULT_IN(EITHER, says_18_for_14),
    FAULT_IN(EITHER, says_9_for_18),
    FAULT_IN(EITHER, says_18_of_no_bytes),
    FAULT_IN_MOVING(says_14_for_18),
    FAULT_IN_MOVING(says_18_for_14),
    FAULT_IN_MOVING(says_9_for_18),
    FAULT_IN_MOVING(says_18_of_no_bytes),
    FAULT_IN_MOVING(takes_the_other_form),
    /* the length, and what is too long */
    FAULT_IN(PACK_2, forgets_the_line_in_the_length),
    FAULT_IN(NODES_2, forgets_the_line_in_the_length),
    FAULT_IN(UP, forgets_the_line_in_the_length),
    FAULT_IN(DOWN, keeps_the_line_in_the_length),
    FAULT_IN(PACK_2, takes_what_is_too_long),
    FAULT_IN(NODES_2, takes_what_is_too_long),
    FAULT_IN(UP, takes_what_is_too_long),
    FAULT_IN(UP, takes_a_body_of_65534),
    FAULT_IN(PACK_2, says_13_of_the_longest_that_fits),
    FAULT_IN(NODES_2, says_13_of_the_longest_that_fits),
    FAULT_IN(UP, says_13_of_the_longest_that_fits),
    FAULT_IN(DOWN, says_13_of_the_longest),
    /* the reader that is fed chunks */
    FAULT_IN(FEED, reads_past_the_text),
    FAULT_IN(FEED, reads_before_the_text),
    FAULT_IN(FEED, changes_the_text),
    FAULT_IN(FEED, is_told_of_a_longer_text),
    FAULT_IN(FEED, writes_past_what_is_lent),
    FAULT_IN(FEED, writes_before_what_is_lent),
    FAULT_IN(FEED, writes_what_is_lent_on_a_refusal),
    FAULT_IN(FEED, writes_the_window_behind_the_hand),
    FAULT_IN(FEED, writes_past_the_record),
    FAULT_IN(FEED, writes_before_the_record),
    FAULT_IN(FEED, writes_the_last_field_on_a_refusal),
    FAULT_IN_READERS(writes_past_the_reader),
    FAULT_IN_READERS(writes_before_the_reader),
    FAULT_IN_READERS(takes_a_byte_more),
    FAULT_IN_READERS(counts_a_line_more_in_the_reader),
    FAULT_IN(FEED, takes_a_byte_less),
    FAULT_IN(FEED, forgets_that_it_has_refused),
    FAULT_IN(FINISH, forgets_that_it_has_refused),
    FAULT_IN(FEED, keeps_another_refusal),
    FAULT_IN(FINISH, keeps_another_refusal),
    FAULT_IN(FEED, keeps_another_place_of_a_refusal),
    FAULT_IN(FEED, loses_a_byte_at_hand),
    FAULT_IN(FEED, keeps_the_layout_over_a_token),
    FAULT_IN(FEED, forgets_the_layout),
    FAULT_IN(FEED, keeps_that_layout_was_passed),
    FAULT_IN(FEED, begins_the_layout_at_the_token),
    FAULT_IN(FEED, begins_the_layout_at_hand),
    FAULT_IN(FEED, begins_the_layout_a_byte_early),
    FAULT_IN(FEED, begins_the_layout_a_byte_late),
    FAULT_IN(FEED, begins_the_layout_with_the_text),
    FAULT_IN(FEED, writes_no_layout),
    FAULT_IN(FEED, forgets_a_line_comment),
    FAULT_IN(FEED, forgets_the_comment),
    FAULT_IN(FEED, forgets_where_a_comment_began),
    FAULT_IN(FINISH, forgets_where_a_comment_began),
    FAULT_IN(FEED, counts_no_column_in_the_reader),
    FAULT_IN(FEED, asks_for_more_instead_of_a_token),
    FAULT_IN(FEED, asks_for_more_instead_of_a_refusal),
    FAULT_IN(FEED, refuses_by_1_instead_of_waiting),
    FAULT_IN(FEED, reads_what_is_refused),
    FAULT_IN(FEED, refuses_what_is_read),
    FAULT_IN(FEED, refuses_by_13),
    FAULT_IN(FEED, refuses_a_valid_cursor),
    FAULT_IN(FEED, takes_a_cursor_that_is_not_valid),
    FAULT_IN(FEED, says_7_for_15),
    FAULT_IN(FEED, says_15_for_7),
    FAULT_IN(FEED, points_8_at_1),
    FAULT_IN(FEED, points_15_a_byte_late),
    FAULT_IN(FEED, goes_on_behind_the_end),
    FAULT_IN(FINISH, goes_on_behind_the_end),
    FAULT_IN(FEED, is_refused_at_something_and_read),
    FAULT_IN(FEED, moves_no_cursor),
    FAULT_IN(FEED, counts_a_line_more),
    FAULT_IN(FEED, counts_a_column_more),
    FAULT_IN(FEED, starts_where_it_ends),
    FAULT_IN(FEED, starts_before_the_cursor),
    FAULT_IN(FEED, gives_kind_15),
    FAULT_IN(FEED, gives_value_kind_3),
    FAULT_IN(FEED, gives_a_value_to_no_number),
    FAULT_IN(FEED, gives_the_magnitude_behind_the_largest),
    FAULT_IN(FEED, gives_a_value_that_differs_now_and_then),
};

enum { FAULTS = sizeof faults / sizeof *faults };

static const struct fault *fault = faults;

static bool is_in_all_clause_calls(void)
{
    return fault->only == (enum call)CLAUSE_CALLS;
}

static bool is_in(enum call call)
{
    if (is_in_all_clause_calls())
        return call >= READ && call <= PACK_2;
    return fault->only == CALLS ? call < PACK : call == fault->only;
}

__attribute__((constructor)) static void choose_fault(void)
{
    const char *word = getenv("FAULT");
    if (word != NULL && strcmp(word, "list") == 0) {
        for (int i = 0; i < FAULTS; i++)
            printf("%d %s\n", i, faults[i].name);
        exit(0);
    }
    int number = word == NULL ? 0 : atoi(word);
    if (number < 0 || number >= FAULTS)
        exit(2);
    fault = &faults[number];
}

/* One call in eight, the same ones whenever they come: only so do the checks of a single answer have to notice it. What is about as long as may be is rare:
 * of that all. Where all clause calls have the fault, each answer has it, so that none of them shows it by another answer. */
static bool strikes(const struct done *done)
{
    if (is_in_all_clause_calls())
        return true;
    uint64_t mixed = (done->length * 31 + done->offset * 7 + done->lent_size * 3 + (uint64_t)done->call) * 0x9e3779b97f4a7c15u;
    return mixed >> 61 == 0 || done->number == THRINVAGE_TOO_LONG || done->length > 65500 || done->lent_size > 65500;
}

static uint32_t with_fault(struct done done)
{
    if (fault->put != NULL && is_in(done.call) && strikes(&done))
        fault->put(&done);
    return done.number;
}

/* ---- the calls */

static bool lies(enum call call, bool (*lie)(struct done *))
{
    return fault->put == lie && is_in(call);
}

static size_t told(enum call call, size_t length)
{
    return length + lies(call, is_told_of_a_longer_text);
}

static size_t told_room(enum call call, size_t room)
{
    return room + lies(call, is_told_of_more_room);
}

#define PLACE const uint8_t *text, size_t length, size_t offset, size_t line, size_t column
#define NODES_GIVEN const uint8_t *bytes, size_t length, const uint32_t *nodes, size_t numbers, size_t count
#define DONE(call, lent, lent_size, record, number) \
    with_fault((struct done){call, (uint8_t *)text, length, offset, line, column, (uint8_t *)(lent), lent_size, (uint64_t *)(record), sizeof *(record), number, NULL, 0})

uint32_t __real_thrinvage_next_token_text(PLACE, uint8_t *scratch, size_t room, struct thrinvage_token_text *token);
uint32_t __real_thrinvage_next_layout(PLACE, struct thrinvage_layout *layout);
uint32_t __real_thrinvage_read_clause(PLACE, uint16_t *tree, size_t room, struct thrinvage_clause *clause);
uint32_t __real_thrinvage_list_clause(PLACE, uint8_t *out, size_t room, struct thrinvage_clause *clause);
uint32_t __real_thrinvage_pack_clause(PLACE, uint8_t *out, size_t room, struct thrinvage_clause *clause);
uint32_t __real_thrinvage_pack_clause_form_2(PLACE, uint8_t *out, size_t room, struct thrinvage_clause *clause);
uint32_t __real_thrinvage_pack_nodes(NODES_GIVEN, uint8_t *out, size_t room, uint64_t *packed);
uint32_t __real_thrinvage_pack_nodes_form_2(NODES_GIVEN, uint16_t line, uint8_t *out, size_t room, uint64_t *packed);
uint32_t __real_thrinvage_move_up(const uint8_t *image, size_t length, uint8_t *out, size_t room, uint64_t *moved);
uint32_t __real_thrinvage_move_down(const uint8_t *image, size_t length, uint8_t *out, size_t room, uint64_t *moved);

uint32_t __wrap_thrinvage_next_token(PLACE, struct thrinvage_token *token, uint32_t source)
{
    enum call call = source == THRINVAGE_FIELD ? FIELD : TOKEN;
    bool is_field = (call == FIELD) != lies(call, reads_as_the_other_source);
    return DONE(call, NULL, 0, token, __real_thrinvage_next_token(text, told(call, length), offset, line, column, token, is_field ? THRINVAGE_FIELD : THRINVAGE_FILE));
}

uint32_t __wrap_thrinvage_next_token_text(PLACE, uint8_t *scratch, size_t room, struct thrinvage_token_text *token)
{
    return DONE(TEXT, scratch, room, token, __real_thrinvage_next_token_text(text, told(TEXT, length), offset, line, column, scratch, told_room(TEXT, room), token));
}

uint32_t __wrap_thrinvage_next_layout(PLACE, struct thrinvage_layout *layout)
{
    struct thrinvage_layout before = *layout;
    uint32_t number = __real_thrinvage_next_layout(text, told(LAYOUT_TEXT, length), offset, line, column, layout);
    return with_fault((struct done){LAYOUT_TEXT, (uint8_t *)text, length, offset, line, column, NULL, 0, (uint64_t *)layout, sizeof *layout, number, (uint8_t *)&before, sizeof before});
}

uint32_t __wrap_thrinvage_read_clause(PLACE, uint16_t *tree, size_t room, struct thrinvage_clause *clause)
{
    return DONE(READ, tree, 2 * room, clause, __real_thrinvage_read_clause(text, told(READ, length), offset, line, column, tree, told_room(READ, room), clause));
}

uint32_t __wrap_thrinvage_list_clause(PLACE, uint8_t *out, size_t room, struct thrinvage_clause *clause)
{
    return DONE(LIST, out, room, clause, __real_thrinvage_list_clause(text, told(LIST, length), offset, line, column, out, told_room(LIST, room), clause));
}

uint32_t __wrap_thrinvage_pack_clause(PLACE, uint8_t *out, size_t room, struct thrinvage_clause *clause)
{
    return DONE(PACK, out, room, clause, __real_thrinvage_pack_clause(text, told(PACK, length), offset, line, column, out, told_room(PACK, room), clause));
}

uint32_t __wrap_thrinvage_pack_clause_form_2(PLACE, uint8_t *out, size_t room, struct thrinvage_clause *clause)
{
    return DONE(PACK_2, out, room, clause,
                __real_thrinvage_pack_clause_form_2(text, told(PACK_2, length), offset, line, column, out, told_room(PACK_2, room), clause));
}

#define IMAGE_DONE(call, image, length, lent, room, record, number) \
    with_fault((struct done){call, (uint8_t *)(image), length, 0, 0, 0, (uint8_t *)(lent), (room) * sizeof *(lent), (uint64_t *)(record), sizeof *(record), number, NULL, 0})

uint32_t __wrap_thrinvage_unpack(const uint8_t *image, size_t length, uint32_t *nodes, size_t room, uint64_t *count)
{
    return IMAGE_DONE(UNPACK, image, length, nodes, room, count, __real_thrinvage_unpack(image, length, nodes, told_room(UNPACK, room), count));
}

uint32_t __wrap_thrinvage_unpack_either(const uint8_t *image, size_t length, uint32_t *nodes, size_t room, struct thrinvage_unpacked *unpacked)
{
    return IMAGE_DONE(EITHER, image, length, nodes, room, unpacked, __real_thrinvage_unpack_either(image, length, nodes, told_room(EITHER, room), unpacked));
}

uint32_t __wrap_thrinvage_move_up(const uint8_t *image, size_t length, uint8_t *out, size_t room, uint64_t *moved)
{
    return IMAGE_DONE(UP, image, length, out, room, moved, __real_thrinvage_move_up(image, length, out, told_room(UP, room), moved));
}

uint32_t __wrap_thrinvage_move_down(const uint8_t *image, size_t length, uint8_t *out, size_t room, uint64_t *moved)
{
    return IMAGE_DONE(DOWN, image, length, out, room, moved, __real_thrinvage_move_down(image, length, out, told_room(DOWN, room), moved));
}

static size_t told_numbers(enum call call, size_t numbers)
{
    return numbers + (lies(call, is_told_of_more_nodes) ? 4 : 0);
}

#define NODES_DONE(call, number) \
    with_fault((struct done){call, (uint8_t *)bytes, length, 0, 0, 0, out, room, packed, sizeof *packed, number, (uint8_t *)nodes, numbers * sizeof *nodes})

uint32_t __wrap_thrinvage_pack_nodes(NODES_GIVEN, uint8_t *out, size_t room, uint64_t *packed)
{
    return NODES_DONE(NODES, __real_thrinvage_pack_nodes(bytes, told(NODES, length), nodes, told_numbers(NODES, numbers), count, out, told_room(NODES, room), packed));
}

uint32_t __wrap_thrinvage_pack_nodes_form_2(NODES_GIVEN, uint16_t line, uint8_t *out, size_t room, uint64_t *packed)
{
    return NODES_DONE(NODES_2, __real_thrinvage_pack_nodes_form_2(bytes, told(NODES_2, length), nodes, told_numbers(NODES_2, numbers), count, line, out,
                                                                  told_room(NODES_2, room), packed));
}

uint32_t __real_thrinvage_feed(struct thrinvage_reader *reader, uint8_t *window, const uint8_t *chunk, size_t length, struct thrinvage_token *token);
void __real_thrinvage_finish(struct thrinvage_reader *reader);
void __real_thrinvage_start(struct thrinvage_reader *reader);

uint32_t __wrap_thrinvage_feed(struct thrinvage_reader *reader, uint8_t *window, const uint8_t *chunk, size_t length, struct thrinvage_token *token)
{
    size_t offset = reader->offset, line = reader->line, column = reader->column;
    uint32_t number = __real_thrinvage_feed(reader, window, chunk, told(FEED, length), token);
    return with_fault((struct done){FEED, (uint8_t *)chunk, length, offset, line, column, window, THRINVAGE_WINDOW, (uint64_t *)token, sizeof *token, number, (uint8_t *)reader,
                                    sizeof *reader});
}

#define READER_DONE(call, offset) with_fault((struct done){call, NULL, 0, offset, 0, 0, NULL, 0, NULL, 0, THRINVAGE_READ, (uint8_t *)reader, sizeof *reader})

void __wrap_thrinvage_finish(struct thrinvage_reader *reader)
{
    __real_thrinvage_finish(reader);
    READER_DONE(FINISH, reader->offset);
}

void __wrap_thrinvage_start(struct thrinvage_reader *reader)
{
    size_t offset = reader->offset;
    __real_thrinvage_start(reader);
    READER_DONE(START_READER, offset);
}
