#include "no_reading.h"
#include "thrinvage.h"
#include <string.h>

/* Offsets count from the cursor. */
struct found {
    uint64_t kind;
    size_t start, end;
};

/* The clause's tokens, its end mark among them. */
struct clause {
    size_t count;
    struct found tokens[THRINVAGE_MOST_TOKENS];
};

/* A clause's first tokens, and the closing brackets that they lack, the innermost first. */
struct beginning {
    const struct clause *clause;
    size_t count, end, open;
    char closers[THRINVAGE_MOST_TOKENS];
};

/* A text that begins like the clause: its own bytes up to a token's end, and others behind them; and the call that was asked about it. */
static struct text tried;
static enum call tried_by;

#define PICK(random, words) ((words)[random_below(random, sizeof(words) / sizeof *(words))])

/* ---- the tokens */

/* A token's own refusal comes before 11, wherever in the clause it is, and so does a clause that is too long. */
static void find_tokens(const struct text *text, struct cursor at, struct clause *clause)
{
    struct thrinvage_token token = {.offset = at.offset, .line = at.line, .column = at.column};
    clause->count = 0;
    do {
        must(clause->count < THRINVAGE_MOST_TOKENS, "refusal 11 where there are too many tokens");
        uint32_t number = thrinvage_next_token(text->bytes, text->length, token.offset, token.line, token.column, &token, THRINVAGE_FILE);
        must(number == THRINVAGE_READ, "refusal 11 where a token is refused");
        must(token.kind <= THRINVAGE_END, "no such kind");
        clause->tokens[clause->count++] = (struct found){token.kind, token.start - at.offset, token.offset - at.offset};
    } while (token.kind != THRINVAGE_END);
}

static size_t find_pointed(const struct clause *clause, size_t start)
{
    size_t pointed = 0;
    while (pointed < clause->count && clause->tokens[pointed].start != start)
        pointed++;
    must(pointed < clause->count, "refusal 11 points at no token of the clause");
    return pointed;
}

static char closer_of(uint64_t kind)
{
    switch (kind) {
    case THRINVAGE_OPEN:
    case THRINVAGE_OPEN_CT: return ')';
    case THRINVAGE_OPEN_LIST: return ']';
    case THRINVAGE_OPEN_CURLY: return '}';
    default: return 0;
    }
}

static bool is_closer(uint64_t kind)
{
    return kind == THRINVAGE_CLOSE || kind == THRINVAGE_CLOSE_LIST || kind == THRINVAGE_CLOSE_CURLY;
}

/* From the last token back, an opening bracket is closed if a closing one was met for it. */
static struct beginning beginning_of(const struct clause *clause, size_t count)
{
    struct beginning beginning = {.clause = clause, .count = count, .end = count > 0 ? clause->tokens[count - 1].end : 0};
    size_t closed = 0;
    for (size_t i = count; i-- > 0;) {
        uint64_t kind = clause->tokens[i].kind;
        if (is_closer(kind))
            closed++;
        else if (closer_of(kind) != 0 && closed > 0)
            closed--;
        else if (closer_of(kind) != 0)
            beginning.closers[beginning.open++] = closer_of(kind);
    }
    return beginning;
}

/* ---- what is tried */

/* What does not fit is cut off: it is longer than a text may be then, too. */
static void add(const char *bytes, size_t length)
{
    size_t left = LONGEST_MADE - tried.length;
    length = length < left ? length : left;
    memcpy(tried.bytes + tried.length, bytes, length);
    tried.length += length;
}

/* One of these completes every beginning of a clause, with its brackets closed: behind a whole term nothing is due, behind an infix operator, a comma, a bar
 * or an opening bracket a term is, and any other name, operator or not, can be called. */
static const char *const completions[] = {"", " X", "(X)"};
enum { COMPLETIONS = sizeof completions / sizeof *completions, MOST_ADDED_TOKENS = 4, MOST_ADDED_BYTES = 5 };

static void complete(const struct beginning *beginning, const char *completion)
{
    tried.length = beginning->end;
    add(completion, strlen(completion));
    add(beginning->closers, beginning->open);
    add(" .", 2);
}

static bool can_be_completed(const struct beginning *beginning)
{
    return beginning->count + beginning->open + MOST_ADDED_TOKENS <= THRINVAGE_MOST_TOKENS &&
           beginning->end + beginning->open + MOST_ADDED_BYTES <= THRINVAGE_LONGEST_TEXT;
}

static bool is_same_token(const struct found *found, const struct thrinvage_token *token)
{
    return token->kind == found->kind && token->start == found->start && token->offset == found->end;
}

/* Whether what is tried begins with these tokens still, though other bytes follow them, and is no longer than a clause may be. */
static bool begins_so(const struct beginning *beginning)
{
    struct thrinvage_token token = {0};
    size_t count = 0;
    bool same = tried.length <= THRINVAGE_LONGEST_TEXT;
    while (same && token.kind != THRINVAGE_END) {
        same = count < THRINVAGE_MOST_TOKENS &&
               thrinvage_next_token(tried.bytes, tried.length, token.offset, token.line, token.column, &token, THRINVAGE_FILE) == THRINVAGE_READ &&
               (count >= beginning->count || is_same_token(beginning->clause->tokens + count, &token));
        count++;
    }
    return same;
}

/* By any of the clause calls: they answer alike, but that a pack can be too long. */
static uint32_t put(struct random *random, struct thrinvage_clause *clause)
{
    static uint16_t tree[THRINVAGE_TREE_NUMBERS];
    static uint8_t out[THRINVAGE_LINE_BYTES];
    tried_by = (enum call)(READ + random_below(random, PACK_2 - READ + 1));
    switch (tried_by) {
    case READ: return thrinvage_read_clause(tried.bytes, tried.length, 0, 0, 0, tree, THRINVAGE_TREE_NUMBERS, clause);
    case LIST: return thrinvage_list_clause(tried.bytes, tried.length, 0, 0, 0, out, THRINVAGE_LINE_BYTES, clause);
    case PACK: return thrinvage_pack_clause(tried.bytes, tried.length, 0, 0, 0, out, THRINVAGE_IMAGE_BYTES, clause);
    default: return thrinvage_pack_clause_form_2(tried.bytes, tried.length, 0, 0, 0, out, THRINVAGE_IMAGE_BYTES, clause);
    }
}

static bool is_taken(uint32_t number)
{
    return number == THRINVAGE_READ || number == THRINVAGE_TOO_LONG;
}

/* Both texts are shown: the one that was refused, and then what was tried. */
static void must_of_tried(bool so, const char *what)
{
    if (so)
        return;
    show_case();
    running = (struct running){.call = tried_by, .bytes = tried.bytes, .length = tried.length};
    must(false, what);
}

/* ---- both halves of the definition */

static void must_refuse_tried(struct random *random, const struct beginning *beginning)
{
    struct thrinvage_clause clause;
    if (!begins_so(beginning))
        return;
    uint32_t number = put(random, &clause);
    must_of_tried(!is_taken(number), "a clause begins with the tokens up to where refusal 11 points");
    must_of_tried(number == THRINVAGE_NO_READING, "with other tokens behind where refusal 11 points, the refusal is another");
    size_t start = beginning->clause->tokens[beginning->count - 1].start;
    must_of_tried(clause.refused_at == start, "with other tokens behind where refusal 11 points, it points elsewhere");
}

/* No clause begins with these tokens: were it so, then one of the completions would be read. */
static void check_no_clause_begins_so(struct random *random, const struct beginning *beginning)
{
    for (size_t i = 0; i < COMPLETIONS; i++) {
        complete(beginning, completions[i]);
        must_refuse_tried(random, beginning);
    }
}

/* Whatever stands behind them, the place stays. */
static void check_place_stays(struct random *random, const struct beginning *beginning)
{
    static const char *const others[] = {" .", " ) .", " ] .", " } .", " , X .", " | X ] .", "1 .", " 1 .", " (X) .", "(X).", "(X, .", " - X .", " = X .",
                                         " - .", "[] .", " :- X .", " a b .", " \"s\" .", "'q' .", "% c\n."};
    for (int more = 3; more > 0; more--) {
        const char *other = PICK(random, others);
        tried.length = beginning->end;
        add(other, strlen(other));
        must_refuse_tried(random, beginning);
    }
}

/* An end mark needs nothing behind it. */
static void check_end_mark(struct random *random, const struct beginning *beginning)
{
    tried.length = beginning->end;
    if (beginning->clause->tokens[beginning->count - 1].kind == THRINVAGE_END)
        must_refuse_tried(random, beginning);
}

static bool is_read_with(struct random *random, const struct beginning *beginning, const char *completion)
{
    struct thrinvage_clause clause;
    complete(beginning, completion);
    return begins_so(beginning) && is_taken(put(random, &clause));
}

/* Whether it was shown; it cannot be where the completed clause would be too long. */
static bool check_a_clause_begins_so(struct random *random, const struct beginning *beginning)
{
    bool shown = false;
    if (!can_be_completed(beginning))
        return false;
    for (size_t i = 0; i < COMPLETIONS && !shown; i++)
        shown = is_read_with(random, beginning, completions[i]);
    must_of_tried(shown, "no clause begins with the tokens before where refusal 11 points");
    return true;
}

void check_no_reading(struct random *random, const struct text *text, struct cursor at, size_t refused_at)
{
    static struct clause clause;
    find_tokens(text, at, &clause);
    size_t pointed = find_pointed(&clause, refused_at - at.offset);
    struct beginning before = beginning_of(&clause, pointed), with = beginning_of(&clause, pointed + 1);
    memcpy(tried.bytes, text->bytes + at.offset, with.end);
    check_end_mark(random, &with);
    check_no_clause_begins_so(random, &with);
    check_place_stays(random, &with);
    count_pointed(clause.tokens[pointed].kind, check_a_clause_begins_so(random, &before));
}
