#include "texts.h"
#include <stdio.h>
#include <stdlib.h>
#include <string.h>

/* The files that are given, one behind the other. */
static uint8_t *given;
static size_t given_length;

void read_file(const char *path)
{
    FILE *file = fopen(path, "rb");
    if (file == NULL) {
        perror(path);
        exit(2);
    }
    uint8_t block[4096];
    size_t got;
    while ((got = fread(block, 1, sizeof block, file)) > 0) {
        given = realloc(given, given_length + got);
        memcpy(given + given_length, block, got);
        given_length += got;
    }
    fclose(file);
}

/* What does not fit is cut off: a text that ends anywhere is a good one. */
static void add(struct text *text, const void *bytes, size_t length)
{
    size_t left = LONGEST_MADE - text->length;
    length = length < left ? length : left;
    memcpy(text->bytes + text->length, bytes, length);
    text->length += length;
}

static void add_word(struct text *text, const char *word)
{
    add(text, word, strlen(word));
}

static void add_byte(struct text *text, uint8_t byte)
{
    add(text, &byte, 1);
}

#define PICK(random, words) ((words)[random_below(random, sizeof(words) / sizeof *(words))])

uint8_t prolog_byte(struct random *random)
{
    static const char bytes[] = "aexz AZ_ 0179 '\"`\\ .,|!;()[]{} +-*/:<= %\n\t\r";
    return (uint8_t)bytes[random_below(random, sizeof bytes - 1)];
}

static const char *const names[] = {"a", "b", "foo", "is", "mod", "rem", "e", "x", "o", "[]", "{}", "!", ";", "'a b'", "'\\x41\\'",
                                    "'it''s'", "'\\\n'", "''", "'-'", "'\\101\\b'", "aVeryLongNameThatGoesOnAndOn_1234567890"};
static const char *const variables[] = {"X", "_", "_1", "Ys", "_G", "Variable_With_A_Long_Name"};
static const char *const numbers[] = {"0", "1", "42", "0x1F", "0o17", "0b101", "0'a", "0'''", "0'\\n", "0'\\x41\\", "1.5", "1.0e10", "2.5E-3",
                                      "9223372036854775807", "9223372036854775808", "9007199254740992.0", "1.0e22", "0.0000000000000000000001"};
static const char *const strings[] = {"\"\"", "\"abc\"", "\"a\"\"b\"", "\"\\n\\t\\\\\"", "\"'\"", "\"\\\nx\""};
static const char *const infixes[] = {":-", "-->", ";", "->", ",", "=", "\\=", "==", "is", "<", "=..", ":", "+", "-", "*", "/", "mod", "**", "^", "=:=", "@<"};
static const char *const prefixes[] = {":-", "?-", "\\+", "-", "\\", "- ", "+"};
static const char *const layouts[] = {" ", " ", "  ", "\n", "\t", "\r\n", "% c\n", "/* c */", "/**/ ", " /* * / */"};
static const char *const ends[] = {". ", ".\n", ".\t", ".\r\n", ".% c\n", ".\n\n", "."};
/* What is refused, or nearly. */
static const char *const oddities[] = {"9223372036854775808", "-9223372036854775808", "9223372036854775809", "1.0e23", "1.0e400", "'\\x80\\'", "'\\0\\'", "0'\\xfffffffff\\", "1_000", "0_", "0'\\\n",
                                       "'a\nb'", "'a\tb'", "'a\\\r\nb'", "'\\q'", "'\\x41'", "0''", "0x", "0b2", "`a`", "\x01", "\x80", "\r", "\x00z", "/*", "/* a", "/* /* a */ */", "/*/*/ */", "'a", "\"a",
                                       "||", "|", "a.b", "1.e", "1.0e", "1.0e+", "....", "f()", "[|]", "- (1)", "-1", "- 1", "{}(a)", ",", ")", "%"};

/* What the grammar does not have, or has in some places only. */
static const char *const misfits[] = {"X(a)", "1(a)", "\"s\"(a)", "(a)(b)", "f(a)(b)", "f()", "f(,)", "f(a,)", "f(a :- b)", "f(a | b)", "(a | b)", "(-, a)",
                                      "(-)", "f(-, :-)", "[-|-]", "[a|b, c]", "[a|b|c]", "[|a]", "[a,]", "{}(a)", "{- , a}", "{-}", "a = \\+ b", "a = \\+(b)",
                                      "2 ** - 1", "2 ** -1", "2 ** -(1)", "f(9223372036854775808)", "a -9223372036854775808", "- -9223372036854775808",
                                      "- = a", "= =", "- - -", ":- :- a", "a=b=c", "a:-b:-c", "a**b**c", "- (1)", "- 1 2",
                                      "\\+ (a :- b)", "\\+(a :- b)", "\\+ (a, b)", "is is is", "a mod", "mod a", "a b", "a 'b' c", "(a", "a)", "[a", "a]",
                                      "{a", "a}", "(a]", "[a)", "a || b", "'|'", "','"};

static void add_piece(struct random *random, struct text *text)
{
    static const char *const marks[] = {"(", ")", "[", "]", "{", "}", ",", "|", "||"};
    switch (random_below(random, 10)) {
    case 0: add_word(text, PICK(random, names)); break;
    case 1: add_word(text, PICK(random, variables)); break;
    case 2: add_word(text, PICK(random, numbers)); break;
    case 3: add_word(text, PICK(random, strings)); break;
    case 4: add_word(text, PICK(random, infixes)); break;
    case 5: add_word(text, PICK(random, layouts)); break;
    case 6: add_word(text, PICK(random, ends)); break;
    case 7: add_word(text, PICK(random, oddities)); break;
    default: add_word(text, PICK(random, marks)); break;
    }
    if (random_one_in(random, 2))
        add_byte(text, ' ');
}

static void add_term(struct random *random, struct text *text, int depth);

static void add_terms(struct random *random, struct text *text, int depth)
{
    for (size_t more = random_below(random, 4); more > 0; more--) {
        add_term(random, text, depth);
        add_word(text, ", ");
    }
    add_term(random, text, depth);
}

/* Now and then one that cannot stand there: so clauses are refused by 11 far in, too. */
static void add_plain(struct random *random, struct text *text)
{
    if (random_one_in(random, 40)) {
        add_word(text, PICK(random, misfits));
        return;
    }
    switch (random_below(random, 4)) {
    case 0: add_word(text, PICK(random, variables)); break;
    case 1: add_word(text, PICK(random, numbers)); break;
    case 2: add_word(text, PICK(random, strings)); break;
    default: add_word(text, PICK(random, names)); break;
    }
}

static void add_term(struct random *random, struct text *text, int depth)
{
    if (depth == 0) {
        add_plain(random, text);
        return;
    }
    switch (random_below(random, 8)) {
    case 0:
        add_word(text, "f(");
        add_terms(random, text, depth - 1);
        add_byte(text, ')');
        break;
    case 1:
        add_byte(text, '[');
        add_terms(random, text, depth - 1);
        add_word(text, random_one_in(random, 2) ? "|T]" : "]");
        break;
    case 2:
        add_byte(text, '{');
        add_term(random, text, depth - 1);
        add_byte(text, '}');
        break;
    case 3:
        add_word(text, PICK(random, prefixes));
        add_byte(text, ' ');
        add_term(random, text, depth - 1);
        break;
    case 4:
        add_byte(text, '(');
        add_term(random, text, depth - 1);
        add_byte(text, ')');
        break;
    case 5: add_plain(random, text); break;
    default:
        add_term(random, text, depth - 1);
        add_word(text, PICK(random, layouts));
        add_word(text, PICK(random, infixes));
        add_byte(text, ' ');
        add_term(random, text, depth - 1);
        break;
    }
}

static void add_clause(struct random *random, struct text *text)
{
    add_term(random, text, (int)random_below(random, 5));
    add_word(text, PICK(random, ends));
}

static void add_given(struct random *random, struct text *text, size_t most)
{
    if (given_length == 0)
        return;
    size_t from = random_below(random, given_length);
    size_t left = given_length - from;
    most = 1 + random_below(random, most + 1);
    add(text, given + from, most < left ? most : left);
}

/* One kind of text, at least one piece of it and until the length is reached. */
static void fill(struct random *random, struct text *text, size_t length)
{
    size_t kind = random_below(random, 16);
    text->length = 0;
    do {
        if (kind == 0)
            add_byte(text, (uint8_t)random_next(random));
        else if (kind <= 2)
            add_byte(text, prolog_byte(random));
        else if (kind <= 6)
            add_piece(random, text);
        else if (kind <= 11 || given_length == 0)
            add_clause(random, text);
        else
            add_given(random, text, length);
    } while (text->length < length);
}

/* Many tokens and no end mark, or a long token, comment or layout. */
static void repeat(struct random *random, struct text *text, size_t length)
{
    static const char *const repeated[] = {"a ", "a,", "a", "9", "0", " ", "\n", "(", "[", "{", "- ", "f(", "\\+ ", "a+", "a:-", "[a|", "'", "''", "\\", "+", "*", "/*", "%", "1.0e",
                                           "\"a\" ", "X ", "a. ", "- - a. "};
    static const char *const starts[] = {"", "", "a", "'", "\"", "/*", "%", "0x", "1.", "1.0e", "0'\\x", "a:-"};
    const char *word = PICK(random, repeated);
    text->length = 0;
    add_word(text, PICK(random, starts));
    while (text->length < length)
        add_word(text, word);
    if (random_one_in(random, 2))
        add_word(text, PICK(random, ends));
}

/* A clause whose pack is as long as one may be in either form, a little shorter or longer: a call with short arguments, and a long one at last. */
static void make_long_clause(struct random *random, struct text *text)
{
    enum { LONGEST_BODY = 65535, COUNT_BYTES = 2, NODE_BYTES = 5 };
    size_t shorter = random_below(random, 500);
    size_t body = LONGEST_BODY - 7 + random_below(random, 10);
    text->length = 0;
    add_word(text, "f(");
    for (size_t i = 0; i < shorter; i++)
        add_word(text, "a,");
    for (size_t used = COUNT_BYTES + (shorter + 1) * (NODE_BYTES + 1) + NODE_BYTES; used < body; used++)
        add_byte(text, 'a');
    add_word(text, "). ");
}

/* A clause of as many tokens and nodes as one may have, or a few less or more. */
static void make_full_clause(struct random *random, struct text *text)
{
    enum { MOST_TOKENS = 1024 };
    text->length = 0;
    for (size_t more = MOST_TOKENS - 5 + random_below(random, 6); more > 0; more--)
        add_word(text, "- ");
    add_word(text, "a. ");
}

/* One about as long that is refused at its end, most of them; half as long too, so that its brackets can be closed. */
static void make_full_misfit(struct random *random, struct text *text)
{
    enum { MOST_TOKENS = 1024 };
    static const struct {
        const char *word;
        size_t tokens;
    } words[] = {{"- ", 1}, {"\\+ ", 1}, {"(", 1}, {"[", 1}, {"{", 1}, {"a,", 2}, {"a-", 2}, {"f(", 2}, {"-(", 2}, {"[a|", 3}};
    static const char *const lasts[] = {". ", "a. ", "- . ", "= . ", "a b. ", "a) . ", "a] . ", ", . ", "X(a). ", "a = . ", "a :- . "};
    size_t which = random_below(random, sizeof words / sizeof *words);
    size_t share = words[which].tokens * (1 + random_below(random, 2));
    text->length = 0;
    for (size_t more = MOST_TOKENS / share - random_below(random, 6); more > 0; more--)
        add_word(text, words[which].word);
    add_word(text, PICK(random, lasts));
}

/* A clause many lines down, up to where a text may end: its line is as large as one may be. */
static void make_late_clause(struct random *random, struct text *text)
{
    enum { LONGEST_TEXT = 65535 };
    static const char *const clauses[] = {"a.", "a. ", "a.\n", "'a\\\nb'.", "/*\n*/ a.", "%\na.\n", "- 1.", "\"\\\n\". "};
    const char *clause = PICK(random, clauses);
    size_t most = LONGEST_TEXT - strlen(clause);
    size_t lines = random_one_in(random, 2) ? most : random_below(random, random_one_in(random, 2) ? most : 600);
    text->length = 0;
    while (text->length < lines)
        add_byte(text, '\n');
    add_word(text, clause);
}

static void damage_once(struct random *random, struct text *text)
{
    size_t at = random_below(random, text->length);
    uint8_t byte = random_one_in(random, 4) ? (uint8_t)random_next(random) : prolog_byte(random);
    switch (random_below(random, 4)) {
    case 0: text->bytes[at] = byte; break;
    case 1: text->length = at; break;
    case 2:
        memmove(text->bytes + at, text->bytes + at + 1, text->length - at - 1);
        text->length -= 1;
        break;
    default: memcpy(text->bytes + at, PICK(random, oddities), 1); break;
    }
}

static void damage(struct random *random, struct text *text)
{
    for (size_t more = random_below(random, 4); more > 0 && text->length > 0; more--)
        damage_once(random, text);
}

/* Most are short; some are as long as a text may be, and a little longer. */
static size_t some_length(struct random *random)
{
    if (random_one_in(random, 3000))
        return 65500 + random_below(random, LONGEST_MADE - 65500 + 1);
    if (random_one_in(random, 1000))
        return random_below(random, LONGEST_MADE + 1);
    if (random_one_in(random, 40))
        return random_below(random, 4000);
    return random_below(random, random_one_in(random, 4) ? 300 : 60);
}

void make_text(struct random *random, struct text *text)
{
    size_t length = some_length(random);
    if (random_one_in(random, 150)) {
        static void (*const makers[])(struct random *, struct text *) = {make_long_clause, make_long_clause, make_full_clause, make_full_misfit, make_late_clause};
        PICK(random, makers)(random, text);
        return;
    }
    if (random_one_in(random, 12))
        repeat(random, text, length);
    else
        fill(random, text, length);
    /* the pieces are whole, the text ends anywhere; at the limit of length it ends where it was meant to */
    if (text->length > length && (length > 65000 || random_one_in(random, 3)))
        text->length = length;
    if (random_one_in(random, 3))
        damage(random, text);
}
