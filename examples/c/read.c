/* Prints what the reader reads.
 *
 *     read tokens|texts|stretches|clauses|listing|whole [FILE]    of a file, or of standard input
 *     read field TEXT                                             the tokens of what was typed into a field
 *
 * A line is as the probe (docs/PROBE.md) or the listing program writes it. The last one is the refusal that ended the text: number 1, at the
 * text's length, where all of it was read. `stretches` says what each byte of the text is part of: a token, blanks or a comment. `whole` says `whole`, or
 * what is wrong and where: as compilers do, so that an editor can go there, with the line and a caret below the byte.
 */
#include <inttypes.h>
#include <stdio.h>
#include <string.h>

#include "thrinvage.h"
#include "tokens.h"

/* A text, what it is (enum thrinvage_source), and the file's name. */
struct input {
    const char *name;
    const uint8_t *text;
    size_t length;
    uint32_t source;
};

static void print_refused(uint32_t number, uint64_t at, uint64_t offset, uint64_t line, uint64_t column) {
    printf("refused %" PRIu32 " %" PRIu64, number, at);
    print_cursor(offset, line, column);
    putchar('\n');
}

/* A struct begins with the cursor behind what was read, so it is handed back in to go on. A refusal leaves that cursor where it was. */
static void print_tokens(const struct input *s) {
    struct thrinvage_token t = {0};
    uint32_t number;
    while ((number = thrinvage_next_token(s->text, s->length, t.offset, t.line, t.column, &t, s->source)) == THRINVAGE_READ)
        print_token(&t);
    print_refused(number, t.refused_at, t.offset, t.line, t.column);
}

static void print_text(const uint8_t *text, const uint8_t *scratch, const struct thrinvage_token_text *t) {
    const uint8_t *bytes = t->part == THRINVAGE_SOURCE ? text : scratch;
    fwrite(bytes + t->part_start, 1, t->part_end - t->part_start, stdout);
    putchar('\n');
}

/* The decoded names, variables and strings, a line each. A token that has no text is stepped over by the token call. */
static void print_texts(const struct input *s) {
    static uint8_t scratch[THRINVAGE_LONGEST_TEXT]; /* room for any: a decoded text is never longer than its source */
    struct thrinvage_token_text t = {0};
    struct thrinvage_token *k = &t.token;
    uint32_t number;
    do {
        number = thrinvage_next_token_text(s->text, s->length, k->offset, k->line, k->column, scratch, sizeof scratch, &t);
        if (number == THRINVAGE_READ)
            print_text(s->text, scratch, &t);
        else if (number == THRINVAGE_NO_TEXT)
            number = thrinvage_next_token(s->text, s->length, k->offset, k->line, k->column, k, THRINVAGE_FILE);
    } while (number == THRINVAGE_READ);
    print_refused(number, k->refused_at, k->offset, k->line, k->column);
}

/* A part of the text, what it is, and the place of its first byte. */
struct stretch {
    const char *kind;
    uint64_t start, end, line, column;
};

static void print_byte(uint8_t byte) {
    switch (byte) {
    case '\n': printf("\\n"); break;
    case '\r': printf("\\r"); break;
    case '\t': printf("\\t"); break;
    case '"': printf("\\\""); break;
    case '\\': printf("\\\\"); break;
    default: printf(byte < ' ' || byte > '~' ? "\\x%02x" : "%c", byte);
    }
}

/* Where it starts and ends, its line and column from 1, and its bytes on one line, with escapes as in C. */
static void print_stretch(const struct input *s, const struct stretch *part) {
    printf("%5" PRIu64 "..%-5" PRIu64 " %4" PRIu64 ":%-3" PRIu64 " %-17s \"", part->start, part->end, part->line + 1, part->column + 1, part->kind);
    for (uint64_t i = part->start; i < part->end; i++)
        print_byte(s->text[i]);
    puts("\"");
}

/* In the order of enum thrinvage_layout_kind. */
static const char *const LAYOUT_KINDS[] = {"none", "blanks", "line_comment", "bracketed_comment"};

/* One layout text behind another, and the cursor goes along: to where none is, or one is refused. */
static void print_layout(const struct input *s, struct thrinvage_layout *at) {
    struct thrinvage_layout before = *at;
    while (thrinvage_next_layout(s->text, s->length, at->offset, at->line, at->column, at) == THRINVAGE_READ && at->kind != THRINVAGE_NO_LAYOUT) {
        print_stretch(s, &(struct stretch){LAYOUT_KINDS[at->kind], at->start, at->offset, before.line, before.column});
        before = *at;
    }
}

/* All bytes, each in one stretch. The token call is made before the layout is passed: so it sees whether some stands before a `(`. Behind a refusal the
 * layout that is still whole has its stretches, and the rest is one that was not read. */
static void print_stretches(const struct input *s) {
    struct thrinvage_layout at = {0};
    struct thrinvage_token t = {0};
    uint32_t number;
    while ((number = thrinvage_next_token(s->text, s->length, at.offset, at.line, at.column, &t, s->source)) == THRINVAGE_READ) {
        print_layout(s, &at);
        print_stretch(s, &(struct stretch){KINDS[t.kind], t.start, t.offset, at.line, at.column});
        at.offset = t.offset;
        at.line = t.line;
        at.column = t.column;
    }
    print_layout(s, &at);
    if (at.offset < s->length && number != THRINVAGE_NOT_VALID) /* that is for a text that is too long: it may go on behind what is here */
        print_stretch(s, &(struct stretch){"not_read", at.offset, s->length, at.line, at.column});
    printf("refused %" PRIu32 " at %" PRIu64 "\n", number, t.refused_at);
}

/* Two numbers a node, children before their parent: the index of its token in the clause; its kind (enum thrinvage_node) times 1,024 plus
 * the count of its children. */
static void print_tree(const uint16_t *tree, uint64_t nodes) {
    printf("tree");
    for (uint64_t i = 0; i < 2 * nodes; i++)
        printf(" %" PRIu16, tree[i]);
    putchar('\n');
}

static void print_clauses(const struct input *s) {
    uint16_t tree[THRINVAGE_TREE_NUMBERS];
    struct thrinvage_clause c = {0};
    uint32_t number;
    while ((number = thrinvage_read_clause(s->text, s->length, c.offset, c.line, c.column, tree, THRINVAGE_TREE_NUMBERS, &c)) == THRINVAGE_READ) {
        printf("clause %" PRIu64, c.count);
        print_cursor(c.offset, c.line, c.column);
        putchar('\n');
        print_tree(tree, c.count);
    }
    print_refused(number, c.refused_at, c.offset, c.line, c.column);
}

static void print_listing(const struct input *s) {
    static uint8_t line[THRINVAGE_LINE_BYTES];
    struct thrinvage_clause c = {0};
    uint32_t number;
    while ((number = thrinvage_list_clause(s->text, s->length, c.offset, c.line, c.column, line, sizeof line, &c)) == THRINVAGE_READ) {
        fwrite(line, 1, c.count, stdout);
        putchar('\n');
    }
    printf("refused %" PRIu32 " at %" PRIu64 "\n", number, c.refused_at);
}

/* Where the line starts that holds the offset: behind the last newline before it. */
static size_t line_start(const uint8_t *text, size_t offset) {
    while (offset > 0 && text[offset - 1] != '\n')
        offset--;
    return offset;
}

/* Where the line ends: at its newline or with the text, and before a return that stands there. */
static size_t line_end(const uint8_t *text, size_t length, size_t start) {
    size_t end = start;
    while (end < length && text[end] != '\n')
        end++;
    return end > start && text[end - 1] == '\r' ? end - 1 : end;
}

/* As compilers begin a message, so that an editor can go there: line and column from 1. All before the offset was read, so it is of ASCII, and a
 * character is a byte. */
static void print_place(const struct input *s, size_t offset) {
    size_t line = 1;
    for (size_t i = 0; i < offset; i++)
        line += s->text[i] == '\n';
    printf("%s:%zu:%zu: ", s->name, line, offset - line_start(s->text, offset) + 1);
}

/* The line that holds the offset, and a caret below that byte. Below a tab stands a tab: it takes as much room there as in the line. */
static void print_caret(const struct input *s, size_t offset) {
    size_t start = line_start(s->text, offset);
    fwrite(s->text + start, 1, line_end(s->text, s->length, start) - start, stdout);
    putchar('\n');
    for (size_t i = start; i < offset; i++)
        putchar(s->text[i] == '\t' ? '\t' : ' ');
    puts("^");
}

static void print_fault(const struct input *s, uint32_t number, size_t offset) {
    print_place(s, offset);
    printf("refused %" PRIu32 " at %zu\n", number, offset);
    print_caret(s, offset);
}

/* Points at the clause's first token. It may be cut off itself, so the token call cannot say where it starts; the end of the layout before it can. */
static void print_cut_off(const struct input *s, size_t offset) {
    size_t start = thrinvage_layout_end(s->text, s->length, offset);
    print_place(s, start);
    puts("cut off: this clause has no end mark");
    print_caret(s, start);
}

/* Reads all clauses. Where refusal 1 ended the text, nothing but layout stands behind the last of them, or the next one was cut off. */
static void print_whole(const struct input *s) {
    uint16_t tree[THRINVAGE_TREE_NUMBERS];
    struct thrinvage_clause c = {0};
    uint32_t number;
    do
        number = thrinvage_read_clause(s->text, s->length, c.offset, c.line, c.column, tree, THRINVAGE_TREE_NUMBERS, &c);
    while (number == THRINVAGE_READ);
    if (number == THRINVAGE_NOT_VALID)
        printf("%s: refused %" PRIu32 " at 0\n", s->name, number); /* the text is too long: that is no place in it */
    else if (number != THRINVAGE_END_OF_TEXT)
        print_fault(s, number, c.refused_at);
    else if (!thrinvage_only_layout(s->text, s->length, c.offset))
        print_cut_off(s, c.offset);
    else
        puts("whole");
}

static const struct {
    const char *name;
    void (*print)(const struct input *s);
} MODES[] = {{"tokens", print_tokens},   {"texts", print_texts},     {"stretches", print_stretches},
             {"clauses", print_clauses}, {"listing", print_listing}, {"whole", print_whole}};

/* Reads the file, or standard input where none is named, and prints it in this mode. */
static int print_file(void (*print)(const struct input *s), const char *name) {
    static uint8_t text[THRINVAGE_LONGEST_TEXT + 1]; /* one more: a longer file is refused then, by number 8, and not cut short in silence */
    FILE *file = name == NULL ? stdin : fopen(name, "rb");
    struct input s = {name == NULL ? "standard input" : name, text, file == NULL ? 0 : fread(text, 1, sizeof text, file), THRINVAGE_FILE};
    if (file == NULL || ferror(file)) {
        perror(s.name);
        return 2;
    }
    print(&s);
    return 0;
}

int main(int count, char **words) {
    if (count == 3 && strcmp(words[1], "field") == 0) {
        print_tokens(&(struct input){"a field", (const uint8_t *)words[2], strlen(words[2]), THRINVAGE_FIELD});
        return 0;
    }
    if (count == 2 || count == 3)
        for (size_t i = 0; i < sizeof MODES / sizeof MODES[0]; i++)
            if (strcmp(words[1], MODES[i].name) == 0)
                return print_file(MODES[i].print, words[2]);
    fprintf(stderr, "usage: read tokens|texts|stretches|clauses|listing|whole [FILE]\n       read field TEXT\n");
    return 2;
}
