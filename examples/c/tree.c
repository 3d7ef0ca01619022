/* Prints the tree of each clause: a node a line, its children below it and further in.
 *
 *     tree [FILE]    of a file, or of standard input
 *
 * A tree has the indexes of tokens and not the tokens, so the tokens are read once more. A line has the node's kind and what its token says: a name
 * or a string decoded, and a number as it is spelled, with its value, a float's to six places. The last line is the refusal that ended the text.
 */
#include <inttypes.h>
#include <stdio.h>
#include <string.h>

#include "thrinvage.h"

/* A token of the clause, and its decoded text, or its spelling where it has none. */
struct piece {
    struct thrinvage_token token;
    const uint8_t *bytes;
    size_t length;
};

struct clause {
    uint16_t tree[THRINVAGE_TREE_NUMBERS];
    size_t first[THRINVAGE_TREE_NUMBERS / 2]; /* for each node, the first of those below it, or itself */
    struct piece pieces[THRINVAGE_MOST_TOKENS];
    uint8_t scratch[THRINVAGE_LONGEST_TEXT]; /* the decoded texts, one behind the other: each is no longer than its source */
};

/* In the order of enum thrinvage_node, and of enum thrinvage_kind as far as a token can stand by itself. */
static const char *const NODES[] = {
    "plain", "negative", "call", "prefix", "infix", "list", "list with tail", "curly", "empty list", "empty curly",
};
static const char *const PLAIN[] = {"name", "variable", "string", "number"};

/* Reads the tokens once more, from the cursor before the clause to its end mark. They were read before: none is refused. */
static void read_pieces(struct clause *clause, const uint8_t *text, size_t length, const struct thrinvage_clause *before) {
    struct thrinvage_token_text t = {.token = {.offset = before->offset, .line = before->line, .column = before->column}};
    struct thrinvage_token *k = &t.token;
    size_t filled = 0;
    for (size_t i = 0; i < THRINVAGE_MOST_TOKENS && k->kind != THRINVAGE_END; i++) {
        struct piece *piece = &clause->pieces[i];
        uint8_t *lent = clause->scratch + filled;
        if (thrinvage_next_token_text(text, length, k->offset, k->line, k->column, lent, sizeof clause->scratch - filled, &t) == THRINVAGE_READ) {
            piece->bytes = (t.part == THRINVAGE_SOURCE ? text : lent) + t.part_start;
            piece->length = t.part_end - t.part_start;
            filled += t.part == THRINVAGE_SCRATCH ? piece->length : 0;
        } else {
            thrinvage_next_token(text, length, k->offset, k->line, k->column, k, THRINVAGE_FILE);
            piece->bytes = text + k->start;
            piece->length = k->offset - k->start;
        }
        piece->token = *k;
    }
}

static size_t node_kind(const struct clause *clause, size_t node) { return clause->tree[2 * node + 1] / 1024; }

static size_t child_count(const struct clause *clause, size_t node) { return clause->tree[2 * node + 1] % 1024; }

/* A node's last child stands right before it, and each other child right before all that belongs to the next. */
static void find_first(struct clause *clause, size_t nodes) {
    for (size_t node = 0; node < nodes; node++) {
        size_t first = node;
        for (size_t i = 0; i < child_count(clause, node); i++)
            first = clause->first[first - 1];
        clause->first[node] = first;
    }
}

static void print_bytes(const struct piece *piece) { fwrite(piece->bytes, 1, piece->length, stdout); }

/* A value is a magnitude, and that of the lowest integer is one more than an int64_t holds. */
static int64_t negated(uint64_t value) { return value == 0 ? 0 : -1 - (int64_t)(value - 1); }

static void print_value(int is_negative, const struct thrinvage_token *token) {
    double x;
    if (token->value_kind == THRINVAGE_INTEGER)
        printf(" = %" PRId64, is_negative ? negated(token->value) : (int64_t)token->value);
    if (token->value_kind == THRINVAGE_FLOAT) {
        memcpy(&x, &token->value, sizeof x); /* the value has the bits of the double */
        printf(" = %f", is_negative ? -x : x);
    }
}

static void print_line(const struct clause *clause, size_t node, int depth) {
    const struct piece *piece = &clause->pieces[clause->tree[2 * node]];
    size_t kind = node_kind(clause, node);
    printf("%*s%s", 2 * depth, "", kind == THRINVAGE_PLAIN ? PLAIN[piece->token.kind] : NODES[kind]);
    if (kind < THRINVAGE_LIST) {
        putchar(' ');
        print_bytes(piece);
    }
    if (kind == THRINVAGE_PLAIN)
        print_value(0, &piece->token);
    if (kind == THRINVAGE_NEGATIVE) { /* the number's token is the one behind the minus */
        print_bytes(piece + 1);
        print_value(1, &piece[1].token);
    }
    putchar('\n');
}

/* The trees of `count` children, the last of which is `last`, from left to right. */
static void print_trees(const struct clause *clause, size_t last, size_t count, int depth) {
    if (count == 0)
        return;
    print_trees(clause, clause->first[last] - 1, count - 1, depth);
    print_line(clause, last, depth);
    print_trees(clause, last - 1, child_count(clause, last), depth + 1);
}

static void print_clauses(const uint8_t *text, size_t length) {
    static struct clause clause;
    struct thrinvage_clause c = {0};
    struct thrinvage_clause before = c;
    uint32_t number;
    while ((number = thrinvage_read_clause(text, length, c.offset, c.line, c.column, clause.tree, THRINVAGE_TREE_NUMBERS, &c)) == THRINVAGE_READ) {
        read_pieces(&clause, text, length, &before);
        find_first(&clause, c.count);
        print_trees(&clause, c.count - 1, 1, 0);
        before = c;
    }
    printf("refused %" PRIu32 " at %" PRIu64 "\n", number, c.refused_at);
}

int main(int count, char **words) {
    static uint8_t text[THRINVAGE_LONGEST_TEXT + 1]; /* one more: a longer file is refused then, by number 8, and not cut short in silence */
    FILE *file = count < 2 ? stdin : fopen(words[1], "rb");
    size_t length = file == NULL ? 0 : fread(text, 1, sizeof text, file);
    if (file == NULL || ferror(file)) {
        perror(count < 2 ? "standard input" : words[1]);
        return 2;
    }
    print_clauses(text, length);
    return 0;
}
