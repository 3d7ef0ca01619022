/* Unpacks the messages that `send` wrote, of either form, and prints the clause of each as a line of the listing.
 *
 *     receive [-1] [-l] [FILE]    of a file, or of standard input
 *
 * -l: before each clause stand the line on which it starts, and `: `; a question mark where the line is not known, as in form 1.
 * -1: as a mast in the field, which knows form 1 alone and refuses form 2.
 *
 * A message is printed whole or not at all. The first that is no image ends the program: standard error has the refusal, with the place where the message
 * starts, and the status is 1. Where the next one starts is then not known, since the length may be what is damaged.
 */
#include <inttypes.h>
#include <stdio.h>
#include <string.h>

#include "messages.h"

/* The numbers of a node, and how many they are. */
enum { KIND, ARITY, START, LENGTH, NUMBERS };

/* In the order of enum thrinvage_node: what stands before and behind a node's children, if anything does. */
static const char OPENS[] = {0, 0, '(', '(', '(', '[', '[', '{', '[', '{'};
static const char CLOSES[] = {0, 0, ')', ')', ')', ']', ']', '}', ']', '}'};

static const char QUOTED_COMMA[] = "','";

/* The line is written from its end, since a node stands behind its children. A node adds at most two brackets, two quotes and a separator to its spelling:
 * no more than the five bytes that stand before the spelling in the image, so an image's room serves. */
struct line {
    uint8_t bytes[THRINVAGE_IMAGE_BYTES];
    size_t start;
};

/* A node and how many of its children are still to be written. */
struct open_node {
    const uint32_t *node;
    uint32_t left;
};

static void put(struct line *line, const void *bytes, size_t length) {
    line->start -= length;
    memcpy(line->bytes + line->start, bytes, length);
}

static void put_char(struct line *line, char c) {
    if (c != 0)
        put(line, &c, 1);
}

/* The Comma is no name, so it is put in quotes. */
static void put_spelling(struct line *line, const uint8_t *spelling, size_t length) {
    if (length == 1 && spelling[0] == ',')
        put(line, QUOTED_COMMA, strlen(QUOTED_COMMA));
    else
        put(line, spelling, length);
}

/* The children are written by now: what stands before them. */
static void put_front(struct line *line, const uint8_t *image, const uint32_t *node) {
    put_char(line, OPENS[node[KIND]]);
    if (node[KIND] < THRINVAGE_LIST)
        put_spelling(line, image + node[START], node[LENGTH]);
}

/* What stands behind the next child: nothing if it is the last one, and a bar if the last one is a tail. */
static void put_separator(struct line *line, struct open_node *parent) {
    uint32_t written = parent->node[ARITY] - parent->left--;
    int bar = written == 1 && parent->node[KIND] == THRINVAGE_LIST_TAIL;
    if (written > 0)
        put_char(line, bar ? '|' : ',');
}

/* Goes from the root to the first node. Those that are open are the node's parent, that one's parent, and so on to the root. */
static void print_clause(const uint8_t *image, const uint32_t *nodes, size_t count) {
    static struct line line;
    static struct open_node open[THRINVAGE_MOST_NODES];
    size_t depth = 0;
    line.start = sizeof line.bytes;
    while (count > 0) {
        const uint32_t *node = nodes + NUMBERS * --count;
        if (depth > 0)
            put_separator(&line, &open[depth - 1]);
        put_char(&line, CLOSES[node[KIND]]);
        open[depth++] = (struct open_node){node, node[ARITY]};
        while (depth > 0 && open[depth - 1].left == 0)
            put_front(&line, image, open[--depth].node);
    }
    fwrite(line.bytes + line.start, 1, sizeof line.bytes - line.start, stdout);
    putchar('\n');
}

static void print_line(uint64_t line) {
    if (line == 0)
        fputs("?: ", stdout);
    else
        printf("%" PRIu64 ": ", line);
}

/* What the words ask for. */
struct options {
    int form_1;
    int lines;
};

/* The reader of form 1 alone leaves the line as it is: 0, for not known. */
static uint32_t unpack(const struct messages *m, int form_1, uint32_t *nodes, struct thrinvage_unpacked *unpacked) {
    if (form_1)
        return thrinvage_unpack(m->image, m->length, nodes, THRINVAGE_NODE_NUMBERS, &unpacked->count);
    return thrinvage_unpack_either(m->image, m->length, nodes, THRINVAGE_NODE_NUMBERS, unpacked);
}

/* Returns 0 where every message was unpacked. */
static int print_messages(FILE *file, struct options options) {
    static struct messages m;
    static uint32_t nodes[THRINVAGE_NODE_NUMBERS];
    struct thrinvage_unpacked unpacked = {0};
    m.file = file;
    while (next_message(&m)) {
        uint32_t number = unpack(&m, options.form_1, nodes, &unpacked);
        if (number != THRINVAGE_READ)
            return refuse_message(&m, number);
        if (options.lines)
            print_line(unpacked.line);
        print_clause(m.image, nodes, unpacked.count);
    }
    return 0;
}

/* Whether the word is one of the options, which it then sets. */
static int is_option(const char *word, struct options *options) {
    int form_1 = strcmp(word, "-1") == 0, lines = strcmp(word, "-l") == 0;
    options->form_1 |= form_1;
    options->lines |= lines;
    return form_1 || lines;
}

int main(int count, char **words) {
    struct options options = {0};
    FILE *file;
    int refused;
    for (; count > 1 && is_option(words[1], &options); count--)
        words++;
    file = count < 2 ? stdin : fopen(words[1], "rb");
    refused = file != NULL && print_messages(file, options);
    if (file == NULL || ferror(file)) {
        perror(count < 2 ? "standard input" : words[1]);
        return 2;
    }
    return refused;
}
