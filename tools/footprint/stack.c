/* Measures the stack that each call needs: the stack below is painted, the call is made, and what is no longer paint was needed.
 * The texts are those that drive a call deepest; the largest need of each call is printed. */
#include <stdio.h>
#include <string.h>

#include "thrinvage.h"

#define PAINTED (1 << 20)
#define PAINT 0xA5
#define MOST_BYTES 65535
/* A clause of 1,024 tokens, the end mark among them, nests so deep at most: a prefix operator each, and an atom. */
#define DEEPEST 1022

static uint8_t text[MOST_BYTES];
static size_t length;
static uint8_t scratch[MOST_BYTES];
static uint16_t tree[2048];
static uint8_t line[70650];
/* The text's first clause as a pack, in both forms, and the nodes of that in form 1; none where it is refused. */
static uint8_t image[THRINVAGE_IMAGE_BYTES], image_2[THRINVAGE_IMAGE_BYTES], again[THRINVAGE_IMAGE_BYTES];
static uint32_t nodes[THRINVAGE_NODE_NUMBERS], nodes_again[THRINVAGE_NODE_NUMBERS];
static struct thrinvage_clause packed, packed_2;
static uint64_t count;
/* The reader that is fed chunks. */
static struct thrinvage_reader reader;
static uint8_t window[THRINVAGE_WINDOW];

static void next_token(void) {
    struct thrinvage_token t = {0};
    while (thrinvage_next_token(text, length, t.offset, t.line, t.column, &t, THRINVAGE_FILE) == THRINVAGE_READ) {
    }
}

/* At each offset: most are in no layout, and some in the middle of it. */
static void next_layout(void) {
    struct thrinvage_layout l = {0};
    for (size_t offset = 0; offset <= length; offset++)
        thrinvage_next_layout(text, length, offset, 0, 0, &l);
}

static void next_token_text(void) {
    struct thrinvage_token_text t = {0};
    thrinvage_next_token_text(text, length, 0, 0, 0, scratch, sizeof scratch, &t);
}

static void read_clause(void) {
    struct thrinvage_clause c = {0};
    thrinvage_read_clause(text, length, 0, 0, 0, tree, 2048, &c);
}

static void list_clause(void) {
    struct thrinvage_clause c = {0};
    thrinvage_list_clause(text, length, 0, 0, 0, line, sizeof line, &c);
}

static void pack_clause(void) {
    packed.count = 0;
    thrinvage_pack_clause(text, length, 0, 0, 0, image, sizeof image, &packed);
}

static void pack_clause_form_2(void) {
    packed_2.count = 0;
    thrinvage_pack_clause_form_2(text, length, 0, 0, 0, image_2, sizeof image_2, &packed_2);
}

static void unpack(void) {
    count = 0;
    thrinvage_unpack(image, packed.count, nodes, THRINVAGE_NODE_NUMBERS, &count);
}

static void pack_nodes(void) {
    uint64_t bytes = 0;
    thrinvage_pack_nodes(image, packed.count, nodes, THRINVAGE_NODE_NUMBERS, count, again, sizeof again, &bytes);
}

static void pack_nodes_form_2(void) {
    uint64_t bytes = 0;
    thrinvage_pack_nodes_form_2(image, packed.count, nodes, THRINVAGE_NODE_NUMBERS, count, 1, again, sizeof again, &bytes);
}

static void unpack_either(void) {
    struct thrinvage_unpacked u = {0};
    thrinvage_unpack_either(image, packed.count, nodes_again, THRINVAGE_NODE_NUMBERS, &u);
    thrinvage_unpack_either(image_2, packed_2.count, nodes_again, THRINVAGE_NODE_NUMBERS, &u);
}

static void move_up(void) {
    uint64_t bytes = 0;
    thrinvage_move_up(image, packed.count, again, sizeof again, &bytes);
}

static void move_down(void) {
    uint64_t bytes = 0;
    thrinvage_move_down(image_2, packed_2.count, again, sizeof again, &bytes);
}

static void start(void) {
    thrinvage_start(&reader);
}

/* The text in one chunk, up to its refusal. */
static void feed(void) {
    struct thrinvage_token t = {0};
    size_t fed = 0;
    uint32_t number = THRINVAGE_READ;
    thrinvage_start(&reader);
    while (number == THRINVAGE_READ || fed < length) {
        number = thrinvage_feed(&reader, window, text + fed, length - fed, &t);
        fed += reader.taken;
        if (number != THRINVAGE_READ && number != THRINVAGE_MORE)
            return;
    }
    thrinvage_finish(&reader);
    while (thrinvage_feed(&reader, window, NULL, 0, &t) == THRINVAGE_READ) {
    }
}

static void finish(void) {
    thrinvage_finish(&reader);
}

static const struct {
    const char *name;
    void (*call)(void);
} CALLS[] = {{"thrinvage_next_token", next_token},
             {"thrinvage_next_token_text", next_token_text},
             {"thrinvage_next_layout", next_layout},
             {"thrinvage_read_clause", read_clause},
             {"thrinvage_list_clause", list_clause},
             {"thrinvage_pack_clause", pack_clause},
             {"thrinvage_pack_clause_form_2", pack_clause_form_2},
             {"thrinvage_pack_nodes", pack_nodes},
             {"thrinvage_pack_nodes_form_2", pack_nodes_form_2},
             {"thrinvage_unpack", unpack},
             {"thrinvage_unpack_either", unpack_either},
             {"thrinvage_move_up", move_up},
             {"thrinvage_move_down", move_down},
             {"thrinvage_start", start},
             {"thrinvage_feed", feed},
             {"thrinvage_finish", finish}};

/* Texts that go deep, each in its own way: `front`, `open` so many times, `middle`, `close` as often, `back`. */
static const struct {
    const char *front, *open, *middle, *close, *back;
    int count;
} TEXTS[] = {
    {"", "- ", "a", "", ".", DEEPEST},            /* prefix operators */
    {"", "a,", "a", "", ".", DEEPEST / 2},        /* infix operators */
    {"", "[", "", "]", ".", DEEPEST / 2},         /* lists */
    {"", "f(", "a", ")", ".", DEEPEST / 3},       /* calls */
    {"'", "\\x41\\", "", "", "'. ", 9000},        /* a long quoted item */
    {"", "0", ".5e+", "", "1 ", 1022},            /* numbers at a chunk reader's limit: one that may be put back, */
    {"", "0", ".", "", "x", 1024},                /* one that is, */
    {"'", "a", "\n", "", "", 1023},               /* and a refusal that comes too late */
    {"1.5e10, f(0x1F,0'a,", "'b',\"c\",D,/* e */ % f\n", "g", "", "). ", 100}, /* tokens of all kinds */
};

static void put(const char *part, int count) {
    for (int i = 0; i < count; i++) {
        memcpy(text + length, part, strlen(part));
        length += strlen(part);
    }
}

static void make_text(size_t which) {
    length = 0;
    put(TEXTS[which].front, 1);
    put(TEXTS[which].open, TEXTS[which].count);
    put(TEXTS[which].middle, 1);
    put(TEXTS[which].close, TEXTS[which].count);
    put(TEXTS[which].back, 1);
    pack_clause();
    pack_clause_form_2();
    unpack();
}

/* Both have the same frame, so that the one reads what the other painted. */
static __attribute__((noinline)) void paint(void) {
    volatile uint8_t below[PAINTED];
    for (size_t i = 0; i < PAINTED; i++)
        below[i] = PAINT;
}

static __attribute__((noinline)) size_t unpainted(void) {
    volatile uint8_t below[PAINTED];
    size_t i = 0;
    while (i < PAINTED && below[i] == PAINT)
        i++;
    return PAINTED - i;
}

static size_t need(void (*call)(void)) {
    paint();
    call();
    return unpainted();
}

int main(void) {
    for (size_t c = 0; c < sizeof CALLS / sizeof CALLS[0]; c++) {
        size_t most = 0;
        for (size_t t = 0; t < sizeof TEXTS / sizeof TEXTS[0]; t++) {
            make_text(t);
            size_t now = need(CALLS[c].call);
            most = now > most ? now : most;
        }
        printf("%s %zu\n", CALLS[c].name, most);
    }
    return 0;
}
