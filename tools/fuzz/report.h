/* What runs, for a report of what fails, and the counts of the answers. */
#ifndef FUZZ_REPORT_H
#define FUZZ_REPORT_H

#include <stdbool.h>
#include <stddef.h>
#include <stdint.h>

/* Up to PACK_2 they read a text from a cursor on; from UNPACK to DOWN they take an image; the last three are of the reader that is fed chunks. */
enum call { TOKEN, FIELD, TEXT, LAYOUT_TEXT, READ, LIST, PACK, PACK_2, NODES, NODES_2, UNPACK, EITHER, UP, DOWN, FEED, FINISH, START_READER, CALLS };
/* The last is no refusal: more is asked for. */
enum { REFUSALS = 19, ASKS_FOR_MORE = REFUSALS, ANSWERS };

struct cursor {
    size_t offset, line, column;
};

/* A call and what it is given: nodes, numbers and count are of NODES and NODES_2 alone, the line field of NODES_2; the reader's fields of those that are fed
 * chunks. */
struct running {
    enum call call;
    struct cursor at;
    size_t room;
    const uint8_t *bytes;
    size_t length;
    const uint32_t *nodes;
    size_t numbers, count;
    uint16_t line;
    const uint64_t *reader;
};

extern uint64_t seed, now_round;
extern struct running running;

void must(bool so, const char *what);
void show_case(void);

/* Of the two calls that must answer alike: 0, a refusal's number, or ASKS_FOR_MORE. */
void count_answers(uint32_t number);

/* Of a refusal 11 that was looked at by its definition: the kind of the token that it points at, and whether the tokens before it were completed to a clause. */
void count_pointed(uint64_t kind, bool completed);

/* The number of calls; a run without any shows nothing. */
uint64_t show_counts(void);

#endif
