#include "report.h"
#include "thrinvage.h"
#include <stdio.h>
#include <stdlib.h>

enum { MOST_SHOWN = 300 };

static const char *const call_names[CALLS] = {"next_token",         "next_token, field", "next_token_text",   "next_layout", "read_clause",   "list_clause", "pack_clause",
                                              "pack_clause_form_2", "pack_nodes",        "pack_nodes_form_2", "unpack",      "unpack_either", "move_up",     "move_down",
                                              "feed",               "finish",            "start"};

static const char *const kind_names[] = {"name", "variable", "string", "number", "(", "( right behind", ")", "[", "]", "{", "}", "|", "||", "comma", "end mark"};
enum { KINDS = sizeof kind_names / sizeof *kind_names };

uint64_t seed, now_round;
struct running running;

static uint64_t counts[CALLS][ANSWERS];
static uint64_t pointed[KINDS], not_completed;

static void show_bytes(void)
{
    for (size_t i = 0; i < running.length && i < MOST_SHOWN; i++)
        fprintf(stderr, " %02x", running.bytes[i]);
    fprintf(stderr, "\n");
}

static void show_nodes(void)
{
    fprintf(stderr, "fuzz: line %u, count %zu, %zu numbers:", (unsigned)running.line, running.count, running.numbers);
    for (size_t i = 0; i < running.numbers && i < MOST_SHOWN; i++)
        fprintf(stderr, " %lu", (unsigned long)running.nodes[i]);
    fprintf(stderr, "\n");
}

static void show_reader(void)
{
    enum { FIELDS = 12 };
    fprintf(stderr, "fuzz: a reader of");
    for (size_t i = 0; i < FIELDS; i++)
        fprintf(stderr, " %llu", (unsigned long long)running.reader[i]);
    fprintf(stderr, "\n");
}

void show_case(void)
{
    fprintf(stderr, "fuzz: --seed %llu --round %llu: %s at %zu %zu %zu, room %zu, %zu bytes:", (unsigned long long)seed, (unsigned long long)now_round,
            call_names[running.call], running.at.offset, running.at.line, running.at.column, running.room, running.length);
    show_bytes();
    if (running.call == NODES || running.call == NODES_2)
        show_nodes();
    if (running.reader != NULL)
        show_reader();
}

void must(bool so, const char *what)
{
    if (so)
        return;
    fprintf(stderr, "fuzz: fault: %s\n", what);
    show_case();
    _Exit(1); /* the search for leaks would take seconds, and tells nothing more */
}

void count_answers(uint32_t number)
{
    counts[running.call][number] += 2;
}

void count_pointed(uint64_t kind, bool completed)
{
    pointed[kind] += 1;
    not_completed += !completed;
}

static void show_pointed(void)
{
    uint64_t sum = 0;
    for (int kind = 0; kind < KINDS; kind++)
        sum += pointed[kind];
    printf("refusal 11 by its definition: %llu clauses (%llu too long to be completed), at", (unsigned long long)sum, (unsigned long long)not_completed);
    for (int kind = 0; kind < KINDS; kind++)
        printf("%s %s %llu", kind > 0 ? "," : "", kind_names[kind], (unsigned long long)pointed[kind]);
    printf("\n");
}

/* Those between are of calls that there are not. */
static int next_number(int number)
{
    return number == THRINVAGE_TOKEN_TOO_LONG ? THRINVAGE_UNKNOWN_VERSION : number + 1;
}

uint64_t show_counts(void)
{
    uint64_t sum = 0;
    printf("%-18s %12s", "call", "read");
    for (int number = 1; number < REFUSALS; number = next_number(number))
        printf(" %9s %d", "refused", number);
    printf(" %12s\n", "asks more");
    for (int call = 0; call < CALLS; call++) {
        printf("%-18s %12llu", call_names[call], (unsigned long long)counts[call][0]);
        sum += counts[call][0];
        for (int number = 1; number < REFUSALS; number = next_number(number)) {
            printf(" %*llu", number < 10 ? 11 : 12, (unsigned long long)counts[call][number]);
            sum += counts[call][number];
        }
        printf(" %12llu\n", (unsigned long long)counts[call][ASKS_FOR_MORE]);
        sum += counts[call][ASKS_FOR_MORE];
    }
    show_pointed();
    printf("%llu calls in %llu rounds, seed %llu, 0 faults\n", (unsigned long long)sum, (unsigned long long)now_round, (unsigned long long)seed);
    return sum;
}
