/* Reads standard input as it arrives, and prints each token as soon as it is certain.
 *
 *     stream [BYTES]    so many bytes at a time at most; 64 if it is not said
 *
 * A token's line is as `read tokens` prints it. The last line is the refusal that ended the text: number 1, at the text's length, where all of it was read.
 * What arrives behind a refusal is not read.
 */
#define _POSIX_C_SOURCE 200809L /* for read(2), which returns what there is and does not wait for the rest */
#include <inttypes.h>
#include <stdio.h>
#include <stdlib.h>
#include <unistd.h>

#include "thrinvage.h"
#include "tokens.h"

/* A reader: the struct and its window. */
struct stream {
    struct thrinvage_reader reader;
    uint8_t window[THRINVAGE_WINDOW];
};

/* Feeds a chunk, until nothing is left of it and more must come, and prints what it gives. Returns whether the text goes on: 0 behind a refusal. */
static int print_chunk(struct stream *s, const uint8_t *chunk, size_t length) {
    struct thrinvage_token t = {0};
    for (;;) {
        uint32_t number = thrinvage_feed(&s->reader, s->window, chunk, length, &t);
        chunk += s->reader.taken;
        length -= s->reader.taken;
        if (number == THRINVAGE_READ) {
            print_token(&t);
            fflush(stdout); /* also where it goes to a file or to another program */
        } else if (number != THRINVAGE_MORE) {
            printf("refused %" PRIu32 " at %" PRIu64 "\n", number, t.refused_at);
            return 0;
        } else if (length == 0) {
            return 1;
        }
    }
}

static int print_stream(size_t bytes) {
    static struct stream s;
    static uint8_t chunk[THRINVAGE_LONGEST_TEXT];
    ssize_t got;
    thrinvage_start(&s.reader);
    while ((got = read(STDIN_FILENO, chunk, bytes)) > 0)
        if (!print_chunk(&s, chunk, (size_t)got))
            return 0;
    if (got < 0) {
        perror("standard input");
        return 2;
    }
    thrinvage_finish(&s.reader);
    print_chunk(&s, chunk, 0); /* never MORE now: it ends with a refusal */
    return 0;
}

int main(int count, char **words) {
    unsigned long bytes = count == 2 ? strtoul(words[1], NULL, 10) : 64;
    if (count <= 2 && bytes >= 1 && bytes <= THRINVAGE_LONGEST_TEXT)
        return print_stream(bytes);
    fprintf(stderr, "usage: stream [BYTES]\n");
    return 2;
}
