/* Moves messages from one form to the other, for a desk and a mast that speak different forms.
 *
 *     move up [FILE]      from form 1 to form 2: the lines are not known
 *     move down [FILE]    from form 2 to form 1: the lines are dropped
 *
 * It reads a file or standard input; the moved messages go to standard output. The first message that is refused ends the program, as in `receive`: so
 * does one that is of the other form already (number 18), or too long for two bytes more (13).
 */
#include <stdio.h>
#include <string.h>

#include "messages.h"

typedef uint32_t move_call(const uint8_t *image, size_t length, uint8_t *out, size_t room, uint64_t *moved);

/* The call that a word names, or NULL. */
static move_call *named_move(const char *word) {
    if (strcmp(word, "up") == 0)
        return thrinvage_move_up;
    return strcmp(word, "down") == 0 ? thrinvage_move_down : NULL;
}

/* Returns 0 where every message was moved. */
static int move_messages(FILE *file, move_call *move) {
    static struct messages m;
    static uint8_t out[THRINVAGE_IMAGE_BYTES];
    uint64_t moved = 0;
    m.file = file;
    while (next_message(&m)) {
        uint32_t number = move(m.image, m.length, out, sizeof out, &moved);
        if (number != THRINVAGE_READ)
            return refuse_message(&m, number);
        fwrite(out, 1, moved, stdout);
    }
    return 0;
}

int main(int count, char **words) {
    move_call *move = count < 2 ? NULL : named_move(words[1]);
    FILE *file;
    int refused;
    if (move == NULL) {
        fputs("usage: move up|down [FILE]\n", stderr);
        return 2;
    }
    file = count < 3 ? stdin : fopen(words[2], "rb");
    refused = file != NULL && move_messages(file, move);
    if (file == NULL || ferror(file)) {
        perror(count < 3 ? "standard input" : words[2]);
        return 2;
    }
    if (fflush(stdout) != 0 || ferror(stdout)) {
        perror("standard output");
        return 2;
    }
    return refused;
}
