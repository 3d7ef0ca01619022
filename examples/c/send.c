/* Packs each clause of a text into a message.
 *
 *     send [-l] [FILE]    of a file, or of standard input; -l: in form 2, with the line on which each clause starts
 *
 * The messages go to standard output, one behind another: a message is an image, as include/thrinvage.h describes it, and nothing else. Standard error has
 * the refusal that ended the text: number 1, at the text's length, where all of it was read. Status 1 says that not all of the text was sent.
 */
#include <inttypes.h>
#include <stdio.h>
#include <string.h>

#include "thrinvage.h"

typedef uint32_t pack_call(const uint8_t *text, size_t length, size_t offset, size_t line, size_t column, uint8_t *out, size_t room,
                           struct thrinvage_clause *clause);

/* Returns 0 where all of the text was sent: nothing but layout stands behind the last clause. */
static int send_clauses(const uint8_t *text, size_t length, pack_call *pack) {
    static uint8_t image[THRINVAGE_IMAGE_BYTES];
    struct thrinvage_clause c = {0};
    uint32_t number;
    while ((number = pack(text, length, c.offset, c.line, c.column, image, sizeof image, &c)) == THRINVAGE_READ)
        fwrite(image, 1, c.count, stdout);
    fprintf(stderr, "refused %" PRIu32 " at %" PRIu64 "\n", number, c.refused_at);
    return number != THRINVAGE_END_OF_TEXT || !thrinvage_only_layout(text, length, c.offset);
}

int main(int count, char **words) {
    static uint8_t text[THRINVAGE_LONGEST_TEXT + 1]; /* one more: a longer file is refused then, by number 8, and not cut short in silence */
    int lines = count > 1 && strcmp(words[1], "-l") == 0;
    const char *name = count > 1 + lines ? words[1 + lines] : NULL;
    FILE *file = name == NULL ? stdin : fopen(name, "rb");
    size_t length = file == NULL ? 0 : fread(text, 1, sizeof text, file);
    int unsent;
    if (file == NULL || ferror(file)) {
        perror(name == NULL ? "standard input" : name);
        return 2;
    }
    unsent = send_clauses(text, length, lines ? thrinvage_pack_clause_form_2 : thrinvage_pack_clause);
    if (fflush(stdout) != 0 || ferror(stdout)) {
        perror("standard output");
        return 2;
    }
    return unsent;
}
