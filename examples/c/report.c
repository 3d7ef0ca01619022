/* Packs a fact that stands in no text, as a mast reports what it has measured: gust(HOUSE,SPEED).
 *
 *     report HOUSE SPEED
 *
 * The message goes to standard output, for `receive`. Packing does not judge spellings: a name and a number are what the caller owes here.
 * A refusal goes to standard error, with status 1.
 */
#include <inttypes.h>
#include <stdio.h>
#include <string.h>

#include "thrinvage.h"

#define NAME "gust"
#define LONGEST_WORDS 255 /* house and speed together */

/* How many numbers a node has. */
enum { NUMBERS = 4 };

/* The spellings stand one behind another, and a node says where its own is: kind, arity, start, length. The root is the last. */
static uint32_t pack_gust(const char *house, const char *speed, uint8_t *image, size_t room, uint64_t *packed) {
    char bytes[sizeof NAME + LONGEST_WORDS];
    size_t length = snprintf(bytes, sizeof bytes, "%s%s%s", NAME, house, speed);
    uint32_t name_end = strlen(NAME), house_end = name_end + strlen(house);
    const uint32_t nodes[] = {
        THRINVAGE_PLAIN, 0, name_end, house_end - name_end,
        THRINVAGE_PLAIN, 0, house_end, length - house_end,
        THRINVAGE_CALL, 2, 0, name_end,
    };
    size_t numbers = sizeof nodes / sizeof nodes[0];
    return thrinvage_pack_nodes((const uint8_t *)bytes, length, nodes, numbers, numbers / NUMBERS, image, room, packed);
}

int main(int count, char **words) {
    static uint8_t image[THRINVAGE_IMAGE_BYTES];
    uint64_t packed = 0;
    uint32_t number;
    if (count != 3 || strlen(words[1]) + strlen(words[2]) > LONGEST_WORDS) {
        fprintf(stderr, "usage: report HOUSE SPEED, of %d bytes at most\n", LONGEST_WORDS);
        return 2;
    }
    number = pack_gust(words[1], words[2], image, sizeof image, &packed);
    if (number != THRINVAGE_READ)
        fprintf(stderr, "refused %" PRIu32 "\n", number);
    fwrite(image, 1, packed, stdout);
    return number != THRINVAGE_READ;
}
