/* What `receive` and `move` share: messages that stand one behind another, of either form. */
#ifndef MESSAGES_H
#define MESSAGES_H

#include <inttypes.h>
#include <stdio.h>

#include "thrinvage.h"

/* The version and the length of the rest: every message has them, in this place. */
enum { HEAD = 3 };

/* The file and the last message that was read of it. */
struct messages {
    FILE *file;
    uint64_t start; /* of the message in the file */
    size_t length;
    uint8_t image[THRINVAGE_IMAGE_BYTES];
};

/* The next message, as long as its head says, or as much of it as there is: then it is refused. Returns whether there is one. */
static inline int next_message(struct messages *m) {
    m->start += m->length;
    m->length = fread(m->image, 1, HEAD, m->file);
    if (m->length == HEAD)
        m->length += fread(m->image + HEAD, 1, (size_t)m->image[1] << 8 | m->image[2], m->file);
    return m->length > 0;
}

/* The last message is refused: says so. Returns the status that the program ends with. */
static inline int refuse_message(const struct messages *m, uint32_t number) {
    fprintf(stderr, "refused %" PRIu32 " at %" PRIu64 "\n", number, m->start);
    return 1;
}

#endif
