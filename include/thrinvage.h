/* The Prolog reader, for C: bytes in; tokens and the layout between them, or a clause's tree, line or image, out; and an image's nodes.
 *
 * Each function of the archive is proved, for every argument, to answer as the call of the library that its name says (crates/ffi_token, ffi_layout,
 * ffi_clause, ffi_chunks, ffi_pack, ffi_forms and ffi); what that answer is stands in docs/CLAIMS.md. It allocates nothing, keeps nothing between two calls
 * and writes only what it is lent, so several threads may call at once.
 *
 * A text is of ASCII. Its lines end with byte 10, or with the bytes 13 and 10, as a file was saved; lines are counted by byte 10, and byte 13 is layout.
 *
 * What a caller owes is what C's types do not say: a pointer with a length points to that many elements (it may be null where the length is
 * 0), any other points to one, what the function writes overlaps nothing else that it is given, and nothing is changed meanwhile.
 *
 * A program that lists the clauses of standard input, and says whether the last one was cut off:
 *
 *     #include <stdio.h>
 *     #include "thrinvage.h"
 *     int main(void) {
 *         static uint8_t text[THRINVAGE_LONGEST_TEXT + 1]; // one more: a longer text is refused, and not cut short
 *         static uint8_t line[THRINVAGE_LINE_BYTES];
 *         size_t length = fread(text, 1, sizeof text, stdin);
 *         struct thrinvage_clause c = {0};
 *         uint32_t number;
 *         while ((number = thrinvage_list_clause(text, length, c.offset, c.line, c.column, line, sizeof line, &c)) == THRINVAGE_READ)
 *             printf("%.*s\n", (int)c.count, (const char *)line);
 *         if (number != THRINVAGE_END_OF_TEXT)
 *             printf("refused %d at %d\n", (int)number, (int)c.refused_at);
 *         else
 *             puts(thrinvage_only_layout(text, length, c.offset) ? "whole" : "cut off");
 *         return 0;
 *     }
 */
#ifndef THRINVAGE_H
#define THRINVAGE_H

#include <stddef.h>
#include <stdint.h>

#ifdef __cplusplus
extern "C" {
#endif

/* The longest text, in bytes; the most tokens of a clause, its end mark among them; the most nodes of a clause's tree, and of an image. */
#define THRINVAGE_LONGEST_TEXT 65535
#define THRINVAGE_MOST_TOKENS 1024
#define THRINVAGE_MOST_NODES 1023

/* Of a text that comes in chunks: the longest token, and the bytes of a reader's window. */
#define THRINVAGE_LONGEST_TOKEN 1024
#define THRINVAGE_WINDOW 2057

/* Room that always serves: numbers for a clause's tree, bytes for its line and for an image of either form, and numbers for an image's nodes. A scratch
 * of THRINVAGE_LONGEST_TEXT bytes always serves too. */
#define THRINVAGE_TREE_NUMBERS 2048
#define THRINVAGE_LINE_BYTES 70650
#define THRINVAGE_IMAGE_BYTES 65538
#define THRINVAGE_NODE_NUMBERS 4092

/* What a function returns: 0 where it read, packed or moved what it was asked for, else the number of the refusal. The offset that a refusal points at is
 * put in the struct's field `refused_at`, and nothing else is written: the struct's other fields stay, and so do a lent scratch, tree, line or image.
 * A function that is lent no struct with this field writes nothing when it refuses: each of its refusals is at 0. */
enum thrinvage_refusal {
    THRINVAGE_READ = 0,
    THRINVAGE_END_OF_TEXT = 1,      /* a rule needs a character and the text has ended; at the text's length */
    THRINVAGE_UNCLOSED_COMMENT = 2, /* a bracketed comment is not closed, and the text does not end right behind its opening mark; at its slash */
    THRINVAGE_NO_TOKEN = 3,         /* no token starts with this character, a back quote; at it */
    THRINVAGE_BAD_QUOTED = 4,       /* a raw newline, return or tab, or an escape that ISO lacks, in a quoted item or after 0'; at the token */
    THRINVAGE_FOREIGN_BYTE = 5,     /* a byte outside ISO's characters, in comments too; at it */
    THRINVAGE_SET_ASIDE = 6,        /* `_` right after the leading digits, or 0'\ and a newline; at the token */
    THRINVAGE_OUT_OF_LIMIT = 7,     /* a number or an escape out of its limit (below), in a token otherwise whole; at the token */
    THRINVAGE_NOT_VALID = 8,        /* the text is longer than 65,535 bytes, or the cursor, a chunk or a reader is not valid (below); at 0 */
    THRINVAGE_NO_ROOM = 9,          /* too short: the scratch, at the token; the tree or the line, at the clause's first; an image or its nodes, at 0 */
    THRINVAGE_TOO_MANY_TOKENS = 10, /* 1,024 tokens, none an end mark; at the first */
    THRINVAGE_NO_READING = 11,      /* no reading; at the first token that cannot stand: no clause begins with the tokens up to and including it */
    THRINVAGE_NO_TEXT = 12,         /* the token is no name, variable or string; at it */
    THRINVAGE_TOO_LONG = 13,        /* an image's body would pass 65,535 bytes; at 0 */
    THRINVAGE_NO_PACK = 14,         /* the bytes are no image, or the nodes are none that an image can have (below); at 0 */
    THRINVAGE_TOKEN_TOO_LONG = 15,  /* of thrinvage_feed alone: a token is longer than 1,024 bytes; at it */
    THRINVAGE_UNKNOWN_VERSION = 18  /* an image's first byte is no version that this function knows; at 0 */
};

/* The limits of refusal 7: an integer is at most 9,223,372,036,854,775,808; the code of an escape is 1 to 127; the digits of a float, read as one
 * integer without the point, are at most 9,007,199,254,740,992, to be multiplied by ten to the power of -22 to 22.
 * A cursor is valid for refusal 8 if its offset is at most the text's length, and its line and its column are at most its offset.
 * The clauses of refusal 11 are those of the grammar, however long, and the end mark is a token too, so one of the tokens cannot stand: `x y.` is refused
 * at its `y`, `f(a.` at the dot. All is read up to the end mark first: 1 to 7 of a token behind that place, and 10, come before 11. An integer of
 * 9,223,372,036,854,775,808 stands in a clause only as the second half of a negative number: `-9223372036854775808.` is read, and `9223372036854775808.`
 * refused.
 *
 * The line of an offset is the count of newlines (byte 10) before it, and its column the count of bytes between the last of them, or the text's start,
 * and the offset; editors count both from 1. examples/c/read.c prints them, and the line with a caret below the byte. */

/* What the text of thrinvage_next_token is. They differ in one thing: in a field a decimal integer or a whole float may end with the text, and in a file it
 * is then refused by 1, since more of it may come. So `12` is 12 in a field, and `0x` is refused in both; `-7` is two tokens, the name `-` and the number.
 * Every other number than these two is a file's. All other functions read a file. */
enum thrinvage_source {
    THRINVAGE_FILE = 0,
    THRINVAGE_FIELD = 1 /* what was typed into a field of a form */
};

/* A token's field `kind`. Whether `(` is OPEN or OPEN_CT hangs on what the call passed over, and on nothing before the cursor: at a cursor that was
 * put into the middle of layout by hand, a `(` that stands right there is OPEN_CT, and one behind more layout is OPEN. So it is with a `(` right behind
 * the newline that an end mark took. */
enum thrinvage_kind {
    THRINVAGE_NAME = 0,
    THRINVAGE_VARIABLE = 1,
    THRINVAGE_STRING = 2,
    THRINVAGE_NUMBER = 3,
    THRINVAGE_OPEN = 4,    /* `(` behind layout or a comment that this call passed over */
    THRINVAGE_OPEN_CT = 5, /* `(` right at the cursor */
    THRINVAGE_CLOSE = 6,
    THRINVAGE_OPEN_LIST = 7,
    THRINVAGE_CLOSE_LIST = 8,
    THRINVAGE_OPEN_CURLY = 9,
    THRINVAGE_CLOSE_CURLY = 10,
    THRINVAGE_BAR = 11,
    THRINVAGE_DOUBLE_BAR = 12,
    THRINVAGE_COMMA = 13,
    THRINVAGE_END = 14 /* the end mark, with a newline right behind it; a return (byte 13) there is left, and the newline behind that */
};

/* The field `kind` of a layout text. */
enum thrinvage_layout_kind {
    THRINVAGE_NO_LAYOUT = 0,        /* none is there */
    THRINVAGE_BLANKS = 1,           /* blanks, tabs, newlines and returns (byte 13), as many as stand together */
    THRINVAGE_LINE_COMMENT = 2,     /* from a `%` up to and including its newline, or to the end of the text */
    THRINVAGE_BRACKETED_COMMENT = 3 /* from its slash and star up to and including the first star and slash behind them: comments do not nest */
};

/* A token's field `value_kind`. A token has no sign: a tree's negative number has it, and the value of the number behind its minus is the magnitude.
 * The lowest integer's is one more than an int64_t holds, so `-(int64_t)value` overflows. This does not: `value == 0 ? 0 : -1 - (int64_t)(value - 1)`.
 * The integer of a plain node fits in an int64_t. */
enum thrinvage_value_kind {
    THRINVAGE_NOTHING = 0, /* `value` is 0 */
    THRINVAGE_INTEGER = 1, /* `value` is the integer, at most 9,223,372,036,854,775,808 */
    THRINVAGE_FLOAT = 2    /* `value` has the bits of the double (IEEE 754 binary64) */
};

/* The field `part` of a token's text. */
enum thrinvage_part {
    THRINVAGE_SOURCE = 0, /* the bytes are the text's own, from part_start to part_end */
    THRINVAGE_SCRATCH = 1 /* they were decoded to the scratch, from part_start to part_end */
};

/* A node's kind: the second of its two numbers in a tree, divided by 1,024; the rest is the count of its children. Of an image's node it is the first of
 * four numbers. */
enum thrinvage_node {
    THRINVAGE_PLAIN = 0,       /* a token by itself: number, string, variable or name */
    THRINVAGE_NEGATIVE = 1,    /* a negative number; the index is its minus, and the number is the next token */
    THRINVAGE_CALL = 2,        /* name(..) */
    THRINVAGE_PREFIX = 3,      /* a prefix operator applied */
    THRINVAGE_INFIX = 4,       /* an infix operator applied */
    THRINVAGE_LIST = 5,        /* [..]; the index of this and the rest is the opening bracket's */
    THRINVAGE_LIST_TAIL = 6,   /* [..|T]: the tail is the last child */
    THRINVAGE_CURLY = 7,       /* {..} */
    THRINVAGE_EMPTY_LIST = 8,  /* [] */
    THRINVAGE_EMPTY_CURLY = 9  /* {} */
};

/* These structs begin with the cursor behind what was read: hand it back in to go on. A text starts at 0, 0, 0.
 * The field `layout` of a token is newer than the others. A program that was compiled with a header without it must be compiled anew: nine numbers are
 * written, and it has room for eight. */
struct thrinvage_token {
    uint64_t offset;     /* of the cursor behind the token, where its span ends */
    uint64_t line;       /* newlines (byte 10) before that cursor */
    uint64_t column;     /* characters since the last of them, returns (byte 13) among them */
    uint64_t refused_at; /* the refusal's offset, after a refusal; else 0 */
    uint64_t kind;       /* enum thrinvage_kind */
    uint64_t start;      /* where the token starts, behind layout and comments */
    uint64_t value_kind; /* enum thrinvage_value_kind */
    uint64_t value;
    uint64_t layout;     /* where the layout before the token began: at the offset handed in; of thrinvage_feed, at the end of the token before, or at 0 */
};

struct thrinvage_token_text {
    struct thrinvage_token token;
    uint64_t part; /* enum thrinvage_part */
    uint64_t part_start;
    uint64_t part_end;
};

struct thrinvage_layout {
    uint64_t offset;     /* of the cursor behind the layout text, where its span ends */
    uint64_t line;       /* as a token's */
    uint64_t column;
    uint64_t refused_at; /* the refusal's offset, after a refusal; else 0 */
    uint64_t kind;       /* enum thrinvage_layout_kind */
    uint64_t start;      /* where the layout text starts: at the offset handed in */
};

struct thrinvage_clause {
    uint64_t offset; /* of the cursor behind the end mark */
    uint64_t line;
    uint64_t column;
    uint64_t refused_at; /* the refusal's offset, after a refusal; else 0 */
    uint64_t count;      /* of the tree's nodes, or of the line's or the image's bytes */
};

/* The next token behind the cursor. `source` says what the text is (enum thrinvage_source). */
uint32_t thrinvage_next_token(const uint8_t *text, size_t length, size_t offset, size_t line, size_t column,
                              struct thrinvage_token *token, uint32_t source);

/* The next token and its decoded text. A quoted item is decoded to the front of the scratch, which has `room` bytes; a name or a variable
 * that is not quoted stays in the text, and nothing is written to the scratch. A decoded text is never longer than its source. */
uint32_t thrinvage_next_token_text(const uint8_t *text, size_t length, size_t offset, size_t line, size_t column, uint8_t *scratch, size_t room,
                                   struct thrinvage_token_text *token);

/* The layout text at the cursor, one at a time: blanks, or a comment. Where none is there it returns 0 too: `kind` is THRINVAGE_NO_LAYOUT then, the cursor
 * and `start` are as they were handed in, and a token starts there, or a back quote. It refuses what the token call refuses there before it has come to a
 * token, by the same number at the same place: 1 where the text has ended, or ends right behind a slash or a comment's opening mark; 2; 5; and 8.
 *
 * So each byte of a text that is read is in one token or in one layout text, and in no other: from a token's `layout` to its `start` there are layout
 * texts, one behind another, and from there to its `offset` is the token. (An end mark's newline is the mark's own.) An editor colours a text by that; this
 * program prints it. The token call is made from where the last token ends, and not from behind the layout: it must see whether some stands before a `(`.
 *
 *     #include <stdio.h>
 *     #include "thrinvage.h"
 *     static uint8_t text[THRINVAGE_LONGEST_TEXT + 1];
 *     static size_t length;
 *     static struct thrinvage_layout at; // what was coloured last: its cursor is where we stand
 *     static void colour(const char *as, uint64_t start, uint64_t end) {
 *         printf("%d..%d %s\n", (int)start, (int)end, as);
 *     }
 *     static void colour_layout(void) { // as far as it goes
 *         while (thrinvage_next_layout(text, length, at.offset, at.line, at.column, &at) == THRINVAGE_READ && at.kind != THRINVAGE_NO_LAYOUT)
 *             colour(at.kind == THRINVAGE_BLANKS ? "blanks" : "comment", at.start, at.offset);
 *     }
 *     int main(void) {
 *         struct thrinvage_token t;
 *         length = fread(text, 1, sizeof text, stdin);
 *         while (thrinvage_next_token(text, length, at.offset, at.line, at.column, &t, THRINVAGE_FILE) == THRINVAGE_READ) {
 *             colour_layout(); // from t.layout to t.start
 *             colour("token", t.start, t.offset);
 *             at.offset = t.offset, at.line = t.line, at.column = t.column;
 *         }
 *         colour_layout(); // behind the last token
 *         return 0;
 *     }
 */
uint32_t thrinvage_next_layout(const uint8_t *text, size_t length, size_t offset, size_t line, size_t column, struct thrinvage_layout *layout);

/* The tokens up to an end mark, as a tree: children left to right, then their parent, the root last; two numbers a node, the index of its
 * token in the clause, from 0, and its kind times 1,024 plus the count of its children. `room` counts numbers. examples/c/tree.c walks a tree. */
uint32_t thrinvage_read_clause(const uint8_t *text, size_t length, size_t offset, size_t line, size_t column, uint16_t *tree, size_t room,
                               struct thrinvage_clause *clause);

/* The same clause as one line of the listing, at the front of `out`, which has `room` bytes. No newline is put behind it, and none stands in it but
 * where a quoted item of the source has one behind a backslash.
 * It calls itself for a term within a term, some 370 bytes of stack a level: up to 385 KB were measured, at the 1,022 levels that a clause can have. The
 * other functions take 19 KB at most, whatever they read (docs/FOOTPRINT.md). */
uint32_t thrinvage_list_clause(const uint8_t *text, size_t length, size_t offset, size_t line, size_t column, uint8_t *out, size_t room,
                               struct thrinvage_clause *clause);

/* ---- A text that comes in chunks
 *
 * A reader takes a text in pieces, as a modem delivers it, and gives each token as soon as it is certain. It is the struct below and a window of
 * THRINVAGE_WINDOW bytes, 96 + 2,057 bytes that the caller keeps; nothing else of the text need be kept.
 *
 * Start it once. Then feed it each chunk: a call takes bytes of the chunk, says in `taken` how many, and gives one token at most. Go on with the rest of
 * the chunk, be it empty, until the answer is THRINVAGE_MORE and nothing is left. When the text has ended, say so by thrinvage_finish, and feed empty chunks
 * until one is refused: a text always ends with a refusal, and one that was read whole with 1 at its length. An empty chunk before that is no end and does
 * no harm. examples/c/stream.c reads standard input so.
 *
 * However a text is cut into chunks, the tokens and the first refusal are those that thrinvage_next_token gives for the whole text, and offsets, lines and
 * columns count from the start of the whole. But a token that is longer than 1,024 bytes is refused by 15 at its start, unless another refusal shows within
 * these bytes; comments are no tokens and may be longer. No token waits for more than it needs: it is given, or refused, when the byte that makes it
 * certain has been taken, `(` at once and `house4` with the byte behind it; 15 with the token's 1,025th byte, of some numbers with one of the next two.
 *
 * A chunk that brings the sum of all to more than 65,535 bytes is refused as a whole, by 8 at 0, and so is any byte behind thrinvage_finish. After a
 * refusal each call repeats it.
 *
 * A reader may be kept between two calls for as long as it takes, copied, or stored and taken up by another program: the struct and its window together.
 * But one that was stored by a program with an older header, in which a token has no field `layout`, must not be taken up: the reader's number `layout`
 * meant something else there, 0 or 1, and would be taken for an offset.
 * The window is the reader's own, and must have the same bytes from call to call; before the first, any. A struct that no function wrote is refused by 8 at
 * 0 if its numbers cannot be a reader's; if they can, it is read as one that has them, and nothing is touched but what was lent. */

/* What thrinvage_feed returns where it needs more of the text: the number of no refusal. */
#define THRINVAGE_MORE 256

/* A reader. At hand are the bytes that were taken and not yet read; so offset + to - from bytes were taken in all. */
struct thrinvage_reader {
    uint64_t mode;       /* 0 in no comment, 1 in a `%` comment, 2 in a bracketed comment */
    uint64_t slash;      /* in mode 2 the offset of the comment's slash, else 0 */
    uint64_t offset;     /* of the first byte at hand */
    uint64_t line;       /* newlines (byte 10) before it */
    uint64_t column;     /* characters since the last of them */
    uint64_t layout;     /* where the layout since the last token began; `offset` itself where none was passed */
    uint64_t from;       /* the bytes at hand stand in the window from here .. */
    uint64_t to;         /* .. to before this */
    uint64_t phase;      /* 0 the text goes on, 1 it has ended, 2 it was refused */
    uint64_t refusal;    /* in phase 2 the refusal's number, else 0 */
    uint64_t refused_at; /* in phase 2 its offset, else 0 */
    uint64_t taken;      /* bytes of its chunk that the last thrinvage_feed took; 0 behind the other two functions */
};

/* A reader that has read nothing. */
void thrinvage_start(struct thrinvage_reader *reader);

/* The text has ended. Said twice, or after a refusal, it changes nothing but `taken`. */
void thrinvage_finish(struct thrinvage_reader *reader);

/* Takes bytes of the chunk and returns 0 with a token, as thrinvage_next_token does; or THRINVAGE_MORE, and leaves *token as it was; or the number of a
 * refusal, with its offset in the token's `refused_at`, and leaves the token's other fields. *reader is written in each case, and the window where bytes
 * are read. */
uint32_t thrinvage_feed(struct thrinvage_reader *reader, uint8_t *window, const uint8_t *chunk, size_t length, struct thrinvage_token *token);

/* The bytes of the token that the last thrinvage_feed gave, token->offset - token->start of them: they stand in the window, right before those at hand, until
 * the next call. So a name can be told from another though the text is not kept. */
static inline const uint8_t *thrinvage_token_bytes(const struct thrinvage_reader *reader, const uint8_t *window, const struct thrinvage_token *token) {
    return window + (reader->from - (token->offset - token->start));
}

/* ---- A clause in a message
 *
 * An image is one clause's tree, spellings and all, in one piece: what unpacks it needs neither the text nor an operator table. It is of these bytes,
 * numbers big-endian:
 *
 *   1 byte    the version: 1 or 2, which is the image's form
 *   2 bytes   the length of the body, which is all that follows: at most 65,535
 *   2 bytes   in form 2 alone: the line field
 *   2 bytes   the count of nodes: 1 to 1,023
 *   and then, for each node, children left to right, then their parent, the root last:
 *   1 byte    its kind (enum thrinvage_node)
 *   2 bytes   its arity, the count of its children
 *   2 bytes   the length of its spelling
 *   the spelling
 *
 * So an image tells its own length, 3 bytes and the body, and images that stand one behind another can be parted, also where both forms are among them:
 * the length stands in the same place in both. `a(-1).` on the third line of a text is packed to these 18 bytes in form 1, and to these 20 in form 2:
 *
 *   01  00 0f         00 02    01  00 00  00 02  2d 31    02  00 01  00 01  61
 *   02  00 11  00 03  00 02    01  00 00  00 02  2d 31    02  00 01  00 01  61
 *
 * The line field is the line on which the clause's first token starts, as editors count: the first line is 1. It is 0 where the line is not known. Any
 * number is accepted, 0 to 65,535, and nobody judges it: it is for logs.
 *
 * A node's spelling is its token's bytes as they stand in the text, quotes and escapes too: nothing is decoded. That of a negative number runs from its
 * minus to the number's end; that of a list, empty or not, is `[`, that of curly brackets `{`, and that of the infix comma `,`.
 *
 * The bytes are an image exactly if their version is 1 or 2, their lengths agree to the last byte, each kind is one of enum thrinvage_node with an arity
 * that it can have, and the nodes form one tree. PLAIN, NEGATIVE, EMPTY_LIST and EMPTY_CURLY have arity 0, PREFIX and CURLY 1, INFIX 2, CALL and LIST 1
 * or more, LIST_TAIL 2 or more. One tree is this: go through the nodes and count the trees that have no parent yet. A node takes away as many as its
 * arity says, and so many must be there; then it adds one, its own. At the end there is one.
 *
 * A spelling is not judged: it may be any bytes, or none. So what packing made of a clause always unpacks, and to its kinds, arities and spellings; but
 * what a stranger made, or the link has damaged, can unpack too, and be no clause or another one. Who must know whether it is a clause writes it as a
 * text and reads that; who must notice damage sends a check sum along.
 *
 * Masts in the field speak form 1, and a program that does so stays as it is: thrinvage_pack_clause and thrinvage_pack_nodes write form 1, and
 * thrinvage_unpack reads form 1 alone, as they always did. It refuses an image of form 2 by its version byte, with 14 as ever, and shows nothing of it.
 * What is new for form 2 has names of its own: two functions that write it, one that reads either form, and two that move an image from one form to the
 * other, for a desk with form 2 and a mast with form 1.
 *
 * Refusals of packing, unpacking and moving come in this order: 18, 14, 13, 9. Bytes that are none at all have no version, so they get 14. */

/* The clause behind the cursor as an image of form 1, at the front of `out`, which has `room` bytes: the struct's `count` is the image's length. The
 * refusals of thrinvage_read_clause but for 9 come first, with their offsets; then 13 and 9, at 0; 14 and 18 never. A clause that is too long for an
 * image (13) is stepped over by thrinvage_read_clause. */
uint32_t thrinvage_pack_clause(const uint8_t *text, size_t length, size_t offset, size_t line, size_t column, uint8_t *out, size_t room,
                               struct thrinvage_clause *clause);

/* The same in form 2. The line field is counted on from the cursor that is handed in: its line, and the newlines from there to the clause's first token,
 * plus one. It always fits, and is never 0. The struct's `line` is another: that of the cursor behind the end mark. The longest clauses of form 1, with
 * a body of 65,534 or 65,535 bytes, are too long here (13). */
uint32_t thrinvage_pack_clause_form_2(const uint8_t *text, size_t length, size_t offset, size_t line, size_t column, uint8_t *out, size_t room,
                                      struct thrinvage_clause *clause);

/* `count` nodes as an image of form 1, at the front of `out`, which has `room` bytes: *packed is the image's length. A node is four numbers: kind, arity,
 * and the start and the length of its spelling, which is a part of the lent `bytes`; the start counts from the first of them. `numbers` counts those of
 * `nodes`. Refusal 14 is for nodes that no image has, for a spelling that is no part of the bytes or is longer than 65,535, and for a count that is 0,
 * over 1,023 or over a quarter of `numbers`. */
uint32_t thrinvage_pack_nodes(const uint8_t *bytes, size_t length, const uint32_t *nodes, size_t numbers, size_t count, uint8_t *out, size_t room,
                              uint64_t *packed);

/* The same in form 2. `line` is the line field: the line's number from 1, or 0 where it is not known. */
uint32_t thrinvage_pack_nodes_form_2(const uint8_t *bytes, size_t length, const uint32_t *nodes, size_t numbers, size_t count, uint16_t line,
                                     uint8_t *out, size_t room, uint64_t *packed);

/* The nodes of an image of form 1, four numbers each as above, at the front of `nodes`; `room` counts numbers, and *count is the count of nodes. A
 * spelling's start counts from the first byte of the image: hand these nodes to thrinvage_pack_nodes with the image as `bytes`, and the same image comes
 * back. `length` is that of one image: a byte too many is refused by 14, as is one too few, and each version but 1. 18 never. */
uint32_t thrinvage_unpack(const uint8_t *image, size_t length, uint32_t *nodes, size_t room, uint64_t *count);

/* What thrinvage_unpack_either says of an image. */
struct thrinvage_unpacked {
    uint64_t form;  /* 1 or 2 */
    uint64_t line;  /* the line field as it stands; 0 in form 1, which has none */
    uint64_t count; /* of the nodes */
};

/* The same for an image of either form: a version that is neither 1 nor 2 is refused by 18, whatever follows it, and then as above. Starts count from the
 * image's first byte in both forms: hand the nodes of form 1 to thrinvage_pack_nodes, and those of form 2, with their line, to
 * thrinvage_pack_nodes_form_2, and the same image comes back. examples/c/receive.c parts messages of both forms and prints what they hold. */
uint32_t thrinvage_unpack_either(const uint8_t *image, size_t length, uint32_t *nodes, size_t room, struct thrinvage_unpacked *unpacked);

/* An image of form 1 moved to form 2, at the front of `out`: *moved is the new image's length, two bytes more than the old one's. The line field is 0,
 * and the nodes stay. 18 for any version but 1, 2 among them; then 14; then 13 where the body has 65,534 or 65,535 bytes, so that two more do not fit;
 * then 9. Moved down again it is the same bytes. */
uint32_t thrinvage_move_up(const uint8_t *image, size_t length, uint8_t *out, size_t room, uint64_t *moved);

/* An image of form 2 moved to form 1, at the front of `out`: *moved is the new image's length, two bytes less than the old one's. The line is dropped,
 * and the nodes stay. 18 for any version but 2, 1 among them; then 14; then 9; 13 never. Moved up again it is the same bytes but for the line field,
 * which is then 0. */
uint32_t thrinvage_move_down(const uint8_t *image, size_t length, uint8_t *out, size_t room, uint64_t *moved);

/* Returns the offset of the first byte that is no layout, at the offset given or behind it; the text's length where there is none. Layout is blanks, tabs,
 * newlines, returns and whole comments: a `%` comment may end with the text. A bracketed comment that is not closed is none, from its slash on, nor is a
 * comment in which a foreign byte stands, from its first byte on: it is refused. The next token starts at the offset returned, also one that was cut off.
 * In a text of more than 65,535 bytes, which every call refuses, that is the offset given.
 * It is no part of the archive, but a loop over a function that is. */
static inline size_t thrinvage_layout_end(const uint8_t *text, size_t length, size_t offset) {
    struct thrinvage_layout at = {offset, 0, 0, 0, 0, 0};
    while (thrinvage_next_layout(text, length, at.offset, at.line, at.column, &at) == THRINVAGE_READ && at.kind != THRINVAGE_NO_LAYOUT) {
    }
    return at.offset < length ? at.offset : length;
}

/* Was the last clause cut off? `a. ` and `a. b :- c` both end in refusal 1 at the text's length. Behind the last end mark the first has layout alone, the
 * second has not. So where the clause, the line or the pack call is refused by 1, the text is whole exactly if this function returns 1 at the offset that
 * the call was made at, which the struct still has. Who reads by the token call asks besides that the last token was an end mark, or that there was none.
 * A text that was cut between two clauses, in a `%` comment, or behind a dot that then ends a clause (`X is 1.` of `X is 1.5. `) looks whole: only a last
 * clause that was agreed on, as `end_of_file.`, tells those.
 *
 * Returns 1 if nothing but layout stands behind the offset, else 0: the clause that was cut off then starts at thrinvage_layout_end. */
static inline int thrinvage_only_layout(const uint8_t *text, size_t length, size_t offset) {
    return thrinvage_layout_end(text, length, offset) == length;
}

#ifdef __cplusplus
}
#endif

#endif
