"""Document 02's packs (requests 2 and 13), read plainly: a second packer, unpacker and mover beside the proved ones, with which it shares nothing.
It was written from document 02 and its settled points. A node is its kind, its arity and the bytes of its spelling; trees are built, not counted.
A form is its version and its line field, which form 1 has not: 0 stands for it. A move takes an image apart and packs its nodes anew.
`lines` is what the probe must answer to the letters of CALLS."""
import grammar
from probe import FILL, MOST_LENGTH, TREE_FILL, moved, refused_line

FORM_1 = (1, 0)
LINE_UNKNOWN = 0
# where the two bytes of the node count stand, by the version
COUNT_AT = {1: 3, 2: 5}
MOST_NODES = 1023
MOST_BODY = 65535
LONGEST_TEXT = 65535
NOT_VALID, NO_ROOM, TOO_LONG, NO_PACK, UNKNOWN_VERSION = 8, 9, 13, 14, 18
# the arities that a kind can have, from and to
ANY = 65535
ARITIES = {
    grammar.PLAIN: (0, 0),
    grammar.NEGATIVE: (0, 0),
    grammar.CALL: (1, ANY),
    grammar.PREFIX: (1, 1),
    grammar.INFIX: (2, 2),
    grammar.LIST: (1, ANY),
    grammar.TAILED: (2, ANY),
    grammar.CURLY: (1, 1),
    grammar.EMPTY_LIST: (0, 0),
    grammar.EMPTY_CURLY: (0, 0),
}
# what the probe takes: the letters, the largest rooms, and the nodes of `k` and `K`
CALLS = "pPukKmM"
MOST_ROOM = {call: 1024 if call == "u" else 70000 for call in CALLS}
MOST_GIVEN = 1100


class Refused(Exception):
    def __init__(self, number, at=0):
        self.number, self.at = number, at


class Malformed(Exception):
    pass


def two(number):
    return number.to_bytes(2, "big")


def number_at(data, at):
    return int.from_bytes(data[at:at + 2], "big")


def fits(kind, arity):
    least, most = ARITIES.get(kind, (1, 0))
    return least <= arity <= most


def one_tree(nodes):
    """Builds the trees: a node takes the last so many trees as its children."""
    trees = []
    for node in nodes:
        if node[1] > len(trees):
            return False
        children = len(trees) - node[1]
        trees[children:] = [(node, trees[children:])]
    return len(trees) == 1


def acceptable(nodes):
    return len(nodes) <= MOST_NODES and all(fits(kind, arity) for kind, arity, _ in nodes) and one_tree(nodes)


def line_bytes(form):
    version, line = form
    return two(line) if version == 2 else b""


def laid(form, nodes):
    """All that follows the length."""
    return line_bytes(form) + two(len(nodes)) + b"".join(bytes([kind]) + two(arity) + two(len(spelling)) + spelling for kind, arity, spelling in nodes)


def image_of(version, body):
    return bytes([version]) + two(len(body)) + body


def packed(form, nodes):
    if not acceptable(nodes):
        raise Refused(NO_PACK)
    body = laid(form, nodes)
    if len(body) > MOST_BODY:
        raise Refused(TOO_LONG)
    return image_of(form[0], body)


def within(image, room):
    if len(image) > room:
        raise Refused(NO_ROOM)
    return image


def unpacked(image, known=(1, 2)):
    """The form, and kind, arity, start and length of the spelling, of each node. `known` are the versions that the call knows."""
    if not image:
        raise Refused(NO_PACK)
    version = image[0]
    if version not in known:
        raise Refused(UNKNOWN_VERSION)
    count_at = COUNT_AT[version]
    if len(image) < count_at + 2 or number_at(image, 1) != len(image) - 3:
        raise Refused(NO_PACK)
    line = number_at(image, 3) if version == 2 else 0
    numbers, at = [], count_at + 2
    for _ in range(number_at(image, count_at)):
        if at + 5 > len(image):
            raise Refused(NO_PACK)
        kind, arity, length = image[at], number_at(image, at + 1), number_at(image, at + 3)
        numbers.append((kind, arity, at + 5, length))
        at += 5 + length
    if at != len(image) or not acceptable(parts(image, numbers)):
        raise Refused(NO_PACK)
    return (version, line), numbers


def moved_up(image):
    _, numbers = unpacked(image, (1,))
    return packed((2, LINE_UNKNOWN), parts(image, numbers))


def moved_down(image):
    _, numbers = unpacked(image, (2,))
    return packed(FORM_1, parts(image, numbers))


def parts(data, numbers):
    """The nodes whose spellings are these parts."""
    return [(kind, arity, data[start:start + length]) for kind, arity, start, length in numbers]


def unpacked_within(image, room):
    form, numbers = unpacked(image)
    if len(numbers) > room:
        raise Refused(NO_ROOM)
    return form, numbers


def given_nodes(body):
    """The numbers of the nodes in a body of `k`, and the bytes that their spellings are parts of."""
    count = number_at(body, 0)
    if len(body) < 2 or count > MOST_GIVEN or len(body) < 2 + 8 * count:
        raise Malformed
    numbers = [tuple(number_at(body, at + field) for field in (0, 2, 4, 6)) for at in range(2, 2 + 8 * count, 8)]
    return numbers, body[2 + 8 * count:]


def given_form(call, body):
    """The form that `k` or `K` is told to write, and the rest of its body: that of `K` begins with the line field."""
    if call == "k":
        return FORM_1, body
    if len(body) < 2:
        raise Malformed
    return (2, number_at(body, 0)), body[2:]


def body_of(numbers, data):
    """A body of `k`."""
    return two(len(numbers)) + b"".join(two(number) for node in numbers for number in node) + data


def named(numbers, data):
    """The nodes that these numbers name, if each spelling is a part of these bytes."""
    if any(start + length > len(data) for _, _, start, length in numbers):
        raise Refused(NO_PACK)
    return parts(data, numbers)


def spelt(text, spans, tree):
    """The nodes of a tree, spelt as its tokens stand in the text; a negative number runs on to the number's end."""
    nodes = []
    for index, kind, arity in tree:
        last = index + 1 if kind == grammar.NEGATIVE else index
        nodes.append((kind, arity, text[spans[index][0]:spans[last][1]]))
    return nodes


def valid(text, given):
    return len(text) <= LONGEST_TEXT and given[0] <= len(text) and max(given[1:]) <= given[0]


def reading_of(text, given):
    """The clause at a valid cursor as grammar.py reads it, ("clause", nodes, new offset) or ("refused", number, offset), and its tokens' spans."""
    source = text.decode("latin-1")
    answer = grammar.read_clause(source, given[0], 2 * grammar.MOST_TOKENS)
    return *answer, [(token.start, token.end) for token in grammar.tokens_of(source, given[0])]


def image_line(image, room):
    return "image " + ((image + bytes([FILL]) * (room - len(image))).hex() or "-")


def slice_line(numbers, room):
    written = [number for node in numbers for number in node]
    return "slice " + (" ".join(map(str, written + [TREE_FILL] * (4 * room - len(written)))) or "-")


def clause_nodes(given, text, reading):
    """The nodes of the clause at the cursor, where its first token starts, and the offset behind its mark."""
    if not valid(text, given):
        raise Refused(NOT_VALID)
    kind, what, offset, spans = reading or reading_of(text, given)
    if kind == "refused":
        raise Refused(what, offset)
    return spelt(text, spans, what), spans[0][0], offset


def clause_form(call, text, given, first):
    """The line is that of the first token's start, counted on from the caller's cursor, plus one."""
    if call == "p":
        return FORM_1
    return 2, given[1] + text[given[0]:first].count(b"\n") + 1


def clause_image(call, given, text, reading):
    """The image of the clause at the cursor, and the offset behind its mark."""
    nodes, first, offset = clause_nodes(given, text, reading)
    return packed(clause_form(call, text, given, first), nodes), offset


def node_image(call, body):
    form, rest = given_form(call, body)
    return packed(form, named(*given_nodes(rest)))


def move_image(call, image):
    return moved_up(image) if call == "m" else moved_down(image)


def clause_lines(call, given, room, text, reading):
    """`p` and `P`"""
    image, offset = clause_image(call, given, text, reading)
    return ["pack %d %d %d %d" % (len(within(image, room)), *moved(text, given, offset)), image_line(image, room)]


def image_lines(word, image, room):
    """`k` and `K`, `m` and `M`"""
    return [f"{word} {len(within(image, room))}", image_line(image, room)]


def unpack_lines(room, image):
    """`u`"""
    form, numbers = unpacked_within(image, room)
    return [nodes_line(form, numbers), slice_line(numbers, room)]


def nodes_line(form, numbers):
    return "nodes %d %d %d" % (len(numbers), *form)


def lines(call, given, room, body, reading=None):
    """The probe's answer. Where no reading of the clause is given and grammar.py does not know a token of it, it raises NotMine."""
    try:
        if room > MOST_ROOM[call] or len(body) > MOST_LENGTH:
            raise Malformed
        if call in "pP":
            return clause_lines(call, given, room, body, reading)
        if call in "kK":
            return image_lines("pack", node_image(call, body), room)
        if call in "mM":
            return image_lines("move", move_image(call, body), room)
        return unpack_lines(room, body)
    except Malformed:
        return ["malformed"]
    except Refused as refusal:
        return [refused_line(refusal.number, refusal.at, given), (slice_line if call == "u" else image_line)(b"", room)]
