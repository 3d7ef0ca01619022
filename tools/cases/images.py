"""Packs that a script makes, in both forms: clauses with their rooms, each kind with each arity, a damaged image, moves, the limits of 1,023 nodes and
65,535 bytes. Their answers are those of packs.py, the plain packer, unpacker and mover of document 02; by-hand.txt holds those whose answers a person
wrote."""
import packs
from packs import FORM_1
from probe import MOST_LENGTH, START

# a form 2 whose line has two bytes
FORM_2 = (2, 515)
# the letters that pack nodes in a form and that move an image of a form, by its version
PACK, MOVE = {1: "k", 2: "K"}, {1: "m", 2: "M"}
CLAUSES = ("  f(a, B, \"c\").", " [a, b|C] = {x} .", " a :- b, \\+ c.\n", " - 1 ^ -2 .", " '-'1 , ',' .", " [] , {} .", "\r\n'a\\\nb'(-0x1F).\r\n", " x y .")
# with two that are none
KINDS = range(12)
ARITIES = range(4)


def family(kind, arity):
    """A node behind its children."""
    return [(0, 0, b"a")] * arity + [(kind, arity, b"f")]


def numbers_of(nodes):
    """The nodes as `k` is given them, and the bytes that they are parts of."""
    numbers, data = [], b""
    for kind, arity, spelling in nodes:
        numbers.append((kind, arity, len(data), len(spelling)))
        data += spelling
    return numbers, data


def given(nodes, form=FORM_1):
    """The body that tells `k`, or of form 2 `K`, to pack these nodes."""
    return packs.line_bytes(form) + packs.body_of(*numbers_of(nodes))


def unjudged(nodes, form=FORM_1):
    """The image of these nodes, whether it is a pack or not."""
    return packs.image_of(form[0], packs.laid(form, nodes))


def taken(call, cursor, body, reading):
    """The nodes or bytes that are written, where nothing is refused for want of room."""
    if call == "u":
        return packs.unpacked(body)[1]
    if call in "pP":
        return packs.clause_image(call, cursor, body, reading)[0]
    return packs.node_image(call, body) if call in "kK" else packs.move_image(call, body)


def room_of(call, cursor, body, reading=None):
    """The room that the answer takes; a little where it takes none."""
    try:
        return len(taken(call, cursor, body, reading))
    except packs.Refused:
        return 4


def rooms(call, cursor, body, reading=None):
    """None, one short, exact and one more."""
    exact = room_of(call, cursor, body, reading)
    return 0, exact - 1, exact, exact + 1


def clause_cases():
    for text in CLAUSES:
        body = text.encode()
        for cursor in (START, (1, 0, 1), (1, 1, 1)):
            yield from (("p", cursor, room, body) for room in rooms("p", cursor, body))


def line_cases():
    """The same clauses in form 2, each with its exact room."""
    for text in CLAUSES:
        body = text.encode()
        for cursor in (START, (1, 0, 1), (1, 1, 1)):
            yield "P", cursor, room_of("P", cursor, body), body


def kind_cases():
    for kind in KINDS:
        for arity in ARITIES:
            nodes = family(kind, arity)
            yield "u", START, arity + 2, unjudged(nodes)
            yield "k", START, 5 + 6 * len(nodes), given(nodes)


def line_kind_cases():
    """As images of form 2 alone: hold-packs gives `K` the nodes."""
    for kind in KINDS:
        for arity in ARITIES:
            yield "u", START, arity + 2, unjudged(family(kind, arity), FORM_2)


def damaged(image):
    """Each byte left out, doubled, changed; each cut."""
    for at in range(len(image)):
        before, byte, behind = image[:at], image[at], image[at + 1:]
        yield before
        yield before + behind
        yield before + bytes([byte, byte]) + behind
        yield from (before + bytes([other]) + behind for other in sorted({0, 1, 255, (byte + 1) % 256, (byte - 1) % 256} - {byte}))
    yield image + b"\0"


def damaged_cases():
    image = packs.packed(FORM_1, [(1, 0, b"-1"), (8, 0, b"["), (2, 2, b"f")])
    yield from (("u", START, 3, other) for other in damaged(image))


def few_damaged(image):
    """Each byte left out, doubled, one greater; each cut."""
    for at in range(len(image)):
        before, byte, behind = image[:at], image[at], image[at + 1:]
        yield from (before, before + behind, before + bytes([byte, byte]) + behind, before + bytes([byte + 1]) + behind)


def line_damaged_cases():
    """An image of form 2, damaged; then one of each form to its move, cut and with a byte left out."""
    one = [(0, 0, b"a")]
    yield from (("u", START, 1, other) for other in few_damaged(packs.packed(FORM_2, one)))
    for form in (FORM_1, FORM_2):
        image = packs.packed(form, one)
        for at in range(len(image)):
            yield MOVE[form[0]], START, 13, image[:at]
            yield MOVE[form[0]], START, 13, image[:at] + image[at + 1:]


def wide(count, child, root):
    """So many nodes, all but the last of them the last one's children."""
    return [(0, 0, child)] * (count - 1) + [(2, count - 1, root)]


def large_cases():
    for text in (b"- " * 1022 + b"a.", b"f(" + b"a," * 509 + b"a).", b"[" + b"a," * 509 + b"-1]."):
        yield from (("p", START, room, text) for room in rooms("p", START, text)[1:])
    image = unjudged(wide(1023, b"", b"r"))
    yield from (("u", START, room, image) for room in (1022, 1023))
    # body of 65,535 bytes, whole: its spellings are one part of the bytes
    most = packs.body_of([(0, 0, 0, 59)] * 1022 + [(2, 1022, 0, 120)], bytes(range(120)))
    yield "k", START, packs.MOST_BODY + 3, most


def line_large_cases():
    """As above in form 2: its body is two bytes longer."""
    text = b"\n- " * 340 + b"- " * 682 + b"a."
    yield from (("P", START, room, text) for room in rooms("P", START, text)[1:])
    nodes = wide(1023, b"", b"r")
    image = unjudged(nodes, FORM_2)
    yield from (("u", START, room, image) for room in (1022, 1023))
    yield "m", START, len(image), unjudged(nodes)
    yield "M", START, len(image) - 2, image
    most = packs.two(65535) + packs.body_of([(0, 0, 0, 59)] * 1022 + [(2, 1022, 0, 118)], bytes(range(118)))
    yield "K", START, packs.MOST_BODY + 3, most


def cases():
    """CALL, cursor, ROOM and body; the answers are those of packs.py."""
    for source in (clause_cases, kind_cases, damaged_cases, large_cases, line_cases, line_kind_cases, line_damaged_cases, line_large_cases):
        yield from source()


def malformed():
    """What is no case: bodies of `k` and `K` that are too short or have too many nodes, rooms and texts over the largest. Each ends the probe, so only
    the first is stored, behind all others; hold-packs asks them one by one."""
    whole = given(family(3, 1))
    return [
        ("k", START, 40, whole[:17]),
        ("k", START, 40, b""),
        ("k", START, 40, b"\0"),
        ("k", START, 40, b"\0\1" + bytes(7)),
        ("k", START, 40, packs.body_of([(0, 0, 0, 0)] * 1101, b"")),
        ("k", START, 40, b"\xff\xff" + bytes(1000)),
        ("k", START, 70001, whole),
        ("p", START, 70001, b"a."),
        ("u", START, 1025, unjudged(family(3, 1))),
        ("K", START, 40, b""),
        ("K", START, 40, b"\0"),
        ("K", START, 40, b"\0\7"),
        ("K", START, 40, b"\0\7\0"),
        ("K", START, 40, b"\0\7" + whole[:17]),
        ("K", START, 40, b"\0\7\0\1" + bytes(7)),
        ("K", START, 40, b"\0\7" + packs.body_of([(0, 0, 0, 0)] * 1101, b"")),
        ("K", START, 70001, given(family(3, 1), FORM_2)),
        ("P", START, 70001, b"a."),
        ("u", START, 1025, unjudged(family(3, 1), FORM_2)),
        ("m", START, 70001, unjudged(family(3, 1))),
        ("M", START, 70001, unjudged(family(3, 1), FORM_2)),
        ("m", START, 40, bytes(MOST_LENGTH + 1)),
        ("M", START, 40, bytes(MOST_LENGTH + 1)),
        ("P", START, 13, b"a." + b" " * (MOST_LENGTH - 1)),
        ("c", START, 4097, b"a."),
        ("x", START, 4097, b"a "),
        ("p", START, 11, b"a." + b" " * (MOST_LENGTH - 1)),
    ]
