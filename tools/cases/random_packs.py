"""Random nodes and images of both forms, whole and damaged, for `hold-packs`."""
import grammar
import packs

SPELLINGS = (b"", b"a", b"-", b",", b"[", b"\0", b"\xff", b"-1", b"'a b'", bytes(range(256)), b"n" * 300)
KINDS = (*range(12), 255)
VERSIONS = (0, 1, 2, 3, 255)
EDGES = (0, 1, 2, 3, 255, 256, 1022, 1023, 1024, 65534, 65535)
LEAVES = [kind for kind, (least, _) in packs.ARITIES.items() if least == 0]
WIDE = [kind for kind, (_, most) in packs.ARITIES.items() if most == packs.ANY]


def with_line(dice):
    """A form 2."""
    return 2, dice.choice((*EDGES, dice.randrange(65536)))


def parent(dice, standing):
    """The kind and arity of a node with children, where so many trees stand."""
    kind = dice.choice([kind for kind, (least, _) in packs.ARITIES.items() if 1 <= least <= standing])
    least, most = packs.ARITIES[kind]
    return kind, dice.randrange(least, min(most, standing) + 1)


def tree(dice, most):
    """The nodes of one tree, hardly more than that many."""
    nodes, standing, count = [], 0, dice.randrange(1, most + 1)
    while len(nodes) < count or standing > 1:
        if len(nodes) >= count:
            kind, arity = dice.choice(WIDE), standing
        elif standing and dice.random() < 0.5:
            kind, arity = parent(dice, standing)
        else:
            kind, arity = dice.choice(LEAVES), 0
        nodes.append((kind, arity, dice.choice(SPELLINGS)))
        standing += 1 - arity
    return nodes


def spoilt(dice, nodes):
    """The nodes with a fault, mostly; each spelling is still as long as its node says."""
    nodes = list(nodes)
    at = dice.randrange(len(nodes))
    kind, arity, spelling = nodes[at]
    nodes[at:at + 1] = dice.choice((
        lambda: [(dice.choice(KINDS), arity, spelling)],
        lambda: [(kind, dice.choice((0, 1, 2, 3, arity + 1, max(0, arity - 1), dice.choice(EDGES))), spelling)],
        lambda: [(dice.choice(KINDS), dice.choice((0, 1, 2, 3)), spelling)],
        lambda: [],
        lambda: [nodes[at]] * 2,
        lambda: [nodes[at], (grammar.PLAIN, 0, b"")],
        lambda: [(kind, arity, dice.choice(SPELLINGS))],
    ))()
    if dice.random() < 0.2:
        dice.shuffle(nodes)
    return nodes


def fields(image):
    """Where the two-byte numbers of a pack stand."""
    yield from (1, 3, packs.COUNT_AT[image[0]])
    for _, _, start, _ in packs.unpacked(image)[1]:
        yield from (start - 4, start - 2)


def damaged(dice, image):
    """A pack with a byte changed, put in, left out, some cut or put behind, another version, or a number at an edge or turned about."""
    at = dice.randrange(len(image))
    field = dice.choice(list(fields(image)))
    number = packs.number_at(image, field)
    other = dice.choice((*EDGES, number + 1, number - 1, number // 256 + number % 256 * 256)) % 65536
    return dice.choice((
        lambda: image[:at] + bytes([dice.choice((*KINDS, dice.randrange(256)))]) + image[at + 1:],
        lambda: image[:at] + bytes([dice.choice((0, image[at], dice.randrange(256)))]) + image[at:],
        lambda: image[:at] + image[at + 1:],
        lambda: image[:at],
        lambda: bytes([dice.choice((*VERSIONS, dice.randrange(256)))]) + image[1:],
        lambda: image + image[:dice.randrange(1, 6)],
        lambda: image[:field] + packs.two(other) + image[field + 2:],
        lambda: image[:field] + packs.two(other) + image[field + 2:],
    ))()


def mended(image):
    """With the length that it has."""
    return image[:1] + packs.two(min(len(image), 65538) - 3) + image[3:] if len(image) > 2 else image


def scattered(dice, nodes):
    """The nodes with other spellings, parts of the same bytes, which may overlap; one node in some is none that these bytes have."""
    data = dice.randbytes(dice.randrange(60))
    numbers = []
    for kind, arity, _ in nodes:
        start = dice.randrange(len(data) + 1)
        numbers.append((kind, arity, start, dice.choice((0, 1, dice.randrange(60))) % (len(data) - start + 1)))
    if dice.random() < 0.3 and numbers:
        at = dice.randrange(len(numbers))
        numbers[at] = astray(dice, numbers[at], len(data))
    return numbers, data


def astray(dice, node, end):
    """A spelling that ends behind the bytes, or a kind or an arity that one byte would hold."""
    kind, arity, start, length = node
    start, length = dice.choice(((start, end - start + 1), (end + 1, 0), (end, 1), (65535, 65535), (start, 65535), (start, length)))
    kind, arity = dice.choice(((kind, arity), (kind + 256, arity), (kind, arity % 256 + 256)))
    return kind, arity, start, length
