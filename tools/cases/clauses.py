"""Clauses that a script makes: each operator in each role, the limits of 1,024 tokens, deep and wide ones, rooms, faults. Their answers are those of
grammar.py, the plain reader of document 01; by-hand.txt holds the clauses whose answers a person wrote."""
from grammar import INFIX_OPERATORS, LOWEST, MOST_TOKENS, NO_READING, PREFIX_OPERATORS, read_clause

OPERATORS = sorted(set(INFIX_OPERATORS) | set(PREFIX_OPERATORS))
# a room with a little more than the tree takes
SPARE = 3


def operator_clauses():
    """Every name of the table in every role, and where it has no such role."""
    for name in OPERATORS:
        yield from (f"{name} .", f"f({name}).", f"[{name}].", f"[{name}|{name}].", f"{{{name} }}.", f"({name}).", f"({name} ) = a.")
        yield from (f"{name} a.", f"{name} 1.", f"{name}1 .", f"{name}(a).", f"{name}(a,b).", f"{name} (a).", f"{name} (a,b).", f"a {name} .")
        yield from (f"a {name} b.", f"a {name}(b).", f"'{name.replace(chr(92), chr(92) * 2)}' a.", f"a '{name.replace(chr(92), chr(92) * 2)}' b.")
        yield from (f"a {name} b {name} c.", f"{name} {name} a.", f"{name} a {name} b.", f"a {name} {name} b.", f"f(a {name} b).", f"[a {name} b|c].")
        yield from (f"- a {name} b.", f"\\+ a {name} b.", f":- a {name} b.", f"a {name} - b.", f"a {name} \\+ b.", f"a {name} -1.", f"{name} , a.")


def pair_clauses():
    """Any two operators of the table side by side: which takes the other, or that neither can."""
    infixes = [*INFIX_OPERATORS, ","]
    for one in infixes:
        yield from (f"a {one} b {other} c." for other in infixes)
    for prefix in PREFIX_OPERATORS:
        yield from (f"{prefix} a {infix} b." for infix in infixes)
        yield from (f"a {infix} {prefix} b." for infix in infixes)
        yield from (f"{prefix} {other} a." for other in PREFIX_OPERATORS)


def large_clauses():
    """Up to the limit of 1,024 tokens, at it, and over it: deep to the right, to the left, in brackets, and wide."""
    for tokens in (MOST_TOKENS - 1, MOST_TOKENS, MOST_TOKENS + 1):
        n = tokens - 2
        yield "- " * n + "a."
        yield "(" * (n // 2) + "a" + ")" * (n // 2) + "."
        yield "[" * (n // 2) + "a" + "]" * (n // 2) + "."
        yield "{" * (n // 2) + "a" + "}" * (n // 2) + "."
        yield "f(" * (n // 3) + "a" + ")" * (n // 3) + "."
        for name in ("+", "^", ",", ";"):
            yield "a" + f" {name} a" * (n // 2) + "."
        yield "f(" + "a," * ((n - 3) // 2) + "a)."
        yield "[" + "a," * ((n - 2) // 2) + "a]."
        yield "[" + "a," * ((n - 4) // 2) + "a|a]."
        yield "[" + "- , " * ((n - 2) // 2) + "-]."
    for count in (1023, 1024, 1025):
        yield "a " * count + "."
    yield "a " * 1024 + "\x01"
    yield "% no token\n" * 200 + "/* none */" * 900 + "- " * 1022 + "a."


def operator_faults():
    """Every name of the table at a fault or before it: no infix operator, too high a priority, no operand, a place that does not end so. A few read."""
    for name in OPERATORS:
        yield from (f"f(a,{name} b).", f"[a|b {name} c,d].", f"{{a {name} }}.", f"({name} |a).", f"{{{name} ,a}}.", f"X {name} ).", f"{name}().")
        yield from (f"{name} {name} {name} .", f"a {name} {name} {name} b.", f"- {name} b c.", f"a ** {name} b.", f"a = b {name} c = d {name} .")
        yield f"a :- b {name} c :- d."
        yield from (f"{name} {LOWEST}.", f"{name}{LOWEST}.", f"a {name}{LOWEST}.", f"a {name} -{LOWEST} {name} {LOWEST}.")


def long_faults():
    """As many tokens as a clause may have, and one fewer: the fault at the mark, before it, in the middle, at the start."""
    for n in (MOST_TOKENS - 2, MOST_TOKENS - 1):
        half = n // 2
        yield from ("(" * n + ".", "[" * n + ".", "{" * n + ".", "f(" * half + "(" * (n % 2) + ".", "[a|" * (n // 3) + "[" * (n % 3) + ".")
        yield from ("- " * n + ".", "\\+ " * n + ".", "a , " * half + ".", "a - " * half + ".", "a=(" * (n // 3) + "[" * (n % 3) + ".")
        yield from ("(" * (n - 1) + ").", "[" * (n - 2) + "a).", "{" * (half - 1) + "a" + "}" * half + ".", "f(" + "a," * (half - 2) + ").")
        yield from ("- " * (n - 1) + ").", "- " * (n - 2) + ":- a.", "a" + " - a" * (half - 1) + " b.", "a" + " ^ a" * (half - 3) + " ** a ** a.")
        yield from ("[" + "- , " * (half - 2) + "|a].", ":- " * n + ".", "a" + " = a" * half + ".", "a " * n + ".", ")" * n + ".")


def deep_faults():
    """Faults in brackets of every kind, and brackets that do not match."""
    for depth in (1, 2, 20, 110):
        for inner in ("a b", "", "-,a", "a :- b :- c", "= a", "a|b", "f(:- a)", "[a|b,c]", "a = - "):
            yield "f([{(" * depth + inner + ")}])" * depth + "."
        yield from ("f([{(" * depth + "a" + ")}])" * (depth - 1) + end + "." for end in (")}]", ")})]", ")}]))", ")}]}", ")}])a", ")}](b)"))


def no_readings(texts):
    return (text for text in texts if read_clause(text, 0, 0)[:2] == ("refused", NO_READING))


def cases():
    """CALL, ROOM, cursor and text; the answers follow by `answers`."""
    for text in (*operator_clauses(), *pair_clauses()):
        yield "c", room_of(text, SPARE), (0, 0, 0), text
    for text in large_clauses():
        yield "c", room_of(text, SPARE), (0, 0, 0), text
        yield "c", room_of(text, -1), (0, 0, 0), text
        yield "c", room_of(text, 0), (0, 0, 0), text
    # rooms of 0, one short and exact, where a cursor stands inside the text
    for text in ("  f(a, B, \"c\").", " [a, b|C] = {x} .", " a :- b, \\+ c.\n", " - 1 ^ -2 .", " x y .", " [] , {} ."):
        for room in (0, room_of(text, -1), room_of(text, 0), room_of(text, 1)):
            yield "c", room, (0, 0, 0), text
            yield "c", room, (1, 0, 1), text
            yield "c", room, (1, 1, 1), text
    for text in no_readings((*operator_faults(), *long_faults(), *deep_faults())):
        yield "c", SPARE, (0, 0, 0), text
        if text.startswith("f([{(") and len(text) < 40:
            yield "c", SPARE, (2, 0, 2), "a.\n/* b */\n" + text


def room_of(text, more):
    """The room that the tree of this text takes, and so many numbers more."""
    kind, nodes, _ = read_clause(text, 0, 4096)
    return max(0, (2 * len(nodes) if kind == "clause" else 4) + more)
