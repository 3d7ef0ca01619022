"""Random clauses, mostly of document 01's grammar, for `hold-clauses` and `compare-swi`."""
from clauses import OPERATORS
from grammar import INFIX_OPERATORS, LOWEST, PREFIX_OPERATORS

MANY = ["a", "b", "X", "1", "-1", f"{LOWEST}", f"-{LOWEST}", "2.5", "'q r'", '"s"', "'-'", "','", "'is'", "(", " (", ")", "[", "]", "{", "}", ",", "|", "||", "f(", "-(", "!", ";(", "/* c */", "\n", "\r\n"]
PREFIXES = sorted(PREFIX_OPERATORS)
ROLES = {name: str((INFIX_OPERATORS.get(name), PREFIX_OPERATORS.get(name))) for name in OPERATORS}
ROWS = [[name for name in OPERATORS if ROLES[name] == roles] for roles in sorted(set(ROLES.values()))]


def term(dice, depth, operators):
    """A term, mostly of the grammar: what is put together need not have a reading."""
    if depth == 0:
        return dice.choice(("a", "b", "X", "1", "-1", f"-{LOWEST}", "[]", "{}", "'q'", '"s"', " - ", "!"))
    one = lambda: term(dice, dice.randrange(depth), operators)
    return dice.choice((
        lambda: f"{one()} {dice.choice(operators)} {one()}",
        lambda: f"{one()} {dice.choice(operators)} {one()}",
        lambda: f"{one()} , {one()}",
        lambda: f"{dice.choice(PREFIXES)} {one()}",
        lambda: f"{dice.choice(('f', '-', 'is', ';', 'a'))}({one()},{one()})",
        lambda: f"({one()})",
        lambda: f" ({one()})",
        lambda: f"[{one()},{one()}|{one()}]",
        lambda: f"[{one()}]",
        lambda: f"{{{one()}}}",
        lambda: f"{one()}{dice.choice(MANY)}{one()}",
    ))()


def random_clause(dice, turn):
    """Two in three are terms with three operators, each of other roles, so that they meet; the third is a row of pieces."""
    if turn % 3:
        return term(dice, dice.randrange(1, 7), [dice.choice(row) for row in dice.sample(ROWS, 3)]) + " ."
    return "".join(dice.choice(dice.choice((MANY, [f" {name} " for name in OPERATORS]))) for _ in range(dice.randrange(1, 14))) + " ."
