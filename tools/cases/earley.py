"""Document 01's clause grammar as productions, written from its text, and Earley's recognizer over them: it says which tokens a clause can begin
with, and needs no guess at how the clause goes on. It takes tokens and operator table from grammar.py, and nothing of its reader.
What 01 says of a token and the one before it is put into the symbols, so that the productions are free of context: a number is joined or apart, and
a term may have to begin without what a prefix operator is not applied to. One of the lowest integer's magnitude is neither: if it is joined, it is
only what a minus before it can negate."""
from grammar import COMMA, INFIX_OPERATORS, PREFIX_OPERATORS, is_lowest

# the greatest priority of a clause and what is in brackets, and of an argument, an item or a tail
WHOLE, PART = 1200, 999
PRIORITIES = sorted({0, COMMA[0], *(priority for table in (INFIX_OPERATORS, PREFIX_OPERATORS) for priority, _ in table.values())})
# how a term may begin: with any token; not with OpenCT, behind a prefix operator; neither with that nor with a joined number, behind a prefix minus
ANY, UNBRACKETED, UNJOINED = "any", "unbracketed", "unjoined"


def sorts(token, before):
    """The symbols that this token can stand for, behind the token before it (None behind none)."""
    if token.kind == "number":
        joined = before is not None and before.end == token.start
        return ["negated"] * joined + ["joined" if joined else "apart"] * (not is_lowest(token))
    if token.kind == "comma":
        return ["comma", ("infix", *COMMA)]
    if token.kind != "name":
        return [token.kind]
    found = ["name"]
    if token.text in INFIX_OPERATORS:
        found.append(("infix", *INFIX_OPERATORS[token.text]))
    if token.text in PREFIX_OPERATORS:
        found.append("minus" if token.text == "-" else ("prefix", *PREFIX_OPERATORS[token.text]))
    return found + ["operator" if len(found) > 1 else "plain"]


def term(most, beginning):
    """The symbol of a term of that priority or less."""
    return "term", max(priority for priority in PRIORITIES if priority <= most), beginning


def operand(priority, letter):
    """The greatest priority of an operand: x is lower than its operator, y at most the same."""
    return priority if letter == "y" else priority - 1


def clause_rules():
    yield "clause", [("place", WHOLE), "end"]
    for most in (WHOLE, PART):
        yield ("place", most), ["operator"]
        yield ("place", most), [term(most, ANY)]
    yield "places", [("place", PART)]
    yield "places", ["places", "comma", ("place", PART)]


def operator_rules(beginning):
    for priority in PRIORITIES[1:]:
        yield term(priority, beginning), [term(priority - 1, beginning)]
    for priority, kind in sorted({COMMA, *INFIX_OPERATORS.values()}):
        yield term(priority, beginning), [term(operand(priority, kind[0]), beginning), ("infix", priority, kind), term(operand(priority, kind[2]), ANY)]
    for name, (priority, kind) in PREFIX_OPERATORS.items():
        if name != "-":
            yield term(priority, beginning), [("prefix", priority, kind), term(operand(priority, kind[1]), UNBRACKETED)]
    priority, kind = PREFIX_OPERATORS["-"]
    yield term(priority, beginning), ["minus", term(operand(priority, kind[1]), UNJOINED)]


def plain_rules(beginning):
    """Terms of priority 0."""
    for body in (
        ["apart"], ["string"], ["variable"], ["plain"], ["minus", "negated"],
        ["name", "open_ct", "places", "close"],
        ["open", ("place", WHOLE), "close"],
        ["open_list", "places", "close_list"],
        ["open_list", "places", "bar", ("place", PART), "close_list"],
        ["open_list", "close_list"],
        ["open_curly", ("place", WHOLE), "close_curly"],
        ["open_curly", "close_curly"],
    ):
        yield term(0, beginning), body
    if beginning == ANY:
        yield term(0, beginning), ["open_ct", ("place", WHOLE), "close"]
    if beginning != UNJOINED:
        yield term(0, beginning), ["joined"]


def all_rules():
    yield from clause_rules()
    for beginning in (ANY, UNBRACKETED, UNJOINED):
        yield from operator_rules(beginning)
        yield from plain_rules(beginning)


RULES = list(dict.fromkeys((head, tuple(body)) for head, body in all_rules()))
OF_HEAD = {head: [number for number, rule in enumerate(RULES) if rule[0] == head] for head, _ in RULES}


def unproductive():
    """The symbols of rules of which no tokens can come. There must be none: then an item that is begun can always be ended, and tokens are what
    some clause begins with exactly if an item is left behind them."""
    done = set()
    while more := {head for head, body in RULES if head not in done and all(symbol in done or symbol not in OF_HEAD for symbol in body)}:
        done |= more
    return set(OF_HEAD) - done


class Chart:
    """Earley's sets, one behind each token. An item is a rule's number, how much of its body stands, and the set where it began; a set has them by
    the symbol that comes next, None where the body is whole. No body is empty, so a whole one began in a set before, which is finished."""

    def __init__(self):
        self.sets = []
        self.sets.append(self.closed((number, 0, 0) for number in OF_HEAD["clause"]))

    def closed(self, items):
        """The items with all that follows from them."""
        queue, found = list(dict.fromkeys(items)), {}
        known = set(queue)
        for number, stands, origin in queue:
            head, body = RULES[number]
            if stands < len(body):
                symbol, more = body[stands], [(rule, 0, len(self.sets)) for rule in OF_HEAD.get(body[stands], ())]
            else:
                symbol, more = None, [(rule, other + 1, start) for rule, other, start in self.sets[origin].get(head, ())]
            found.setdefault(symbol, []).append((number, stands, origin))
            for item in more:
                if item not in known:
                    known.add(item)
                    queue.append(item)
        return found

    def push(self, symbols):
        """One token more, which can stand for these symbols. Whether a clause begins with the tokens up to it; if none does, it is not taken."""
        items = [(number, stands + 1, origin) for symbol in symbols for number, stands, origin in self.sets[-1].get(symbol, ())]
        if items:
            self.sets.append(self.closed(items))
        return bool(items)

    def pop(self):
        self.sets.pop()

    def whole(self):
        """Whether the tokens are a clause."""
        return any(RULES[number][0] == "clause" for number, _, _ in self.sets[-1].get(None, ()))


def begun(tokens):
    """How many of the tokens some clause begins with, and whether they are a clause."""
    chart, before = Chart(), None
    for count, token in enumerate(tokens):
        if not chart.push(sorts(token, before)):
            return count, False
        before = token
    return len(tokens), chart.whole()
