"""Document 01's clause grammar, read plainly by precedence climbing: a second reader beside the proved one, with which it shares nothing.
It was written from document 01 and the settled open points, not from the machine of crates/reader. Its tokenizer knows whole tokens only:
where one is malformed or the text ends in it, it raises NotMine, and the answer has to be written by hand.
Where a clause has no reading, the first token that cannot stand (request 12 of document 02) is found by trying: tokens that some clause begins with
can be completed to a clause that reads. hold-faults holds this against earley.py, which needs no completions."""
import re

MOST_TOKENS = 1024
TOO_MANY, NO_READING, NO_ROOM = 10, 11, 9
# the magnitude of the lowest integer: no integer's is larger, and in a clause it stands only behind its minus (request 4 of document 02)
LOWEST = 2 ** 63
PLAIN, NEGATIVE, CALL, PREFIX, INFIX, LIST, TAILED, CURLY, EMPTY_LIST, EMPTY_CURLY = range(10)

# 01's table, row by row
INFIX_OPERATORS = {name: (priority, kind) for priority, kind, names in (
    (1200, "xfx", ":- -->"),
    (1100, "xfy", ";"),
    (1050, "xfy", "->"),
    (700, "xfx", "= \\= == \\== @< @=< @> @>= =.. is =:= =\\= < =< > >="),
    (500, "yfx", "+ - /\\ \\/"),
    (400, "yfx", "* / // rem mod << >>"),
    (200, "xfx", "**"),
    (200, "xfy", "^"),
) for name in names.split()}
PREFIX_OPERATORS = {name: (priority, kind) for priority, kind, names in (
    (1200, "fx", ":- ?-"),
    (900, "fy", "\\+"),
    (200, "fy", "- \\"),
) for name in names.split()}
COMMA = (1000, "xfy")

# the opening brackets with what closes them
CLOSING = {"open": "close", "open_ct": "close", "open_list": "close_list", "open_curly": "close_curly"}
# what a clause may go on with, before it closes its brackets: see `begins`
NEXT = ((), ("open_ct", "variable", "close"))

SOLO = {"(": "open_ct", ")": "close", "[": "open_list", "]": "close_list", "{": "open_curly", "}": "close_curly", ",": "comma"}
LAYOUT = re.compile(r"(?:[ \t\r\n]|%[ -~\t\r]*(?:\n|$)|/\*[ -~\t\r\n]*?\*/)*")
GRAPHIC = re.compile(r"[#$&*+\-./:<=>?@^~\\]+")
WORD = re.compile(r"[A-Za-z0-9_]+")
NUMBER = re.compile(r"0'(?:\\x[0-9a-fA-F]+\\|\\[0-7]+\\|\\[abfnrtv\\'\"`]|''|[ -&(-\[\]-~])|0x[0-9a-fA-F]+|0o[0-7]+|0b[01]+|[0-9]+(?:\.[0-9]+(?:[eE][+-]?[0-9]+)?)?")
QUOTED = re.compile(r"'(?:''|\\x[0-9a-fA-F]+\\|\\[0-7]+\\|\\\n|\\[abfnrtv\\'\"`]|[ -&(-\[\]-~])*'|\"(?:\"\"|\\[abfnrtv\\'\"`]|[ !#-\[\]-~])*\"")
BASES = {"0x": 16, "0o": 8, "0b": 2}
ESCAPE = re.compile(r"''|\\x([0-9a-fA-F]+)\\|\\([0-7]+)\\|\\(\n)|\\([abfnrtv\\'\"`])")


class NotMine(Exception):
    pass


class NoReading(Exception):
    pass


class Token:
    def __init__(self, kind, text, start, end):
        self.kind, self.text, self.start, self.end = kind, text, start, end


def decoded(item):
    def one(found):
        if found[0] == "''":
            return "'"
        if found[1] or found[2]:
            code = int(found[1], 16) if found[1] else int(found[2], 8)
            if not 1 <= code <= 127:
                raise NotMine
            return chr(code)
        return "" if found[3] else dict(zip("abfnrtv", "\a\b\f\n\r\t\v")).get(found[4], found[4])
    return ESCAPE.sub(one, item[1:-1])


def magnitude(spelling):
    """What an integer's digits stand for; None for a float and for a character's code."""
    if spelling[:2] in BASES:
        return int(spelling[2:], BASES[spelling[:2]])
    return int(spelling) if spelling.isdigit() else None


def is_lowest(token):
    return token.kind == "number" and magnitude(token.text) == LOWEST


def doubtful(spelling, behind):
    """A number that is or may be out of its limit, or that is set aside, or whose `0` may begin another form."""
    integer = magnitude(spelling)
    if integer is None:
        return len(spelling) > 15 or "e" in spelling.lower() or spelling[:3] == "0'\\" and len(spelling) > 4
    return integer > LOWEST or spelling.isdigit() and behind == "_" or spelling == "0" and behind in "'xob"


def known(behind):
    """Whether there is a byte behind, and none that is foreign."""
    return " " <= behind <= "~" or behind in ("\t", "\r", "\n")


def next_token(text, at):
    start = LAYOUT.match(text, at).end()
    if start == len(text) or text.startswith("/*", start):
        raise NotMine
    c, behind = text[start], text[start + 1:start + 2]
    if c == "." and (not behind or behind in " \t\r\n%"):
        return Token("end", ".", start, start + 1 + (behind == "\n"))
    if c in SOLO:
        return Token("open" if c == "(" and start > at else SOLO[c], c, start, start + 1)
    if c in "!;":
        return Token("name", c, start, start + 1)
    if c == "|" and known(behind):
        return Token("double_bar" if behind == "|" else "bar", c, start, start + 1 + (behind == "|"))
    for kind, rule in (("number", NUMBER), ("name", GRAPHIC), ("word", WORD), ("quoted", QUOTED)):
        found = rule.match(text, start)
        if found:
            break
    else:
        raise NotMine
    end, spelling = found.end(), found[0]
    if not known(text[end:end + 1]):
        raise NotMine
    if kind == "number" and doubtful(spelling, text[end]):
        raise NotMine
    if kind == "word":
        kind = "name" if c.islower() else "variable"
    elif kind == "quoted":
        if text[end] == c:
            raise NotMine
        kind, spelling = ("name", decoded(spelling)) if c == "'" else ("string", spelling)
    return Token(kind, spelling, start, end)


def tokens_of(text, at):
    """The tokens up to an end mark, or up to the last that a clause may have."""
    found = []
    while len(found) < MOST_TOKENS:
        found.append(next_token(text, found[-1].end if found else at))
        if found[-1].kind == "end":
            break
    return found


class Reader:
    """Reads the tokens from left to right. A term is answered with its priority; its nodes have been put out, children before their parent."""

    def __init__(self, tokens):
        self.tokens, self.at, self.nodes = tokens, 0, []

    def put(self, index, kind, arity=0):
        self.nodes.append((index, kind, arity))

    def here(self):
        return self.tokens[self.at].kind if self.at < len(self.tokens) else None

    def take(self, kind):
        if self.here() != kind:
            raise NoReading
        self.at += 1

    def clause(self):
        self.place(1200, ("end",))
        self.take("end")
        if self.at < len(self.tokens):
            raise NoReading
        return self.nodes

    def place(self, most, ends):
        """A place: one operator name alone, or a term. `ends` are the tokens that may stand behind this place."""
        token = self.tokens[self.at]
        operator = token.kind == "name" and (token.text in PREFIX_OPERATORS or token.text in INFIX_OPERATORS)
        if operator and self.at + 1 < len(self.tokens) and self.tokens[self.at + 1].kind in ends:
            self.put(self.at, PLAIN)
            self.at += 1
        else:
            self.term(most)

    def places(self, ends):
        """Places of 999 with commas between them; their number."""
        count = 1
        self.place(999, ends)
        while self.here() == "comma":
            self.at += 1
            self.place(999, ends)
            count += 1
        return count

    def term(self, most):
        priority = self.operand(most)
        while True:
            token = self.tokens[self.at]
            if token.kind == "comma":
                own, kind = COMMA
            elif token.kind == "name" and token.text in INFIX_OPERATORS:
                own, kind = INFIX_OPERATORS[token.text]
            else:
                return priority
            left = own if kind[0] == "y" else own - 1
            right = own if kind[2] == "y" else own - 1
            if own > most or priority > left:
                return priority
            index = self.at
            self.at += 1
            self.term(right)
            self.put(index, INFIX, 2)
            priority = own

    def operand(self, most):
        index = self.at
        token = self.tokens[index]
        self.at += 1
        behind = self.tokens[self.at] if self.at < len(self.tokens) else token
        if token.kind == "name":
            if behind.kind == "open_ct":
                self.at += 1
                arity = self.places(("comma", "close"))
                self.take("close")
                self.put(index, CALL, arity)
                return 0
            if token.text == "-" and behind.kind == "number" and behind.start == token.end:
                self.at += 1
                self.put(index, NEGATIVE)
                return 0
            if token.text in PREFIX_OPERATORS:
                own, kind = PREFIX_OPERATORS[token.text]
                if own > most:
                    raise NoReading
                self.term(own if kind[1] == "y" else own - 1)
                self.put(index, PREFIX, 1)
                return own
            if token.text in INFIX_OPERATORS:
                raise NoReading
            self.put(index, PLAIN)
        elif token.kind in ("number", "string", "variable"):
            if is_lowest(token):
                raise NoReading
            self.put(index, PLAIN)
        elif token.kind in ("open", "open_ct"):
            self.place(1200, ("close",))
            self.take("close")
        elif token.kind == "open_list":
            if behind.kind == "close_list":
                self.at += 1
                self.put(index, EMPTY_LIST)
                return 0
            arity, kind = self.places(("comma", "bar", "close_list")), LIST
            if self.here() == "bar":
                self.at += 1
                self.place(999, ("close_list",))
                arity, kind = arity + 1, TAILED
            self.take("close_list")
            self.put(index, kind, arity)
        elif token.kind == "open_curly":
            if behind.kind == "close_curly":
                self.at += 1
                self.put(index, EMPTY_CURLY)
                return 0
            self.place(1200, ("close_curly",))
            self.take("close_curly")
            self.put(index, CURLY, 1)
        else:
            raise NoReading
        return 0


def reads(tokens):
    try:
        Reader(tokens).clause()
    except NoReading:
        return False
    return True


def due(tokens):
    """The closing brackets that are due behind these tokens, the next one first; None where one of theirs closes nothing."""
    closing = []
    for token in tokens:
        if token.kind in CLOSING:
            closing.append(CLOSING[token.kind])
        elif token.kind in CLOSING.values() and (not closing or closing.pop() != token.kind):
            return None
    return closing[::-1]


def completed(tokens, kinds):
    """The tokens with these behind them, apart, so that no span can matter."""
    apart = tokens[-1].end + 1
    return tokens + [Token(kind, "", apart, apart) for kind in kinds]


def begins(tokens):
    """Whether some clause, of whichever length, begins with these tokens. Two ways to go on are enough; the open brackets then close, and the mark
    follows. Behind a whole operand, `[` or `{`, nothing: priorities were settled where the operators stand. Where an operand is due, and behind a name
    that stands for one, a variable in brackets: it is an operand, and behind a name its arguments, with which every name, an operator of any priority
    too, is a term of priority 0. An end mark goes on with nothing: these tokens are the clause."""
    if tokens[-1].kind == "end":
        return reads(tokens)
    closing = due(tokens)
    return closing is not None and any(reads(completed(tokens, [*some, *closing, "end"])) for some in NEXT)


def fault_of(tokens):
    """The first token that cannot stand in a clause without a reading: no clause begins with the tokens up to it. A clause that begins with tokens
    begins with fewer of them too, so their number is found by halving."""
    standing, fallen = 0, len(tokens)
    while fallen - standing > 1:
        half = (standing + fallen) // 2
        if begins(tokens[:half]):
            standing = half
        else:
            fallen = half
    return tokens[fallen - 1]


def read_clause(text, at, room):
    """("clause", nodes, new offset) or ("refused", number, offset). The cursor is taken as valid."""
    tokens = tokens_of(text, at)
    first = tokens[0].start
    if tokens[-1].kind != "end":
        return "refused", TOO_MANY, first
    try:
        nodes = Reader(tokens).clause()
    except NoReading:
        return "refused", NO_READING, fault_of(tokens).start
    if room < 2 * len(nodes):
        return "refused", NO_ROOM, first
    return "clause", nodes, tokens[-1].end
