"""What the probe's call `s`, the reader of chunks, must print: request 3 of document 02 read plainly. It knows a text's bytes up to where they have come,
and what the token call says of whole texts, and nothing of how the reader keeps them.

A byte that has not come is put as byte 0. That is foreign, and the token call refuses by 5, at that byte, exactly where a rule looks at one. So what it
says of the bytes that have come, with byte 0 behind them, is certain unless it is 5 at that byte. A case is a generator: it yields what it wants to know,
a text and a cursor, is sent the token call's answers from there on up to the first refusal, each as words, and returns its lines. `answered` runs many
at once."""
import re

from probe import START, case_of, lines_said, refused_line

LONGEST_TEXT = 65535
LONGEST_LINE = 4096
LONGEST_TOKEN = 1024
TOO_LONG, NOT_VALID, FOREIGN = 15, 8, 5
# the byte that shows 4 and 6 is the token's own
OWN_BYTE = (4, 6)
UNKNOWN = b"\0"
DIGITS = b"0123456789"
# behind its digits a number may put these back
PUT_BACK = b".eE+-"
LAYOUT = re.compile(rb"(?:[\t\n\r ]|%[^\n]*\n|/\*.*?\*/)*", re.S)
# a whole number, whatever its value
NUMBER = re.compile(rb"0x[0-9A-Fa-f]+|0o[0-7]+|0b[01]+|0'\\(?:x[0-9A-Fa-f]+|[0-7]+)\\|[0-9]+(?:\.[0-9]+(?:[eE][+-]?[0-9]+)?)?")
# a step at which the end is said; the others are chunks
END = None
# about how many bytes are put to the probe at once
BATCH_BYTES = 20000000


def steps(body):
    """What the sender does in turn; nothing where the body has not the form."""
    line, newline, text = body.partition(b"\n")
    if not newline or len(line) > LONGEST_LINE:
        return []
    made, at, ended = [], 0, False
    for item in line.split(b" ") if line else ():
        if item == b"e" and not ended:
            made.append(END)
            ended = True
        elif re.fullmatch(rb"[0-9]+", item) and at + int(item) <= len(text):
            chunk = text[at:at + int(item)]
            at += len(chunk)
            made += [chunk] if chunk or not ended else []
        else:
            return []
    made += [text[at:]] if at < len(text) else []
    return made + ([] if ended else [END])


def refused(number, at):
    return refused_line(number, at, START)


def longer(text, cursor, start, number):
    """Whether a token that is refused by this number has more than 1,024 bytes."""
    if number == 7 and text[start] in DIGITS:
        return NUMBER.match(text, start).end() > start + LONGEST_TOKEN
    shown = start + LONGEST_TOKEN + (0 if number in OWN_BYTE else 1)
    if len(text) < shown:
        return False
    first, *_ = yield text[:shown] + UNKNOWN, cursor
    return first[:3] == ["refused", str(FOREIGN), str(shown)]


def too_long(come, start):
    """Whether the bytes of an open token that have come are too many."""
    count = len(come) - start
    if count <= LONGEST_TOKEN:
        return False
    may_shrink = come[start] in DIGITS and come[start + LONGEST_TOKEN] in PUT_BACK
    return not may_shrink or count > LONGEST_TOKEN + 2


def reading(come, ended, cursor):
    """What the bytes that have come give from the cursor on: the lines of tokens, the line behind them, the cursor behind the last token."""
    text = come if ended else come + UNKNOWN
    if len(text) > LONGEST_TEXT and cursor == START:
        return (yield from reading_in_two(come, cursor))
    *tokens, (_, number, at, *_) = yield text, cursor
    lines = []
    for words in tokens:
        start, offset = int(words[2]), int(words[3])
        if offset > start + LONGEST_TOKEN:
            return lines, refused(TOO_LONG, start), cursor
        lines.append(" ".join(words))
        cursor = tuple(map(int, words[3:6]))
    number, at = int(number), int(at)
    start = LAYOUT.match(come, cursor[0]).end()
    # what is left is layout, or a comment that is not closed
    no_token = start == len(come) or come.startswith((b"%", b"/*"), start)
    if not ended and (number, at) == (FOREIGN, len(come)):
        if no_token or not too_long(come, start):
            return lines, "more", cursor
        return lines, refused(TOO_LONG, start), cursor
    if not no_token and (yield from longer(text, cursor, start, number)):
        return lines, refused(TOO_LONG, start), cursor
    return lines, refused(number, at), cursor


def reading_in_two(come, cursor):
    """No call takes as many bytes and one behind them: first what is certain without the last, which has to be a token at least."""
    lines, last, behind = yield from reading(come[:-1], False, cursor)
    if last != "more":
        return lines, last, behind
    if behind == cursor:
        raise ValueError("too long to be asked")
    others, last, behind = yield from reading(come, False, behind)
    return lines + others, last, behind


def delivery(body):
    """A case."""
    every = steps(body)
    if not every:
        return ["malformed"]
    lines, come, ended, cursor = [], b"", False, START
    # behind all, with the end said, tokens are asked for
    for step in every + [b""]:
        if step is END:
            ended = True
            continue
        if step and (ended or len(come) + len(step) > LONGEST_TEXT):
            last = refused(NOT_VALID, 0)
        else:
            come += step
            tokens, last, cursor = yield from reading(come, ended, cursor)
            lines += tokens
        lines.append(last)
        if last != "more":
            # asked once more; and, unless the end has been said, fed an empty chunk
            return lines + [last] * (1 if ended else 2)
    raise ValueError("the text ended, and nothing was refused")


def answered(bodies, ask):
    """The lines of each case. `ask` is given many questions, a text and a cursor each, and gives the answers to each."""
    lines, open_cases, answers = [None] * len(bodies), {}, {}
    for index, body in enumerate(bodies):
        open_cases[index], answers[index] = delivery(body), None
    while open_cases:
        questions = {}
        for index, case in list(open_cases.items()):
            try:
                questions[index] = case.send(answers[index])
            except StopIteration as end:
                lines[index] = end.value
                del open_cases[index]
        answers = dict(zip(questions, ask(list(questions.values())), strict=True))
    return lines


def counted_on(words, cursor):
    """An answer about the text from the cursor on, said of the whole text."""
    offset, line, column = cursor
    count = [int(word) for word in words[2:6]]
    count = [count[0] + offset, count[1] + offset, count[2] + line, count[3] + (0 if count[2] else column)]
    # of a token its value, and where the layout before it began
    rest = words[6:7] + [str(int(word) + offset) for word in words[7:]]
    return words[:2] + [str(number) for number in count] + rest


class Asking:
    """Questions, put to the token call of the probe that this command runs; each is put once. A text that the byte behind it makes too long is put from
    its cursor on."""

    def __init__(self, command):
        self.command = command
        self.known = {}

    def __call__(self, questions):
        batch, size = [], 0
        for question in dict.fromkeys(questions):
            if question not in self.known:
                batch.append(question)
                size += len(question[0])
                if size > BATCH_BYTES:
                    self.learn(batch)
                    batch, size = [], 0
        if batch:
            self.learn(batch)
        return [self.known[question] for question in questions]

    def learn(self, batch):
        lines = iter(lines_said(self.command, b"".join(self.case(*question) for question in batch)))
        for text, cursor in batch:
            said = []
            while not said or said[-1][0] != "refused":
                said.append(next(lines).split())
            self.known[text, cursor] = [counted_on(words, cursor) for words in said] if len(text) > LONGEST_TEXT else said

    def case(self, text, cursor):
        if len(text) > LONGEST_TEXT:
            text, cursor = text[cursor[0]:], START
        return case_of("T", cursor, 0, text)
