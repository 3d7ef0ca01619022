"""Deliveries that a script makes, for call `s`: demo files byte by byte, small texts cut at every place with empty chunks between, tokens of about 1,024
bytes, texts of about 65,535. Their answers are those of chunks.py, asked of the probe's token call; by-hand.txt holds those whose answers a person
wrote."""
from chunks import LONGEST_LINE, LONGEST_TEXT, LONGEST_TOKEN
from probe import ROOT

# each is cut at every place
SMALL = (b"/* c */a.", b"/**/(", b"a */ b", b"*/ ", b"/ * ", b"/*/ ", b"0x1.0e+ ", b"1.0e+5 ", b"1.0E-x", b"'a''b' ", b'"a\\x41\\b"', b"'a\\\nb'.", b"a.\nb. ", b"a.\r\n(", b".%\n(", b"0''' ", b"0''x", b"0'\\n ",
         b"% c\nx.", b"a||b|c", b"f( (X", b"9223372036854775808 ", b"9223372036854775809 ", b"1_0", b"a\x01", b"`", b"'a\n'", b"/*\x80*/")
# smallest texts at the border of 1,024 bytes, on both sides: what stands before the bytes that make the length, such a byte, and what stands behind them
EDGES = (
    (b"", b"a", b" "), (b"", b"a", b""), (b"", b"a", b"\1"), (b"", b"A", b"("), (b"", b"+", b" "), (b"'", b"a", b"' "), (b"'", b"a", b"\n"), (b'"', b"a", b'"'), (b"'", b"a", b"\\q"), (b"'\\200\\", b"a", b"'."),
    (b"", b"0", b"_"), (b"", b"0", b".x"), (b"", b"0", b".5 "), (b"", b"0", b".\1"), (b"", b"0", b". "), (b"", b"0", b"."), (b"", b"0", b"e5 "), (b"", b"9", b". "), (b"", b"9", b" "), (b"", b"9", b".5 "), (b"", b"9", b".0e5 "), (b"", b"*", b"/ "),
    (b"", b"0", b".0e+x"), (b"", b"0", b".0e+5 "), (b"", b"0", b".0E-"), (b"", b"0", b".0e\1"), (b"0x", b"0", b" "), (b"0x", b"f", b"g"), (b"0'\\", b"0", b"200\\"), (b"0'\\x", b"0", b"41\\"), (b"0'\\x", b"0", b"g"),
    (b"/*", b"a", b""), (b"/*", b"*", b"/a "), (b"%", b"a", b"\n("), (b"", b" ", b"(a"),
)


def body(cuts, text):
    """The cuts are lengths and `e`."""
    return " ".join(map(str, cuts)).encode() + b"\n" + text


def at_every_place(text):
    """Two chunks, with empty ones around them; then every byte by itself, with and without."""
    for place in range(len(text) + 1):
        yield body([0, place, 0], text)
    yield body([1] * len(text) + ["e"], text)
    yield body([0] + [1, 0] * len(text), text)


def demo_files():
    """Byte by byte, by sevens, whole."""
    for name in ("march.pl", "laptop.pl"):
        text = (ROOT / "demo" / name).read_bytes()
        yield from (body([1] * len(text), text), body([7] * (len(text) // 7), text), body([], text))


def byte_by_byte(text, place):
    """From this place on; what comes first is one chunk."""
    return body([place] + [1] * min(len(text) - place, (LONGEST_LINE - 8) // 2), text)


def edges():
    """Every length about the border, whole and byte by byte there, at the text's start and behind other tokens."""
    for before, byte, behind in EDGES:
        for count in range(LONGEST_TOKEN - len(before) - len(behind) - 3, LONGEST_TOKEN - len(before) + 5):
            for front in (b"", b"x.\r\n\t/* c */"):
                text = front + before + byte * count + behind
                yield from (body([], text), byte_by_byte(text, len(front) + LONGEST_TOKEN - 12), body([3, 0, 500, "e"], text[:503]))


def limits():
    """Texts of 65,534 to 65,537 bytes, in chunks that pass the limit at their first byte or their last."""
    for length in range(LONGEST_TEXT - 1, LONGEST_TEXT + 3):
        text = b"a.\n" + b" " * (length - 8) + b"(b. %"
        for cuts in ([], [40000], [LONGEST_TEXT - 1], [LONGEST_TEXT - 1, 0, length - LONGEST_TEXT + 1], [min(length, LONGEST_TEXT), 0], [length, "e"], [3, "e"]):
            yield body(cuts, text)


def stored():
    """Those that stand in the stored list."""
    yield from demo_files()
    for text in SMALL:
        yield from at_every_place(text)


def malformed():
    """Bodies that are none of `s`. Each ends the probe, so none is stored; hold-chunks asks them one by one."""
    return [b"", b"1", b"3\nab", b"2 1\nab", b"e e\n", b"e 1 e\na", b" \n", b" 1\na", b"1 \na", b"1  1\nab", b"x\n", b"-1\na", b"+1\na", b"1,1\nab", b"ee\n", b"1e\na", b"e1\na", b"E\n", b"\t\n", b"0x1\na",
            b"18446744073709551615\na", b"18446744073709551616\na", b"18446744073709551617\na", b"9" * 4096 + b"\na", b"0" * 4097 + b"\na", b"0 " * 2048 + b"0\na", b"1\r\na"]
