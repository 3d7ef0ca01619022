"""The probe's format (docs/PROBE.md) for the scripts: a case as it is put to it, and what a program that tools/build built says."""
import subprocess
from pathlib import Path

ROOT = Path(__file__).resolve().parent.parent.parent
START = (0, 0, 0)
# what stands in lent bytes and in lent numbers before a call
FILL = 165
TREE_FILL = 43690
# the longest body
MOST_LENGTH = 70000
# the letters whose body is no text
NO_TEXT = "sukKmM"
STORED = ROOT / "crates" / "probe" / "stdin"


def case_of(call, cursor, room, text):
    return b"%s %d %d %d %d %d\n%s\n" % (call.encode(), *cursor, room, len(text), text)


def stored_cases():
    """The stored list: call, cursor, room and body of each case."""
    data, at = STORED.read_bytes(), 0
    while at < len(data):
        behind = data.index(b"\n", at) + 1
        call, *numbers = data[at:behind].split()
        *cursor, room, length = map(int, numbers)
        yield call.decode(), tuple(cursor), room, data[behind:behind + length]
        at = behind + length + 1


def moved(text, given, offset):
    """The cursor at that offset, counted on from the given one."""
    passed = text[given[0]:offset]
    lines = passed.count(b"\n")
    return offset, given[1] + lines, len(passed) - passed.rfind(b"\n") - 1 if lines else given[2] + len(passed)


def refused_line(number, at, given):
    return "refused %s %s %d %d %d" % (number, at, *given)


def built(name):
    """The command that runs target/bin/NAME."""
    return [ROOT / "target" / "bin" / name]


def lines_said(command, given):
    return subprocess.run(command, input=given, stdout=subprocess.PIPE, check=True).stdout.decode("latin-1").split("\n")[:-1]
