"""Reads the text of a trace as people write it: JSON's arrays, strings and whole numbers, and beside these numbers in
hex (0x1000), comments (`// ..` and `/* .. */`) and commas behind a last member. Each value keeps its place.
"""

import json
import re
from bisect import bisect_right

# (nothing may follow in the expression of blanks, or a comment would be taken for a longer one where that fails)
BLANKS = re.compile(r"(?:[ \t\r\n]+|//[^\n]*|/\*.*?\*/)*", re.DOTALL)
TOKEN = re.compile(r'[][,]|"[^"\\\x00-\x1f]*(?:\\.[^"\\\x00-\x1f]*)*"|[-+.\w]+', re.DOTALL)
DECIMAL = re.compile(r"0|[1-9][0-9]*")
HEX = re.compile(r"0[xX][0-9A-Fa-f]+")
# No number of a trace has more characters (some zeros before it allowed).
MOST_CHARACTERS = 64
SHOWN = 40


class Mistake(Exception):
    """Something that keeps a text from being a trace, with its offset."""

    def __init__(self, at, said):
        super().__init__(said)
        self.at = at
        self.said = said


class Other:
    """A value of JSON that no trace has, such as `null` or `1.5`."""

    def __init__(self, text):
        self.text = text


class Value:
    """A value with where it begins, and where its last character is."""

    __slots__ = ("at", "last", "value")

    def __init__(self, at, last, value):
        self.at = at
        self.last = last
        self.value = value

    def found(self):
        """The value as messages name it."""
        if isinstance(self.value, list):
            return "an array"
        if isinstance(self.value, Other):
            return shortened(self.value.text)
        return shortened(json.dumps(self.value))


def shortened(text):
    """A text without what is too long to be shown."""
    return text if len(text) <= SHOWN else f"{text[:SHOWN]}.. ({len(text)} characters)"


class Lines:
    """Where the lines of a text begin."""

    def __init__(self, text):
        self.starts = [0, *(found.end() for found in re.finditer("\n", text))]

    def place(self, at):
        """The line and the column of an offset, counted from 1."""
        line = bisect_right(self.starts, at)
        return line, at - self.starts[line - 1] + 1


def decoded(data):
    """The text of some bytes, without a mark of its encoding before it."""
    try:
        return data.decode("utf-8-sig")
    except UnicodeDecodeError as error:
        before = data[: error.start].decode("utf-8-sig")
        said = f"the text isn't UTF-8: found the byte 0x{data[error.start]:02x}"
        raise Unreadable(before, Mistake(len(before), said)) from error


class Unreadable(Exception):
    """A text that has no end, with what is before the mistake."""

    def __init__(self, before, mistake):
        super().__init__(mistake.said)
        self.before = before
        self.mistake = mistake


def tokens(text):
    """Each token of a text but blanks and comments: where it begins, and what it is."""
    match, at = TOKEN.match, 0
    while True:
        found = match(text, at)
        if not found:
            at = BLANKS.match(text, at).end()
            found = match(text, at)
            if not found:
                break
        yield at, found[0]
        at = found.end()
    if at < len(text):
        raise Mistake(at, unknown(text, at))


def unknown(text, at):
    """What is said of a text that no token begins."""
    if text.startswith("/*", at):
        return "a comment begins that has no end"
    if text[at] == '"':
        return "a string begins that has no end on its line"
    if text[at] in "{}:":
        return f"a trace has no objects: found {text[at]}"
    if text[at] == "'":
        return "strings stand in double quotes: found '"
    return f"expected a value; found {json.dumps(text[at])}"


def leaf(at, token):
    """The value of a string, a number or a word."""
    last = at + len(token) - 1
    if token[0] == '"':
        if "\\" not in token:
            return Value(at, last, token[1:-1])
        try:
            return Value(at, last, json.loads(token))
        except ValueError as error:
            raise Mistake(at, f"expected a string of JSON; found {shortened(token)}") from error
    if len(token) <= MOST_CHARACTERS:
        if DECIMAL.fullmatch(token):
            return Value(at, last, int(token))
        if HEX.fullmatch(token):
            return Value(at, last, int(token, 16))
    if token in ("null", "true", "false") or token[0] in "+-.0123456789":
        return Value(at, last, Other(token))
    raise Mistake(at, f'names stand in quotes, as "{shortened(token)}"; found {shortened(token)}')


def parse(text):
    """The one value of a text; a Mistake where there is none."""
    top = Value(0, 0, [])
    open_arrays = [top]
    is_behind_value = False
    for at, token in tokens(text):
        inner = open_arrays[-1]
        if token == ",":
            if not is_behind_value or inner is top:
                raise Mistake(at, "expected a value; found a comma")
            is_behind_value = False
        elif token == "]":
            if inner is top:
                raise Mistake(at, "found a bracket that closes no array")
            inner.last = at
            open_arrays.pop()
            is_behind_value = True
        else:
            if is_behind_value:
                where = "the end of the text" if inner is top else "a comma or the end of the array"
                raise Mistake(at, f"expected {where}; found {shortened(token)}")
            if token == "[":
                open_arrays.append(Value(at, at, []))
                inner.value.append(open_arrays[-1])
            else:
                inner.value.append(leaf(at, token))
                is_behind_value = True
    if len(open_arrays) > 1:
        raise Mistake(open_arrays[-1].at, "an array begins here that has no end")
    if not top.value:
        raise Mistake(len(text), "expected a trace; found the end of the text")
    return top.value[0]


# ---- the same text as JSON


def as_json(text, changes):
    """The text as JSON, on the same lines: without comments and commas behind a last member, and with the changes,
    each by its offset. Beside it the line, the column and the offset in the text of each value."""
    written, places = [], []
    line, column, before, comma = 1, 1, 0, False
    for at, token in tokens(text):
        if comma and token != "]":
            written.append(",")
            column += 1
        if before < at:
            gap = blanks(text[before:at])
            written.append(gap)
            rise = gap.count("\n")
            line, column = line + rise, (1 if rise else column) + len(gap) - gap.rfind("\n") - 1
        before = at + len(token)
        comma = token == ","
        if comma:
            continue
        if token != "]":
            places.append((line, column, at))
        new = changes.get(at, token)
        written.append(new)
        column += len(new)
    return "".join(written) + "\n", places


def blanks(gap):
    """What stands between two tokens, without comments and what is before the end of a line."""
    rise = gap.count("\n")
    if not rise:
        return " "
    indent = gap[gap.rfind("\n") + 1 :]
    return "\n" * rise + indent[: len(indent) - len(indent.lstrip(" \t"))]
