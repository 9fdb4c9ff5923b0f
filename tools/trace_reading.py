"""Reads the trace of a text that people write: the forms of trace_forms.py, with names for numbers, over the text of
trace_text.py. Whatever doesn't fit is a mistake with its place, what is expected there, and what was found.
"""

import difflib
import json
import re

from trace_forms import MOST_64, STAGES, TRACE, Bytes, Choice, Length, Many, Number, Row, Word
from trace_text import Lines, Mistake, Unreadable, decoded, parse, shortened

# So many mistakes are said at most.
MOST_SAID = 20
# So much of a name is compared with those that there are.
COMPARED = 60
HEX_BYTES = re.compile(r"([0-9A-Fa-f]{2})*")
WHOLE_SIZES = ("WHOLE_SIZE", "VK_WHOLE_SIZE")


def a(what):
    """A thing with its article."""
    return f"{'an' if what[0] in 'aeiou' else 'a'} {what}"


def quoted(words):
    """Words of which one is expected."""
    *first, last = map(json.dumps, words)
    return f"{', '.join(first)} or {last}" if first else last


def expected(form):
    """What is expected where a form is."""
    if isinstance(form, Number):
        number = f"a number from 0 to {form.most}"
        if form.names is None:
            return number
        several = ' (several joined by "|")' if form.names.is_mask else ""
        return f"{', '.join(form.names.short)}{several} or {number}"
    if isinstance(form, Word):
        return quoted(form.words)
    if isinstance(form, Length):
        return 'a number of bytes, or "whole"'
    if isinstance(form, Bytes):
        return "a string of bytes in hex, two digits each"
    if isinstance(form, Many):
        return f"an array of {form.what}"
    if isinstance(form, Row):
        return form.shown()
    return f"an array that begins with {quoted(form.rows)}"


# ---- from names to numbers


class Reading:
    """Some bytes that are read: the trace that they have, what is wrong in them, and what is to be known of them."""

    def __init__(self, data):
        self.mistakes = []
        # The names that the profile folds into others: how often, and where first.
        self.folded = {}
        # What stands in place of names and numbers in hex, by offset.
        self.changes = {}
        self.trace = None
        try:
            self.text = decoded(data)
        except Unreadable as unreadable:
            self.text = unreadable.before
            self.mistakes.append(unreadable.mistake)
        self.lines = Lines(self.text)
        if not self.mistakes:
            self.read()

    def read(self):
        """Reads the trace of the text."""
        try:
            self.trace = self.value(parse(self.text), TRACE, "a trace")
        except Mistake as mistake:
            self.mistakes.append(mistake)

    def wrong(self, at, where, wanted, found):
        """Notes a mistake in something, or in a member of a row by its name."""
        if isinstance(where, tuple):
            name, row = where
            where = f"{name} of {a(row.what)}"
        self.mistakes.append(Mistake(at, f"{where}: expected {wanted}; found {found}"))

    def value(self, node, form, where):
        """The plain value of a node that is to have a form."""
        if isinstance(form, (Many, Row, Choice)):
            if isinstance(node.value, list):
                return self.array(node, form, where)
        elif isinstance(form, Number):
            if isinstance(node.value, str) and form.names is not None:
                return self.named(node, form, where)
            if isinstance(node.value, int) and node.value <= form.most:
                return self.changed(node, node.value)
        elif isinstance(form, Length) and isinstance(node.value, int):
            if node.value <= MOST_64:
                return self.changed(node, node.value)
        elif isinstance(node.value, str):
            word = self.word(node.value, form)
            if word is not None:
                return self.changed(node, word)
            if isinstance(form, Word):
                return self.unknown(where, form.words, node)
        self.wrong(node.at, where, expected(form), node.found())
        return None

    def changed(self, node, value):
        """The value, which stands in place of what was written."""
        written = json.dumps(value)
        if self.text[node.at : node.last + 1] != written:
            self.changes[node.at] = written
        return value

    @staticmethod
    def word(text, form):
        """The word of the format that a text stands for; none where it is none."""
        if isinstance(form, Word):
            return text if text in form.words else form.full.get(text)
        if isinstance(form, Length):
            return "whole" if text == "whole" or text in WHOLE_SIZES else None
        return text if HEX_BYTES.fullmatch(text) else None

    # ---- arrays

    def array(self, node, form, where):
        """The values of an array."""
        if isinstance(form, Many):
            what = a(form.item.of if isinstance(form.item, Number) else form.item.what)
            return [self.value(each, form.item, what) for each in node.value]
        items = node.value
        lead = []
        if isinstance(form, Choice):
            if not items:
                return self.wrong(node.at, where, expected(form), "an empty array")
            word = items[0].value
            if not isinstance(word, str) or word not in form.rows:
                return self.unknown(f"the name of {a(form.what)}", form.rows, items[0])
            self.changed(items[0], word)
            form, lead, items = form.rows[word], [word], items[1:]
        return lead + self.members(node, items, form)

    def members(self, node, items, form):
        """The values of the members of a row."""
        values = []
        for (name, member), item in zip(form.members, items):
            values.append(self.value(item, member, (name, form)))
        if len(items) < len(form.members):
            name, member = form.members[len(items)]
            found = f"the end of the array, which is to be {form.shown()}"
            self.wrong(node.last, (name, form), expected(member), found)
        elif len(items) > len(form.members):
            more = items[len(form.members)]
            self.wrong(more.at, a(form.what), f"the end of {form.shown()}", more.found())
        return values

    # ---- names

    def unknown(self, where, words, node):
        """Notes a word that isn't there, with one that is like it."""
        near = difflib.get_close_matches(str(node.value)[:COMPARED], words, 1)
        meant = f" (is {json.dumps(near[0])} meant?)" if near else ""
        self.wrong(node.at, where, quoted(words), node.found() + meant)

    def named(self, node, form, where):
        """The number that names stand for."""
        names, number, offset = form.names, 0, node.at + 1
        is_plain = self.text[node.at : node.last + 1] == f'"{node.value}"'
        for part in node.value.split("|") if names.is_mask else [node.value]:
            name = part.strip()
            at = offset + len(part) - len(part.lstrip()) if is_plain and name else node.at
            found = names.number(name)
            if found is None:
                self.unnamed(at, where, form, name)
                return None
            if name in names.folded:
                self.folded.setdefault(name, []).append(at)
            number |= found
            offset += len(part) + 1
        return self.changed(node, number)

    def unnamed(self, at, where, form, name):
        """Notes a name that isn't there."""
        names = form.names
        found = shortened(json.dumps(name))
        if name in names.absent:
            found += f": {names.absent[name]}"
        else:
            all_names = [*names.short, *names.full, *names.folded]
            near = difflib.get_close_matches(name[:COMPARED], all_names, 1)
            found += f" (is {json.dumps(near[0])} meant?)" if near else ""
        self.wrong(at, where, expected(form), found)

    # ---- what is said

    def said(self, name):
        """What is wrong, or else what is to be known, a line each, with its place."""
        if self.mistakes:
            for mistake in self.mistakes[:MOST_SAID]:
                yield f"{self.place(name, mistake.at)}: {mistake.said}"
            if len(self.mistakes) > MOST_SAID:
                yield f"{name}: and {len(self.mistakes) - MOST_SAID} more mistakes"
            return
        for word, places in self.folded.items():
            times = f" ({len(places)} times)" if len(places) > 1 else ""
            short, why = STAGES.folded[word]
            yield f"{self.place(name, places[0])}: note: {word}{times} is folded into {short}: {why}"

    def place(self, name, at):
        """A place in the text, as editors read it."""
        line, column = self.lines.place(at)
        return f"{name}:{line}:{column}"
