"""Whether a text is a trace, by the forms of trace_forms.py alone: a second reading of what `replay` takes."""

import json
import re

from trace_forms import MOST_64, TRACE, Bytes, Choice, Length, Many, Number, Word

# Longer numbers than any trace has.
LONGEST_NUMBER = 40


class Odd:
    """What a trace doesn't have: a number with a sign, a point or an exponent, or an object."""


def number(text):
    """A number as it is written."""
    return int(text) if text.isdigit() and len(text) < LONGEST_NUMBER else Odd


def odd(_):
    """What stands for a value that no trace has."""
    return Odd


def is_trace(text):
    """Whether a text is a trace."""
    hooks = {"parse_int": number, "parse_float": odd, "parse_constant": odd, "object_pairs_hook": odd}
    try:
        return fits(json.loads(text.decode(), **hooks), TRACE)
    except (ValueError, RecursionError):
        return False


def fits(value, form):
    """Whether a value has a form."""
    if isinstance(form, Number):
        return type(value) is int and value <= form.most
    if isinstance(form, Word):
        return isinstance(value, str) and value in form.words
    if isinstance(form, Bytes):
        return isinstance(value, str) and re.fullmatch("([0-9A-Fa-f]{2})*", value) is not None
    if isinstance(form, Length):
        return value == "whole" or fits(value, Number(MOST_64))
    return isinstance(value, list) and has_members(value, form)


def has_members(members, form):
    """Whether an array has the members of a form."""
    if isinstance(form, Many):
        return all(fits(member, form.item) for member in members)
    if isinstance(form, Choice):
        word = members[0] if members and isinstance(members[0], str) else None
        return word in form.rows and has_members(members[1:], form.rows[word]._replace(word=None))
    if form.word is not None:
        return members[:1] == [form.word] and has_members(members[1:], form._replace(word=None))
    forms = [each for _, each in form.members]
    return len(members) == len(forms) and all(map(fits, members, forms))
