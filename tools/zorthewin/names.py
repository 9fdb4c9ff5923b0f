"""What is written in a trace for a number, a mask, a word or bytes of a Python call."""

import trace_forms as forms

IGNORED = forms.MOST_32


class Wrong(ValueError):
    """Something that no trace can have."""


def number(value, form, what):
    """A number of a form, from a number or from names that are joined by `|`."""
    if isinstance(value, bool) or not isinstance(value, (int, str)):
        raise Wrong(f"{what}: expected a number{' or names' if form.names else ''}; found {value!r}")
    if isinstance(value, int):
        if not 0 <= value <= form.most:
            raise Wrong(f"{what}: {value} is not from 0 to {form.most}")
        return value
    if form.names is None:
        raise Wrong(f"{what}: expected a number; found {value!r}")
    parts = value.split("|") if form.names.is_mask else [value]
    found = 0
    for part in (part.strip() for part in parts):
        one = form.names.number(part)
        if one is None:
            why = form.names.absent.get(part)
            raise Wrong(f"{what}: {part!r}: {why or 'not one of ' + ', '.join(form.names.short)}")
        found |= one
    return found


def word(value, form, what):
    """One of the words of a form, or Vulkan's name of one."""
    if isinstance(value, str) and (value in form.words or value in form.full):
        return form.full.get(value, value)
    raise Wrong(f"{what}: {value!r}: not one of {', '.join(form.words)}")


def scope(text, what):
    """The stages and the accesses of one side of a dependency."""
    if text is None:
        return [0, 0]
    if not isinstance(text, str):
        raise Wrong(f"{what}: expected STAGES:ACCESSES; found {text!r}")
    stages, _, accesses = text.partition(":")
    return [
        number(stages.strip() or "NONE", forms.STAGE_MASK, f"{what} stages"),
        number(accesses.strip() or "NONE", forms.ACCESS_MASK, f"{what} accesses"),
    ]


def large(value, what):
    """A number of 64 bits."""
    return number(value, forms.LARGE, what)


def listed(values, what, wanted):
    """Some values, in a list or a tuple."""
    if not isinstance(values, (list, tuple)):
        raise Wrong(f"{what}: expected a list of {wanted}; found {values!r}")
    return values


def length(value, what):
    """A number of bytes, or "whole"."""
    return value if value == "whole" else large(value, what)


def hexed(data, what):
    """Bytes as hex text."""
    if not isinstance(data, (bytes, bytearray, memoryview)):
        raise Wrong(f"{what}: expected bytes; found {data!r}")
    return bytes(data).hex()


def span(value, count, what):
    """The first of some levels or layers and how many, from none (all), one number, a pair or a range."""
    if value is None:
        return 0, count
    if isinstance(value, int) and not isinstance(value, bool):
        value = (value, 1)
    if isinstance(value, range) and value.step == 1:
        value = (value.start, len(value))
    if not isinstance(value, tuple) or len(value) != 2:
        raise Wrong(f"{what}: expected a number, a pair of the first and how many, or a range; found {value!r}")
    first, many = (number(each, forms.SMALL, what) for each in value)
    if many == 0 or first + many > count:
        raise Wrong(f"{what}: {many} from {first} on are not among the {count} of the image")
    return first, many
