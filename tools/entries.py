"""What the entries that make resources ask for."""

from shapes import Shape


def rounded(entry):
    """The bytes of memory that the resource of an entry asks for."""
    return Shape(entry).size() if entry[0] == "image" else (entry[2] + 15) // 16 * 16


def aligned(entry):
    """A multiple of how many bytes it is to begin at."""
    return Shape(entry).alignment() if entry[0] == "image" else 16


def is_tiled(entry):
    return entry[0] == "image" and not Shape(entry).is_linear


def place_of(entry):
    return entry[-1]


def sharing_of(entry):
    return entry[-2]


def usage_of(entry):
    return entry[-3]
