"""Mutations of traces: small changes of a trace's text or of its members, most of which make it broken or no trace.

Each mutation is drawn from a random generator. Those of TEXT change bytes; those of MEMBERS change a trace as lists,
numbers and words, in place.
"""

from copy import deepcopy

from trace_forms import ENTRY, FORMAT, KIND, PLACE, SHARING, TILING

# Numbers at the limits of the format and of the rules, each with its neighbours.
EDGES = (
    *(0, 4, 16, 64, 256, 1_024, 4_096, 16_384, 65_536, 131_072, 1_048_576, 4_194_304),
    *(16_777_216, 67_108_864, 1 << 31, 1 << 32, 1 << 53, 1 << 63, 1 << 64),
)
LIMITS = sorted({edge + near for edge in EDGES for near in (-1, 0, 1) if edge + near >= 0})
LIMITS_OF_32_BITS = [limit for limit in LIMITS if limit >> 32 == 0]
# Texts that stand where a number did.
ODD_NUMBERS = (
    *(b"-1", b"-0", b"+1", b"01", b"1.0", b"1e0", b"1E2", b"0x10", b".5", b"1.", b"NaN", b"1_0"),
    *(b"4294967296", b"18446744073709551616", b"9" * 400, b"\xd9\xa3"),
)
# Texts that go in between.
JUNK = (
    *(b"[", b"]", b"[[", b"]]", b",", b",,", b'"', b"\\", b"{", b"}", b"{}", b'{"a":1}', b":", b"null", b"true"),
    *(b"\x00", b"\x1f", b"\xff", b"\xc3", b"\xc0\x80", b"\xed\xa0\x80", b"\xf4\x90\x80\x80", b"\xef\xbb\xbf"),
    *(b"\xc2\xa0", b"\xe2\x80\xa8", b" ", b"\n", b"\r", b"\t", b"\x0b", b"// x", b"/**/", b"#"),
    *(rb'"\u0000"', rb'"\ud800"', rb'"\ud83d\ude00"', rb'"\x"', b'""', b"[" * 200, b"]" * 200, b"{" * 100),
)
WORDS = (
    *("", "whole", "0", "00", "0g", "abc", "0A0b", "dedicated ", "WHOLE", "\u00e9", "a" * 300),
    *(*FORMAT.words, *TILING.words, *SHARING.words, *KIND.words, *PLACE.rows, *ENTRY.rows),
)
MOST_DOUBLED = 4_096


# ---- of texts


def flip(random, text):
    """Turns one to three bits."""
    for _ in range(random.randint(1, 3)):
        if text:
            text[random.randrange(len(text))] ^= 1 << random.randrange(8)


def put_byte(random, text):
    """Puts any byte in place of one."""
    if text:
        text[random.randrange(len(text))] = random.randrange(256)


def cut(random, text):
    """Leaves a front."""
    del text[random.randint(0, len(text)) :]


def cut_start(random, text):
    """Leaves an end."""
    del text[: random.randint(0, len(text))]


def part(random, text):
    """Where a short part of the text begins and ends."""
    start = random.randint(0, len(text))
    return start, min(len(text), start + random.choice((1, 2, 5, 20, 100)))


def leave_out(random, text):
    """Leaves out a short part."""
    start, end = part(random, text)
    del text[start:end]


def say_twice(random, text):
    """Doubles a short part."""
    start, end = part(random, text)
    text[end:end] = text[start:end]


def put_in(random, text):
    """Puts in what isn't expected there."""
    at = random.randint(0, len(text))
    text[at:at] = random.choice(JUNK)


def put_behind(random, text):
    """Puts something behind the trace: a second one, or what isn't expected."""
    text += random.choice((b"[]", bytes(text[:MOST_DOUBLED]), *JUNK))


def write_number(random, text):
    """Writes a number in another way."""
    starts = [k for k, byte in enumerate(text) if 48 <= byte < 58 and (k == 0 or not 48 <= text[k - 1] < 58)]
    if starts:
        start = end = random.choice(starts)
        while end < len(text) and 48 <= text[end] < 58:
            end += 1
        text[start:end] = random.choice(ODD_NUMBERS)


TEXT = (flip, put_byte, cut, cut_start, leave_out, say_twice, put_in, put_behind, write_number)


# ---- of members


def lists_in(value):
    """A list and all that are in it."""
    if isinstance(value, list):
        yield value
        for member in value:
            yield from lists_in(member)


def places_of(trace, kind):
    """The members of a kind, each as its list and its place there."""
    return [
        (members, k)
        for members in lists_in(trace)
        for k, member in enumerate(members)
        if isinstance(member, kind) and not isinstance(member, bool)
    ]


def any_list(random, trace, least=1):
    """A list that has so many members: mostly the trace, or one of lists, such as commands and regions."""
    found = [members for members in lists_in(trace) if len(members) >= least]
    of_lists = [members for members in found if all(isinstance(member, list) for member in members)]
    choices = random.choice(([trace] if len(trace) >= least else [], of_lists, of_lists, found))
    return random.choice(choices) if choices else None


def drop(random, trace):
    """Leaves out a member of a list."""
    members = any_list(random, trace)
    if members:
        del members[random.randrange(len(members))]


def double(random, trace):
    """Says a member of a list twice, or many times."""
    members = any_list(random, trace)
    if members:
        at = random.randrange(len(members))
        members[at:at] = [deepcopy(members[at]) for _ in range(random.choice((1, 1, 1, 2, 7, 64)))]


def swap(random, trace):
    """Swaps two members of a list."""
    members = any_list(random, trace, 2)
    if members:
        one, other = random.sample(range(len(members)), 2)
        members[one], members[other] = members[other], members[one]


def move(random, trace):
    """Moves a member of a list to another place, mostly of the same list."""
    members = any_list(random, trace)
    if members:
        member = members.pop(random.randrange(len(members)))
        target = members if random.random() < 0.8 else random.choice(list(lists_in(trace)))
        target.insert(random.randint(0, len(target)), member)


def limit(random, trace):
    """Puts a number at a limit in place of one."""
    found = places_of(trace, int)
    if found:
        members, k = random.choice(found)
        members[k] = random.choice(LIMITS if random.random() < 0.3 else LIMITS_OF_32_BITS)


def shift(random, trace):
    """Changes a number a little, or by a factor."""
    found = places_of(trace, int)
    if found:
        members, k = random.choice(found)
        old = members[k]
        members[k] = random.choice((old + 1, max(0, old - 1), old * 2, old // 2, old ^ 4_096, old * 16))


def move_id(random, trace):
    """Puts a number of the trace in place of another one, mostly one that stands first behind a word, as ids do."""
    found = places_of(trace, int)
    first = [(members, k) for members, k in found if k == 1 and isinstance(members[0], str)]
    if first:
        members, k = random.choice(first if random.random() < 0.8 else found)
        other, i = random.choice(first if random.random() < 0.8 else found)
        members[k] = other[i]


def put_word(random, trace):
    """Puts a word in place of one, or of a number."""
    found = places_of(trace, (str, int))
    if found:
        members, k = random.choice(found)
        members[k] = random.choice((random.choice(WORDS), "whole", "ab" * random.choice((1, 4, 64, 65_536))))


def put_value(random, trace):
    """Puts another kind of value in place of a member."""
    members = any_list(random, trace)
    if members:
        nested = []
        for _ in range(random.choice((1, 3, 130))):
            nested = [nested]
        odd = (None, True, False, 1.5, -1, {}, {"a": []}, [], nested, 7, "x", [1, 2, 3])
        members[random.randrange(len(members))] = random.choice(odd)


def add(random, trace):
    """Adds a number, a word or an empty list to a list."""
    members = any_list(random, trace)
    if members:
        members.insert(random.randint(0, len(members)), random.choice((0, 1, "", "whole", [], [[]])))


def is_in(inner, outer):
    """Whether a list is another one, or in it."""
    return isinstance(inner, list) and any(members is inner for members in lists_in(outer))


def exchange(random, trace):
    """Exchanges two lists, or two numbers, from anywhere."""
    found = places_of(trace, random.choice((list, int)))
    if len(found) >= 2:
        (one, i), (other, k) = random.sample(found, 2)
        if not is_in(one[i], other[k]) and not is_in(other[k], one[i]):
            one[i], other[k] = other[k], one[i]


def repeat(random, trace):
    """Says the whole trace again, or a part of it."""
    start = random.randint(0, len(trace))
    trace += deepcopy(trace[start : start + random.randint(1, 20)])


MEMBERS = (drop, drop, double, swap, swap, move, move, limit, limit, limit, shift, shift, shift)
MEMBERS += (move_id, move_id, exchange, repeat, put_word, put_value, add)
