"""Reads what `places` writes, and says where a text isn't that."""

import json

from command_line import name_of, read_all


class Unlike(ValueError):
    """A text that `places` doesn't write of an accepted trace: where it isn't, what is expected, and what was found."""


class Maybe:
    """A form, or null."""

    def __init__(self, form):
        self.form = form


RANGE = {"offset": int, "size": int}
TAKEN = {"id": int, **RANGE}
BLOCK = {"number": int, "object": int, "taken": [TAKEN], "free": [RANGE]}
POOL = {"id": int, "algorithm": str, "type": int, "block_size": int, "blocks": [BLOCK]}
STATE = {
    "entry": int,
    "call": str,
    "pass": Maybe(int),
    "heaps": [{"size": int, "used": int}],
    "objects": [{"number": int, "type": int, "size": int, "mapped": bool}],
    "pools": [POOL],
    "resources": [{"id": int, "kind": str, "object": int, **RANGE}],
}
LACKS_IN_POOL = {"id": int, "size": int, "align": int, "free": int, "largest_free": int, "go": Maybe([int])}
LACKS_IN_HEAP = {"number": int, "size": int, "free": int, "objects": int, "go": Maybe([int])}
NO_ROOM = {"entry": int, "pool": Maybe(LACKS_IN_POOL), "heap": Maybe(LACKS_IN_HEAP)}
TOLD = {"verdict": str, "states": [STATE], "no_room": Maybe(NO_ROOM)}

WORDS = {int: "a number", str: "a text", bool: "true or false", list: "an array", dict: "an object"}


def kind_of(value):
    """What a value of JSON is, in words."""
    if value is None:
        return "null"
    if value is True or value is False:
        return "true" if value else "false"
    return "another number" if isinstance(value, float) else WORDS[type(value)]


def check(value, form, at):
    """Raises what is unlike a form, if anything is."""
    if isinstance(form, Maybe):
        if value is None:
            return
        form = form.form
    kind = form if isinstance(form, type) else type(form)
    if type(value) is not kind:
        raise Unlike(f"member {at or '/'}: expected {WORDS[kind]}; found {kind_of(value)}")
    if kind is list:
        for number, item in enumerate(value):
            check(item, form[0], f"{at}/{number}")
    elif kind is dict:
        for name, inner in form.items():
            if name not in value:
                raise Unlike(f"member {at or '/'}: expected the member {name}; found none")
            check(value[name], inner, f"{at}/{name}")


def check_state(state, at):
    """Raises what of a state names nothing: a memory object that a block is, a memory type, a heap."""
    objects = {item["number"] for item in state["objects"]}
    types = [*(item["type"] for item in state["objects"]), *(pool["type"] for pool in state["pools"])]
    blocks = [(pool, block) for pool in state["pools"] for block in pool["blocks"]]
    if len(state["heaps"]) != 2 or any(heap["size"] <= 0 for heap in state["heaps"]):
        raise Unlike(f"member {at}/heaps: expected two heaps, of 1 byte or more")
    if any(not 0 <= each <= 2 for each in types):
        raise Unlike(f"member {at}: expected memory types from 0 to 2")
    if any(block["object"] not in objects or pool["block_size"] <= 0 for pool, block in blocks):
        raise Unlike(f"member {at}/pools: expected blocks that are among the objects, of 1 byte or more")
    if any(item["size"] <= 0 for item in state["objects"]):
        raise Unlike(f"member {at}/objects: expected sizes of 1 byte or more")
    if any(item["kind"] == "image" and item.get("tiling") not in ("optimal", "linear") for item in state["resources"]):
        raise Unlike(f"member {at}/resources: expected a tiling of each image")


def read_places(file):
    """What `places` wrote of an accepted trace, from a file."""
    data = read_all(file)
    try:
        told = json.loads(data.decode())
    except UnicodeDecodeError as error:
        raise Unlike(f"byte {error.start}: expected UTF-8; found the byte 0x{data[error.start]:02x}") from error
    except json.JSONDecodeError as error:
        raise Unlike(f"line {error.lineno}, column {error.colno}: expected JSON: {error.msg}") from error
    except RecursionError as error:
        raise Unlike("arrays or objects nest too deep") from error
    if isinstance(told, list):
        raise Unlike("an array; if it is a trace, ./places writes what is expected here")
    if isinstance(told, dict) and told.get("verdict") == "refused":
        raise Unlike(f"the trace breaks a rule: refused {told.get('at')} {told.get('rule')}")
    check(told, TOLD, "")
    for number, state in enumerate(told["states"]):
        check_state(state, f"/states/{number}")
    return told


def said(tool, file, why):
    """The sentence about a text that is something else."""
    return f"{tool}: {name_of(file)}: not what places writes of an accepted trace: {why}"
