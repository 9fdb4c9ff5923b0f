"""Which writes an access sees; from docs/FORMAT.md, "What orders what".

Each is a question to a reading (slow_reading.py) about nodes by their numbers, and a byte of a buffer.
"""

from points import HOST

# The accesses that are reads, and writes, by commands and by the host.
MASKS = {
    ("read", "command"): 2048 | 32768,
    ("read", "host"): 8192 | 32768,
    ("write", "command"): 4096 | 65536,
    ("write", "host"): 16384 | 65536,
}


def sees(reading, reader, access, writer, buffer, byte):
    """Whether an access by a node sees the write of an earlier one: a node has made the write available,
    and that one or a later one makes it visible."""
    numbers = range(len(reading.nodes))
    for end in numbers:
        if reading.reaches(end, reader) and shows(reading, end, writer, reader, access, buffer, byte):
            starts = (start for start in numbers if reading.reaches(start, end))
            if any(keeps(reading, start, writer, buffer, byte) for start in starts):
                return True
    return False


def keeps(reading, number, writer, buffer, byte):
    """Whether a node makes an earlier write available: a command's where an edge leads to it, the host's
    as a later submit, on cached memory one after a flush that follows the write; a transition does so
    itself."""
    node = reading.nodes[number]
    if reading.nodes[writer].is_transition():
        return number == writer
    if reading.nodes[writer].on_host:
        if not node.is_submit or not reading.comes_before(writer, number):
            return False
        return not reading.is_cached(buffer) or is_between(reading, writer, number, "flush", buffer, byte)
    return bool(reading.edges[number] >> writer & 1 and makes_available(node, buffer, byte))


def shows(reading, number, writer, reader, access, buffer, byte):
    """Whether a node makes an available write visible to an access by a later one: a command's where an
    edge leads from it, the host's as an element to the host, for a read of cached memory one that an
    invalidation follows; to a transition it's visible itself."""
    if reading.nodes[reader].is_transition():
        return number == reader
    node, kind = reading.nodes[number], reading.nodes[reader].kind
    element = makes_visible(node, MASKS[access, kind], buffer, byte)
    if kind == "host":
        if not element or not node.content[2] & HOST or not reading.comes_before(number, reader):
            return False
        needs = access == "read" and reading.is_cached(buffer)
        return not needs or is_between(reading, number, reader, "invalidate", buffer, byte)
    is_visible = element or node.kind == "wait" or reading.nodes[writer].on_host and node.is_submit
    return bool(is_visible and reading.edges[reader] >> number & 1)


def is_between(reading, first, second, name, buffer, byte):
    """Whether a flush or an invalidation of a byte comes after one node and before another."""
    for number, node in enumerate(reading.nodes):
        if node.reaches(name, buffer, byte):
            if reading.comes_before(first, number) and reading.comes_before(number, second):
                return True
    return False


def makes_available(node, buffer, byte):
    """Whether a node makes commands' writes of a byte available that have an edge to it."""
    if node.kind == "signal":
        return True
    if node.kind != "element" or node.role[0] == "await" or node.half() == "acquire":
        return False
    return bool(node.content[1] & MASKS["write", "command"] and node.covers(buffer, byte))


def makes_visible(node, mask, buffer, byte):
    """Whether a node is an element that makes writes of a byte visible to accesses under a mask."""
    if node.kind != "element" or node.role[0] == "set" or node.half() == "release":
        return False
    return bool(node.content[3] & mask and node.covers(buffer, byte))
