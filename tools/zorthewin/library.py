"""The C library, through ctypes: what the programs answer, without starting one."""

import ctypes
import os

REFUSED, NO_TRACE, STOPPED, NO_MEMORY = 1, 2, 3, 4
TEXT, JSON, REPAIRED, JSON_REPAIRED = 0, 1, 2, 3
ORDERS = {"first": 0, "last": 1, "seed": 2}
DEFAULT_HEAP = 4_194_304


class Library:
    """A library at a path: `libzorthewin.so`. A trace is a text, or its bytes."""

    def __init__(self, path):
        self.path = path
        loaded = ctypes.CDLL(path)
        size, byte, large = ctypes.c_size_t, ctypes.c_uint8, ctypes.c_uint64
        answer = [ctypes.c_char_p, size, ctypes.POINTER(size)]
        self.replay_call, self.explain_call = loaded.zw_replay, loaded.zw_explain
        self.replay_call.argtypes = [ctypes.c_char_p, size, byte, large, large, large, *answer]
        self.explain_call.argtypes = [ctypes.c_char_p, size, byte, *answer]
        for call in (self.replay_call, self.explain_call):
            call.restype = ctypes.c_uint32

    def answer(self, call, trace, *arguments):
        """The status and the text that a call answers to a trace."""
        data = trace.encode() if isinstance(trace, str) else trace
        length, room = ctypes.c_size_t(0), 4096
        while True:
            out = ctypes.create_string_buffer(room)
            status = call(data, len(data), *arguments, out, room, ctypes.byref(length))
            if status == NO_MEMORY:
                raise MemoryError(f"{self.path}: no memory")
            if length.value <= room:
                return status, out.raw[: length.value].decode()
            room = length.value

    def replay(self, trace, order="first", seed=0, heaps=(DEFAULT_HEAP, DEFAULT_HEAP)):
        """What `replay` answers."""
        return self.answer(self.replay_call, trace, ORDERS[order], seed, *heaps)

    def explain(self, trace, form=TEXT):
        """What `explain` says, as lines or as an object, or the trace after repairs, or both."""
        return self.answer(self.explain_call, trace, form)


def library():
    """The library that ZORTHEWIN_LIBRARY names in the environment, if it does."""
    path = os.environ.get("ZORTHEWIN_LIBRARY")
    return Library(path) if path else None
