"""Tests of what tools/names.py says of texts that are no traces."""

from harness import Test, answered, compared, difference, run
from people_tools import NAMES, NO_TRACE


# ---- mistakes

STAGE_NAMES = 'NONE, TRANSFER, HOST, ALL_COMMANDS (several joined by "|") or a number from 0 to 4294967295'
ACCESS_NAMES = (
    "NONE, TRANSFER_READ, TRANSFER_WRITE, HOST_READ, HOST_WRITE, MEMORY_READ, MEMORY_WRITE "
    '(several joined by "|") or a number from 0 to 4294967295'
)
LAYOUT_NAMES = (
    "UNDEFINED, GENERAL, TRANSFER_SRC_OPTIMAL, TRANSFER_DST_OPTIMAL or a number from 0 to 4294967295"
)
COMMAND_NAMES = (
    '"fill", "update", "copy", "clear", "copy_in", "copy_out", "copy_image", "barrier", "set" or "await"'
)
ENTRY_NAMES = (
    '"memory", "free", "pool", "drop_pool", "buffer", "image", "destroy", "semaphore", "event", "submit", '
    '"signal", "wait", "map", "unmap", "write", "read", "flush", "invalidate", "defrag", "pass", "end_pass" or '
    '"end_defrag"'
)
ELEMENT_FORM = "[source stages, source accesses, destination stages, destination accesses]"

# A text, and what is said of it; a text that begins with ["fill" or such is a command.
MISTAKES = [
    ("", "1:1: expected a trace; found the end of the text"),
    ("// nothing\n", "2:1: expected a trace; found the end of the text"),
    ("[] []", "1:4: expected the end of the text; found ["),
    ("[[]]", f"1:2: an entry: expected an array that begins with {ENTRY_NAMES}; found an empty array"),
    ('"map"', 'a trace: expected an array of entries; found "map"'),
    ('["map"]', f'1:2: an entry: expected an array that begins with {ENTRY_NAMES}; found "map"'),
    ('[["mapp",1]]', f'1:3: the name of an entry: expected {ENTRY_NAMES}; found "mapp" (is "map" meant?)'),
    ("[[1]]", f"1:3: the name of an entry: expected {ENTRY_NAMES}; found 1"),
    ('[\n["event",1,,]]', "2:12: expected a value; found a comma"),
    ("[,]", "1:2: expected a value; found a comma"),
    ("[[1 2]]", "1:5: expected a comma or the end of the array; found 2"),
    ('[["event",1]', "1:1: an array begins here that has no end"),
    ("[]]", "1:3: found a bracket that closes no array"),
    ("[/* no end", "1:2: a comment begins that has no end"),
    ("[/* a */ # /* b */ 1]", '1:10: expected a value; found "#"'),
    ('[// ["event",1]\n#]', '2:1: expected a value; found "#"'),
    ("[// ] */\n/* // */]]", "2:10: found a bracket that closes no array"),
    ('[["map', "1:3: a string begins that has no end on its line"),
    ('[["event\n",1]]', "1:3: a string begins that has no end on its line"),
    ('[["event\\x",1]]', '1:3: expected a string of JSON; found "event\\x"'),
    ("[{}]", "1:2: a trace has no objects: found {"),
    ("[['event',1]]", "1:3: strings stand in double quotes: found '"),
    ("[event]", '1:2: names stand in quotes, as "event"; found event'),
    ("[#]", '1:2: expected a value; found "#"'),
    ('[["event",0x]]', '1:11: id of an entry "event": expected a number from 0 to 4294967295; found 0x'),
    ('[["event",0x100000000]]', "found 4294967296"),
    (f'[["event",{"9" * 5000}]]', f"found {'9' * 40}.. (5000 characters)"),
    ('[["event","1"]]', 'found "1"'),
    ('[["end_pass",2,[true],[]]]', "1:17: a buffer or image: expected a number from 0 to 4294967295; found true"),
    ('[["event",null]]', "found null"),
    (
        '[["read",1,\n0]]',
        '2:2: size of an entry "read": expected a number from 0 to 18446744073709551615; '
        'found the end of the array, which is to be ["read", buffer, offset, size]',
    ),
    ('[["event",1,2]]', '1:13: an entry "event": expected the end of ["event", id]; found 2'),
    (
        '[["write",1,0,"0a0"]]',
        'bytes of an entry "write": expected a string of bytes in hex, two digits each; found "0a0"',
    ),
    ('[["flush",1,0,"Whole"]]', 'expected a number of bytes, or "whole"; found "Whole"'),
    ('[["flush",1,0,18446744073709551616]]', "found 18446744073709551616"),
    (
        '[["pool",1,"TLSF",1,1024,1]]',
        '1:12: kind of an entry "pool": expected "tlsf" or "linear"; found "TLSF"',
    ),
    (
        '[["buffer",1,16,3,"exclusive",["dedicatd",1]]]',
        '1:32: the name of a place: expected "dedicated", "memory", "pool" or "pool_upper"; '
        'found "dedicatd" (is "dedicated" meant?)',
    ),
    (
        '[["buffer",1,16,"TRANSFER","exclusive",["dedicated",1]]]',
        '1:18: usage of an entry "buffer": expected TRANSFER_SRC, TRANSFER_DST (several joined by "|")',
    ),
    (
        '[["buffer",1,16,3,"exclusive",["dedicated","HOST_VISIBLE"]]]',
        'memory type of a place "dedicated": expected DEVICE_LOCAL, HOST_COHERENT, HOST_CACHED or a number',
    ),
    ('["fil",1,0,16,0]', f'the name of a command: expected {COMMAND_NAMES}; found "fil" (is "fill" meant?)'),
    ('["fill",-1,0,16,0]', 'buffer of a command "fill": expected a number from 0 to 4294967295; found -1'),
    (
        '["barrier",["TRANSFER"],[],[]]',
        f'a memory element: expected {ELEMENT_FORM}; found "TRANSFER"',
    ),
    (
        '["barrier",[["TRANSFER|TRANSFR","NONE","NONE","NONE"]],[],[]]',
        f'1:43: source stages of a memory element: expected {STAGE_NAMES}; '
        'found "TRANSFR" (is "TRANSFER" meant?)',
    ),
    (
        '["barrier",[["TRANSFER_WRITE","NONE","NONE","NONE"]],[],[]]',
        f'source stages of a memory element: expected {STAGE_NAMES}; found "TRANSFER_WRITE"',
    ),
    (
        '["barrier",[["TRANSFER","TRANSFER","NONE","NONE"]],[],[]]',
        f'source accesses of a memory element: expected {ACCESS_NAMES}; found "TRANSFER"',
    ),
    ('["barrier",[["",0,0,0]],[],[]]', f'expected {STAGE_NAMES}; found ""'),
    ('["barrier",[["TRANSFER|",0,0,0]],[],[]]', f'expected {STAGE_NAMES}; found ""'),
    ('["barrier",[["transfer",0,0,0]],[],[]]', f'expected {STAGE_NAMES}; found "transfer"'),
    ('["barrier",[["VK_PIPELINE_STAGE_2_BLIT_BIT",0,0,0]],[],[]]', "the profile has no blits"),
    ('["barrier",[["TOP_OF_PIPE",0,0,0]],[],[]]', "the profile doesn't have it; write NONE"),
    (
        '["copy_in",1,2,"SHADER_READ_ONLY_OPTIMAL",[]]',
        f'layout of a command "copy_in": expected {LAYOUT_NAMES}; found "SHADER_READ_ONLY_OPTIMAL"',
    ),
    ('["copy_in",1,"GENERAL",1,[]]', 'image of a command "copy_in": expected a number'),
    (
        '["barrier",[],[[0,0,0,0,"IGNORE",0,1,0,1]],[]]',
        "source family of a buffer element: expected IGNORED or a number from 0 to 4294967295; "
        'found "IGNORE" (is "IGNORED" meant?)',
    ),
    (
        '["barrier",[],[],[[0,0,0,0,0,0,1,0,1,[0,1,0]]]]',
        "layers of a range: expected a number from 0 to 4294967295; "
        "found the end of the array, which is to be [first level, levels, first layer, layers]",
    ),
]


def judge_mistake(text, said):
    """What is said of a text, in one line, with the status of what isn't a trace, and no output."""
    answer = run(NAMES, text.encode())
    is_said = said in answer.error.decode() and answer.error.count(b"\n") == 1
    if (answer.output, answer.status, is_said) == (b"", NO_TRACE, True):
        return None
    wanted = f"status {NO_TRACE}, and a line on standard error with: {said}"
    return f"wanted: {wanted}\n  came:   {answer.error.decode()}"


def mistake_tests():
    """Each mistake, and several of them."""
    for text, said in MISTAKES:
        if text.startswith(('["fil', '["barrier', '["copy')):
            text = f'[["submit",0,[[[],[{text}],[]]]]]'
        yield Test(f"names of {text[:60]}", lambda t=text, s=said: judge_mistake(t, s))
    yield compared(
        "names of bytes that aren't UTF-8",
        answered("", NO_TRACE, "standard input:2:4: the text isn't UTF-8: found the byte 0xff\n"),
        NAMES,
        "[\n// é".encode()[:-2] + b"\xff]",
    )
    yield Test("names of a text with many mistakes", judge_many_mistakes)


def judge_many_mistakes():
    """Twenty are said, and how many more there are; with --explain and --to-names too."""
    text = f"[{','.join(['[1]'] * 25)}]".encode()
    for options in ([], ["--explain"], ["--to-names"]):
        answer = run([*NAMES, *options], text)
        lines = answer.error.decode().splitlines()
        wanted = (b"", NO_TRACE, 21, "standard input: and 5 more mistakes")
        found = difference(wanted, (answer.output, answer.status, len(lines), lines[-1]))
        if found:
            return found
    return None
