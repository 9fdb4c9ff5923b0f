"""Inputs of up to 16,777,216 bytes, each of one shape: many or long members of one form of a trace.

SHAPES has a function for each shape, which answers the text; its line of documentation says what it has much of.
"""

MOST_BYTES = 16_777_216
MOST_POINTS = 131_072
IGNORED = 4_294_967_295
TO_ALL = "4096,4096,4096,6144"
TO_HOST = "4096,4096,16384,8192"
ON_ALL = f'["barrier",[[{TO_ALL}]],[],[]]'
IN_POOL, CACHED = '["pool",1]', '["dedicated",2]'
SHAPES = {}


def shape(function):
    """Adds a shape, under the words of its name."""
    SHAPES[function.__name__.replace("_", " ")] = function
    return function


def filled(item, most=10**9, begin="[", end="]", length=MOST_BYTES):
    """A list between two texts, of as many items as there is room for; item `k` is what the function answers."""
    items, room = [], length - len(begin) - len(end)
    for k in range(most):
        text = item(k)
        room -= len(text) + 1
        if room < 0:
            break
        items.append(text)
    return f"{begin}{','.join(items)}{end}"


def buffer(number, size, usage=3, place='["dedicated",1]'):
    """An entry that makes a buffer."""
    return f'["buffer",{number},{size},{usage},"concurrent",{place}]'


def image(number, side, levels, layers, size="R8_UINT"):
    """An entry that makes an optimal image."""
    rest = f'{side},{side},{levels},{layers},"optimal",3,"concurrent",["dedicated",0]'
    return f'["image",{number},"{size}",{rest}]'


def transition(number, old, new, levels, layers):
    """A barrier that gives all of an image a layout."""
    families = f"{IGNORED},{IGNORED},{number},{old},{new},[0,{levels},0,{layers}]"
    return f'["barrier",[],[],[[{TO_ALL},{families}]]]'


def command(before, item, begin, end="]", most=10**9):
    """A trace of entries and of one submit, with one command whose last list has many members."""
    head = f'[{"".join(f"{entry}," for entry in before)}["submit",0,[[[],[{begin}'
    return filled(item, most, head, f"{end}],[]]]]]")


def commands(before, item, most=10**9, first="", after=""):
    """A trace of entries and of one submit, with many commands."""
    head = f'[{"".join(f"{entry}," for entry in before)}["submit",0,[[[],[{first}'
    return filled(item, most, head, f"],[[9,1,65536]]]]]{after}]")


SEMAPHORE = '["semaphore",9,0]'
READ_BACK = ',["wait",[[9,1]]],["map",1],["read",1,0,16]'

# ---- entries and ids


@shape
def dense_ids():
    return filled(lambda k: f'["semaphore",{k},0]', MOST_POINTS)


@shape
def sparse_ids():
    return filled(lambda k: f'["event",{k * 32749 % (1 << 32)}]', MOST_POINTS)


@shape
def entries_past_the_limit():
    return filled(lambda k: f'["event",{k}]')


@shape
def blanks():
    return "[".ljust(MOST_BYTES - 1) + "]"


@shape
def memory_objects_made_and_freed():
    return filled(lambda k: f'["memory",{k},1,4194304],["free",{k}]', MOST_POINTS // 2)


@shape
def buffers_made_and_destroyed_in_a_pool():
    head = '[["pool",1,"tlsf",1,4194304,1],'
    pair = lambda k: f'{buffer(k + 2, 65536, 3, IN_POOL)},["destroy",{k + 2}]'
    return filled(pair, 65_000, head)


@shape
def buffers_in_a_pool():
    head = '[["pool",1,"tlsf",1,4194304,1],'
    return filled(lambda k: buffer(k + 2, 16, 3, '["pool",1]'), MOST_POINTS - 1, head)


@shape
def buffers_in_memory_objects():
    head = '[["memory",1,1,4194304],'
    place = lambda k: f'["memory",1,{16 * (k * 32749 % MOST_POINTS)}]'
    return filled(lambda k: buffer(k + 2, 16, 3, place(k)), MOST_POINTS - 1, head)


@shape
def images():
    return filled(lambda k: image(k + 1, 8, 1, 1), 4_096)


# ---- the host


@shape
def long_hex():
    return f'[{buffer(1, 4194304)},["map",1],{write(0, 4194304)},{write(0, 4000000)},["read",1,0,64]]'


def write(offset, size):
    """A host write of so many bytes."""
    return f'["write",1,{offset},"{"5a" * size}"]'


@shape
def short_writes_and_whole_flushes():
    head = f'[{buffer(1, 4194304, 3, CACHED)},["map",1],'
    return filled(lambda k: f'["write",1,{k * 64 % 4194304},"ab"],["flush",1,0,"whole"]', 65_000, head)


@shape
def short_reads():
    head = f'[{buffer(1, 4194304)},["map",1],{write(0, 4194304)},'
    return filled(lambda k: f'["read",1,{k * 32749 % 4194304},1]', 131_000, head)


@shape
def long_reads():
    head = f'[{buffer(1, 4194304)},["map",1],{write(0, 4194304)},'
    return filled(lambda k: '["read",1,0,4194304]', 100, head)


@shape
def pairs_of_a_host_wait():
    return filled(lambda k: "[9,0]", 10**9, f'[{SEMAPHORE},["wait",[', "]]]")


@shape
def host_signals():
    return filled(lambda k: f'["signal",9,{k + 1}],["wait",[[9,{k + 1}]]]', 65_000, f"[{SEMAPHORE},")


# ---- batches


@shape
def empty_batches():
    return filled(lambda k: "[[],[],[]]", 10**9, '[["submit",0,[', "]]]")


@shape
def waits_of_a_batch():
    return filled(lambda k: "[9,0,65536]", 131_000, f'[{SEMAPHORE},["submit",0,[[[', "],[],[]]]]]")


@shape
def signals_of_a_batch():
    return filled(lambda k: f"[9,{k + 1},65536]", 131_000, f'[{SEMAPHORE},["submit",0,[[[],[],[', "]]]]]")


@shape
def batches_that_are_never_started():
    fill = '["fill",1,0,16,7]'
    head = f'[{buffer(1, 16)},{SEMAPHORE},["submit",0,[[[[9,1,65536]],[],[]],'
    return filled(lambda k: f"[[],[{fill},{fill},{fill}],[]]", 10**9, head, "]]]")


@shape
def batches_that_wait_for_the_host():
    head = f"[{SEMAPHORE},"
    text = filled(lambda k: f'["submit",{k % 4},[[[[9,{k + 1},65536]],[],[]]]]', 40_000, head, "")
    return filled(lambda k: f'["signal",9,{k + 1}]', 40_000, f"{text},")


@shape
def batches_in_a_chain_backwards():
    head = "[" + "".join(f'["semaphore",{k},0],' for k in range(20_000))
    batch = lambda k: f"[[[{19_998 - k},1,65536]],[],[[{19_999 - k},1,65536]]]"
    return filled(lambda k: f'["submit",{k % 4},[{batch(k)}]]', 19_998, head)


# ---- commands


@shape
def fills():
    return commands([buffer(1, 4194304), SEMAPHORE], lambda k: f'["fill",1,{4 * k},4,{k}]', 131_000)


@shape
def updates():
    text = "ab" * 65_536
    update = lambda k: f'["update",1,{65536 * (k % 64)},"{text}"],{ON_ALL}'
    return commands([buffer(1, 4194304), SEMAPHORE], update)


@shape
def whole_copies_each_with_a_short_fill():
    before = [buffer(1, 1048576), buffer(2, 1048576), SEMAPHORE]
    fills = "".join(f'["fill",1,{8 * k},4,{k}],' for k in range(43_500))
    pair = lambda k: f'["copy",1,2,[[0,0,348000]]],{ON_ALL},["fill",1,{8 * k},4,7],{ON_ALL}'
    return commands(before, pair, 15_000, f"{fills}{ON_ALL},")


@shape
def short_fills_and_whole_copies():
    before = [buffer(1, 1048576), buffer(2, 1048576), SEMAPHORE]
    fills = "".join(f'["fill",1,{8 * k},4,{k}],' for k in range(43_500))
    return commands(before, lambda k: f'["copy",1,2,[[0,0,348000]]],{ON_ALL}', 43_000, f"{fills}{ON_ALL},")


@shape
def regions_of_a_copy():
    before = [buffer(1, 16777216, 3, '["dedicated",0]'), buffer(2, 16777216, 3, '["dedicated",1]')]
    return command(before, lambda k: f"[{4 * k},{4 * k},4]", '["copy",1,2,[', "]]", 1_000_000)


@shape
def regions_of_a_copy_backwards():
    before = [buffer(1, 4194304), buffer(2, 4194304, 3, '["dedicated",0]')]
    return command(before, lambda k: f"[{4 * k},{4194300 - 4 * k},4]", '["copy",1,2,[', "]]", 1_000_000)


@shape
def regions_of_a_copy_into_an_image():
    before = [buffer(1, 4194304), image(2, 1024, 1, 1), SEMAPHORE]
    begin = f'{transition(2, 0, 7, 1, 1)},["copy_in",1,2,7,['
    return command(before, lambda k: f"[{k},0,0,0,0,1,{k % 1024},{k // 1024},1,1]", begin, "]]", 1_000_000)


@shape
def regions_of_a_copy_out_of_an_image():
    before = [buffer(1, 4194304), image(2, 1024, 1, 1), SEMAPHORE]
    begin = f'{transition(2, 0, 1, 1, 1)},["copy_out",2,1,1,['
    return command(before, lambda k: f"[{k},0,0,0,0,1,{k % 1024},{k // 1024},1,1]", begin, "]]", 1_000_000)


@shape
def regions_of_a_copy_between_images():
    before = [image(1, 1024, 1, 1), image(2, 1024, 1, 1)]
    begin = f'{transition(1, 0, 1, 1, 1)},{transition(2, 0, 1, 1, 1)},["copy_image",1,1,2,1,['
    texel = lambda k: f"{k % 1024},{k // 1024}"
    return command(before, lambda k: f"[0,0,0,0,1,{texel(k)},{texel(k)},1,1]", begin, "]]", 1_000_000)


@shape
def interleaved_rows():
    before = [buffer(1, 16777216), image(2, 1024, 1, 16)]
    begin = f'{transition(2, 0, 1, 1, 16)},["copy_out",2,1,1,['
    return command(before, lambda k: f"[{k},4000,0,0,{k % 16},1,0,0,1,1000]", begin, "]]", 4_000)


@shape
def ranges_of_a_clear():
    before = [image(1, 1, 1, 256)]
    begin = f'{transition(1, 0, 1, 1, 256)},["clear",1,1,[1,2,3,4],['
    return command(before, lambda k: f"[0,1,{k % 256},1]", begin, "]]")


@shape
def clears():
    before = [image(1, 1, 1, 256), SEMAPHORE]
    first = f"{transition(1, 0, 1, 1, 256)},"
    return commands(before, lambda k: f'["clear",1,1,[1,2,3,4],[[0,1,{k % 256},1]]],{ON_ALL}', 65_000, first)


# ---- barriers and events


@shape
def memory_elements():
    return command([], lambda k: f"[{TO_ALL}]", '["barrier",[', "],[],[]]")


@shape
def buffer_elements():
    part = f"{TO_ALL},{IGNORED},{IGNORED}"
    return command([buffer(1, 4194304)], lambda k: f"[{part},1,{4 * k % 4194304},4]", '["barrier",[],[', "],[]]")


@shape
def image_elements():
    part = f"{TO_ALL},{IGNORED},{IGNORED},1,1,1"
    return command([image(1, 1, 1, 256)], lambda k: f"[{part},[0,1,{k % 256},1]]", '["barrier",[],[],[', "]]")


@shape
def fills_behind_buffer_elements():
    part = f"{TO_ALL},{IGNORED},{IGNORED}"
    barriers = lambda k: f'["barrier",[],[[{part},1,{4 * k % 4096},4]],[]],["fill",1,{4 * k % 4096},4,7]'
    return commands([buffer(1, 4194304), SEMAPHORE], barriers, 65_000)


@shape
def transitions_of_layers():
    part = f"{TO_ALL},{IGNORED},{IGNORED},1,0,7"
    barriers = lambda k: f'["barrier",[],[],[[{part},[0,1,{k % 256},1]]]]'
    return commands([image(1, 1, 1, 256), SEMAPHORE], barriers, 130_000)


@shape
def elements_of_a_set_and_its_await():
    elements = filled(lambda k: f"[{TO_ALL}]", length=MOST_BYTES // 2 - 100)
    return f'[["event",1],["submit",0,[[[],[["set",1,{elements}],["await",1,{elements}]],[]]]]]'


@shape
def events_set_and_awaited():
    head = "[" + "".join(f'["event",{k}],' for k in range(40_000)) + '["submit",0,[[[],['
    return filled(lambda k: f'["set",{k},[[{TO_ALL}]]],["await",{k},[[{TO_ALL}]]]', 40_000, head, "],[]]]]]")


@shape
def ownership_transfers():
    made = '[["buffer",1,64,3,"exclusive",["dedicated",0]],["semaphore",9,0],'

    def half(k):
        """The release for an even number, on a queue of its source family; for an odd one the acquire."""
        source, family = k // 2 % 2, (k // 2 + k) % 2
        barrier = f'["barrier",[],[[{TO_ALL},{source},{1 - source},1,0,"whole"]],[]]'
        return f'["submit",{2 * family},[[[[9,{k},65536]],[{barrier}],[[9,{k + 1},65536]]]]]'

    return filled(half, 32_000, made)


# ---- passes


@shape
def passes():
    head = '[["pool",1,"tlsf",1,4194304,1],["defrag",2,1,0,0],'
    return filled(lambda k: '["pass",2],["end_pass",2,[],[]]', 65_000, head)


@shape
def a_pass_that_moves_much():
    made = "".join(f'{buffer(k + 10, 16, 3, IN_POOL)},' for k in range(60_000))
    ended = "".join(f'["destroy",{k + 10}],' for k in range(0, 60_000, 2))
    stays = ",".join(str(k + 10) for k in range(1, 60_000, 4))
    return f'[["pool",1,"tlsf",1,4194304,1],{made}{ended}["defrag",2,1,0,0],["pass",2],["end_pass",2,[{stays}],[]]]'


@shape
def ids_of_an_end_of_a_pass():
    head = '[["pool",1,"tlsf",1,4096,1],["defrag",2,1,0,0],["pass",2],["end_pass",2,['
    return filled(lambda k: str(k + 10), 10**9, head, "],[]]]")


# ---- what is no trace


@shape
def brackets():
    return "[" * (MOST_BYTES // 2) + "]" * (MOST_BYTES // 2)


@shape
def objects():
    return filled(lambda k: "{}")


@shape
def empty_arrays():
    return filled(lambda k: "[]")


@shape
def numbers():
    return filled(lambda k: "7")


@shape
def a_long_number():
    return f'[["event",{"7" * (MOST_BYTES - 13)}]]'


@shape
def a_long_text():
    return f'[["{"x" * (MOST_BYTES - 6)}"]]'


@shape
def a_long_text_of_escapes():
    return f'[["{chr(92) + "u0041"}' + "\\u0041" * ((MOST_BYTES - 20) // 6) + '"]]'


@shape
def a_last_bracket_that_is_missing():
    return filled(lambda k: f'["write",1,0,"{"ab" * 50}"]', end=" ")
