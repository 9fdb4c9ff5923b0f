#!/usr/bin/env python3
"""Tests the command line of `explain`: `explain [--json] [--repaired] [--names FILE] [FILE]..`.

    EXPLAIN=FILE tests/explain_options.py
"""

import difflib
import errno
import itertools
import json
import os
import pty
import re
import subprocess
import sys
import threading

sys.dont_write_bytecode = True

from harness import EXPLAIN, SECONDS, TOP, Answer, Test
from harness import answered, compared, difference, main, run, shown

REFUSED = 6
MORE = "\nFor more information, try '--help'.\n"
EXAMPLES = TOP / "examples"
# A trace that is accepted, one that is refused, one that isn't valid, and a file that isn't there.
ACCEPTED, BROKEN = "first_upload", "missing_dependency"
INVALID = "no_traces/misspelled_entry"
MISSING = EXAMPLES / "there_is_no_such_file.json"
ESCAPE = re.compile(rb"\x1b\[[0-9;]*m")


def file_of(name):
    """The file of an example, as it is named on the command line."""
    return str(EXAMPLES / f"{name}.json")


def text_of(name):
    """The bytes of an example."""
    return (EXAMPLES / f"{name}.json").read_bytes()


def said_of(name, ending="explained"):
    """What is said of an example."""
    return (EXAMPLES / f"{name}.{ending}").read_text(encoding="utf-8")


def listed(*names):
    """What is said of several examples: each under its name, with an empty line between."""
    return "\n".join(f"{file_of(name)}:\n{said_of(name)}" for name in names)


def named_object(name):
    """What is said of an example with --json, with its file as the first member."""
    return f'{{"file":{json.dumps(file_of(name))},{said_of(name, "explained.json")[1:]}'


def changes_of(explained):
    """What --repaired writes to standard error of an explanation whose repair ends in an accepted trace: the
    verdict, and the lines of the repair."""
    lines = explained.splitlines(keepends=True)
    first = next(i for i, line in enumerate(lines) if line.startswith("  repair"))
    edits = itertools.takewhile(lambda line: line.startswith("    "), lines[first + 1 :])
    return "".join([lines[0], lines[first], *edits])


# ---- files and standard input


def file_tests():
    """A file by its name, several of them, standard input, and what can't be read."""
    broken = said_of(BROKEN)
    for name, status in ((ACCEPTED, 0), (BROKEN, 1), (INVALID, 2)):
        wanted = answered(said_of(name), status)
        yield compared(f"explain < {name}", wanted, [EXPLAIN], text_of(name))
        yield compared(f"explain {name}", wanted, [EXPLAIN, file_of(name)])
        yield compared(f"explain - < {name}", wanted, [EXPLAIN, "-"], text_of(name))
        as_json = answered(said_of(name, "explained.json"), status)
        yield compared(f"explain --json {name}", as_json, [EXPLAIN, "--json", file_of(name)])
        yield compared(f"explain {name} --json", as_json, [EXPLAIN, file_of(name), "--json"])
    repaired = answered(said_of(BROKEN, "repaired.json"), error=changes_of(broken))
    yield compared("explain --repaired FILE", repaired, [EXPLAIN, "--repaired", file_of(BROKEN)])
    yield compared("explain --repaired", repaired, [EXPLAIN, "--repaired"], text_of(BROKEN))
    yield compared(
        "explain FILE, and another trace on standard input",
        answered(broken, 1),
        [EXPLAIN, file_of(BROKEN)],
        text_of(ACCEPTED),
    )
    yield compared("explain -- FILE", answered(broken, 1), [EXPLAIN, "--", file_of(BROKEN)])


def several_tests():
    """Several files: each under its name, in the order that is asked for; the status is the greatest."""
    for names, status in (
        ((ACCEPTED, BROKEN), 1),
        ((BROKEN, ACCEPTED), 1),
        ((ACCEPTED, ACCEPTED), 0),
        ((INVALID, BROKEN, ACCEPTED), 2),
    ):
        files = [file_of(name) for name in names]
        wanted = answered(listed(*names), status)
        yield compared(f"explain {' '.join(names)}", wanted, [EXPLAIN, *files])
        objects = answered("".join(named_object(name) for name in names), status)
        yield compared(f"explain --json {' '.join(names)}", objects, [EXPLAIN, "--json", *files])
    both = listed(ACCEPTED, BROKEN).replace(file_of(BROKEN), "-")
    command = [EXPLAIN, file_of(ACCEPTED), "-"]
    yield compared("explain FILE - < FILE", answered(both, 1), command, text_of(BROKEN))
    yield Test("explain --repaired FILE FILE", judge_several_repaired)
    yield Test("explain --json --repaired FILE FILE", judge_several_objects)


def judge_several_repaired():
    """With --repaired one trace is written, so that several are refused."""
    answer = run([EXPLAIN, "--repaired", file_of(BROKEN), file_of(ACCEPTED)])
    wanted = (b"", REFUSED, True)
    came = (answer.output, answer.status, answer.error.startswith(b"error: "))
    return difference(wanted, came)


def judge_several_objects():
    """With --json, too, each object has the repaired trace, and the verdicts are on the given ones."""
    files = [file_of(BROKEN), file_of(ACCEPTED)]
    answer = run([EXPLAIN, "--json", "--repaired", *files])
    said = [json.loads(line) for line in answer.output.splitlines()]
    came = [(one["file"], one["verdict"], one["repaired"]["verdict"], len(one["repairs"])) for one in said]
    wanted = [(files[0], "refused", "accepted", 1), (files[1], "accepted", "accepted", 0)]
    return difference((wanted, 1, b""), (came, answer.status, answer.error))


# Formats of images of which neither can be copied to the other: their texels have other sizes.
FORMATS = ("R8_UINT", "R8G8B8A8_UINT")
# Layouts of the same trace: in a line, without spaces, an entry or a value on a line.
LAYOUTS = {
    "in a line": lambda trace: json.dumps(trace),
    "without spaces": lambda trace: json.dumps(trace, separators=(",", ":")) + "\n",
    "an entry on a line": lambda trace: "[\n  " + ",\n  ".join(map(json.dumps, trace)) + "\n]\n",
    "a value on a line": lambda trace: json.dumps(trace, indent="\t") + "\n",
}


def repaired_tests():
    """What no repair changes is written as it stands in the input, and what changes is told."""
    for name in (ACCEPTED, BROKEN, "image_without_barrier"):
        for layout, written in LAYOUTS.items():
            text = written(json.loads(text_of(name)))
            yield Test(f"explain --repaired < {name}, {layout}", lambda n=name, t=text: judge_layout(n, t))
    yield Test("explain --repaired without a repair", judge_unrepaired)


def judge_layout(name, text):
    """The repaired trace is that of the example, and all else of the text is kept."""
    answer = run([EXPLAIN, "--repaired"], text.encode())
    plain = run([EXPLAIN], text.encode())
    changed = answer.output.decode()
    kept = difflib.SequenceMatcher(None, text, changed, autojunk=False).get_opcodes()
    lost = [text[a:b] for kind, a, b, _, _ in kept if kind in ("delete", "replace")]
    wanted = (0, text if plain.status == 0 else "", [])
    came = (answer.status, changed if plain.status == 0 else "", [part for part in lost if part.strip()])
    return difference(wanted, came) or difference(
        "" if plain.status == 0 else changes_of(plain.output.decode()), answer.error.decode()
    )


def judge_unrepaired():
    """Of a fault without a repair it is told that there is none, and the input is written as it is."""
    images = [["image", i, f, 4, 4, 1, 1, "optimal", 3, "exclusive", ["dedicated", 0]] for i, f in enumerate(FORMATS)]
    copy = ["copy_image", 0, 6, 1, 7, [[0, 0, 0, 0, 1, 0, 0, 0, 0, 1, 1]]]
    text = json.dumps([*images, ["submit", 0, [[[], [copy], []]]]]).encode()
    told = b"refused 2.0.0 FORMAT\n  repair: none found\n"
    answer = run([EXPLAIN, "--repaired"], text)
    return difference((text, 1, told), (answer.output, answer.status, answer.error))


def unreadable_tests():
    """Files that can't be read are told on standard error by their names, and the others are explained."""
    for path in (MISSING, EXAMPLES):
        yield Test(f"explain {path.name}", lambda p=path: judge_unreadable(str(p), [], ""))
        yield Test(
            f"explain FILE {path.name}",
            lambda p=path: judge_unreadable(str(p), [file_of(BROKEN)], listed(BROKEN)),
        )
    yield Test("explain --repaired and a missing file", judge_unread_repair)


def judge_unreadable(path, before, output):
    """What is said of a file that can't be read, behind others."""
    answer = run([EXPLAIN, *before, path])
    begins = f"{path}: ".encode()
    is_one_line = answer.error.startswith(begins) and answer.error.count(b"\n") == 1
    if (answer.output, answer.status, is_one_line) == (output.encode(), 5, True):
        return None
    wanted = f"status 5, output {output!r}, and a line on standard error: {shown(begins)}.."
    return f"wanted: {wanted}\n  came:   {answer}"


def judge_unread_repair():
    """Of a trace that can't be read nothing is written."""
    answer = run([EXPLAIN, "--repaired", str(MISSING)])
    return difference((b"", 5), (answer.output, answer.status))


# ---- the help, the version, and what is refused


def help_tests():
    """The help and the version are on standard output, with status 0."""
    for arguments in (["--help"], ["-h"], ["--json", "--help"], [file_of(BROKEN), "--help"]):
        yield Test(f"explain {' '.join(arguments)}", lambda a=arguments: judge_help(a))
    for argument in ("--version", "-V"):
        yield Test(f"explain {argument}", lambda a=argument: judge_version(a))
    for argument in ("--help", "--version"):
        yield compared(
            f"explain {argument} >/dev/full",
            answered("", 5, "write failed after 0 bytes\n"),
            ["sh", "-c", 'exec "$@" >/dev/full', "sh", EXPLAIN, argument],
        )


def judge_help(arguments):
    """The help names each option and the files."""
    answer = run([EXPLAIN, *arguments])
    words = (b"[OPTIONS] [FILE]...", b"--json", b"--repaired", b"--names <FILE>", b"--help", b"--version")
    missing = [word for word in words if word not in answer.output]
    if missing:
        return f"the help has no {shown(missing[0])}: {answer}"
    return difference((0, b""), (answer.status, answer.error))


def judge_version(argument):
    """The version is that of the file VERSION at the top."""
    version = (TOP / "VERSION").read_text(encoding="utf-8").strip()
    return difference(answered(f"explain {version}\n"), run([EXPLAIN, argument]))


def refused_tests():
    """What is no option, an option that is given twice, and an argument that isn't UTF-8."""
    for argument in ("--nothing", "--js", "-x"):
        yield Test(f"explain {argument}", lambda a=argument: judge_unexpected(a))
    for option in ("--json", "--repaired"):
        yield Test(f"explain {option} {option}", lambda o=option: judge_twice(o))
        yield Test(f"explain {option}=1", lambda o=option: judge_valued(o))
    for arguments in ([b"\xff"], [b"--json\xff"], ["--json", b"trace\xff.json"]):
        yield compared(
            f"explain {arguments}",
            answered("", REFUSED, "an argument is not UTF-8\n"),
            [EXPLAIN, *arguments],
            text_of(BROKEN),
        )


def judge_refused(arguments, begins):
    """The command line is refused with a text that begins so, and nothing is written."""
    answer = run([EXPLAIN, *arguments], text_of(BROKEN))
    is_said = answer.error.startswith(begins.encode()) and answer.error.endswith(MORE.encode())
    if (answer.output, answer.status, is_said) == (b"", REFUSED, True):
        return None
    wanted = f"status {REFUSED}, no output, and on standard error: {begins!r}..{MORE!r}"
    return f"wanted: {wanted}\n  came:   {answer}"


def judge_unexpected(argument):
    """An argument that is no option."""
    return judge_refused([argument], f"error: unexpected argument '{argument}' found\n")


def judge_twice(option):
    """An option that is given twice."""
    text = f"error: the argument '{option}' cannot be used multiple times\n"
    return judge_refused([option, option], text)


def judge_valued(option):
    """A value for an option that takes none."""
    return judge_refused([f"{option}=1"], f"error: unexpected value '1' for '{option}' found;")


# ---- terminals


class Terminal:
    """A terminal: what is typed there, and what is shown."""

    def __init__(self):
        self.master, self.slave = pty.openpty()

    def read_all(self):
        """What is shown, up to the end of the program that has it."""
        shown_bytes = b""
        while True:
            try:
                piece = os.read(self.master, 4096)
            except OSError as error:
                if error.errno == errno.EIO:
                    return shown_bytes
                raise
            if not piece:
                return shown_bytes
            shown_bytes += piece


def run_on_terminal(command, data=b"", **changes):
    """What a program shows on a terminal, how it ends, and what it writes to standard error, with changes of
    its environment: a value that is None takes a name away."""
    changed = {**os.environ, "TERM": "xterm", "NO_COLOR": None, **changes}
    environment = {name: value for name, value in changed.items() if value is not None}
    terminal = Terminal()
    pipes = {"stdin": subprocess.PIPE, "stdout": terminal.slave, "stderr": subprocess.PIPE}
    with subprocess.Popen(command, env=environment, **pipes) as program:
        os.close(terminal.slave)
        late = threading.Timer(SECONDS, program.kill)
        late.start()
        program.stdin.write(data)
        program.stdin.close()
        output = terminal.read_all()
        error = program.stderr.read()
        program.wait()
        late.cancel()
    os.close(terminal.master)
    return Answer(output.replace(b"\r\n", b"\n"), program.returncode, error)


def terminal_tests():
    """Colours on a terminal alone, and not where they aren't wanted; a line where input is a terminal."""
    for name, status in ((ACCEPTED, 0), (BROKEN, 1), (INVALID, 2)):
        yield Test(f"explain {name} on a terminal", lambda n=name, s=status: judge_colours(n, s))
        for changes in ({"NO_COLOR": "1"}, {"TERM": "dumb"}):
            yield Test(
                f"explain {name} on a terminal, with {changes}",
                lambda n=name, s=status, c=changes: difference(
                    answered(said_of(n), s), run_on_terminal([EXPLAIN], text_of(n), **c)
                ),
            )
    plain = (("--json", "explained.json", 1), ("--repaired", "repaired.json", 0))
    for option, ending, status in plain:
        yield Test(
            f"explain {option} on a terminal",
            lambda o=option, e=ending, s=status: judge_plain([o], e, s),
        )
    yield Test("explain of a trace that is typed", lambda: judge_typed([]))
    yield Test("explain - of a trace that is typed", lambda: judge_typed(["-"]))
    yield Test("explain FILE with a terminal as input", judge_untyped)


def judge_colours(name, status):
    """What is shown is what is written elsewhere, with colours."""
    answer = run_on_terminal([EXPLAIN], text_of(name))
    if not ESCAPE.search(answer.output):
        return f"no colour: {answer}"
    plain = Answer(ESCAPE.sub(b"", answer.output), answer.status, answer.error)
    return difference(answered(said_of(name), status), plain)


def judge_plain(options, ending, status):
    """Objects, traces and what is told of repairs have no colours."""
    answer = run_on_terminal([EXPLAIN, *options], text_of(BROKEN))
    told = changes_of(said_of(BROKEN)) if options == ["--repaired"] else ""
    return difference(answered(said_of(BROKEN, ending), status, told), answer)


def typed(arguments, data):
    """What the program answers where standard input is a terminal on which the data are typed."""
    terminal = Terminal()
    try:
        os.write(terminal.master, data + b"\x04")
        return run([EXPLAIN, *arguments], stdin=terminal.slave)
    finally:
        os.close(terminal.slave)
        os.close(terminal.master)


def judge_typed(arguments):
    """A line on standard error says what is waited for."""
    answer = typed(arguments, b"[]\n")
    said = answer.error.count(b"\n") == 1 and b"standard input" in answer.error
    if answer.status == 0 and answer.output.startswith(b"accepted\n") and said:
        return None
    wanted = "status 0, accepted, and a line about standard input on standard error"
    return f"wanted: {wanted}\n  came:   {answer}"


def judge_untyped():
    """With a file nothing is waited for."""
    return difference(answered(said_of(BROKEN), 1), typed([file_of(BROKEN)], b""))


def all_tests():
    """All of them."""
    from explain_names import names_tests  # (which uses what stands here)

    yield from file_tests()
    yield from several_tests()
    yield from repaired_tests()
    yield from unreadable_tests()
    yield from names_tests()
    yield from help_tests()
    yield from refused_tests()
    yield from terminal_tests()


if __name__ == "__main__":
    sys.exit(main(all_tests(), [EXPLAIN]))
