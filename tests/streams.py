#!/usr/bin/env python3
"""Tests what both programs make of their streams: statuses 2 and 5 and their texts.

    PROGRAM=FILE EXPLAIN=FILE tests/streams.py [WORD]

With WORD only the tests run whose names have it.
"""

import os
import re
import resource
import signal
import socket
import subprocess
import sys
import tempfile
import threading
import time

sys.dont_write_bytecode = True

from harness import EXPLAIN, PROGRAM, SECONDS, TOP, Answer, Skipped, Test
from harness import answered, compared, difference, main, run

MOST_BYTES = 16_777_216
MOST_READS = 1_048_576
PROGRAMS = [("replay", PROGRAM), ("explain", EXPLAIN)]
READ_FAILED = answered("", 5, "read failed\n")
TOO_LONG = answered("", 5, "too long\n")
WRITE_FAILED = answered("", 5, "write failed after 0 bytes\n")

TRACE = (TOP / "examples" / "first_upload.json").read_bytes()
ENDINGS = {"replay": "expected", "explain": "explained"}
# What each program answers to the trace.
ANSWERS = {
    name: answered((TOP / "examples" / f"first_upload.{ending}").read_text(encoding="utf-8"))
    for name, ending in ENDINGS.items()
}


# A trace of which each program writes more than a pipe holds: as `replay` reads it, and as `explain --repaired`
# writes it again.
BYTES = "ab" * 262_144
LONG = f"""\
[["buffer",1,262144,3,"exclusive",["dedicated",1]],
 ["map",1],
 ["write",1,0,"{BYTES}"],
 ["read",1,0,262144]]
""".encode()
LONG_ANSWERS = {"replay": f"3 {BYTES}\n".encode(), "explain": LONG}
LONG_OPTIONS = {"replay": [], "explain": ["--repaired"]}


def through_shell(redirection, program, *arguments):
    """A command that runs the program with a redirection of the shell."""
    return ["sh", "-c", f'exec "$@" {redirection}', "sh", program, *arguments]


# ---- standard input


def input_tests(name, program):
    """Inputs that can't be read, have nothing, or are as long as may be."""
    whole = ANSWERS[name]
    yield compared(f"{name}: closed input", READ_FAILED, through_shell("<&-", program))
    for what, wanted, path, mode in (
        ("a directory as input", READ_FAILED, "/", os.O_RDONLY),
        ("an input that is open for writing alone", READ_FAILED, os.devnull, os.O_WRONLY),
        ("an input without end", TOO_LONG, "/dev/zero", os.O_RDONLY),
    ):
        yield Test(
            f"{name}: {what}", lambda w=wanted, p=path, m=mode: judge_opened(program, w, p, m)
        )
    yield Test(f"{name}: an input without bytes", lambda: judge_empty(name, program))
    yield Test(f"{name}: a file as input", lambda: judge_file(program, whole, TRACE))
    long = TRACE.ljust(MOST_BYTES, b" ")
    yield compared(f"{name}: 16777216 bytes through a pipe", whole, [program], long)
    yield Test(f"{name}: a file of 16777216 bytes", lambda: judge_file(program, whole, long))
    longer = long + b" "
    yield compared(f"{name}: 16777217 bytes through a pipe", TOO_LONG, [program], longer)
    yield Test(f"{name}: a file of 16777217 bytes", lambda: judge_file(program, TOO_LONG, longer))
    yield Test(f"{name}: a slow writer, byte by byte", lambda: judge_slow(program, whole))
    ends = (("an end", whole, MOST_READS - 1), ("no end", TOO_LONG, MOST_READS))
    for what, wanted, count in ends:
        yield Test(
            f"{name}: {what} at read 1048576",
            lambda w=wanted, c=count: judge_messages(program, w, c),
        )


def judge_opened(program, wanted, path, mode):
    """Runs the program on what is at the path."""
    number = os.open(path, mode)
    try:
        return difference(wanted, run([program], stdin=number))
    finally:
        os.close(number)


def judge_empty(name, program):
    """Of no bytes `replay` says on standard error that they are no trace, `explain` on standard output."""
    answer = run([program], stdin=subprocess.DEVNULL)
    if name == "replay":
        return difference(answered("", 2, "no trace\n"), answer)
    begins = answer.output[: len(b"no trace\n")]
    return difference((b"no trace\n", 2, b""), (begins, answer.status, answer.error))


def judge_file(program, wanted, text):
    """Runs the program on a file that has the text."""
    with tempfile.TemporaryFile() as file:
        file.write(text)
        file.seek(0)
        return difference(wanted, run([program], stdin=file))


def fed(program, feed, taken):
    """What the program answers to what `feed` gives it by one end of what it reads the other end of."""
    feeder = threading.Thread(target=feed)
    feeder.start()
    try:
        return run([program], stdin=taken)
    finally:
        taken.close()
        feeder.join()


def judge_slow(program, wanted):
    """Runs the program on a pipe into which the trace is written byte by byte."""
    reader, writer = os.pipe()

    def feed():
        try:
            for byte in TRACE:
                os.write(writer, bytes([byte]))
                time.sleep(0.001)
        except BrokenPipeError:
            pass
        finally:
            os.close(writer)

    return difference(wanted, fed(program, feed, os.fdopen(reader, "rb", 0)))


def judge_messages(program, wanted, count):
    """Runs the program on a socket of which each read gives one byte: those of the trace, and blanks."""
    if not hasattr(socket, "SOCK_SEQPACKET"):
        raise Skipped("there are no sockets that keep the bounds of messages")
    sender, taker = socket.socketpair(socket.AF_UNIX, socket.SOCK_SEQPACKET)
    sender.settimeout(SECONDS)

    def feed():
        try:
            for byte in TRACE:
                sender.send(bytes([byte]))
            for _ in range(count - len(TRACE)):
                sender.send(b" ")
        except OSError:
            pass
        finally:
            sender.close()

    return difference(wanted, fed(program, feed, taker))


# ---- standard output and standard error


def output_tests(name, program):
    """Outputs that are closed, full, or have no reader."""
    yield compared(f"{name}: closed output", WRITE_FAILED, through_shell(">&-", program), TRACE)
    yield Test(f"{name}: a full output", lambda: judge_output(program, "/dev/full", os.O_WRONLY))
    yield Test(
        f"{name}: an output that is open for reading alone",
        lambda: judge_output(program, os.devnull, os.O_RDONLY),
    )
    for ignored in ("", "trap '' PIPE; "):
        said = ", with the signal of a broken pipe ignored" if ignored else ""
        command = ["sh", "-c", f'{ignored}exec "$@"', "sh", program]
        yield Test(f"{name}: an output without a reader{said}", lambda c=command: judge_unread(c))
        yield Test(
            f"{name}: a reader that ends early{said}",
            lambda c=command: judge_early_end([*c, *LONG_OPTIONS[name]], LONG_ANSWERS[name]),
        )
    yield compared(
        f"{name}: more than a pipe holds",
        Answer(LONG_ANSWERS[name], 0, b""),
        [program, *LONG_OPTIONS[name]],
        LONG,
    )
    for closed in ("2>&-", "2>/dev/full"):
        yield compared(
            f"{name}: a closed input, and {closed}",
            answered("", 5),
            through_shell(f"<&- {closed}", program),
        )
        yield compared(
            f"{name}: an unknown option, and {closed}",
            answered("", 6),
            through_shell(closed, program, "--nothing"),
            TRACE,
        )
        yield compared(
            f"{name}: a closed output, and {closed}",
            answered("", 5),
            through_shell(f">&- {closed}", program),
            TRACE,
        )


def replay_tests():
    """Where nothing is to be written, no write fails; what is refused or no trace has its own status."""
    broken = (TOP / "examples" / "missing_dependency.json").read_bytes()
    full_heap = (TOP / "examples" / "full_heap.json").read_bytes()
    for redirection in (">&-", ">/dev/full"):
        command = through_shell(redirection, PROGRAM)
        for what, wanted, text in (
            ("nothing to write", answered(), b"[]"),
            ("a refusal", WRITE_FAILED, broken),
            ("a stop", WRITE_FAILED, full_heap),
            ("no trace", answered("", 2, "no trace\n"), b"[["),
        ):
            yield compared(f"replay: {what}, and {redirection}", wanted, command, text)
    for redirection in ("2>&-", "2>/dev/full"):
        command = through_shell(redirection, PROGRAM)
        yield compared(f"replay: no trace, and {redirection}", answered("", 2), command, b"[[")


def short_output_tests(name, program):
    """Outputs that take a front: a file that may grow no more, and a pipe that takes no more now."""
    whole = LONG_ANSWERS[name]
    for length in (0, 1, 1_000, 4_096, len(whole) - 1):
        title = f"{name}: a file of at most {length} bytes, with its signal ignored"
        yield Test(title, lambda n=length: judge_file_limit([program, *LONG_OPTIONS[name]], whole, n))
    title = f"{name}: a pipe that is full and isn't waited for"
    yield Test(title, lambda: judge_full_pipe([program, *LONG_OPTIONS[name]], whole))


def judge_file_limit(command, whole, length):
    """Runs a program whose output is a file that may have so many bytes."""

    def limit():
        signal.signal(signal.SIGXFSZ, signal.SIG_IGN)
        resource.setrlimit(resource.RLIMIT_FSIZE, (length, length))

    with tempfile.TemporaryFile() as file:
        # (where this wasn't asked for, Python would take the signal back to what ends a program)
        options = {"preexec_fn": limit, "restore_signals": False}
        answer = run(command, LONG, stdout=file, **options)
        file.seek(0)
        said = answered("", 5, f"write failed after {length} bytes\n")
        return difference(said._replace(output=whole[:length]), answer._replace(output=file.read()))


def judge_full_pipe(command, whole):
    """Runs a program whose output is a pipe that nobody reads, and that isn't waited for."""
    reader, writer = os.pipe()
    os.set_blocking(writer, False)
    try:
        answer = run(command, LONG, stdout=writer)
        os.close(writer)
        writer = -1
        with os.fdopen(reader, "rb") as pipe:
            begins = pipe.read()
    finally:
        if writer >= 0:
            os.close(writer)
    said = answered("", 5, f"write failed after {len(begins)} bytes\n")
    return difference(said._replace(output=whole[: len(begins)]), answer._replace(output=begins))


def judge_output(program, path, mode):
    """Runs the program with what is at the path as standard output."""
    number = os.open(path, mode)
    try:
        return difference(WRITE_FAILED, run([program], TRACE, stdout=number))
    finally:
        os.close(number)


def judge_unread(command):
    """Runs a program with a pipe as standard output that has no reader."""
    reader, writer = os.pipe()
    os.close(reader)
    try:
        return difference(WRITE_FAILED, run(command, TRACE, stdout=writer))
    finally:
        os.close(writer)


def judge_early_end(command, whole, front=10):
    """Reads the front of what a program writes and then no more; it says how much it wrote."""
    with tempfile.TemporaryFile() as file:
        file.write(LONG)
        file.seek(0)
        pipes = {"stdin": file, "stdout": subprocess.PIPE, "stderr": subprocess.PIPE}
        with subprocess.Popen(command, **pipes) as program:
            late = threading.Timer(SECONDS, program.kill)
            late.start()
            begins = program.stdout.read(front)
            program.stdout.close()
            error = program.stderr.read()
            program.wait()
            late.cancel()
    said = re.fullmatch(rb"write failed after (\d+) bytes\n", error)
    is_front = begins == whole[:front]
    if is_front and program.returncode == 5 and said and front <= int(said[1]) < len(whole):
        return None
    wanted = "status 5, a front of the output, and on standard error how much was written"
    return f"wanted: {wanted}\n  came:   {Answer(begins, program.returncode, error)}"


def all_tests():
    """All of them."""
    word = sys.argv[1] if len(sys.argv) > 1 else ""
    tests = []
    for name, program in PROGRAMS:
        tests += input_tests(name, program)
        tests += output_tests(name, program)
        tests += short_output_tests(name, program)
    tests += replay_tests()
    return [test for test in tests if word in test.name]


if __name__ == "__main__":
    sys.exit(main(all_tests()))
