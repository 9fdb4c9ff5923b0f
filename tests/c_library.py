#!/usr/bin/env python3
"""Tests the C library from C, C++, Rust and Python, where on all examples it answers as the programs do; and what
`make install` installs.

    PROGRAM=FILE EXPLAIN=FILE EMIT=FILE PLACES=FILE tests/c_library.py [WORD]

LIBRARY names the folder with the library; else it is out/library, or release, where that was made of the sources as
they are (tools/c_library), and where neither was all of the library is skipped. What needs a compiler is skipped
without it. With WORD only those tests run whose names have it.
"""

import os
import shutil
import sys
import tempfile
import threading
from pathlib import Path

sys.dont_write_bytecode = True

from harness import EXPLAIN, PROGRAM, TOP, Skipped, Test, answered, difference, main, run

sys.path.append(str(TOP / "tools"))

from zorthewin.library import JSON, JSON_REPAIRED, NO_TRACE, REPAIRED, TEXT, Library

EXAMPLES = TOP / "examples"
HEADER = f"-I{TOP / 'c'}"
ROOM = tempfile.TemporaryDirectory()
# (tests run side by side, and what they share is made once)
MAKING = threading.Lock()
STRICT = ("-Wall", "-Wextra", "-Werror")


def found_folder():
    """The folder with the library, if there is one."""
    if os.environ.get("LIBRARY"):
        return os.path.abspath(os.environ["LIBRARY"])
    said = run([str(TOP / "tools" / "c_library"), "--at-once"])
    return said.output.decode().strip() if said.status == 0 else None


FOLDER = found_folder()
STATIC = f"{FOLDER}/libzorthewin.a"
# A compiler, and what it is told beyond the name of the program.
LANGUAGES = {
    "C": ("cc", ["-std=c99", *STRICT, HEADER, f"{EXAMPLES}/c/judge.c", STATIC]),
    "C++": ("c++", ["-std=c++17", *STRICT, HEADER, f"{EXAMPLES}/cpp/judge.cpp", STATIC]),
    "Rust": ("rustc", ["--edition=2021", "-Dwarnings", f"{EXAMPLES}/rust/judge.rs", f"-L{FOLDER}", "-lstatic=zorthewin"]),
}
# (the wraps see each allocation of the library)
WRAPS = "-Wl,--wrap=malloc,--wrap=realloc,--wrap=free"
EDGES = ["-std=c11", *STRICT, WRAPS, HEADER, f"{TOP}/tests/c_library.c", STATIC]


def traces():
    """The examples, and texts that are no trace."""
    for path in sorted([*EXAMPLES.glob("*.json"), *EXAMPLES.glob("no_traces/*.json")]):
        if not path.name.endswith((".explained.json", ".repaired.json")):
            yield path.stem, path.read_bytes()
    yield "bytes that are no text", b'["\xff\xfe"]'
    yield "no bytes", b""


def judge_all(judge):
    """What differs at the first example where something does."""
    for name, trace in traces():
        found = judge(trace)
        if found:
            return f"{name}: {found}"
    return None


def judge_python(trace):
    """Through ctypes all forms and a replay in each order are what the programs write."""
    library = Library(f"{FOLDER}/libzorthewin.so.0")
    both = ("--json", "--repaired")
    for option, form in (((), TEXT), (("--json",), JSON), (("--repaired",), REPAIRED), (both, JSON_REPAIRED)):
        status, said = library.explain(trace, form)
        came = run([EXPLAIN, *option], trace)
        # (what repairs change the program says on standard error)
        error = came.error.decode() if form == REPAIRED else ""
        found = difference(came, answered(said, status, error))
        if found:
            return f"explain {option}: {found}"
    for order in ("first", "last", "seed"):
        status, said = library.replay(trace, order, 5)
        # (that there is no trace the program says on standard error)
        wanted = answered(said, status, "no trace\n" if status == NO_TRACE else "")
        found = difference(run([PROGRAM, "--order", order, "--seed", "5"], trace), wanted)
        if found:
            return f"replay {order}: {found}"
    return None


def compiled(name, compiler, arguments):
    """The path of a program that is compiled once."""
    if not shutil.which(compiler):
        raise Skipped(f"this needs {compiler}")
    program = Path(ROOM.name) / name
    with MAKING:
        if not program.exists():
            ran = run([compiler, *arguments, "-o", str(program)], seconds=300)
            if ran.status != 0:
                raise OSError(f"{compiler}: {ran}")
    return str(program)


def judge_language(language):
    """An example in another language says of all traces what `explain` says."""
    program = compiled(language, *LANGUAGES[language])
    return judge_all(lambda trace: difference(run([EXPLAIN], trace), run([program], trace)))


def judge_edges():
    """Buffers without room, arguments that there aren't, allocations that are refused, and threads."""
    return difference(answered(), run([compiled("edges", "cc", [*EDGES, "-lpthread"])]))


def judge_names():
    """Nothing but the two calls can be named from outside, in both libraries."""
    if not shutil.which("nm"):
        raise Skipped("this needs nm")
    for option, file in (("-g", "libzorthewin.a"), ("-D", "libzorthewin.so.0")):
        said = run(["nm", option, "--defined-only", "--format=posix", f"{FOLDER}/{file}"]).output.decode()
        names = sorted(line.split()[0] for line in said.splitlines() if line and not line.endswith(":"))
        if names != ["zw_explain", "zw_replay"]:
            return f"{file} has {names[:20]}"
    return None


def judge_module():
    """The Python package calls the library that ZORTHEWIN_LIBRARY names, and no program."""
    script = [sys.executable, str(EXAMPLES / "python" / "mips.py")]
    paths = {**os.environ, "PYTHONDONTWRITEBYTECODE": "1"}
    wanted = run(script, env={**paths, "PROGRAM": PROGRAM, "EXPLAIN": EXPLAIN})
    paths.update(PROGRAM="/none", EXPLAIN="/none")
    found = difference(wanted, run(script, env={**paths, "ZORTHEWIN_LIBRARY": f"{FOLDER}/libzorthewin.so.0"}))
    if found:
        return found
    ran = run(script, env={**paths, "ZORTHEWIN_LIBRARY": "/none.so"})
    last = ran.error.decode().strip().splitlines()[-1]
    return None if "Failed: the C library can't be loaded: /none.so" in last else f"it says: {last}"


def installed(top, library):
    """The names that `make install` takes, once it has installed to a folder; skipped where there is no make. It finds
    a program itself where the environment names none: ./explain is a script, which runs where it lies alone."""
    if not shutil.which("make"):
        raise Skipped("this needs make")
    named = [name for name in ("PROGRAM", "EXPLAIN", "EMIT", "PLACES") if os.environ.get(name)]
    programs = [f"{name}={os.path.abspath(os.environ[name])}" for name in named]
    names = [f"PREFIX={top}", *programs, f"LIBRARY={library}"]
    ran = run(["make", "-C", str(TOP), "install", *names])
    if ran.status != 0:
        raise OSError(f"make install: {ran}")
    return names


def uninstalled(top, names):
    """What `make uninstall` leaves, if anything."""
    run(["make", "-C", str(TOP), "uninstall", *names])
    left = [str(path) for path in top.rglob("*") if not path.is_dir()]
    return f"left: {left}" if left else None


def judge_programs():
    """The programs that `make install` installs run from another folder, by a link, and draw."""
    top = Path(ROOM.name) / "programs"
    names = installed(top, "")
    trace = (EXAMPLES / "missing_dependency.json").read_bytes()
    (top / "linked").symlink_to(top / "bin" / "zorthewin-explain")
    for program, like in (("bin/zorthewin-explain", EXPLAIN), ("linked", EXPLAIN), ("bin/zorthewin-replay", PROGRAM)):
        found = difference(run([like], trace), run([f"{top}/{program}"], trace, cwd="/"))
        if found:
            return f"{program}: {found}"
    picture = top / "picture.svg"
    paths = {name: value for name, value in os.environ.items() if name != "EXPLAIN"}
    found = difference(run([EXPLAIN], trace), run([f"{top}/linked", "--picture", str(picture)], trace, env=paths))
    if found or picture.read_bytes() != (TOP / "docs" / "missing_dependency.svg").read_bytes():
        return found or "another picture"
    help_ = run([f"{top}/bin/zorthewin-explain", "--help"])
    if help_.status != 0 or b"--picture <FILE>" not in help_.output:
        return f"--help: {help_}"
    if list(top.rglob("__pycache__")):
        return "drawing leaves files behind"
    picture.unlink()
    (top / "linked").unlink()
    return uninstalled(top, names)


def judge_install():
    """The library that `make install` installs compiles by pkg-config and runs, and `make uninstall` leaves nothing."""
    for tool in ("pkg-config", "cc"):
        if not shutil.which(tool):
            raise Skipped(f"this needs {tool}")
    top = Path(ROOM.name) / "prefix"
    names = installed(top, FOLDER)
    paths = {**os.environ, "PKG_CONFIG_PATH": f"{top}/lib/pkgconfig"}
    words = run(["pkg-config", "--cflags", "--libs", "zorthewin"], env=paths).output.decode().split()
    ran = run(["cc", f"{EXAMPLES}/c/judge.c", *words, "-o", f"{top}/judge"])
    if ran.status != 0:
        return str(ran)
    trace = (EXAMPLES / "missing_dependency.json").read_bytes()
    paths = {**os.environ, "LD_LIBRARY_PATH": f"{top}/lib"}
    found = difference(run([EXPLAIN], trace), run([f"{top}/judge"], trace, env=paths))
    if found:
        return found
    (top / "judge").unlink()
    return uninstalled(top, names)


def skip():
    """Says that there is no library."""
    raise Skipped("the C library isn't built of these sources (make library)")


def library_tests():
    """Those of the library: how many there are is counted where it isn't there, too."""
    tests = [
        Test("C library: edges", judge_edges),
        Test("C library: names", judge_names),
        Test("C library: the Python package", judge_module),
        Test("C library: make install", judge_install),
    ]
    tests.append(Test("C library: Python, all examples", lambda: judge_all(judge_python)))
    for language in LANGUAGES:
        tests.append(Test(f"C library: {language}, all examples", lambda l=language: judge_language(l)))
    return tests if FOLDER else [test._replace(judge=skip) for test in tests]


def all_tests():
    """All of them."""
    tests = [Test("make install: the programs", judge_programs), *library_tests()]
    word = sys.argv[1] if len(sys.argv) > 1 else ""
    return [test for test in tests if word in test.name]


if __name__ == "__main__":
    sys.exit(main(all_tests()))
