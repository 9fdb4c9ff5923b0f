#!/usr/bin/env python3
"""Tests which program ./replay, ./explain, ./emit and ./places run: one that was built here, the released one, or a new
build; and what a release has.

    tests/starting.py

Each test makes a small repository of its own, with the scripts of this one, crates without a line of code in
them, and programs that say what they are. A build is that of a stand-in for the toolchain.
"""

import os
import pathlib
import shutil
import subprocess
import sys
import tempfile

sys.dont_write_bytecode = True

from harness import TOP, Answer, Test, difference, main, run

SCRIPTS = ("replay", "explain", "emit", "places", "tools/drawing.sh", "tools/drawing.txt", "tools/program", "tools/build", "tools/crates.sh", "tools/release", "tools/c_library", ".ci/no_toolchain")
PROGRAMS = ("replay", "explain", "emit", "places")
CRATES = "low:\nvk_replay: low\nexplain: low\nemit: low\nplaces: low\nzorthewin_c staticlib: low\n"
FILES = {
    "crates.txt": CRATES,
    "VERSION": "1.2.3\n",
    "crates/low/src/lib.rt": "// one\n",
    "crates/low/specs/Lib.antt": "",
    "crates/vk_replay/src/main.rt": "// two\n",
    "crates/explain/src/main.rt": "// three\n",
    "crates/emit/src/main.rt": "// four\n",
    "crates/places/src/main.rt": "// five\n",
    "crates/zorthewin_c/src/lib.rt": "// six\n",
}
# A stand-in for `rt`, which "builds" a program that says that it was built of the sources as they are.
TOOLCHAIN = """\
#!/bin/sh
[ "$1" != version ] || { echo stand-in; exit; }
[ "$1" = run ] || exit 0
mkdir -p out
name=$(basename "$PWD")
printf '#!/bin/sh\\necho "built %s" "$@"\\n' "$(cat ../low/src/lib.rt)" >"out/$name"
chmod +x "out/$name"
"""


class Repository:
    """A small repository, with a release of its sources."""

    def __init__(self, top):
        self.top = pathlib.Path(top)
        for script in SCRIPTS:
            (self.top / script).parent.mkdir(parents=True, exist_ok=True)
            shutil.copy(TOP / script, self.top / script)
        for name, text in FILES.items():
            self.write(name, text)
        for name in PROGRAMS:
            self.program(f"built/{name}", f'[ "$1" = --version ] && echo "{name} 1.2.3" || echo "released $@"')
        self.program("bin/rt", TOOLCHAIN.partition("\n")[2])
        self.release()

    def write(self, name, text):
        path = self.top / name
        path.parent.mkdir(parents=True, exist_ok=True)
        path.write_text(text, encoding="utf-8")

    def program(self, name, body):
        self.write(name, f"#!/bin/sh\n{body}\n")
        (self.top / name).chmod(0o755)

    def release(self):
        """Makes a release of the sources as they are."""
        command = [self.top / "tools/release", *(self.top / "built" / name for name in PROGRAMS)]
        subprocess.run(command, check=True, stdout=subprocess.DEVNULL, env=self.environment())

    def environment(self, toolchain=True, tools=None):
        """With or without the stand-in for the toolchain, and with these tools alone where they are named."""
        path = tools or os.environ["PATH"]
        return {**os.environ, "PATH": f"{self.top / 'bin'}:{path}" if toolchain else path}

    def start(self, name="replay", *arguments, **options):
        """What a script answers; of standard error the last line alone."""
        answer = run([self.top / name, *arguments], env=self.environment(**options))
        last = answer.error.splitlines(True)[-1:]
        return Answer(answer.output, answer.status, b"".join(last))


def said(text, status=0, error=""):
    return Answer(text.encode(), status, error.encode())


def tested(name, judge):
    """A test of a repository of its own."""

    def judged():
        with tempfile.TemporaryDirectory() as top:
            return judge(Repository(top))

    return Test(name, judged)


RELEASED = said("released \n")


def runs_the_release(repository):
    """Also at the second call, by the sum that was kept, and with arguments; of each program."""
    for wanted in (RELEASED, RELEASED):
        found = difference(wanted, repository.start())
        if found:
            return found
    for name in ("explain", "emit", "places"):
        found = difference(said("released --order last\n"), repository.start(name, "--order", "last"))
        if found:
            return found
    wanted = said(f"released --header {repository.top}/tools/drive/zw_drive.h\n")
    return difference(wanted, repository.start("emit", "--whole"))


def changed_and_back(repository, change, back, **options):
    """After a change there is a build; once it is taken back the released program runs again."""
    first = difference(RELEASED, repository.start(**options))
    change(repository)
    built = repository.start(**options)
    back(repository)
    if first or not built.output.startswith(b"built"):
        return first or f"after the change: {built}"
    return difference(RELEASED, repository.start(**options))


def line_changed(repository):
    repository.write("crates/low/src/lib.rt", "// other\n")


def line_back(repository):
    repository.write("crates/low/src/lib.rt", FILES["crates/low/src/lib.rt"])


def file_added(repository):
    repository.write("crates/low/proofs/f/Answers.antt", "-- a proof\n")


def file_taken_away(repository):
    shutil.rmtree(repository.top / "crates/low/proofs")


def helps_with_pictures(repository):
    """The help of ./explain has that of its pictures behind it; where the program fails, or the output, it ends so."""
    lines = (TOP / "tools/drawing.txt").read_text(encoding="utf-8")
    for argument in ("--help", "-h"):
        found = difference(said(f"released {argument}\n\n{lines}"), repository.start("explain", argument))
        if found:
            return found
    found = difference(said("released -- --help\n"), repository.start("explain", "--", "--help"))
    repository.program("built/explain", '[ "$1" = --version ] && echo "explain 1.2.3" || exit 4')
    repository.release()
    return found or difference(said("", 4), repository.start("explain", "--help"))


def runs_what_was_built(repository):
    """What was built of the sources runs until they change, also where the release is of others."""
    line_changed(repository)
    built = repository.start()
    (repository.top / "bin/rt").unlink()
    again = repository.start(toolchain=False)
    wanted = said("built // other\n")
    return difference(wanted, again) or difference(wanted, built._replace(error=b""))


def fails_without_toolchain(repository):
    line_changed(repository)
    answer = repository.start(toolchain=False, tools=without("rt"))
    wanted = said("", 70, answer.error.decode())
    is_said = b"the command rt isn't found" in answer.error
    return difference(wanted, answer) or (None if is_said else f"standard error: {answer.error}")


def fails_with_the_build(repository):
    line_changed(repository)
    repository.program("bin/rt", "echo no proof; exit 1")
    return difference(said("", 70, "no proof\n"), repository.start())


def without(name):
    """The folders of PATH in which there is no such program."""
    folders = os.environ["PATH"].split(":")
    return ":".join(folder for folder in folders if not os.path.exists(os.path.join(folder, name)))


def without_perl(repository):
    """A folder with the tools that the scripts need, and no perl."""
    folder = repository.top / "tools_alone"
    folder.mkdir()
    for name in ("sh", "awk", "cat", "chmod", "cut", "date", "dirname", "echo", "find", "grep", "head", "mkdir", "mktemp",
                 "mv", "nproc", "printf", "rm", "sed", "sha256sum", "sleep", "sort", "tail", "touch", "tr", "wc", "xargs",
                 "basename", "env"):
        found = shutil.which(name)
        if found:
            (folder / name).symlink_to(found)
    return changed_and_back(repository, line_changed, line_back, tools=str(folder))


def where_nothing_can_be_kept(repository):
    """A file in the place of the folder for sums: they are computed at each call."""
    repository.write("out", "")
    return runs_the_release(repository)


def tells_the_path(repository):
    """--at-once prints the program that would run, and nothing where there is none."""
    command = [repository.top / "tools/program", "--at-once", "vk_replay", "replay"]
    path = repository.top.resolve() / "release/replay"
    found = difference(said(f"{path}\n"), run(command, env=repository.environment()))
    line_changed(repository)
    return found or difference(said("", 1), run(command, env=repository.environment()))


def from_another_folder(repository):
    """By a path from the folder above, and by its name from its own."""
    environment = repository.environment()
    above = repository.top.resolve()
    by_path = run([f"{above.name}/replay"], env=environment, cwd=above.parent)
    by_name = run(["sh", "replay"], env=environment, cwd=above)
    return difference(RELEASED, by_path) or difference(RELEASED, by_name)


def ignores_the_limit_on_files(repository):
    """The program isn't ended by the signal of a file that may grow no more."""
    repository.program("built/replay", "kill -XFSZ $$; echo alive")
    repository.release()
    return difference(said("alive\n"), repository.start())


def compares_the_release(repository):
    """The released programs are compared with those that were built, byte for byte."""
    command = [repository.top / "tools/release", "--compare", *(repository.top / "built" / name for name in PROGRAMS)]
    same = run(command, env=repository.environment())
    repository.program("built/explain", "echo other")
    other = run(command, env=repository.environment())
    line_changed(repository)
    older = run(command, env=repository.environment())
    ends = [answer.output.splitlines()[-1] for answer in (same, other, older)]
    wanted = [b"9 passed, 0 failed", b"8 passed, 1 failed", b"5 passed, 0 failed"]
    return None if ends == wanted else f"wanted: {wanted}\n  came:   {ends}"


def made_beside(repository):
    """Makes stand-ins for the C library and the page's module, of the sources as they are."""
    words = 'top=$1; . "$top/tools/crates.sh"; library_sum'
    found = subprocess.run(["sh", "-c", words, "sh", repository.top], check=True, stdout=subprocess.PIPE).stdout.decode()
    for name in ("library/libzorthewin.a", "library/libzorthewin.so.0", "page/zorthewin.wasm"):
        repository.write(f"out/{name}", f"{name} of {found}")
    repository.write("out/library/RELEASE", f"library {found}")
    repository.write("out/page/RELEASE", f"module {found}")


def takes_the_library_along(repository):
    """A release has the C library and the module that are of its sources, also those of the last release, and no others."""
    files = ("libzorthewin.a", "libzorthewin.so.0", "zorthewin.wasm")
    at_once = [repository.top / "tools/c_library", "--at-once"]
    compare = [repository.top / "tools/release", "--compare", *(repository.top / "built" / name for name in PROGRAMS)]
    made_beside(repository)
    places = [run(at_once).output.decode().strip()]
    for again in (False, True):
        repository.release()
        listed = (repository.top / "release/SHA256SUMS").read_text()
        missing = [name for name in files if not (repository.top / "release" / name).exists() or name not in listed]
        if missing:
            return f"not released{' again' if again else ''}: {missing}"
        shutil.rmtree(repository.top / "out", ignore_errors=True)
    places.append(run(at_once).output.decode().strip())
    wanted = [str(repository.top.resolve() / place) for place in ("out/library", "release")]
    if [str(pathlib.Path(place).resolve()) for place in places] != wanted:
        return f"found in {places}; wanted: {wanted}"
    same = run(compare, env=repository.environment())
    repository.write("release/libzorthewin.a", "another one")
    other = run(compare, env=repository.environment())
    ends = [answer.output.splitlines()[-1] for answer in (same, other)]
    if ends != [b"12 passed, 0 failed", b"11 passed, 1 failed"]:
        return f"compared: {ends}"
    repository.write("crates/zorthewin_c/src/lib.rt", "// other\n")
    repository.release()
    left = [name for name in files if (repository.top / "release" / name).exists()]
    return f"of other sources: {left}" if left or run(at_once).status != 1 else None


def all_tests():
    yield tested("the released program", runs_the_release)
    yield tested("the help of pictures", helps_with_pictures)
    yield tested("a line that is changed, and back", lambda r: changed_and_back(r, line_changed, line_back))
    yield tested("a file that is added, and gone", lambda r: changed_and_back(r, file_added, file_taken_away))
    yield tested("what was built", runs_what_was_built)
    yield tested("no toolchain", fails_without_toolchain)
    yield tested("a build that fails", fails_with_the_build)
    yield tested("no perl", without_perl)
    yield tested("nothing can be kept", where_nothing_can_be_kept)
    yield tested("the path alone", tells_the_path)
    yield tested("another folder", from_another_folder)
    yield tested("the limit on files", ignores_the_limit_on_files)
    yield tested("the comparison of a release", compares_the_release)
    yield tested("the library in a release", takes_the_library_along)


if __name__ == "__main__":
    sys.exit(main(all_tests(), ()))
