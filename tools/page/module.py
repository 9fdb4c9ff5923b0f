"""The C library as a module of WebAssembly: of the proved sources, compiled another way than the programs are.

The toolchain proves the crate zorthewin_c and lowers it to a module of LLVM. That module is kept, said to be for
WebAssembly, and compiled for a memory of 64 bits by the toolchain's clang; binaryen (wasm-opt) makes that one of 32
bits, which every engine has. No proof covers any of these steps. (The toolchain has WebAssembly as a target of its own,
but takes no library for it that calls C, as each does that allocates memory.)
"""

import os
import re
import shutil
import subprocess
import tempfile
from pathlib import Path

TOP = Path(__file__).resolve().parent.parent.parent
CRATE = TOP / "crates" / "zorthewin_c"
MODULE = "zorthewin.wasm"
CALLS = ("zw_replay", "zw_explain", "zw_take", "zw_give")
LAYOUT = "e-m:e-p:64:64-p10:8:8-p20:8:8-i64:64-i128:128-n32:64-S128-ni:1:10:20"
TARGET = ["--no-default-config", "--target=wasm64-unknown-unknown", "-mcpu=lime1"]
FEATURES = ("bulk-memory", "sign-ext", "mutable-globals", "nontrapping-float-to-int")
# (what a module for x86-64 says of its functions, and WebAssembly doesn't know)
FOREIGN = re.compile(r'"(?:probe-stack|stack-probe-size|target-cpu|frame-pointer)"="[^"]*" ?')
STACK = 8 << 20
# Of what a step says so many letters are shown from its begin, and from its end.
SHOWN = 1000
# Libraries call instructions of x86-64 by name: simdutf8 a shuffle of bytes, to check UTF-8. WebAssembly's backend knows
# none of them, and ends with "Do not know how to split the result of this operator" at the function that the call was
# inlined into. So a function here does what the instruction does: its type, its arguments and its body. It is always
# inlined, since a vector would go in and out of it byte by byte.
FOREIGN_CALL = re.compile(r"@llvm\.(x86\.[\w.]+)")
STAND_INS = {
    # Byte i is the byte of %from at the low four bits of byte i of %at; where the highest bit of that is set, it is 0.
    "x86.ssse3.pshuf.b.128": (
        "<16 x i8>",
        "<16 x i8> %from, <16 x i8> %at",
        [
            "%low = and <16 x i8> %at, splat (i8 15)",
            *(
                line
                for i in range(16)
                for line in (
                    f"%low{i} = extractelement <16 x i8> %low, i32 {i}",
                    f"%byte{i} = extractelement <16 x i8> %from, i8 %low{i}",
                    f"%to{i + 1} = insertelement <16 x i8> {f'%to{i}' if i else 'poison'}, i8 %byte{i}, i32 {i}",
                )
            ),
            "%none = icmp slt <16 x i8> %at, zeroinitializer",
            "%to = select <16 x i1> %none, <16 x i8> zeroinitializer, <16 x i8> %to16",
            "ret <16 x i8> %to",
        ],
    ),
}
# Keeps the module that the toolchain hands to its clang, and compiles nothing.
KEEPER = """#!/bin/sh
for word; do
    case $word in
    *.bc) cp "$word" '{kept}' ;;
    esac
done
exit 1
"""


class Failed(RuntimeError):
    """What can't be made, and why."""


def shell(words):
    """What the functions of tools/crates.sh print."""
    said = subprocess.run(
        ["sh", "-c", f'top=$1; . "$top/tools/crates.sh"; {words}', "sh", str(TOP)], stdout=subprocess.PIPE, check=True
    )
    return said.stdout.decode().split()


def library_sum():
    """The sum of what the library is built from."""
    return shell("library_sum")[0]


def is_of(folder, wanted):
    """Whether a folder has the module of the sources with this sum."""
    note = folder / "RELEASE"
    return (folder / MODULE).exists() and note.exists() and f"module {wanted}" in note.read_text().splitlines()


def found_module():
    """The module of the sources as they are, of out/page or release, if there is one."""
    wanted = library_sum()
    return next((folder / MODULE for folder in (TOP / "out" / "page", TOP / "release") if is_of(folder, wanted)), None)


def run(command, **where):
    """Runs a step; where it fails, what it says is shown: its begin, which has clang's error, and its end."""
    words = [str(it) for it in command]
    ran = subprocess.run(words, stdout=subprocess.PIPE, stderr=subprocess.STDOUT, check=False, **where)
    if ran.returncode != 0:
        said = ran.stdout.decode(errors="replace").strip()
        said = said if len(said) <= 2 * SHOWN else f"{said[:SHOWN]}\n..\n{said[-SHOWN:]}"
        raise Failed(f"{os.path.basename(words[0])} ended with {ran.returncode}: {said}")


def kept_module(kit, room):
    """The module of LLVM that the toolchain makes of the crate, which it proves first."""
    run(["rt", "lib"], cwd=CRATE)
    tools, kept = room / "toolchain", room / "kept.bc"
    (tools / "bin").mkdir(parents=True)
    (tools / "lib").symlink_to(kit / "toolchain" / "lib")
    for tool in (kit / "toolchain" / "bin").iterdir():
        if tool.name != "clang":
            (tools / "bin" / tool.name).symlink_to(tool)
    (tools / "bin" / "clang").write_text(KEEPER.format(kept=kept))
    (tools / "bin" / "clang").chmod(0o755)
    crates = [name for name in shell("crates_of zorthewin_c") if name != CRATE.name]
    words = ["--crate-name", CRATE.name, "src/lib.rt", "--extern", f"std={kit}/rlibs/std.rlib"]
    words += ["-L", f"dependency={kit}/rlibs"]
    named = next(line for line in (TOP / "crates.txt").read_text().splitlines() if line.startswith(f"{CRATE.name} "))
    for name in named.partition(":")[2].split():
        words += ["--extern", f"{name}={CRATE.parent}/{name}/out/rlib/{name}.rlib"]
    for name in crates:
        words += ["-L", f"dependency={CRATE.parent}/{name}/out/rlib"]
    words += ["--antt-project", f"{kit}/rattle/logic/antt-project.json", "--logic-built", f"{kit}/logic_built"]
    words += ["--links", f"{CRATE.name}=", "--crate-type", "staticlib", "--incremental", "out/incremental"]
    words += ["--toolchain", tools, "--backend", "llvm", "-o", room / "none.a"]
    try:
        run([kit / "bin" / "rattle", "build", *words], cwd=CRATE)
    except Failed as why:
        if not kept.exists():
            raise Failed(f"the toolchain handed no module to its clang: {why}") from why
    return kept


def stand_in(name):
    """What the function is called that does what an instruction of x86-64 does."""
    if name not in STAND_INS:
        raise Failed(f"a library calls {name}, which WebAssembly doesn't have: STAND_INS has to say what it does")
    return f'@"stand-in for {name}"'


def retargeted(lines):
    """The text of a module for x86-64 as that of one for WebAssembly."""
    called = set()
    for line in lines:
        foreign = FOREIGN_CALL.findall(line)
        called.update(foreign)
        if line.startswith("target datalayout"):
            yield f'target datalayout = "{LAYOUT}"\n'
        elif line.startswith("target triple"):
            yield 'target triple = "wasm64-unknown-unknown"\n'
        elif line.startswith("attributes"):
            yield re.sub(r"\{\s*\}", "{ nounwind }", FOREIGN.sub("", line))
        elif not foreign:
            yield line
        elif not line.startswith("declare"):
            yield FOREIGN_CALL.sub(lambda found: stand_in(found[1]), line)
    for name in sorted(called):
        called_here = stand_in(name)
        kind, arguments, body = STAND_INS[name]
        yield f"\ndefine internal {kind} {called_here}({arguments}) alwaysinline nounwind {{\n"
        yield from (f"  {line}\n" for line in body)
        yield "}\n"


def make_module(to):
    """Makes the module, and answers nothing."""
    for tool in ("rt", "wasm-opt"):
        if not shutil.which(tool):
            raise Failed(f"this needs {tool}{', of binaryen' if tool == 'wasm-opt' else ', of the Rattle toolchain'}")
    doc = subprocess.run(["rt", "doc"], stdout=subprocess.PIPE, check=True).stdout.decode().strip()
    kit = Path(doc).resolve().parent
    clang, linker = kit / "toolchain" / "bin" / "clang", kit / "toolchain" / "bin" / "ld.lld"
    with tempfile.TemporaryDirectory() as folder:
        room = Path(folder)
        kept, text, ours = kept_module(kit, room), room / "module.ll", room / "ours.ll"
        as_text = ["--no-default-config", "-x", "ir", "-S", "-emit-llvm", "-Xclang", "-disable-llvm-passes"]
        run([clang, *as_text, kept, "-o", text])
        with open(text) as lines, open(ours, "w") as out:
            out.writelines(retargeted(lines))
        options = ["-O2", "-ffunction-sections", "-fno-crash-diagnostics"]
        run([clang, *TARGET, *options, "-x", "ir", "-c", ours, "-o", room / "ours.o"])
        support = Path(__file__).resolve().parent / "support.c"
        flags = ["-O2", "-ffreestanding", "-nostdinc", "-fno-builtin", "-Wall", "-Wextra", "-Werror"]
        run([clang, *TARGET, *flags, "-c", support, "-o", room / "support.o"])
        link = ["-flavor", "wasm", "-mwasm64", "--no-entry", "--strip-all", "--gc-sections", "--stack-first"]
        link += ["-z", f"stack-size={STACK}", *(f"--export={name}" for name in CALLS)]
        run([linker, *link, "-o", room / "wide.wasm", room / "ours.o", room / "support.o"])
        features = [f"--enable-{name}" for name in FEATURES]
        lowering = ["--enable-memory64", "--memory64-lowering", room / "wide.wasm", "-o", room / "low.wasm"]
        run(["wasm-opt", *features, *lowering])
        run(["wasm-opt", *features, "-Os", room / "low.wasm", "-o", room / MODULE])
        shutil.move(str(room / MODULE), str(to))
