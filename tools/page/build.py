#!/usr/bin/env python3
"""FOLDER: makes the page that judges traces in a browser, index.html, in the folder: docs/page in one file, with
the examples and the module of the C library, which is made first where neither out/page nor release has it.

It needs Python 3.8; and rt and wasm-opt (Debian's binaryen) where the module is to be made. Ends with 70 where
something can't be made.
"""

import base64
import gzip
import json
import re
import shutil
import sys
from pathlib import Path

from module import MODULE, TOP, Failed, found_module, library_sum, make_module

PAGE = TOP / "docs" / "page"
EXAMPLES = TOP / "examples"
# A row of examples/README.md: a name and what it is about.
ROW = re.compile(r"^\| `(\w+)` \| (.*) \|$", re.M)


def examples():
    """The traces that the page lists: a group, a name, what it is about, and the text."""
    about = dict(ROW.findall((EXAMPLES / "README.md").read_text()))
    for name, words in about.items():
        yield "Examples", name, words.replace("`", ""), (EXAMPLES / f"{name}.json").read_text()
    for path in sorted((EXAMPLES / "rules").glob("*.json")):
        rule, _, kind = path.stem.partition(".")
        if kind in ("broken", "corrected"):
            yield "Rules", f"{rule.upper()}, {kind}", "", path.read_text()
    for path in sorted((EXAMPLES / "no_traces").glob("*.json")):
        if not path.stem.endswith(".explained"):
            yield "Not valid traces", path.stem, "", path.read_text()


def script_of(text):
    """A script as it stands in HTML, where these would end it."""
    if "</script" in text or "<!--" in text:
        raise Failed("a script of docs/page has </script or <!-- in it")
    return f"<script>\n{text}</script>"


def data_of(value):
    """A value as JSON in HTML, without a letter that begins a tag."""
    return json.dumps(value).replace("<", "\\u003c")


def assembled(module):
    """The page as one file."""
    page = (PAGE / "index.html").read_text()
    listed = [dict(zip(("group", "name", "about", "trace"), each)) for each in examples()]
    packed = base64.b64encode(gzip.compress(module, 9, mtime=0)).decode()
    style = (PAGE / "page.css").read_text()
    scripts = {name: script_of((PAGE / name).read_text()) for name in ("library.js", "picture.js", "page.js")}
    parts = {
        '<link rel="stylesheet" href="page.css">': f"<style>\n{style}</style>",
        **{f'<script src="{name}"></script>': script for name, script in scripts.items()},
        '<script type="application/json" id="examples">[]</script>': '<script type="application/json" id="examples">'
        + data_of(listed)
        + "</script>",
        '<script type="text/plain" id="module"></script>': f'<script type="text/plain" id="module">{packed}</script>',
        "VERSION": (TOP / "VERSION").read_text().strip(),
    }
    for old, new in parts.items():
        if page.count(old) != 1:
            raise Failed(f"docs/page/index.html has no place, or more than one, for {old[:60]}")
        page = page.replace(old, new)
    return page


def make(folder):
    """Makes the page, and its module where it has to."""
    folder.mkdir(parents=True, exist_ok=True)
    found = found_module()
    if found is None:
        wanted = library_sum()
        (folder / "RELEASE").unlink(missing_ok=True)
        make_module(folder / MODULE)
        (folder / "RELEASE").write_text(f"module {wanted}\n")
        found = folder / MODULE
    elif found.parent != folder:
        shutil.copyfile(found, folder / MODULE)
        (folder / "RELEASE").write_text(f"module {library_sum()}\n")
    (folder / "index.html").write_text(assembled((folder / MODULE).read_bytes()))


def main(words):
    """Answers the exit status."""
    if len(words) != 1:
        print("usage: tools/page/build.py FOLDER", file=sys.stderr)
        return 64
    try:
        make(Path(words[0]).resolve())
    except (Failed, OSError) as why:
        print(f"page: {why}", file=sys.stderr)
        return 70
    return 0


if __name__ == "__main__":
    sys.exit(main(sys.argv[1:]))
