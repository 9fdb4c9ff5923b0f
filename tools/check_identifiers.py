#!/usr/bin/env python3
"""Checks that each identifier of valid usage (VUID-..) that the repository names is one of Vulkan's.

    tools/check_identifiers.py [--json PATH]

It looks in the pages, the sources and the examples. PATH is the list of all identifiers,
validusage.json; where none is given, that of Debian's package libvulkan-dev. Prints each place of an
identifier that isn't there, and last 'N passed, M failed'.
"""

import argparse
import json
import pathlib
import re
import sys

TOP = pathlib.Path(__file__).resolve().parent.parent
LIST = '/usr/share/vulkan/registry/validusage.json'
IDENTIFIER = re.compile(r'VUID(?:-[A-Za-z0-9_]+(?:::[A-Za-z0-9_]+)*)+')
PLACES = ('*.md', 'docs/*.md', 'examples/**/*.explained*', 'crates/*/src/**/*.rt', 'crates/*/specs/**/*.antt')


def known(path):
    """The identifiers of a list."""
    calls = json.loads(pathlib.Path(path).read_text(encoding='utf-8'))['validation']
    return {
        usage['vuid']
        for groups in calls.values()
        for usages in groups.values()
        for usage in usages
    }


def named():
    """Each identifier with where it is."""
    for pattern in PLACES:
        for path in sorted(TOP.glob(pattern)):
            for number, line in enumerate(path.read_text(encoding='utf-8').splitlines(), 1):
                for identifier in IDENTIFIER.findall(line):
                    yield f'{path.relative_to(TOP)}:{number}', identifier


def main():
    parser = argparse.ArgumentParser(description=__doc__.splitlines()[0])
    parser.add_argument('--json', default=LIST, help='the list of all identifiers')
    options = parser.parse_args()
    identifiers = known(options.json)
    passed = failed = 0
    for where, identifier in named():
        if identifier in identifiers:
            passed += 1
        else:
            failed += 1
            print(f'{where}: {identifier}')
    print(f'{passed} passed, {failed} failed')
    return 1 if failed else 0


if __name__ == '__main__':
    sys.exit(main())
