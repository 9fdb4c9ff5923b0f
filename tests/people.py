#!/usr/bin/env python3
"""Tests the tools for people, tools/names.py, tools/smallest.py, tools/each, tools/picture.py, ./explain --picture and
tools/zorthewin, and the examples of docs/FORMAT.md.

    PROGRAM=FILE EXPLAIN=FILE tests/people.py [WORD]

With WORD only those tests run whose names have it.
"""

import sys

sys.dont_write_bytecode = True

from harness import main
from people_each import each_tests
from people_format import format_tests
from people_mistakes import mistake_tests
from people_module import module_tests
from people_names import both_ways_tests, explanation_tests, form_tests, line_tests, place_tests
from people_picture import picture_tests
from people_smallest import smallest_tests

PARTS = (
    *(both_ways_tests, place_tests, form_tests, explanation_tests, line_tests),
    *(mistake_tests, smallest_tests, each_tests, format_tests, module_tests, picture_tests),
)


def all_tests():
    """All of them."""
    word = sys.argv[1] if len(sys.argv) > 1 else ""
    return [test for part in PARTS for test in part() if word in test.name]


if __name__ == "__main__":
    sys.exit(main(all_tests()))
