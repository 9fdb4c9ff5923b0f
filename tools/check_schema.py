#!/usr/bin/env python3
"""Checks docs/trace.schema.json: it is a schema; the traces of examples/ and of docs/, and the examples in the tables
of docs/FORMAT.md, fit it; and what isn't a trace doesn't, such as the texts of examples/no_traces/ that are JSON. The
deepest error in such a text is at the member that is wrong (at an array, if a member is missing there or is too many),
and its message is about that member. This needs jsonschema 4 or later (Debian: python3-jsonschema); without it nothing
is checked, and all is skipped. Ends with 'N passed, M failed'."""

import json
import pathlib
import re
import sys

try:
    from jsonschema import Draft202012Validator
except ImportError:
    Draft202012Validator = None

TOP = pathlib.Path(__file__).resolve().parent.parent

# Texts that are JSON and no trace, and where the mistake is, as a JSON pointer.
NO_TRACES = [
    ('{}', ''),
    ('[[]]', '/0'),
    ('["map",1]', '/0'),
    ('[["map"]]', '/0'),
    ('[["map",1,2]]', '/0'),
    ('[["map",-1]]', '/0/1'),
    ('[["map",4294967296]]', '/0/1'),
    ('[["map","1"]]', '/0/1'),
    ('[["map",1.5]]', '/0/1'),
    ('[["map",null]]', '/0/1'),
    ('[["Map",1]]', '/0/0'),
    ('[["event",1],[1,1]]', '/1/0'),
    ('[["write",1,0,"0"]]', '/0/3'),
    ('[["write",1,0,"0g"]]', '/0/3'),
    ('[["write",1,0,0]]', '/0/3'),
    ('[["flush",1,0,"Whole"]]', '/0/3'),
    ('[["flush",1,0,18446744073709551616]]', '/0/3'),
    ('[["read",1,0,"whole"]]', '/0/3'),
    ('[["wait",[[1]]]]', '/0/1/0'),
    ('[["wait",[[1,2],[1,true]]]]', '/0/1/1/1'),
    ('[["submit",0,[[[],[]]]]]', '/0/2/0'),
    ('[["submit",0,[[[],[],[[1,1]]]]]]', '/0/2/0/2/0'),
    ('[["submit",0,[[[],[["fil",1,0,16,0]],[]]]]]', '/0/2/0/1/0/0'),
    ('[["submit",0,[[[],[["fill",1,0,16]],[]]]]]', '/0/2/0/1/0'),
    ('[["submit",0,[[[],[["fill",1,-4,16,0]],[]]]]]', '/0/2/0/1/0/2'),
    ('[["submit",0,[[[],[["fill",1,0,16,0],["update",1,0,"0"]],[]]]]]', '/0/2/0/1/1/3'),
    ('[["submit",0,[[[],[["barrier",[[1,2,3]],[],[]]],[]]]]]', '/0/2/0/1/0/1/0'),
    ('[["submit",0,[[[],[["barrier",[[4294967296,2,3,4]],[],[]]],[]]]]]', '/0/2/0/1/0/1/0/0'),
    ('[["submit",0,[[[],[["barrier",[["TRANSFER",2,3,4]],[],[]]],[]]]]]', '/0/2/0/1/0/1/0/0'),
    ('[["submit",0,[[[],[["set",1,[],[]]],[]]]]]', '/0/2/0/1/0'),
    ('[["submit",0,[[[],[["copy_in",1,2,7,[[0,0,0,0,0,1,0,0,4]]]],[]]]]]', '/0/2/0/1/0/4/0'),
    ('[["submit",0,[[[],[["clear",1,7,[0,0,0],[]]],[]]]]]', '/0/2/0/1/0/3'),
    ('[["buffer",1,16,3,"shared",["dedicated",1]]]', '/0/4'),
    ('[["buffer",1,16,3,"exclusive",["dedicated",1,0]]]', '/0/5'),
    ('[["buffer",1,16,3,"exclusive",["dedicated"]]]', '/0/5'),
    ('[["buffer",1,16,3,"exclusive",["pools",1]]]', '/0/5/0'),
    ('[["buffer",1,16,3,"exclusive",["memory",1,-1]]]', '/0/5/2'),
    ('[["buffer",1,16,3,"exclusive",[]]]', '/0/5'),
    ('[["buffer",1,16,3,"exclusive",1]]', '/0/5'),
    ('[["image",1,"R8_SINT",8,8,1,1,"optimal",3,"exclusive",["dedicated",0]]]', '/0/2'),
    ('[["image",1,"R8G8B8A8_UNORM",8,8,1,1,"optimal",3,"exclusive",["dedicated",0]]]', '/0/2'),
    ('[["image",1,"R8_UINT",8,8,1,1,"Optimal",3,"exclusive",["dedicated",0]]]', '/0/7'),
    ('[["pool",1,"Linear",1,1024,1]]', '/0/2'),
    ('[["pool",1,"linear",1,1024]]', '/0'),
    ('[["drop_pool",1,1]]', '/0'),
    ('[["buffer",1,16,3,"exclusive",["pool_upper",1,0]]]', '/0/5'),
    ('[["defrag",2,1,0]]', '/0'),
    ('[["defrag",2,1,0,4294967296]]', '/0/4'),
    ('[["pass",2,[],[]]]', '/0'),
    ('[["end_pass",2]]', '/0'),
    ('[["end_pass",2,[],3]]', '/0/3'),
    ('[["end_pass",2,[3,-3],[]]]', '/0/2/1'),
    ('[["end_defrag"]]', '/0'),
]
# What jsonschema says where it doesn't know which form is meant.
NO_MESSAGE = 'is not valid under any of the given schemas'


def traces():
    """Each trace with where it is."""
    examples = TOP / 'examples'
    for path in [*sorted(examples.glob('*.json')), *sorted(examples.glob('rules/*.json'))]:
        if not path.name.endswith('.explained.json'):
            yield path.name, path.read_text()
    for page in ('RULES.md', 'RULES_HAZARDS.md', 'WORKED_PAIRS.md'):
        inside = False
        for number, line in enumerate((TOP / 'docs' / page).read_text().splitlines(), 1):
            if line.startswith('```'):
                inside = line == '```json'
            elif inside:
                yield f'{page}:{number}', line


def no_traces():
    """Each text that is JSON and no trace, with where it is, and where its mistake is."""
    for path in sorted((TOP / 'examples' / 'no_traces').glob('*.json')):
        if path.name.endswith('.explained.json'):
            continue
        text = path.read_text(errors='replace')
        try:
            json.loads(text)
        except ValueError:
            continue
        said = path.with_suffix('.explained').read_text()
        yield path.name, text, re.search(r'[(]member ([/0-9]*)[,)]', said)[1]
    for text, member in NO_TRACES:
        yield text, text, member


def shown_forms():
    """Each entry and command that docs/FORMAT.md shows in a row of a table, with the name of its kind."""
    kind = None
    for line in (TOP / 'docs' / 'FORMAT.md').read_text().splitlines():
        cells = line.split(' | ')
        if cells[0] in ('| Entry', '| Command'):
            kind = cells[0][2:].lower()
        elif not line.startswith('|'):
            kind = None
        elif kind and not line.startswith('|-'):
            for form in re.findall('`([^`]*)`', cells[-1]):
                yield kind, form


def place_of(error):
    """Where an error is, as a JSON pointer."""
    return ''.join(f'/{member}' for member in error.absolute_path)


def mistaken(validator, text, member):
    """What is wrong with what the schema says of a text whose mistake is at a member; nothing where all is right."""
    errors = list(validator.iter_errors(json.loads(text)))
    if not errors:
        return 'a trace'
    if any(error.context or NO_MESSAGE in error.message for error in errors):
        return 'without a message of its own'
    deepest = max(len(error.absolute_path) for error in errors)
    place = min(place_of(error) for error in errors if len(error.absolute_path) == deepest)
    return None if place == member else f'wrong at {place}, and not at {member}'


def outcomes(schema):
    """Each text with what is wrong with what the schema says of it, nothing where all is right."""
    validator = Draft202012Validator(schema)
    for where, text in traces():
        fits = validator.is_valid(json.loads(text))
        yield where, None if fits else 'no trace'
    for where, text, member in no_traces():
        yield where, mistaken(validator, text, member)
    for kind, form in shown_forms():
        of_kind = {'$ref': f'#/$defs/{kind}', '$defs': schema['$defs']}
        fits = Draft202012Validator(of_kind).is_valid(json.loads(form))
        yield f'FORMAT.md: {form}', None if fits else f'no {kind}'


def main():
    if Draft202012Validator is None:
        print('skipped: the schema: this needs jsonschema 4 or later (Debian: python3-jsonschema)')
        print('0 passed, 0 failed, 1 skipped')
        return 0
    schema = json.loads((TOP / 'docs' / 'trace.schema.json').read_text())
    Draft202012Validator.check_schema(schema)
    passed = failed = 0
    for where, wrong in outcomes(schema):
        if wrong:
            failed += 1
            print(f'{where}: {wrong}, by the schema')
        else:
            passed += 1
    print(f'{passed} passed, {failed} failed')
    return 1 if failed else 0


if __name__ == '__main__':
    sys.exit(main())
