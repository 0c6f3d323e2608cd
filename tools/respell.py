#!/usr/bin/env python3
"""Spells this repository's own definitions and lemmas in snake case, as the library spells its own.

    tools/respell.py [TOP]        respells every crate below TOP/crates, and the names that TOP/docs and README.md put in backticks
    tools/respell.py --list [TOP] prints the names that would change, and those that would fall together

A dash stays where Rattle makes a name (a goal, a step, a loop), where the library's name has one, and where it joins a type to a word.
"""
import pathlib
import re
import sys

KIT = pathlib.Path('/opt/rattle')
NAME = r"[A-Za-z0-9_'ℕ]+(?:-[A-Za-z0-9_'ℕ]+)+"
TOKEN = re.compile(r"(?<![-\w'])" + NAME + r"(?![-\w'])")
# what a definition, a field, a constructor or a binder looks like
DEFINED = re.compile(r"^\s*(?:(?:pub|abbrev|unfoldable|ruleset|data|record|let|elim) )*(" + NAME + r")(?= *[:({]| [\w'({ ]*:)", re.M)
# the left side of a clause, and what a `use` names with `as`
CLAUSE = re.compile(r"^ *((?:[\w'-]+ )(?:[\w'{}()∷\[\],. -]+ )?)= ?", re.M)
ALIAS = re.compile(r"\bas (" + NAME + r")")
LABEL = re.compile(r"\b(?:ensures|requires|ghost) (\w+_\w+)\b")
BOUND = re.compile(r"(?:[({,;]|λ|let)\s*((?:[\w'-]+ )*[\w'-]+) ?[:=.]")
FOLDERS = ('specs', 'proofs')


def library_names():
    names = set()
    for folder in ('rattle/logic', 'rattle/core', 'rattle/std', 'rattle/std_alloc', 'rattle/std_collections', 'rattle/std_heap', 'rattle/std_io', 'rattle/antt'):
        for path in (KIT / folder).rglob('*.antt'):
            text = path.read_text(errors='replace')
            names.update(TOKEN.findall(text))
    return names


def antt_files(top):
    for path in sorted((top / 'crates').glob('*/*/**/*.antt')) + sorted((top / 'crates').glob('*/*/*.antt')):
        if 'out' not in path.parts:
            yield path


def own_names(top):
    own, made = set(), set()
    for path in set(antt_files(top)):
        text = path.read_text()
        made.update(re.findall(r"\b(?:goal|given|need)\.(" + NAME + ")", text))
        for group in re.findall(r"(?:Goals|Given|Needs)(?:\.[\w-]+)*\.\{([^}]*)\}", text):
            made.update(TOKEN.findall(group))
        if path.name in ('Answers.antt', 'Invariants.antt', 'Proof.antt'):
            for line in text.splitlines():
                if re.search(r': ?(?:goal|given|need)\.', line):
                    continue
                own.update(DEFINED.findall(line + '\n'))
            continue
        own.update(DEFINED.findall(text))
        own.update(ALIAS.findall(text))
        for group in CLAUSE.findall(text):
            own.update(TOKEN.findall(group))
        for group in BOUND.findall(text):
            own.update(name for name in group.split() if TOKEN.fullmatch(name))
    return own, made


def turned(name):
    return name.replace('-', '_')


def mapping(top):
    own, made = own_names(top)
    library = library_names()
    names = {}
    for name in sorted(own - made):
        if name[0].isupper() or name in library and name not in OURS:
            continue
        names[name] = turned(name)
    for path in (top / 'crates').glob('*/src/**/*.rt'):
        for label in LABEL.findall(path.read_text()):
            names[label.replace('_', '-')] = label
    return names


# names of this repository that a library happens to have as well
OURS = {
    'all-below', 'at-end', 'b-is', 'column-is', 'ill-formed', 'neg-zero', 'not-before', 'not-one', 'not-zero', 'q-is', 's-is', 'spread-length',
    'sum-zero', 'three-field', 'total-zero', 'x-is',
}


# spellings that are no plain turn of a dash
OTHERS = {'by_Row': 'by_row', 'getD-first': 'get_or_first', 'getD-from': 'get_or_from', 'getD-raised': 'get_or_raised', 'getD-rest': 'get_or_rest'}
OTHER = re.compile(r"(?<![-\w'])(?:" + '|'.join(OTHERS) + r")(?![-\w'])")


def respelled(text, names):
    text = OTHER.sub(lambda m: OTHERS[m.group(0)], text)

    def new(m):
        # Rattle's own name of what a branch gave a variable
        if m.group(0).endswith('-is') and text[: m.start()].endswith('w.'):
            return m.group(0)
        return names.get(m.group(0), m.group(0))

    return TOKEN.sub(new, text)


def main():
    args = [a for a in sys.argv[1:] if not a.startswith('--')]
    top = pathlib.Path(args[0] if args else '.').resolve()
    names = mapping(top)
    if '--list' in sys.argv:
        for name, new in names.items():
            print(name, new)
        return
    for path in sorted(p for p in (top / 'crates').rglob('*') if p.suffix in ('.antt', '.rt', '.edit') and 'out' not in p.parts):
        text = path.read_text()
        new = respelled(text, names)
        if new != text:
            path.write_text(new)
    quoted = re.compile(r'`[^`\n]+`')
    for path in [top / 'README.md', *sorted((top / 'docs').glob('*.md'))]:
        text = path.read_text()
        new = quoted.sub(lambda m: respelled(m.group(0), names), text)
        if new != text:
            path.write_text(new)


if __name__ == '__main__':
    main()
