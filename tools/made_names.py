#!/usr/bin/env python3
"""Turns the names that Rattle makes, as proof files cite them, to the form that today's Rattle gives them.

    tools/made_names.py [TOP]

In a made name a dash joins the parts, and a part that is a name of the source keeps its own underscores.
"""
import pathlib
import re
import sys

TOKEN = re.compile(r"(?<![-\w'])[A-Za-z0-9_']+(?:-[A-Za-z0-9_']+)+(?![-\w'])")
WORDS = [
    (re.compile(r'(?<![\w])overflow-(add|sub|mul|cast|neg|shl|shr)-'), r'overflow_\1-'),
    (re.compile(r'(?<![\w])in-(ok|err)-'), r'in_\1-'),
    (re.compile(r'(?<![\w])in-default(?![\w])'), 'in_default'),
    (re.compile(r'(?<![\w])from-(residual|gives)(?![\w])'), r'from_\1'),
]
# methods of the library that proofs here cite
LIBRARY = ['copy_from_slice', 'extend_from_slice', 'as_slice', 'as_mut_slice', 'index_mut', 'is_ok', 'is_empty', 'split_at', 'from_residual']


def names_of(crate):
    names = set(LIBRARY)
    for path in crate.glob('src/**/*.rt'):
        names.update(re.findall(r'\b[a-z][a-z0-9]*(?:_[a-z0-9]+)+\b', path.read_text()))
    return sorted(names, key=len, reverse=True)


def turned(name, names):
    for old, new in WORDS:
        name = old.sub(new, name)
    for own in names:
        name = re.sub(r'(?<![\w])' + own.replace('_', '-') + r'(?![\w])', own, name)
    return name


def main():
    top = pathlib.Path(sys.argv[1] if len(sys.argv) > 1 else '.').resolve()
    for crate in sorted((top / 'crates').iterdir()):
        names = names_of(crate)
        for path in crate.glob('proofs/**/*.antt'):
            if path.name not in ('Answers.antt', 'Invariants.antt', 'Proof.antt'):
                continue
            text = path.read_text()
            new = TOKEN.sub(lambda m: turned(m.group(0), names), text)
            if new != text:
                path.write_text(new)


if __name__ == '__main__':
    main()
