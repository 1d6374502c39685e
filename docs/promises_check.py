#!/usr/bin/env python3
"""Says which citations of docs/PROMISES.md name nothing; status 1 if there are any.

A citation stands between backquotes: a path, and after a colon the names in it, parted by commas. Paths are below crates/ unless they begin with docs/ or
compare/. Behind a folder must-fail the names are those of edits."""
import os
import re
import sys

ROOT = os.path.dirname(os.path.dirname(os.path.abspath(__file__)))
PATH = re.compile(r'`((?:docs/|compare/)?[\w-]+(?:/[\w.-]+)+)(?:: ([^`]+))?`')
WORDS = 'pub|abbrev|unfoldable|data|record|fn|struct|enum|trait|const|mod'


def declares(text, name):
    """A definition, law, constructor, function, type, field or constant of that name."""
    return re.search(rf'^\s*(?:(?:{WORDS})\s+)*{re.escape(name)}\s*(?:[:({{,<]|$)', text, re.M)


def wrong(path, names):
    full = os.path.join(ROOT, path if path.startswith(('docs/', 'compare/')) else 'crates/' + path)
    if not os.path.exists(full):
        return [f'{path}: no such file']
    if path.endswith('/must-fail'):
        return [f'{path}/{n}.edit: no such edit' for n in names if not os.path.isfile(f'{full}/{n}.edit')]
    if not names:
        return []
    with open(full) as f:
        text = f.read()
    return [f'{path}: no {n}' for n in names if not declares(text, n)]


with open(os.path.join(ROOT, 'docs/PROMISES.md')) as f:
    cited = PATH.findall(f.read())
faults = [w for path, names in cited for w in wrong(path, [n.strip() for n in names.split(',')] if names else [])]
print('\n'.join(faults) or f'{len(cited)} citations, each names something')
sys.exit(1 if faults else 0)
