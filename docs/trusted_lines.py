#!/usr/bin/env python3
"""Counts the lines that a reader has to believe (docs/TRUST.md): comments, blank lines, imports and `mod` lines don't count."""
import glob
import os
import re

ROOT = os.path.dirname(os.path.dirname(os.path.abspath(__file__)))
STATED = ('Statement', 'Bound', 'Polls', 'OwnRecord', 'MarkedCases')
SKIPPED = re.compile(r'\s*(--|//|use |ghost use |(pub )?mod |$)')


# an import that goes on over several lines
LONG = re.compile(r'^(?:ghost |pub )*use [^;\n]*\n(?:[^;\n]*\n)*[^;\n]*;\n', re.M)


def read(file):
    with open(file, encoding='utf-8') as it:
        return LONG.sub('', it.read()) if file.endswith('.rt') else it.read()


def lines(files):
    return sum(not SKIPPED.match(line) for f in files for line in read(f).split('\n'))


def types(files):
    """The lines of the types that are declared in code."""
    return sum(sum(not SKIPPED.match(line) for line in m[0].split('\n'))
               for f in files for m in re.finditer(r'^(?:pub )?(?:struct|enum) [^;{]*(?:;|\{.*?^\})', read(f), re.M | re.S))


specs = [f for f in glob.glob(f'{ROOT}/crates/*/specs/*.antt') if os.path.basename(f) not in ('Lib.antt', 'Private.antt')]
stated = [f for f in specs if os.path.basename(f)[:-5] in STATED]
rest = [f for f in specs if f not in stated]
of_traces = [f for f in rest if '/crates/trace' in f]
of_lists = [f for f in rest if '/crates/yard_list/' in f or '/crates/neighbor_line/' in f or f.endswith('/crates/text/specs/Form.antt')]
of_programs = [f for f in rest if '/crates/filter/' in f or '/crates/pieces/' in f or '/crates/line_filter/' in f or '/crates/old_lines/' in f]
code = glob.glob(f'{ROOT}/crates/*/src/*.rt')
print('statements of the theorems\t', lines(stated))
print('definitions of the node\t', lines(f for f in rest if f not in of_traces + of_lists + of_programs))
print('definitions of the yard list, and of the n line and its moves\t', lines(of_lists))
print('definitions of traces\t', lines(of_traces))
print('definitions of what programs read and write\t', lines(of_programs))
print('types in the code\t', types(code))
print('public functions, each with its promise\t', sum(len(re.findall(r'^\s*pub fn ', read(f), re.M)) for f in code))
print('nobody has to believe: code\t', lines(code))
print('nobody has to believe: proofs, and what only private functions say\t', lines(glob.glob(f'{ROOT}/crates/*/proofs/**/*.antt', recursive=True) + glob.glob(f'{ROOT}/crates/*/specs/Private.antt')))
