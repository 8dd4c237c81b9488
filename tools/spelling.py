#!/usr/bin/env python3
"""Brings the repository's own antt names to snake case, and its types to upper camel case: spelling.py [--list]

Run once, at the top, after the kit's port.py. It changes names of specs/ and proofs/ where they are defined and cited: in
.antt files, in the clauses of .rt files, in must-fail edits and between back quotes in README and docs/. It leaves the
library's names, the names that the check makes (goals, steps of a proof), Rust's names, strings and comments. Words of the
library that port.py keeps under an older name, which the gate refuses, get their own names.
"""
import pathlib
import re
import sys

TOP = pathlib.Path('.')
CRATES = sorted(p.name for p in (TOP / 'crates').iterdir() if p.is_dir())
NAME = re.compile(r"[A-Za-z][A-Za-z0-9_']*(?:-[A-Za-z0-9_']+)+\Z")
# what parts one token from the next, kept by the split
PARTS = re.compile(r"([\s(){}\[\];,.\"`@λ→×≡|↦&]+)")
IMPORT = re.compile(r"use\s+([^\s{}]+?)(?:\.\{([^}]*)\})?[;\s]")
FIELD = re.compile(r"^\s+(?:pub )?([^\s:(){}.]+) : ", re.M)
# an argument of an answer, whose fields the check names
MADE = re.compile(r"(?:c|l|g|goal|need|w|w'|w'')\Z")

ALIASES = ('AllByRecursion as All', 'ContainsAt as Has')


def respelled(name):
    words = name.split('-')
    if name[0].isupper():
        return ''.join(w[:1].upper() + w[1:] for w in words)
    return '_'.join(words)


def imports(text):
    """The names that a file takes from the library or from what the check makes."""
    kept = set()
    for m in IMPORT.finditer(text + '\n'):
        path, names = m.group(1).split('.'), m.group(2) or ''
        own = path[0] == 'Rattle' and path[1] in CRATES and path[-1] not in ('Goals', 'Given', 'Needs')
        for item in names.split(','):
            parts = item.split(' as ')
            if not own:
                kept.add(parts[0].strip())
    return kept


def is_proof_of_function(path):
    parts = path.parts
    at = parts.index('proofs') if 'proofs' in parts else -1
    return at >= 0 and len(parts) > at + 2


def without_aliases(text):
    for alias in ALIASES:
        word, _, name = alias.partition(' as ')
        if alias in text:
            text = text.replace(alias, word)
            text = '\n'.join(turned_tokens(line, {name: word}) if not line.startswith('-- ') else line for line in text.split('\n'))
    return text


def turned_antt(text, path, fields):
    text = without_aliases(text)
    kept = imports(text)
    if is_proof_of_function(path):
        kept |= set(re.findall(r"^(?:abbrev )?pub (\S+) : (?:goal|need)\.", text, re.M))
    lines, changed = [], set()
    for line in text.split('\n'):
        code, dashes, comment = line.partition('-- ')
        tokens = PARTS.split(code)
        out = []
        chain = []
        for i, t in enumerate(tokens):
            if i % 2:
                out.append(t)
                if t != '.':
                    chain = []
                continue
            made = is_proof_of_function(path) and bool(chain) and bool(MADE.match(chain[0])) and (len(chain) == 1 or t not in fields)
            path_of_module = bool(chain) and chain[0] == 'Rattle'
            if NAME.match(t) and t not in kept and not made and not path_of_module:
                changed.add((t, respelled(t)))
                out.append(respelled(t))
            else:
                out.append(t)
            chain.append(t)
        lines.append(''.join(out) + dashes + comment)
    return '\n'.join(lines), changed


def turned_tokens(text, names):
    tokens = PARTS.split(text)
    return ''.join(names.get(t, t) if i % 2 == 0 else t for i, t in enumerate(tokens))


def turned_rust(text, names):
    out = []
    for line in text.split('\n'):
        code = re.split(r'("(?:[^"\\]|\\.)*"|//.*\Z)', line)
        out.append(''.join(turned_tokens(p, names) if i % 2 == 0 else p for i, p in enumerate(code)))
    return '\n'.join(out)


def main():
    files = {}
    names = {}
    texts = {p: p.read_text(encoding='utf-8') for p in sorted(TOP.glob('crates/*/*/**/*.antt')) if 'out' not in p.parts}
    fields = {f for p, text in texts.items() if not is_proof_of_function(p) for f in FIELD.findall(text)}
    for path, text in texts.items():
        new, changed = turned_antt(text, path, fields)
        names.update(changed)
        files[path] = (text, new)
    for path in sorted(TOP.glob('crates/*/src/**/*.rt')) + sorted(TOP.glob('crates/*/must-fail/*.edit')):
        text = path.read_text(encoding='utf-8')
        kept = imports(text)
        files[path] = (text, turned_rust(text, {k: v for k, v in names.items() if k not in kept}))
    for path in [TOP / 'README.md'] + sorted(TOP.glob('docs/*.md')):
        text = path.read_text(encoding='utf-8')
        parts = re.split(r"(`[^`\n]*`)", text)
        files[path] = (text, ''.join(turned_tokens(p, names) if i % 2 else p for i, p in enumerate(parts)))
    if '--list' in sys.argv[1:]:
        for k, v in sorted(names.items()):
            both = [str(p) for p, (old, new) in files.items() if p.suffix == '.antt' and k in PARTS.split(old) and v in PARTS.split(old)]
            print(k, v, 'FALLS TOGETHER ' + ' '.join(both) if both else '')
        return
    for path, (text, new) in files.items():
        if new != text:
            path.write_text(new, encoding='utf-8')


main()
