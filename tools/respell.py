#!/usr/bin/env python3
"""Spells the repository's own definitions and lemmas as today's Rattle does: words in snake case, types in camel case.

usage: tools/respell.py     at the top of a checkout on which /opt/rattle/port/port.py has run; it rewrites files in place

`tools/respelled.tsv` has a line for each name: the module that declares it (`*` for a name that is written in lower
camel case wherever it stands, a record's fields among them), the old name, the new one. A name of a module is turned in
the file of that module and in the files that import it from there. Where a lemma would take the name of the definition
that it is about, it has `_lem` behind it. Functions of src/, exported names, texts and file names stay as they are.
Our own `if_then_else_`, over types of any level, is `if_then_otherwise_` now: the other is the library's name.
Run it once: a lemma's name may be one that a definition had lost before.
"""
import os
import re

HERE = os.path.dirname(os.path.abspath(__file__))
TOKEN = re.compile(r'--[^\n]*|"(?:[^"\\\n]|\\.)*"|«[^»\n]*»|[^\s(){}.;,@"«»\[\]\\]+')
RUST_TOKEN = re.compile(r'//[^\n]*|b?"(?:[^"\\]|\\.)*"|«[^»\n]*»|[^\s(){}.;,@"«»\[\]\\]+')
IMPORT = re.compile(r'use ([\w.+]+)\.\{([^}]*)\}')
QUOTED = re.compile(r'`([^`\n]+)`')
WORD = re.compile(r"[\w·'₀₁₂-]+")


def table():
    everywhere, of_module = {}, {}
    with open(os.path.join(HERE, 'respelled.tsv'), encoding='utf-8') as rows:
        for row in rows:
            module, old, new = row.rstrip('\n').split('\t')
            if module == '*':
                everywhere[old] = new
            else:
                of_module.setdefault(module, {})[old] = new
    return everywhere, of_module


def module_of(path):
    """Rattle.CRATE.specs.M of crates/CRATE/specs/M.antt."""
    _, crate, rest = path.split('/', 2)
    return f'Rattle.{crate}.' + rest[: -len('.antt')].replace('/', '.')


def names_in(path, text, everywhere, of_module):
    """What is turned in a file: old names with new ones."""
    names = dict(everywhere)
    if path.endswith('.antt'):
        names.update(of_module.get(module_of(path), {}))
    for module, listed in IMPORT.findall(text):
        rows = of_module.get(module, {})
        for entry in listed.split(','):
            name = entry.strip()
            if name in rows:
                names[name] = rows[name]
    return names


def import_turned(m, everywhere, of_module):
    """An import, each name turned as its own module turns it; `name as other` keeps the other name."""
    module, listed = m.groups()
    if not module.startswith('Rattle.') or module.startswith('Rattle.std.'):
        return m.group(0)
    rows = everywhere | of_module.get(module, {})
    entries = (entry.split() for entry in listed.split(','))
    turned_entries = (' '.join([rows.get(e[0], e[0]), *(everywhere.get(w, w) for w in e[1:])]) for e in entries if e)
    return f'use {module}.{{{", ".join(turned_entries)}}}'


def in_comment(text, names, everywhere):
    def quoted(m):
        return '`' + WORD.sub(lambda w: names.get(w.group(0), w.group(0)), m.group(1)) + '`'

    text = QUOTED.sub(quoted, text)
    return WORD.sub(lambda w: everywhere.get(w.group(0), w.group(0)), text)


def turned(path, text, everywhere, of_module):
    names = names_in(path, text, everywhere, of_module)
    token = TOKEN if path.endswith('.antt') else RUST_TOKEN
    mark = '--' if path.endswith('.antt') else '//'

    def one(m):
        it = m.group(0)
        if it.startswith(mark):
            return in_comment(it, names, everywhere)
        if it[0] in '"b' and it.endswith('"') or it.startswith('«'):
            return it
        before = m.string[m.start() - 1] if m.start() else ''
        if before == '.' and it not in everywhere:
            return it
        return names.get(it, it)

    pieces, at = [], 0
    for m in IMPORT.finditer(text):
        pieces += [token.sub(one, text[at : m.start()]), import_turned(m, everywhere, of_module)]
        at = m.end()
    return ''.join([*pieces, token.sub(one, text[at:])])


CHOICE = 'if◌then◌else◌'
CLAUSE = re.compile(r'(?<=\bensures \{ )[^\n]*')


def otherwise(path, text):
    """Our choice by a test under the name that the library leaves free."""
    if CHOICE not in text:
        return text
    text = text.replace(CHOICE, CHOICE.replace('else', 'otherwise'))
    if path.endswith('.rt'):
        return CLAUSE.sub(lambda m: re.sub(r'\belse\b', 'otherwise', m.group(0)), text)
    return TOKEN.sub(lambda m: 'otherwise' if m.group(0) == 'else' else m.group(0), text)


def main():
    everywhere, of_module = table()
    for folder, dirs, files in os.walk('crates'):
        dirs[:] = sorted(d for d in dirs if d != 'out')
        for file in sorted(files):
            if not file.endswith(('.antt', '.rt')):
                continue
            path = os.path.join(folder, file)
            with open(path, encoding='utf-8') as f:
                old = f.read()
            new = otherwise(path, turned(path, old, everywhere, of_module))
            if new != old:
                with open(path, 'w', encoding='utf-8') as f:
                    f.write(new)


if __name__ == '__main__':
    main()
