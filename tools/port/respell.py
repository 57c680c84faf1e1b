#!/usr/bin/env python3
"""Spells this repository's definitions and lemmas in snake case, after the kit's port.py has turned what it turns.

Usage, at the repository's top, once, right behind port.py:  python3 tools/port/respell.py

A name is ours where a file of specs/ or a file of lemmas in proofs/ declares it. Names in camel case or with dashes become names in
snake case, in those files, in the proofs of functions, in the clauses of src/, in must-fail edits, and where pages name them in code
marks. Types, modules and functions of src/ keep their names, and so does each word that a library's import brings in. Where a definition
and a lemma fall together, the lemma gets the ending _lem.
"""
import collections
import glob
import os
import re
import sys

CHAR = r"[A-Za-z0-9_'\-\u2080-\u209c\u0391-\u03ba\u03bc-\u03c9]"
WORD = re.compile(r"(?<!" + CHAR + r")[A-Za-z\u0391-\u03ba\u03bc-\u03c9]" + CHAR + r"*")
DECLARED = re.compile(r"(?m)^\s*(?:pub |abbrev |unfoldable |data |record |let )*([A-Za-z]" + CHAR + r"*)(?: \{[^}]*\}| \([^)]*\))* :(?: |$)")
ALIAS = re.compile(r"\bas ([a-z]" + CHAR + r"*)")
BOUND = re.compile(r"[({]((?:[a-z]" + CHAR + r"* )+): ")
IMPORT = re.compile(r"use ([\w./·'+-]+)\.\{([^}]*)\}")
KEPT = {'map-append', 'map-map', 'or-false'}


def ours(module):
    return module.startswith('Rattle.') and not module.startswith('Rattle.std') and '.declared.' not in module


def files(top, *endings):
    for folder, below, names in os.walk(os.path.join(top, 'crates')):
        below[:] = sorted(d for d in below if d != 'out')
        for name in sorted(names):
            if name.endswith(endings):
                yield os.path.join(folder, name)


def lemma_file(path, top):
    parts = os.path.relpath(path, top).split(os.sep)
    return parts[2] == 'specs' or (parts[2] == 'proofs' and len(parts) == 4)


def old_form(name):
    return name[0].islower() and bool(re.search(r"[a-z0-9][A-Z]|-", name))


def snake(name):
    return re.sub(r"(?<=[a-z0-9])[A-Z]", lambda m: '_' + m.group().lower(), name).replace('-', '_')


def uncommented(line):
    """A line of antt, before and behind its comment's dashes."""
    at = re.search(r"(?:^|\s)--", line)
    return (line, '') if not at else (line[:at.start()], line[at.start():])


class Names:
    """The new spelling of each of our names."""

    def __init__(self, top):
        declared, words, brought = set(), collections.Counter(), set()
        for path in files(top, '.antt'):
            with open(path, encoding='utf-8') as f:
                text = f.read()
            for module, names in IMPORT.findall(text):
                if ours(module):
                    declared.update(ALIAS.findall(names))
                else:
                    brought.update(n.split(' as ')[0].strip() for n in names.split(','))
            for line in text.splitlines() if lemma_file(path, top) else []:
                words.update(WORD.findall(re.sub(r"use [^{]*", '', uncommented(line)[0])))
            if lemma_file(path, top):
                declared.update(DECLARED.findall(text))
                declared.update(n for names in BOUND.findall(text) for n in names.split())
        for path in files(top, '.rt'):
            with open(path, encoding='utf-8') as f:
                for module, names in IMPORT.findall(f.read()):
                    if ours(module):
                        declared.update(ALIAS.findall(names))
        self.declared = declared
        self.new = {}
        taken = set(words) | brought
        mine = sorted((n for n in declared if old_form(n) and n not in brought), key=lambda n: ('-' in n, n))
        for name in mine:
            to = snake(name)
            if to in taken and '-' not in name and to in declared and to not in brought:
                self.new[to] = to + '_lem'   # the lemma that stands there already makes room for the definition
                taken.add(to + '_lem')
            elif to in taken:
                to += '_lem'
            if to in taken and to not in self.new:
                sys.exit('%s: no free name' % name)
            self.new[name] = to
            taken.add(to)

    def word(self, m):
        return self.new.get(m.group(), m.group())

    def camel(self, m):
        return self.new.get(m.group(), m.group()) if '-' not in m.group() and old_form(m.group()) else m.group()

    def antt(self, text):
        out = []
        for line in text.splitlines(keepends=True):
            code, comment = uncommented(line)
            comment = re.sub(r"`[^`]*`", lambda m: WORD.sub(self.word, m.group()), WORD.sub(self.camel, comment))
            out.append(WORD.sub(self.word, code) + comment)
        return ''.join(out)

    def source(self, text):
        """A file of src/: what stands in a clause or a ghost use; in comments, names in camel case and what is in code marks."""
        out, inside = [], False
        for line in text.splitlines(keepends=True):
            s = line.strip()
            if s.startswith('//'):
                out.append(re.sub(r"`[^`]*`", lambda m: WORD.sub(self.word, m.group()), WORD.sub(self.camel, line)))
                continue
            if re.match(r"(ghost|requires|ensures)\b", s) or s.startswith('#![ghost'):
                inside = True
            out.append(WORD.sub(self.word, line) if inside else line)
            if inside and (s.endswith('}') or s.endswith(';')):
                inside = False
        return ''.join(out)

    def older(self, m):
        """As word, and names that port.py had turned already."""
        name = m.group()
        if name not in self.new and old_form(name) and snake(name) in self.declared:
            return snake(name)
        return self.new.get(name, name)

    def edit(self, text):
        """Lines of definitions that stand outside the crates' own files: projections are written tight, too."""
        text = re.sub(r"\(([\w']+) \.(\w+)\)", r"\1.\2", WORD.sub(self.older, text))
        text = re.sub(r"(?<=[\w']) \.(?=[a-z0-9])", '.', text)
        return re.sub(r"\bgetD\b", 'get_or', text)

    def page(self, text):
        """A page: what is in code marks."""
        return re.sub(r"`[^`\n]+`", lambda m: WORD.sub(self.older, m.group()), text)


def turn(path, how):
    with open(path, encoding='utf-8') as f:
        text = f.read()
    to = how(text)
    if to != text:
        with open(path, 'w', encoding='utf-8') as f:
            f.write(to)


def main():
    top = os.path.dirname(os.path.dirname(os.path.dirname(os.path.abspath(__file__))))
    if len(sys.argv) > 1:
        top = os.path.abspath(sys.argv[1])
    names = Names(top)
    for path in list(files(top, '.antt')):
        turn(path, names.antt)
    for path in list(files(top, '.rt')):
        turn(path, names.source)
    for path in list(files(top, '.edit')):
        turn(path, names.edit)
    for pattern in ('README.md', 'docs/**/*.md', 'examples/*.md', 'bench/README.md'):
        for path in sorted(glob.glob(os.path.join(top, pattern), recursive=True)):
            turn(path, names.page)
    path = os.path.join(top, 'tools', 'wrong-definitions.txt')
    if os.path.exists(path):
        turn(path, names.edit)
    for old, new in sorted(names.new.items()):
        print(old, new)


main()
