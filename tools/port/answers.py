#!/usr/bin/env python3
"""Turns proofs that listed every need, in Proof.antt, into Invariants.antt and Answers.antt.

Usage, at the repository's top:  rt names NAMES && python3 tools/port/answers.py NAMES CRATE..

NAMES has, for each function, how its steps and goals were named and are named. A proof that walks the code by hand is left as it is.
What could not be turned is printed. An answer that was a bare search goes: the check tries that itself.
"""
import json
import os
import re
import sys

ID = r"[A-Za-z\u0391-\u03ba\u03bc-\u03c9][A-Za-z0-9_'\-\u2080-\u209c]*"
SEG = r"[A-Za-z0-9_'\-\u2080-\u209c]+"
START = {'args', 'requires', 'pre', 'ranges', 'lifetimes', 'well_formed', 'well-formed'}


def norm(s):
    return re.sub(r"-lem$", '', s.replace('_', '-')).lower()


class Function:
    def __init__(self, table, crate, name):
        self.t, self.crate, self.name = table, crate, name
        self.places = [p[0] for p in table['places']]
        self.index = {p: i for i, p in enumerate(self.places)}
        self.by_norm = {norm(p): p for p in self.places}
        self.needs = {}
        for i, (old, new) in enumerate(table['needs']):
            self.needs[norm(old)] = (new, table['asked_at'][i][0])
        self.loops = {norm(l[0][0]): (l[0][1], l[1], table['changed'][k]) for k, l in enumerate(table['loops'])} if table['loops'] else {}
        self.left = []

    def parent(self, place):
        return self.t['places'][self.index[place]][1]

    def chain(self, place):
        while place:
            yield place
            place = self.parent(place)

    def new_place(self, place):
        return self.t['places_by_name'][self.index[place]]

    def need(self, old):
        o = norm(old)
        for k in (o, re.sub(r'^overflow-', '', o)):
            if k in self.needs:
                return self.needs[k]
        return None

    def step(self, place, segs, at):
        """The path of a step's field, which the record at a place has: `at` is where the whole answer stands."""
        first, rest = segs[0], segs[1:]
        if first in START:
            if first in ('requires', 'pre'):
                pre = self.t['pre']
                if pre and rest and rest[0].isdigit():
                    rest = [pre['fields'][int(rest[0])]] + rest[1:]
                first = 'requires'
            first = first.replace('-', '_')
            if self.t['args'] and rest:
                for old, new in self.t['args']:
                    a, b = old.replace(' ', '').strip('.').split('.'), new.replace(' ', '').strip('.').split('.')
                    if len(a) == 2 and a == [first, rest[0]]:
                        rest = [b[1]] + rest[1:]
            return 'c.' + '.'.join([first] + rest)
        old, new = self.t['places'][self.index[place]][2]
        if norm(old) != norm(first):
            owner = next((p for p in self.chain(place) if norm(self.t['places'][self.index[p]][2][0]) == norm(first)), None)
            if not owner:
                self.left.append('no step %s at %s' % (first, place))
                return 'c.' + '.'.join(segs)
            return self.step(owner, segs, at)
        best = None
        for p in self.chain(at):
            arm = self.t['arms'][self.index[p]]
            if not arm:
                continue
            for field, step, path in arm[2]:
                if norm(step) == norm(old) and path == rest[:len(path)] and (best is None or len(path) > best[0]):
                    best = (len(path), arm[0], field)
        if best and (best[0] or not rest or not re.match('shared', norm(first))):
            if best[0]:
                return 'c.' + '.'.join([best[1], best[2]] + rest[best[0]:])
        if rest[:1] == ['given'] and norm(first).startswith('shared-slice-known'):
            for var, step in self.t['typed'][self.index[at]] if self.index[at] < len(self.t['typed']) else []:
                if norm(step) == norm(old):
                    return 'c.' + '.'.join(['type_inv', var] + rest[1:])
        return 'c.' + '.'.join([new] + rest)


class Turned:
    """One text with places resolved."""

    def __init__(self, fn, env, at, goal, functions):
        self.fn, self.env, self.at, self.goal, self.functions = fn, dict(env), at, goal, functions

    def up(self, place, befores):
        for _ in range(befores):
            place = self.fn.parent(place)
            if place is None:
                self.fn.left.append('before the start')
                return 'Start'
        return place

    def bare(self, place):
        if place == self.at:
            return 'c'
        if self.goal:
            return '(goal.at.%s c).%s' % (self.goal, self.fn.new_place(place))
        self.fn.left.append('a place handed on from a lemma: ' + place)
        return '(?%s)' % self.fn.new_place(place)

    def walk(self, place, segs):
        n = 0
        while n < len(segs) and segs[n] == 'before':
            n += 1
        place = self.up(place, n)
        return self.bare(place) if n == len(segs) else self.fn.step(place, segs[n:], self.at)

    def one(self, m):
        if m.group('let'):
            root, name = m.group('root'), m.group('name')
            n = m.group('bef').count('.before')
            pf = m.group('lpf')
            if root in self.env and self.env[root] and (not pf or pf.strip() in self.functions):
                place = self.up(self.env[root], n)
                if pf:
                    place = self.functions[pf.strip()]
                self.env[name] = place
                return ''
            self.env.pop(name, None)
            return 'let %s = ' % name + self.text((pf or '') + root + m.group('bef')) + m.group('lin')
        if m.group('pf'):
            pfn, root = m.group('pfn'), m.group('pfr')
            if pfn in self.functions and root in self.env:
                segs = [s for s in m.group('pfrest').split('.') if s]
                return self.walk(self.functions[pfn], segs)
            return '(' + pfn + ' ' + self.text(root + m.group('pfb')) + ')' + m.group('pfrest')
        root, *segs = m.group('path').split('.')
        if root in self.env and self.env[root]:
            return self.walk(self.env[root], segs)
        return m.group('path')

    def text(self, s):
        pattern = (r"(?P<let>(?<![\w'-])let (?P<name>" + ID + r") = (?P<lpf>" + ID + r" )?(?P<root>" + ID + r")(?P<bef>(?:\.before)*)(?P<lin> in\s*))"
                   r"|(?P<pf>\((?P<pfn>" + ID + r") (?P<pfr>" + ID + r")(?P<pfb>(?:\.before)*)\)(?P<pfrest>(?:\." + SEG + r")*))"
                   r"|(?P<path>(?<![\w.'\u2080-\u209c-])" + ID + r"(?:\." + SEG + r")*)")
        return re.sub(pattern, self.one, s)


ITEM = re.compile(r"^(?:pub |abbrev |unfoldable )*(" + ID + r")(?: \{[^}]*\})* :")


def items(text):
    """The items at the left margin: (comments, name, lines)."""
    out, comments, lines = [], [], None
    for line in text.split('\n'):
        m = ITEM.match(line)
        if m:
            lines = [line]
            out.append((comments, m.group(1), lines))
            comments = []
        elif line.startswith('--') or (line.startswith('use ') or line.startswith('open ')):
            lines = None
            comments.append(line)
        elif line.strip() == '' and lines is None:
            comments.append('')
        elif lines is not None:
            lines.append(line)
        else:
            comments.append(line)
    return out, comments


def split(name, lines):
    """Signature, unfolding lines, clauses."""
    k = next((i for i, l in enumerate(lines) if i and (re.match(re.escape(name) + r"[ =]", l) or l.startswith('unfolding'))), len(lines))
    sig, rest = '\n'.join(lines[:k]), lines[k:]
    unf = [l for l in rest if l.startswith('unfolding')]
    body = '\n'.join(l for l in rest if not l.startswith('unfolding')).rstrip()
    return sig, unf, body


def turn(top, crate, folder, table):
    path = os.path.join(folder, 'Proof.antt')
    with open(path, encoding='utf-8') as f:
        text = f.read()
    module = os.path.relpath(folder, os.path.join(top, 'crates', crate, 'proofs')).replace(os.sep, '.')
    key = 'Rattle-%s-proofs.%s.Lts' % (crate, module)
    if 'tie.close' not in text:
        return '%s/%s: left: a walk by hand' % (crate, module)
    if key not in table:
        return '%s/%s: left: no names' % (crate, module)
    fn = Function(table[key], crate, module)
    head = text[:ITEM_START(text)]
    uses = [l for l in head.split('\n') if l.startswith('use ') and '.Statement.' not in l and not re.search(r"\.(Tie|Lts)( as \w+)?$", l)]
    comments = [l for l in head.split('\n') if l.startswith('--')]
    its, _ = items(text[ITEM_START(text):])
    invariants, answers, functions, shared = [], [], {}, []
    for notes, name, lines in its:
        sig, unf, body = split(name, lines)
        m = re.search(r": tie\.(invariant|decreases)-(\S+)", sig)
        if m:
            loop = fn.loops.get(norm(m.group(2)))
            if not loop:
                fn.left.append('no loop ' + m.group(2))
                continue
            invariants.append((notes, m.group(1) + '-' + loop[0], name, loop, unf, body))
            continue
        if 'statement M' in sig or 'tie.close' in body:
            continue
        m = re.match(r"abbrev " + re.escape(name) + r" : tie\.(\S+)(?: (?:invariant|decreases)\S*)* → tie\.([A-Za-z0-9_'-]+)", sig)
        if m:
            functions[name] = fn.by_norm[norm(m.group(2))]
            continue
        m = re.search(r": tie\.Need-(" + SEG + ")", sig)
        if m:
            need = fn.need(m.group(1))
            if not need:
                fn.left.append('no goal ' + m.group(1))
                continue
            goal, at = need
            if re.fullmatch(re.escape(name) + r" c(?: κs)? = search rules", body) and not unf:
                continue
            lhs, rhs = body.split('=', 1)
            args = [a for a in lhs.split()[1:] if a != 'κs']
            rhs = Turned(fn, {'c': at}, at, goal, functions).text(rhs)
            answers.append((notes, 'pub %s : goal.%s' % (goal, goal), unf, '%s %s =%s' % (goal, ' '.join(args), rhs), name, goal))
            continue
        m = re.search(r"\(c : tie\.(" + SEG + r")(?: (?:invariant|decreases)[\w-]*)*\)", sig)
        if m:
            at = fn.by_norm.get(norm(m.group(1)))
            if at is None:
                fn.left.append('no place ' + m.group(1))
                continue
            t = Turned(fn, {'c': at}, at, None, functions)
            head_, tail_ = sig.split(m.group(0), 1)
            sig = head_ + '(c : %s)' % fn.new_place(at) + t.text(tail_)
            shared.append(fn.new_place(at))
            if '=' in body:
                lhs, rhs = body.split('=', 1)
                body = lhs + '=' + Turned(fn, {'c': at}, at, None, functions).text(rhs)
            answers.append((notes, sig, unf, body, name, None))
            continue
        answers.append((notes, sig, unf, body, name, None))
    note = [c for c in comments]
    if invariants:
        out = []
        for notes, new, old, (loop, variables, changed), unf, body in invariants:
            lhs, rhs = body.split('=', 1)
            given = lhs.split()[1:]
            for v in given:
                base = re.sub(r"₀$", '', v)
                if v.endswith('₀') and base in variables:
                    to = 'l.initial.' + base
                elif v in variables:
                    to = 'l.' + v
                else:
                    fn.left.append('%s: what is %s of %s' % (new, v, variables))
                    continue
                rhs = re.sub(r"(?<![\w.'₀-])" + re.escape(v) + r"(?![\w'₀-])", to, rhs)
            out += [l for l in notes if l.startswith('--')]
            out += ['abbrev pub %s : goal.%s' % (new, new)] + unf + ['%s l =%s' % (new, rhs), '']
        with open(os.path.join(folder, 'Invariants.antt'), 'w', encoding='utf-8') as f:
            f.write('\n'.join(note + uses + ['use Rattle.%s.proofs.%s.Given as goal' % (crate, module), ''] + out).rstrip() + '\n')
    if answers and any(a[5] for a in answers):
        out = []
        for notes, sig, unf, body, old, new in answers:
            out += [l for l in notes if l.startswith('--')]
            out += [sig] + unf + [body, '']
        # a test of !x says of x what it said of not x
        body = re.sub(r"not-(?:true|false) _ c(\.[\w.'-]+\.(?:true|false))(?![\w.'-])", '\x01\\1', '\n'.join(out))
        body = re.sub(r"(?<![\w.'-])c\.if-not-[\w-]+\.(?:true|false)(?![\w.'-])", lambda m: '(ap not %s)' % m.group(), body)
        body = body.replace('\x01', 'c')
        if '(ap not ' in body:
            for module_, word in (('mathlib.Core.Path', 'ap'), ('mathlib.Core.Bool', 'not')):
                if not any(re.search(r"[{ ]%s[,}]" % word, u) for u in uses):
                    uses = uses + ['use %s.{%s}' % (module_, word)]
        if shared:
            uses = uses + ['use Rattle.%s.proofs.%s.Goals.{%s}' % (crate, module, ', '.join(dict.fromkeys(shared)))]
        with open(os.path.join(folder, 'Answers.antt'), 'w', encoding='utf-8') as f:
            f.write('\n'.join((note if not invariants else note) + uses + ['use Rattle.%s.proofs.%s.Goals as goal' % (crate, module), ''] + [body]).rstrip() + '\n')
    os.remove(path)
    return '\n'.join('%s/%s: left: %s' % (crate, module, l) for l in dict.fromkeys(fn.left))


def ITEM_START(text):
    m = re.search(r"(?m)^(?:pub |abbrev |unfoldable )*" + ID + r"(?: \{[^}]*\})* :", text)
    at = m.start() if m else len(text)
    lines = text[:at].split('\n')
    k = len(lines) - 1
    while k > 0 and (lines[k - 1].startswith('--') or lines[k] == '' and k == len(lines) - 1):
        k -= 1
    while k < len(lines) and lines[k].strip() == '':
        k += 1
    return len('\n'.join(lines[:k])) + (1 if k else 0) if k < len(lines) - 1 else at


def main():
    names, crates = sys.argv[1], sys.argv[2:]
    top = os.getcwd()
    for crate in crates:
        with open(os.path.join(names, 'crates', crate, 'names.json'), encoding='utf-8') as f:
            table = json.load(f)
        for folder, _, files in sorted(os.walk(os.path.join(top, 'crates', crate, 'proofs'))):
            if 'Proof.antt' in files:
                said = turn(top, crate, folder, table)
                if said:
                    print(said)


main()
