"""A test vector as a statement: a definition of crates/rules, on the vector's input, is the agreed answer.

A statement is a term, its type and what it is said to be. Of all but check it also says what each lent slice holds at exit, where
the slices are filled with numbers that are not zero.
"""
from kinds import data

# A slice of more entries than this is left out of the statement.
LONGEST_SLICE = 400000

IMPORTS = """use Rattle.std.specs.Prelude.{◌≡◌, List, [], ◌∷◌, ◌++◌, Bool, true, false, ℕ, zero, suc, ◌+◌, ◌*◌, ◌/◌, ◌%◌, replicate}
use mathlib.Core.Path.{refl}
use Rattle.rules.specs.declared.answers.Counts.{Counts}
use Rattle.rules.specs.Base.{refusal, Tried, found, refused}
use Rattle.rules.specs.Container.{pack, unpack}
use Rattle.rules.specs.Check.{verdict_of}
use Rattle.rules.specs.Lines.{lines_of}
use Rattle.rules.specs.Run.{Lent, usable, finished, aborted, refused_with, Outcome, answer, run}
use Rattle.rules.specs.Memory.{copied_into, result_into, pack_leaves, unpack_leaves, lines_leave, begun, table_after, output_after, cells_after, stack_after}
use Rattle.rules.specs.Computed.{computed}

-- n bytes of a number, low byte first
abbrev bytes : ℕ → ℕ → List ℕ
bytes zero x = []
bytes (suc n) x = (x % 256) ∷ bytes n (x / 256)

abbrev counts : ℕ → ℕ → ℕ → Counts
counts t c f = record { types = t; constructors = c; functions = f }

abbrev lent : ℕ → ℕ → ℕ → ℕ → Lent
lent c s f o = record { cells = c; stack = s; frames = f; output = o }

-- what a lent slice holds at entry: n numbers from the one at place k on, none of them 0
abbrev filled : ℕ → ℕ → List ℕ
filled k zero = []
filled k (suc n) = (k % 7 + 1) ∷ filled (suc k) n
"""


def runs(some):
    """Bytes cut into pieces: each is some bytes, and how often its last byte comes again behind them."""
    start, at = 0, 0
    while at < len(some):
        end = at
        while end < len(some) and some[end] == some[at]:
            end += 1
        if end - at >= 16 or end == len(some):
            yield some[start:at + 1], end - at - 1
            start = end
        at = end


def listed(some):
    """A list of bytes as a term."""
    parts = []
    for piece, again in runs(some):
        parts.append('bytes %d 0x%x' % (len(piece), int.from_bytes(piece, 'little')))
        if again:
            parts.append('replicate %d %d' % (again, piece[-1]))
    return '(%s)' % (' ++ '.join(parts) or '[]')


def refusal(a):
    return '(refusal %s %s %s)' % tuple(a[1:4])


def front(some, room):
    """An output of so much room with these bytes at its front."""
    return '(%s ++ filled %d %d)' % (listed(some), len(some), room - len(some))


def wiped(begun, usable, length):
    """A table at exit of which so many numbers are usable."""
    return '(replicate %d 0 ++ filled %d %d)' % (usable, usable, length - usable) if begun else '(filled 0 %d)' % length


# The commands that fill an output, each with its definition and with what that leaves in the output.
FILLING = {'pack': ('pack', 'pack_leaves'), 'unpack': ('unpack', 'unpack_leaves'), 'lines': ('lines_of', 'lines_leave')}


def given(w):
    """What a command that fills an output is given beside it: its bytes, and of lines two numbers."""
    bytes_, numbers = (w[1:3], w[3:5]) if w[0] == 'lines' else (w[1:2], [])
    return ' '.join([listed(data(word)) for word in bytes_] + numbers)


def filling(w, a):
    """Of pack, unpack and lines: the answer, and what the output holds."""
    room, words = int(w[-1]), given(w)
    answer, leaves = FILLING[w[0]]
    said = 'refused ' + refusal(a) if a[0] == 'refused' else 'found ' + listed(data(a[1]))
    left = '(filled 0 %d)' % room if a[0] == 'refused' else front(data(a[1]), room)
    terms = [('%s %s %d' % (answer, words, room), 'Tried (List ℕ)', said)]
    if room <= LONGEST_SLICE:
        terms.append(('%s %s (filled 0 %d)' % (leaves, words, room), 'List ℕ', left))
    return terms


def has_begun(a, words):
    return 'begun %s %s %s %s' % (words[:3] + words[4:]), 'Bool', 'true' if a[-1] == '1' else 'false'


def tables(w, a, words):
    """Of a run: what each table holds at exit, if it is neither empty nor too long. The frames are lent as numbers, three to a record."""
    cells, stack, frames = (int(x) for x in w[5:8])
    call = '%s %s %s %s %s' % words
    cut = lambda n: min(65535, n)
    usable_cells = min(65471, cells // 5)
    frames_after = 'table_after (%s) 0 (3 * (usable %s).frames)' % (has_begun(a, words)[0], words[4])
    for term, usable, length in (('cells_after ' + call, 5 * usable_cells, cells), ('stack_after ' + call, cut(stack), stack),
                                 (frames_after, 3 * cut(frames), 3 * frames)):
        if 0 < length <= LONGEST_SLICE:
            yield '%s (filled 0 %d)' % (term, length), 'List ℕ', wiped(a[-1] == '1', usable, length)


def output(w, a, words):
    """Of a run: what the output holds at exit, if it is neither empty nor too long."""
    room = int(w[8])
    if 0 < room <= LONGEST_SLICE:
        left = front(data(a[1]) if a[0] == 'figure' else b'', room)
        yield 'output_after %s %s %s %s %s (filled 0 %d)' % (*words, room), 'List ℕ', left


def running(w, a, memory, turn):
    """Of a run: the answer, whether it had begun, and what each lent slice holds. Of a refused one the output and one table in turn."""
    words = (listed(data(w[1])), w[2], listed(data(w[3])), w[4], '(lent %s %s %s %s)' % tuple(w[5:9]))
    ending = {'figure': lambda: 'finished ' + listed(data(a[1])), 'gaveup': lambda: 'aborted', 'refused': lambda: 'refused_with ' + refusal(a)}[a[0]]()
    given = [('run %s %s %s %s %s' % words, 'Outcome', 'answer (%s) %s' % (ending, a[-2]))]
    after = list(tables(w, a, words)) if memory else []
    if a[0] == 'refused' and after:
        after = [after[turn % len(after)]]
    return given + (after or [has_begun(a, words)]) + (list(output(w, a, words)) if memory else [])


def parts(command, reply, memory=True, turn=0):
    """The terms of a vector, each with its type and what it is said to be."""
    w, a = command.split(), reply.split()
    if w[0] in FILLING:
        return filling(w, a)[:2 if memory else 1]
    if w[0] == 'run':
        return running(w, a, memory, turn)
    said = 'refused ' + refusal(a) if a[0] == 'refused' else 'found (counts %s %s %s)' % tuple(a[1:4])
    return [('verdict_of ' + listed(data(w[1])), 'Tried Counts', said)]


def statement(name, command, reply, memory=True):
    """The text of a vector's statement, to be closed by computation."""
    terms, types, said = zip(*parts(command, reply, memory, int(name.strip('abcdefghijklmnopqrstuvwxyz'))))
    text = '\n%s : ◌≡◌ {A = %s} (%s) (%s)\n' % (name, ' × '.join('(%s)' % t for t in types), ', '.join(terms), ', '.join(said))
    return text + 'unfolding computed copied_into result_into table_after\n%s = refl\n' % name
