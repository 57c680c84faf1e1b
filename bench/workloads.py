"""The programs, texts and calls that are timed, each as a job of mode, program, arguments and table lengths."""
import itertools, os, random, struct, sys

sys.path.insert(0, os.path.join(os.path.dirname(os.path.abspath(__file__)), '..', 'model'))
from programs import ROOTS, RETURN, branch, build, call, constructor, function, load, packed, payload

CHECK, RUN, LINES = 1, 2, 3
ROOM = 64 * 504


class Job:
    """A check of a program, or a run of it. Frames are counted in records."""

    def __init__(self, program, arguments=None, entry=0, budget=2**32 - 1, cells=0, stack=0, frames=0, out=0):
        self.program, self.arguments = program, arguments or b''
        self.mode = CHECK if arguments is None else RUN
        self.rest = (entry, budget, cells, stack, 3 * frames, out)

    def written(self, times):
        """The job's bytes, to be done so many times."""
        numbers = (self.mode, times, len(self.program), len(self.arguments), *self.rest)
        return struct.pack('<10I', *numbers) + self.program + self.arguments


class Survey(Job):
    """The lines of a text, by a table and the numbers of cons and nil, which stand in the places of a run's words."""

    def __init__(self, text, table, cons=3, nil=2, out=65536):
        super().__init__(text, table, cons, nil, out=out)
        self.mode = LINES


# Constructors of the heavy programs, all of one type.
LEAF, NODE, WRAP = 0, 1, 2
TREES = [constructor(0), constructor(0, (0, 0, 0, 0)), constructor(0, (0,))]

# Functions that the heavy ones call, and their bounds.
SAME, FOURFOLD, SUM, SUM4, LARGEST = range(5)
CALLEES = [
    ((0,), [((1,), 0)]),
    ((0,), [((1,), 0)] * 4),
    ((0, 0, 0, 0), [((1, 1, 1, 1), 0)]),
    ((0, 0, 0, 0), [((1, 1, 1, 1), 100)] * 4),
    ((0, 0, 0, 0), [((1, 0, 0, 0), 0), ((0, 1, 0, 0), 0), ((0, 0, 1, 0), 0), ((0, 0, 0, 1), 0)]),
]
# Four alternatives of which all but the last are too small: by the constant alone, or by the fourth parameter's coefficient alone.
BOUND = [((15, 15, 15, 15), c) for c in (0, 1, 2, 65535)]
BOUND_BY_LAST = [((15, 15, 15, k), 65535) for k in (0, 1, 2, 15)]


def path(middle):
    """Sixteen variables by three splits of the last parameter, then what is to be done with them, then the else sides.

    After the splits the stack has 14 entries: the parameters, three parts of the fourth, three of its last part, and the
    four parts of that one's last part.
    """
    front, ends = [load(4)], 4 + len(middle) + 1
    front += [branch(NODE, ends + k) for k in (1, 2, 3)]
    return front + middle + [RETURN] * 4


def callees(instructions):
    """The called functions, filled up to so many instructions with calls of the first."""
    code = [call(SAME)] * (instructions - 1) + [RETURN]
    return [function(0, arguments, bound, code) for arguments, bound in CALLEES]


def filled(make, bound, constructors=TREES, with_callees=True):
    """A program of 32 functions with as many instructions as there is room for.

    make(n) gives the code of a function with at most n instructions. Where functions are called, those take what is left.
    """
    first = callees(1) if with_callees else []
    count = 32 - len(first)
    records = 4 + 8 * len(constructors)
    room = (ROOM - records - sum(map(len, first))) // count - 10 - 6 * len(bound)
    others = [function(0, (0, 0, 0, 0), bound, make(min(256, room // 4)))] * count
    if first:
        left = ROOM - records - sum(map(len, first + others))
        first = callees(1 + left // 4 // len(first))
    return packed(payload(1, constructors, first + others))


def unary(n):
    """Sixteen alternatives by two calls, then nothing but calls that take and make sixteen."""
    return path([call(SUM4), call(FOURFOLD)] + [call(SAME)] * (n - 10))


def unary_last(n):
    """As above, of the last two variables only, so that a bound that is too small is noticed at the last coefficient."""
    return path([load(14), load(14), call(SUM4), call(FOURFOLD)] + [call(SAME)] * (n - 12))


def mixed(n):
    """As above, every second instruction a build."""
    return path([call(SUM4), call(FOURFOLD)] + [call(SAME), build(WRAP)] * ((n - 10) // 2))


# Slots that hold one free variable each after the splits, once the top four entries are used up.
FREE = [1, 2, 3, 5, 6, 7, 8, 9, 10]


def chain(n, start, link):
    """A value that takes up three variables with each link, each variable at most 14 times, then calls of one argument."""
    units = [slot for _ in range(14) for slot in FREE]
    middle = list(start)
    while len(units) >= 3 and len(middle) + 4 <= n - 8:
        middle += [load(units.pop()) for _ in range(3)] + [link]
    return path(middle + [call(SAME)] * (n - 8 - len(middle)))


def builds(n):
    """One alternative: builds of four arguments."""
    return chain(n, [call(SUM)], build(NODE))


def builds16(n):
    """Sixteen alternatives: builds of four arguments."""
    return chain(n, [call(SUM4), call(FOURFOLD)], build(NODE))


def calls(n):
    """One alternative: calls of four arguments."""
    return chain(n, [call(SUM)], call(SUM))


def calls16(n):
    """Sixteen alternatives: calls of four arguments."""
    return chain(n, [call(SUM4), call(FOURFOLD)], call(SUM))


def choices(n):
    """Many short paths; on each, calls of four arguments whose bound has four alternatives."""
    code, leaf = [load(4)], 3
    part = [load(1), load(2), load(3), load(4), call(LARGEST)] * 9 + [RETURN]
    while len(code) + 1 + len(part) + 1 <= n:
        code += [branch(leaf, len(code) + 2 + len(part))] + part
        leaf += 1
    return code + [RETURN]


def else_chain(n):
    """With sixteen variables, one branch after the other on the else side of the one before."""
    middle, leaf, at = [], 3, 5
    while len(middle) + 2 <= n - 8:
        middle += [branch(leaf, at + 2), RETURN]
        at, leaf = at + 2, 3 + (leaf - 2) % 60
    return path(middle)


def short_lines(n, maker=build(LEAF)):
    """As above, with a build or call on each taken side: many paths of one size form."""
    middle, leaf, at = [], 3, 5
    while len(middle) + 3 <= n - 8:
        middle += [branch(leaf, at + 3), maker, RETURN]
        at, leaf = at + 3, 3 + (leaf - 2) % 60
    return path(middle)


def short_calls(n):
    """As above, with a call whose bound has four alternatives."""
    return short_lines(n, call(LARGEST))


def known_chain(n):
    """Splits of all variables, then branches on what is known; every branch has an else side of its own at the end."""
    middle, tests = [], (n - 8 - 1) // 3
    ends = 4 + 2 * tests + 1 + 3
    for k in range(tests):
        slot = FREE[k % len(FREE)]
        middle += [load(slot), branch(3 + k % 9, ends + 1 + k)]
    return path(middle) + [RETURN] * tests


# Sixty constructors more, for branches.
MANY = TREES + [constructor(0)] * 61


def recursion(twice):
    """A function that counts a number down with no build, by one call of itself or by two."""
    calls = [load(2), call(0), load(2), call(0), RETURN] if twice else [call(0), RETURN]
    code = [load(1), branch(1, 3 + len(calls)), *calls, RETURN]
    return packed(payload(1, [constructor(0), constructor(0, (0,))], [function(0, (0,), [((1,), 0)], code)]))


def roots(n, **tables):
    """ROOTS on a list of n roots."""
    return Job(packed(ROOTS), bytes([3, 1] * n + [2]), **tables)


def number(n):
    """A number as argument bytes."""
    return bytes([1] * n + [0])


# The longest list that fits argument bytes, and all that three capital letters can be.
MOST_LINES, WORDS = 32767, 26 ** 3


def survey(part):
    """A part of as many lines and of as many entries as there may be: entries in no order, lines with the letters of any of them."""
    chance = random.Random(1)
    words = chance.sample([bytes(word) for word in itertools.product(range(65, 91), repeat=3)], WORDS // part)
    table = b''.join(word + bytes([k % 250]) for k, word in enumerate(words))
    return Survey(b''.join(word + b'\n' for word in chance.choices(words, k=MOST_LINES // part)), table)


# The longest list of roots whose run fits the largest tables: it fills the stack. Of the cells lent 65,471 are used.
MOST_ROOTS = 21844
LARGEST_TABLES = dict(cells=327675, stack=65535, frames=65535, out=65536)

WORKLOADS = {
    'check ROOTS': Job(packed(ROOTS)),
    'check a1: 16 alternatives, calls of one argument': Job(filled(unary, BOUND)),
    'check a2: 16 alternatives, calls and builds of one argument': Job(filled(mixed, BOUND)),
    'check a3: as a1, a bound that is too small found late': Job(filled(unary_last, BOUND_BY_LAST)),
    'check b1: else sides in a row, 16 variables': Job(filled(else_chain, BOUND[:1], MANY, False)),
    'check b2: branches on known constructors': Job(filled(known_chain, BOUND[:1], MANY, False)),
    'check b3: else sides in a row, a build beside each': Job(filled(short_lines, BOUND, MANY, False)),
    'check b4: else sides in a row, a call of 4 alternatives beside each': Job(filled(short_calls, BOUND, MANY)),
    'check c1: builds of 4 arguments, 1 alternative': Job(filled(builds, BOUND)),
    'check c2: builds of 4 arguments, 16 alternatives': Job(filled(builds16, BOUND)),
    'check d1: calls of 4 arguments, 1 alternative': Job(filled(calls, BOUND)),
    'check d2: calls of 4 arguments, 16 alternatives': Job(filled(calls16, BOUND)),
    'check d3: calls of 4 arguments, bound of 4 alternatives': Job(filled(choices, BOUND, MANY)),
    'run a1: ROOTS on 21,844 roots': roots(MOST_ROOTS, **LARGEST_TABLES),
    'run a2: ROOTS on 1,300 roots': roots(1300, cells=20480, stack=4096, frames=1301, out=2048),
    'run b1: recursion by two calls, depth 18': Job(recursion(True), number(18), cells=20480, stack=2048, frames=256, out=64),
    'run b2: recursion by one call, depth 32,000': Job(recursion(False), number(32000), cells=160005, stack=65535, frames=32001, out=64),
    'run c: ROOTS on 3 1 2': Job(packed(ROOTS), bytes([3, 1, 2]), cells=20480, stack=2048, frames=256, out=16),
    'lines a1: 32,767 lines, 17,576 entries': survey(1),
    'lines a2: 16,383 lines, 8,788 entries': survey(2),
    'lines a3: 8,191 lines, 4,394 entries': survey(4),
}
