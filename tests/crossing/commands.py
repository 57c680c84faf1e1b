"""Commands about programs in which a record crosses a block's end, one a line: commands.py, or commands.py plain for the checks of these
programs as they are and nothing else.

A payload's records begin at even offsets and have even lengths, and a block holds 504 bytes of payload. So a block's end can cut a
record only behind an even number of its bytes: a head behind 2, 4, 6 or 8, an alternative behind 2 or 4, an instruction behind 2.
Constructors begin at offset 4, so of these only number 62 is cut, behind 4 bytes; 63 is the first one behind that end. The header never
is. These are all cuts that there are, and each is made here: of the head, of each alternative and of each instruction of a function that
is run, and of a constructor that it builds and takes apart. A program is checked and run as it is and, where the end is that of one of
the first two blocks, with each byte of the record changed.
"""
import os, sys

HERE = os.path.dirname(os.path.abspath(__file__))
sys.path.insert(0, os.path.join(HERE, '..', '..', 'model'))
from programs import MOST_BLOCKS, RETURN, ROOM, STOP, branch, build, call, constructor, function, load, packed, payload

NUMBER, OTHER = 0, 1
LAST_END = MOST_BLOCKS - 1


class Constructors:
    """The constructors of a program, and the numbers of three of them: zero, next, and one that takes four numbers."""

    def __init__(self, records, zero, next_, four):
        self.records, self.zero, self.next, self.four = records, zero, next_, four


ZERO, NEXT, FOUR = constructor(NUMBER), constructor(NUMBER, (NUMBER,)), constructor(NUMBER, (NUMBER,) * 4, 3)
FEW = Constructors([ZERO, NEXT, FOUR], 0, 1, 2)
# All 64, with either of the two that take something at the end of the first block and the other behind it.
SPARE = [constructor(OTHER)] * 61
MANY = [Constructors([ZERO, *SPARE, NEXT, FOUR], 0, 62, 63), Constructors([ZERO, *SPARE, FOUR, NEXT], 0, 63, 62)]
CUT_CONSTRUCTOR = (500, 8)


def total(names, own, needed):
    """The sum of two numbers, by a function that calls itself. The alternative that covers it stands at place `needed` of its bound."""
    code = [load(1), branch(names.next, 9), load(3), load(2), call(own), build(names.next), load(4), RETURN,
            branch(names.four, 11), STOP, branch(names.zero, 14), load(2), RETURN, RETURN]
    bound = [((0, 0), 0), ((0, 1), 0), ((1, 0), 0)]
    bound.insert(needed, ((1, 1), 0))
    return function(NUMBER, (NUMBER, NUMBER), bound, code)


def filler(length):
    """A function of so many bytes, an even number from 20 on. It calls the first function again and again."""
    alternatives = 1 if length % 4 == 0 else 2
    return function(NUMBER, (NUMBER,), [((1,), 0)] * alternatives, [call(0)] * ((length - 10 - 6 * alternatives) // 4 - 1) + [RETURN])


def fillers(length):
    """Functions of so many bytes together. The first has one alternative, so that calls of it make no more than one."""
    shortest, longest = 20, 1032
    first = shortest if length <= longest + shortest else longest
    made, length = [filler(first)], length - first
    while length > longest + shortest:
        made.append(filler(longest))
        length -= longest
    return made + [filler(length)]


def records():
    """The records of the function above: where each begins in it, its length, and the place of the alternative that is needed."""
    yield 0, 10, 3
    for k in range(4):
        yield 10 + 6 * k, 6, k
    for i in range(14):
        yield 34 + 4 * i, 4, 3


def placed(within, needed, cut, end):
    """A payload whose last function has a record, at an offset within it, cut by block end `end` behind so many bytes."""
    length = end * ROOM - cut - within - (4 + 8 * len(FEW.records))
    before = fillers(length)
    made = payload(2, FEW.records, before + [total(FEW, len(before), needed)])
    return made, FEW, len(before), end * ROOM - cut


def programs():
    """Each program: its payload, its constructors, the function to be run, the record that is cut, and the block's end."""
    for names in MANY:
        at, length = CUT_CONSTRUCTOR
        yield payload(2, names.records, [total(names, 0, 3)]), names, 0, (at, length), 1
    for end in (1, 2, 3, LAST_END):
        for within, length, needed in records():
            for cut in range(2, length, 2):
                made, names, entry, at = placed(within, needed, cut, end)
                yield made, names, entry, (at, length), end


def number(names, n):
    return bytes([names.next] * n + [names.zero])


def runs(file, names, entry, budgets):
    """Runs on two numbers and on a value that makes it stop, with these budgets, and with tables that are too short."""
    sums = number(names, 3) + number(names, 2)
    stops = number(names, 1)[:-1] + bytes([names.four] + [names.zero] * 4) + number(names, 1)
    for arguments in (sums, stops):
        for budget in budgets:
            yield 'run %s %d %s %d 500 100 20 20' % (file, entry, arguments.hex(), budget)
    for tables in ('35 100 20 20', '500 11 20 20', '500 100 3 20', '500 100 20 5'):
        yield 'run %s %d %s 1000 %s' % (file, entry, sums.hex(), tables)


def changed(made, record):
    """The payload with each byte of a record changed in some ways."""
    at, length = record
    for k in range(at, at + length):
        for value in sorted({0, 1, made[k] ^ 1, (made[k] + 2) % 256, (made[k] - 1) % 256} - {made[k]}):
            yield made[:k] + bytes([value]) + made[k + 1:]


def commands(made, names, entry, record, end):
    """What is asked about one program. Near the file's end the lines are long, and fewer."""
    file = packed(made).hex()
    yield 'check ' + file
    yield from runs(file, names, entry, range(48) if end < 3 else (1000,))
    if end < 3:
        for other in changed(made, record):
            file = packed(other).hex()
            yield 'check ' + file
            yield from list(runs(file, names, entry, (1000,)))[:2]


def main():
    plain = sys.argv[1:] == ['plain']
    for made, names, entry, record, end in programs():
        at, length = record
        assert at < end * ROOM < at + length, (record, end)
        if plain:
            print('check', packed(made).hex())
        else:
            print(*commands(made, names, entry, record, end), sep='\n')


main()
