"""Commands whose answers the papers' lists give: containers that are wrong in one way each, and programs, runs and surveys at both sides of a limit."""
import os, sys
sys.path.insert(0, os.path.join(os.path.dirname(os.path.abspath(__file__)), '..', '..', 'model'))
from cells import cell_limits, long_arguments, long_builds
from kinds import say
from programs import RETURN, ROOTS, STOP, block, branch, build, call, constructor, function, load, packed, payload, pieces
from surveys import long_texts, no_bytes, survey_limits

PLAIN = bytes((7 * k + k // 256) % 251 + 1 for k in range(32257))


def in_one_block(n, whole, piece):
    """Blocks of which block n is wrong in one way, as `unpack` commands."""
    unpack = lambda changed: 'unpack %s 40000' % say(b''.join(whole[:n] + [changed] + whole[n + 1:]))
    for at, by in ((508, 1), (508, 255), (511, 1), (4, 1)):
        changed = bytearray(whole[n])
        changed[at] = (changed[at] + by) % 256
        yield unpack(bytes(changed)), 'refused 2 %d 0' % n
    for number in (n + 1, n + 256):
        yield unpack(block(piece, number)), 'refused 3 %d 0' % n
    for used in (0, len(piece) - 1, 505, 65535):
        yield unpack(block(piece, n, used)), 'refused 3 %d 0' % n


def in_three_blocks():
    """Three blocks of which one is wrong."""
    parts = pieces(PLAIN[:1200])
    whole = [block(piece, n) for n, piece in enumerate(parts)]
    for n, piece in enumerate(parts):
        yield from in_one_block(n, whole, piece)
    for at in (192, 503):
        unused = whole[2][4:4 + at] + b'\1'
        yield 'unpack %s 40000' % say(whole[0] + whole[1] + block(unused, 2, 192)), 'refused 3 2 0'


def many_blocks():
    """64 blocks are right, 65 are too many."""
    blocks = [block(PLAIN[:504], n) for n in range(65)]
    yield 'unpack %s 0' % say(b''.join(blocks[:64])), 'refused 13 32256 0'
    yield 'unpack %s 40000' % say(b''.join(blocks)), 'refused 1 0 0'


def lengths():
    """Payloads and outputs at the limits of their lengths."""
    for n in (1, 503, 504, 505, 1008, 1009, 32256):
        room = 512 * len(pieces(PLAIN[:n]))
        there, back = 'pack %s ' % say(PLAIN[:n]), 'unpack %s ' % say(packed(PLAIN[:n]))
        yield there + str(room), 'packed ' + say(packed(PLAIN[:n]))
        yield there + str(room - 1), 'refused 13 %d 0' % room
        yield back + str(n), 'unpacked ' + say(PLAIN[:n])
        yield back + str(n - 1), 'refused 13 %d 0' % n
    for n in (0, 32257):
        for room in (0, 40000):
            yield 'pack %s %d' % (say(PLAIN[:n]), room), 'refused 18 0 0'


def damaged():
    """Containers that are wrong in one way each, every cut of ROOTS, payloads and outputs at the limits of their lengths, and long
    arguments and surveys."""
    for n in (0, 1, 511, 513, 32769, 33280):
        yield 'unpack %s 40000' % say(bytes(n)), 'refused 1 0 0'
    yield from many_blocks()
    yield from in_three_blocks()
    yield from lengths()
    yield from long_arguments()
    yield from long_builds()
    yield from long_texts()
    yield from no_bytes()
    for n in range(512):
        yield 'check ' + say(block(ROOTS)[:n]), 'refused 1 0 0'


def roots_with(at, value):
    """ROOTS with another payload byte, as a `check` command."""
    changed = bytearray(ROOTS)
    changed[at] = value
    return 'check ' + say(packed(bytes(changed)))


ZERO, NODE = constructor(0), constructor(0, (0, 0, 0, 0))


def heights():
    """A function of one argument that loads it so many times: height 16, and 17."""
    for loads, answer in ((15, 'accepted 1 1 1'), (16, 'refused 8 0 16')):
        code = [load(1)] * loads + [RETURN]
        yield 'check ' + say(packed(payload(1, [ZERO], [function(0, (0,), [((1,), 0)], code)]))), answer


def variables():
    """A function of so many arguments that splits three or four of its values into four each: 16 variables, and 17."""
    for arity, splits, answer in ((4, 3, 'accepted 1 2 1'), (1, 4, 'refused 9 0 4')):
        code = [branch(1, splits + 2 + k) for k in range(splits)] + [RETURN] * (splits + 1)
        f = function(0, (0,) * arity, [((1,) * arity, 0)], code)
        yield 'check ' + say(packed(payload(1, [ZERO, NODE], [f]))), answer


def alternatives():
    """A call over two entries of four alternatives each: 16 of them and 17, and 8 where each is left out of one alternative."""
    four = function(0, (0,), [((1,), k) for k in range(4)], [RETURN])
    main = function(0, (0,), [((15,), 65535)], [load(1), call(1), load(1), call(1), call(2), RETURN])
    sums = [((1, 1), 0)]
    for bound, answer in ((sums, 'accepted 1 1 3'), (sums + [((0, 0), 1)], 'refused 9 0 5'), ([((1, 0), 0), ((0, 1), 0)], 'accepted 1 1 3')):
        both = function(0, (0, 0), bound, [RETURN])
        yield 'check ' + say(packed(payload(1, [ZERO], [main, four, both]))), answer


def constants():
    """A call of a function with one constant in a function with another, of two bytes each: covered, and not."""
    for own, called, answer in ((256, 1, 'accepted 1 1 2'), (257, 257, 'accepted 1 1 2'), (255, 256, 'refused 10 0 3'), (65534, 65535, 'refused 10 0 3')):
        main = function(0, (0,), [((1,), own)], [load(1), call(1), RETURN])
        yield 'check ' + say(packed(payload(1, [ZERO], [main, function(0, (0,), [((1,), called)], [RETURN])]))), answer
    three, twice = (function(0, (0,), bound, [RETURN]) for bound in ([((1,), 3)], [((2,), 0)]))
    for own, answer in ((6, 'accepted 1 1 3'), (5, 'refused 10 0 4')):
        main = function(0, (0,), [((2,), own)], [load(1), call(1), call(2), RETURN])
        yield 'check ' + say(packed(payload(1, [ZERO], [main, three, twice]))), answer


def stops():
    """A function that calls one that stops."""
    called = function(0, (), [((), 0)], [STOP])
    file = say(packed(payload(1, [ZERO], [function(0, (), [((), 0)], [call(1), RETURN]), called])))
    for words, answer in (('0 - 9 5 5 2 4', 'gaveup 2 1'), ('0 - 1 5 5 2 4', 'refused 14 1 1 1 1'), ('0 - 9 5 5 1 4', 'refused 17 0 1 0 1'),
                          ('1 - 1 5 5 1 4', 'gaveup 1 1'), ('1 - 0 5 5 1 4', 'refused 14 1 1 0 1'), ('1 - 1 5 5 0 4', 'refused 17 1 1 0 0')):
        yield 'run %s %s' % (file, words), answer


def pending():
    """Arguments that leave 256 values to be read, and 257; cut short behind."""
    for arity, answer in ((1, 'refused 12 85 0 0 0'), (2, 'refused 12 84 0 0 0')):
        file = packed(payload(1, [ZERO, NODE], [function(0, (0,) * arity, [((1,) * arity, 0)], [RETURN])]))
        yield 'run %s 0 %s 9 2000 300 9 9' % (say(file), say(b'\1' * 85)), answer


def table_lengths():
    """Argument bytes, stack places and frames around 65,535 and cells around 65,471: a run of ROOTS, and bytes that are no arguments."""
    file = say(packed(ROOTS))
    for n, place in ((65535, 0), (65536, 65535)):
        yield 'run %s 0 %s 9 20480 2048 256 16' % (file, say(b'\377' * n)), 'refused 12 %d 0 0 0' % place
    for cells, stack, frames in ((327359, 65535, 256), (327360, 2048, 65536), (327675, 65537, 65535)):
        yield 'run %s 0 030102 1000 %d %d %d 16' % (file, cells, stack, frames), 'figure 0504 10 1'


def block_counts():
    """Of 64 blocks the first is looked at, of 65 none."""
    for n, answer in ((64, 'refused 2 0 0'), (65, 'refused 1 0 0')):
        yield 'unpack %s 16' % say(b'\377' * (512 * n)), answer


def two_wrong(first, second):
    """A program of two functions, of these parts each."""
    return 'check ' + say(packed(payload(1, [ZERO, NODE], [first, second])))


def orders():
    """Programs with two faults: the smaller number first, each over the whole program; 10 and 9 in one walk."""
    right = function(0, (0,), [((1,), 0)], [RETURN])
    uncounted = function(0, (0,), [((0,), 9)], [RETURN])
    unknown_type = function(1, (), [((), 0)], [STOP])
    endless = function(0, (0,), [((1,), 0)], [load(1)])
    no_slot = function(0, (0,), [((1,), 0)], [load(9), RETURN])
    uncovered = function(0, (0,), [((1,), 0)], [load(1)] * 3 + [build(1), RETURN])
    split = function(0, (0,), [((1,), 0)], [branch(1, 6 + k) for k in range(4)] + [RETURN] * 5)
    yield two_wrong(uncounted, unknown_type), 'refused 5 1 1'
    yield two_wrong(endless, uncounted), 'refused 6 1 1'
    yield two_wrong(no_slot, endless), 'refused 7 1 1'
    yield two_wrong(uncovered, no_slot), 'refused 8 1 1'
    yield two_wrong(split, no_slot), 'refused 8 1 1'
    yield two_wrong(split, uncovered), 'refused 9 0 4'
    yield two_wrong(uncovered, split), 'refused 10 0 5'
    heavy = constructor(0, (0,), 0)
    yield 'check ' + say(packed(payload(1, [ZERO, heavy], [unknown_type, right]))), 'refused 5 0 1'
    yield 'check ' + say(packed(payload(1, [ZERO, heavy], [right, right[:-1] + b'\1']))), 'refused 4 56 0'


def orders_at_once():
    """Two faults at one place: 10 before 9 at an instruction, an alternative before an instruction, a constructor before a function."""
    four = function(0, (0,), [((1,), k) for k in range(4)], [RETURN])
    both = function(0, (0, 0), [((1, 1), 0), ((0, 0), 1)], [RETURN])
    more = function(0, (0,), [((1,), k) for k in range(1, 5)], [RETURN])
    for constant, answer in ((3, 'refused 10 0 5'), (4, 'refused 9 0 5')):
        main = function(0, (0,), [((1,), constant)], [load(1), call(1), load(1), call(3), call(2), RETURN])
        yield 'check ' + say(packed(payload(1, [ZERO], [main, four, both, more]))), answer
    wrong = bytearray(payload(1, [ZERO], [function(0, (), [((), 0), ((), 0)], [STOP])]))
    wrong[28], wrong[35] = 1, 1
    yield 'check ' + say(packed(bytes(wrong))), 'refused 4 28 0'
    wrong[11] = 1
    yield 'check ' + say(packed(bytes(wrong))), 'refused 4 4 0'
    yield 'check ' + say(packed(bytes(wrong[:11] + b'\0' + wrong[12:28] + b'\0' + wrong[29:] + b'\0'))), 'refused 4 34 0'


def orders_of_blocks():
    """Block by block 2 then 3: a wrong checksum behind a wrong number, and both in one block."""
    whole = [block(PLAIN[504 * n:504 * n + 504], n) for n in range(2)]
    bent = lambda one: one[:508] + bytes([one[508] ^ 1]) + one[509:]
    number = block(PLAIN[:504], 7)
    yield 'unpack %s 2000' % say(number + bent(whole[1])), 'refused 3 0 0'
    yield 'unpack %s 2000' % say(bent(number) + whole[1]), 'refused 2 0 0'
    yield 'unpack %s 0' % say(whole[0] + block(PLAIN[:504], 7)), 'refused 3 1 0'


def orders_of_tables():
    """ROOTS with too little of several tables: 11, 12, then 17, 16, 15 for loading; in the run the budget first, then 17, 16, 15."""
    file = say(packed(ROOTS))
    for words, answer in (
            ('7 030102 0 0 0 0 0', 'refused 11 7 0 0 0'), ('0 0301 0 0 0 0 0', 'refused 12 2 0 0 0'), ('0 030102 0 0 0 0 0', 'refused 17 0 1 0 0'),
            ('0 030102 0 0 0 1 0', 'refused 16 0 1 0 0'), ('0 030102 0 0 1 1 0', 'refused 15 0 1 0 0'), ('0 030102 0 5 1 1 0', 'refused 14 0 1 0 1'),
            ('0 030102 4 5 4 1 0', 'refused 14 0 5 4 1'), ('0 030102 5 5 4 1 0', 'refused 17 0 5 4 1'), ('0 030102 9 5 4 2 0', 'refused 16 0 1 5 1'),
            ('0 030102 9 5 6 2 0', 'refused 14 0 6 9 1'), ('0 030102 10 5 6 2 0', 'refused 15 0 6 9 1'), ('0 030102 10 10 6 2 0', 'refused 13 2 0 10 1'),
            ('0 02 9 0 1 1 0', 'refused 16 0 1 0 1'), ('0 02 9 0 2 1 0', 'refused 16 0 11 2 1'), ('0 02 9 0 3 1 0', 'refused 13 1 0 3 1'),
            ('0 02 3 0 3 1 0', 'refused 13 1 0 3 1'), ('0 02 2 0 3 1 0', 'refused 14 0 11 2 1')):
        yield 'run %s %s' % (file, words), answer


def limits():
    """What the checker computes in a few seconds."""
    made = (block_counts, in_three_blocks, heights, variables, alternatives, constants, stops, pending, table_lengths)
    for some in (*made, orders, orders_at_once, orders_of_blocks, orders_of_tables, cell_limits, survey_limits):
        yield from some()
