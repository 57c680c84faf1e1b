"""Writes the files that the tests of the C side read into a folder: programs, payloads, arguments, results; files.py FOLDER."""
import os, sys
sys.path.insert(0, os.path.join(os.path.dirname(__file__), '..', '..', 'model'))
from programs import BLOCK, ROOTS, RETURN, STOP, branch, build, call, constructor, function, load, packed, payload

ROOTS_TYPES = [constructor(0), constructor(0), constructor(1), constructor(1, (0, 1)), constructor(2), constructor(2, (2,))]


def roots(outer=11, inner=8, between=(), bound=((1,), 0)):
    """ROOTS with other targets, other instructions behind the sixth, another bound."""
    return payload(3, ROOTS_TYPES, [function(2, (1,), [bound], [
        load(1), branch(3, outer), load(2), branch(1, inner), call(0), build(5), *between, RETURN, load(3), call(0), RETURN,
        build(4), RETURN])])


def changed(data, at, byte):
    """The same bytes but one."""
    return data[:at] + bytes([byte]) + data[at + 1:]


NUMBERS = [constructor(0), constructor(0, (0,))]  # 0 zero, 1 next(number)


def nested(calls):
    """A function with two alternatives that calls itself so many times, each time on the result before."""
    return payload(1, NUMBERS, [function(0, (0,), [((1,), 0), ((1,), 0)], [load(1), *[call(0)] * calls, RETURN])])


# Three functions, number to number, that use up one table each: one more cell, a stack of 16 in each frame, frames.
TABLES = payload(1, NUMBERS, [
    function(0, (0,), [((1,), 1)], [load(1), build(1), RETURN]),
    function(0, (0,), [((1,), 0)], [*[load(1)] * 15, call(1), RETURN]),
    function(0, (0,), [((1,), 0)], [load(1), call(2), RETURN])])

PAIRS = [constructor(0), constructor(0, (0, 0))]  # 0 leaf, 1 pair
LEVELS, TIMES = 64, 64

# 4,096 pairs over a leaf, each the first argument of the next, and a leaf beside each: no value of 4,096 cells is deeper.
# The branch is there for the check, which then knows that the second argument is a leaf and adds nothing to the size.
DEEP = payload(1, PAIRS, [
    function(0, (), [((), LEVELS * TIMES)], [build(0), load(1), *[load(1), call(1)] * TIMES, RETURN]),
    function(0, (0, 0), [((1, 1), LEVELS)], [
        load(2), branch(0, 5 + 2 * LEVELS), load(1), *[load(2), build(1)] * LEVELS, RETURN, STOP])])

COUNTED = [constructor(0), constructor(0, (0,), 255)]  # 0 zero, 1 next(count), which weighs much
TREES = [constructor(1), constructor(1, (1, 1)), constructor(1, (1, 1, 1, 1))]  # 2 leaf, 3 pair, 4 four

# For each step of the count, a pair with a tree of 10,923 bytes that takes 7 cells: 4 * 1 + 1 is 5, then 21, 85, 341, 1365, 5461.
LONG = payload(2, COUNTED + TREES, [
    function(1, (0,), [((15,), 0)], [load(1), branch(1, 7), call(0), call(1), build(3), RETURN, build(2), RETURN]),
    function(1, (), [((), 3824)], [build(2), *[load(1), load(1), load(1), build(4)] * 6, load(1), build(3), RETURN])])

ALL = bytes(k % 256 for k in range(64 * 504))  # the longest payload

TABLE = b'CRA\0ROO\1'  # what a survey's letters stand for in ROOTS

FILES = {
    'roots': packed(ROOTS), 'roots.payload': ROOTS,
    'k3': packed(roots(bound=((0,), 5))), 'k4': packed(roots(12, 9, [build(5)])), 'k5': packed(roots(outer=3)),
    'stop': packed(payload(1, [constructor(0)], [function(0, (), [((), 0)], [STOP])])),
    'empty': b'', 'short': packed(ROOTS)[:-1], 'over': bytes(32769), 'blank': bytes(BLOCK),
    'spoilt': changed(packed(ALL), 512 * 63 + 100, 0), 'all': packed(ALL), 'all.payload': ALL, 'more.payload': ALL + b'\0',
    'edition': packed(changed(ROOTS, 0, 2)), 'weight': packed(changed(ROOTS, 4 + 8 * 3 + 6, 0)),
    'signature': packed(changed(ROOTS, 4 + 8 * 6, 3)), 'slot': packed(changed(ROOTS, 4 + 8 * 6 + 16 + 1, 9)),
    'nested4': packed(nested(4)), 'nested5': packed(nested(5)),
    'seven.payload': b'\7', 'tables': packed(TABLES), 'long': packed(LONG),
    'deep': packed(DEEP), 'deep.result': bytes([1] * 4096 + [0] * 4097),
    'list': bytes([3, 1, 2]), 'number4096': bytes([1] * 4096 + [0]), 'toolong': bytes(70000),
    'count95': bytes([1] * 95 + [0]), 'count96': bytes([1] * 96 + [0]),
    'roots.table': TABLE, 'twice.table': TABLE + b'ROO\7CRA\7', 'ends.table': b'AAA\0ZZZ\xff',
    'cut7.table': TABLE[:7], 'cut6.table': TABLE[:6], 'cut5.table': TABLE[:5], 'cut3.table': TABLE[:3],
    'first.table': changed(TABLE, 0, ord('@')), 'second.table': changed(TABLE, 1, ord('[')),
    'third.table': changed(TABLE, 2, ord('a')), 'last.table': TABLE + b'ROO\1rOO\1',
    'survey': b'ROO\nCRA\nROO\n', 'codes': b'CRA 0\nROO 1\n',
}


def write(folder, files):
    """Each file under its name."""
    for name, data in files.items():
        with open(os.path.join(folder, name), 'wb') as file:
            file.write(data)


if __name__ == '__main__':
    assert roots() == ROOTS and len(ROOTS) == 116
    write(sys.argv[1], FILES)
