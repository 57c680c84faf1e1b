"""Writes the programs that are listed into a folder: those of tests/panel/files.py, a damaged card, one with all kinds of bounds, and
for each kind of record one that is refused for its fields and one that is cut short; records.py FOLDER."""
import os, sys
HERE = os.path.dirname(os.path.abspath(__file__))
sys.path[:0] = [os.path.join(HERE, '..', 'panel'), os.path.join(HERE, '..', '..', 'model')]
from files import FILES, changed, write
from programs import ROOTS, STOP, constructor, function, packed, payload

HEAD = 4 + 8 * 6  # in ROOTS: behind six constructors
BOUND, CODE = HEAD + 10, HEAD + 16

# One alternative and several; coefficients of 0, of 1 and of more; no constant, a constant alone, nothing at all.
BOUNDS = payload(1, [constructor(0), constructor(0, (0,)), constructor(0, (0, 0), 7)], [
    function(0, (), [((), 0)], [STOP]),
    function(0, (0, 0, 0), [((2, 0, 1), 5), ((0, 1), 0)], [STOP]),
    function(0, (0, 0, 0, 0), [((1, 1, 1, 1), 65535), ((15, 15, 15, 15), 0), ((), 3), ((), 0)], [STOP])])
SECOND = 4 + 8 * 3 + 20 + 10 + 6  # the second alternative of its second function

RECORDS = {
    'card': changed(packed(ROOTS), 100, 255), 'bounds': packed(BOUNDS),
    'constructor': packed(changed(ROOTS, 4 + 8 * 3 + 1, 5)), 'head': packed(changed(ROOTS, HEAD + 9, 2)),
    'alternative': packed(changed(BOUNDS, SECOND + 1, 16)), 'instruction': packed(changed(ROOTS, CODE + 4 * 2, 9)),
    'short.header': packed(ROOTS[:3]), 'short.constructor': packed(ROOTS[:4 + 8 * 2 + 7]), 'short.head': packed(ROOTS[:HEAD + 1]),
    'short.alternative': packed(ROOTS[:BOUND + 5]), 'short.instruction': packed(ROOTS[:CODE + 4 * 3 + 2]), 'more': packed(ROOTS + b'\0'),
}

if __name__ == '__main__':
    write(sys.argv[1], {**FILES, **RECORDS})
