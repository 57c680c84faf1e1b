#!/usr/bin/env python3
"""The test commands of docs/GUIDE.md: guide.py prints them, one a line, for the program `cases`.

guide.py rows reads the answers on standard input and prints the rows of the guide's tables: what is tried, how it is written with
the functions of this file and of model/programs.py, and the answer.
"""
import os, sys
sys.dont_write_bytecode = True
sys.path.insert(0, os.path.join(os.path.dirname(os.path.abspath(__file__)), '..', 'model'))
from programs import RETURN, ROOTS, block, branch, build, call, constructor, function, load, packed, payload

FILE = packed(ROOTS)
ZERO, NEXT, NUMBER = 0, 1, 0
NUMBERS = [constructor(NUMBER), constructor(NUMBER, (NUMBER,))]
TREE = [constructor(0), constructor(0, (0, 0, 0, 0))]  # a leaf, and a node over four
TABLE = b'CRA\0ROO\1'  # what a survey's letters stand for in ROOTS


def changed(data, at, byte):
    """Bytes with another one at a place."""
    return data[:at] + bytes([byte]) + data[at + 1:]


def check(file):
    return 'check %s' % (file.hex() or '-')


def of_payload(data):
    return check(packed(data))


def run(file=FILE, entry=0, arguments=(3, 1, 2), budget=1000, cells=20480, stack=2048, frames=256, room=16):
    """A run, of ROOTS with the panel's tables unless something else is said."""
    return 'run %s %d %s %d %d %d %d %d' % (file.hex(), entry, bytes(arguments).hex() or '-', budget, cells, stack, frames, room)


def pack(data, room):
    return 'pack %s %d' % (data.hex() or '-', room)


def lines(text, table=TABLE, cons=3, nil=2, room=16):
    """A survey's lines as a list of ROOTS unless something else is said."""
    return 'lines %s %s %d %d %d' % (text.hex() or '-', table.hex() or '-', cons, nil, room)


def one(code, constructors=NUMBERS):
    """A program over one type, with one function of one argument whose bound is the argument's size."""
    return payload(1, constructors, [function(0, (0,), [((1,), 0)], code)])


def roots(bound=((1,), 0), second=None, weight=1, behind=()):
    """ROOTS with another bound, another second instruction, another weight of cons, or instructions behind its first build."""
    constructors = [constructor(0), constructor(0), constructor(1), constructor(1, (0, 1), weight), constructor(2), constructor(2, (2,))]
    n = len(behind)
    code = [load(1), second or branch(3, 11 + n), load(2), branch(1, 8 + n), call(0), build(5), *behind, RETURN,
            load(3), call(0), RETURN, build(4), RETURN]
    return payload(3, constructors, [function(2, (1,), [bound], code)])


def four_splits():
    """Each split of a node makes four variables more: with the parameter and four splits that would be 17."""
    return one([load(1), *(branch(1, to) for to in (7, 8, 9, 10)), *[RETURN] * 5], TREE)


def many_forms():
    """Four results of two alternatives each, added up, have 16; added to one more such result they would have 32."""
    either = function(0, (0, 0), [((1, 0), 0), ((0, 1), 0)], [RETURN])
    four = function(0, (0, 0, 0, 0), [((1, 1, 1, 1), 0)], [RETURN])
    wanted = function(0, (0, 0), [((15, 15), 0)], [
        *([load(1), load(2), call(0)] * 4), call(1), load(1), load(2), call(0), load(1), load(2), call(1), RETURN])
    return payload(1, NUMBERS, [either, four, wanted])


def sums():
    """Function 1 adds; 0 gives its first argument unless that is zero, else its second; 2 adds that and a third."""
    first_of = function(0, (0, 0), [((1, 0), 0), ((0, 1), 0)], [load(1), branch(NEXT, 5), load(1), RETURN, load(2), RETURN])
    add = function(0, (0, 0), [((1, 1), 0)], [load(1), branch(NEXT, 7), load(2), build(NEXT), call(1), RETURN, load(2), RETURN])
    sum_of = function(0, (0, 0, 0), [((1, 0, 1), 0), ((0, 1, 1), 0)], [load(1), load(2), call(0), load(3), call(1), RETURN])
    return payload(1, NUMBERS, [first_of, add, sum_of])


def pair(*bound):
    """A pair of its two arguments, of weight 1."""
    return payload(1, [constructor(0), constructor(0, (0, 0))], [function(0, (0, 0), bound, [build(1), RETURN])])


# What is tried, and the command that tries it.
COMMANDS = [
    # 1 to 3
    ('three bytes', r"check(b'\1\2\3')"),
    ('payload byte 0 changed, the checksum not', "check(changed(FILE, 4, 2))"),
    ('the only block has number 1', "check(block(ROOTS, 1))"),
    ('a used count of 0', "check(block(b''))"),
    ('a 1 behind the used bytes', r"check(block(ROOTS + b'\1', used=116))"),
    # 4 to 10
    ('edition 2', "of_payload(changed(ROOTS, 0, 2))"),
    ('coefficient 16', "of_payload(roots(((16,), 0)))"),
    ('operand 1 for a return', "of_payload(changed(ROOTS, 93, 1))"),
    ('the last byte is missing', "of_payload(ROOTS[:-1])"),
    ('one byte too many', r"of_payload(ROOTS + b'\0')"),
    ('weight 0 for cons', "of_payload(roots(weight=0))"),
    ('result type 3 where there are three types', "of_payload(changed(ROOTS, 52, 3))"),
    ('coefficient 0, constant 5 (K3)', "of_payload(roots(((0,), 5)))"),
    ('both sides of a branch go to 3 (K5)', "of_payload(roots(second=branch(3, 3)))"),
    ('nothing behind the last load', "of_payload(one([load(1), load(1)]))"),
    ('a branch behind a build', "of_payload(one([build(ZERO), branch(NEXT, 4), RETURN, RETURN]))"),
    ('slot 2 of a stack of one', "of_payload(one([load(2), RETURN]))"),
    ('constructor 2 of two', "of_payload(one([build(2), RETURN]))"),
    ('a seventeenth entry', "of_payload(one([load(1)] * 16 + [RETURN]))"),
    ('a seventeenth variable', "of_payload(four_splits())"),
    ('a form of 32 alternatives', "of_payload(many_forms())"),
    ('a second build 5 (K4)', "of_payload(roots(behind=(build(5),)))"),
    # 11, 12, 13, 18
    ('entry 1 of one function', "run(entry=1)"),
    ('cut short (K10)', "run(arguments=(3, 1))"),
    ('of another type (K11)', "run(arguments=(4,))"),
    ('one byte left over', "run(arguments=(3, 1, 2, 2))"),
    ('259 values still to be read', "run(packed(one([RETURN], TREE)), arguments=[1] * 86)"),
    ('65,536 bytes', "run(arguments=[3] * 65536)"),
    ('room for one byte of two', "run(room=1)"),
    ('ROOTS packed into 511 bytes', "pack(ROOTS, 511)"),
    ('nothing packed', "pack(b'', 512)"),
    # 14 to 17
    ('budget 9 (K9)', "run(budget=9)"),
    ('5 numbers, which are 1 cell (K13)', "run(cells=5)"),
    ('10 numbers, which are 2 cells (K13)', "run(cells=10)"),
    ('4 numbers, which are no cell', "run(cells=4)"),
    ('no cell, for nil alone (K7)', "run(arguments=(2,), cells=0)"),
    ('5 stack places (K12)', "run(stack=5)"),
    ('1 frame', "run(frames=1)"),
    ('no frame', "run(frames=0)"),
    ('a function that calls itself for ever', "run(packed(one([call(0), RETURN])), arguments=(ZERO,))"),
    # a survey
    ('three finds', r"lines(b'ROO\nCRA\nROO\n')"),
    ('no find', "lines(b'')"),
    ('letters twice in the table', r"lines(b'ROO\n', TABLE + b'ROO\0')"),
    # 19, 20
    ('a table of 7 bytes', "lines(b'', TABLE[:7])"),
    ('a small letter in the table', r"lines(b'', b'Roo\1')"),
    ('cons and nil are the same', "lines(b'', nil=3)"),
    ('a carriage return', r"lines(b'ROO\r\nCRA\r\n')"),
    ('an empty line', r"lines(b'ROO\n\nCRA\n')"),
    ('a small letter', r"lines(b'ROO\nRoo\n')"),
    ('no byte 10 at the end', r"lines(b'ROO\nCRA')"),
    ('letters that no entry has', r"lines(b'ROO\nCRA\nTAR\n')"),
    ('room for four bytes of five', r"lines(b'ROO\nCRA\n', room=4)"),
    # covers
    ('`first_of`, `add` and `sum_of`', "of_payload(sums())"),
    ('a pair under two alternatives', "of_payload(pair(((2, 0), 1), ((0, 2), 1)))"),
    ('a pair under one', "of_payload(pair(((1, 1), 1)))"),
]


def main():
    if sys.argv[1:] == ['rows']:
        for (name, expression), answer in zip(COMMANDS, sys.stdin):
            print('| %s | `%s` | `%s` |' % (name, expression, answer.strip()))
    else:
        for _, expression in COMMANDS:
            print(eval(expression))


if __name__ == '__main__':
    main()
