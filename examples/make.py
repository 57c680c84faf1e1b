#!/usr/bin/env python3
"""Writes the example programs as files of blocks, and a survey for one: make.py [FOLDER], by default the folder of this file."""
import os, sys
sys.dont_write_bytecode = True
HERE = os.path.dirname(os.path.abspath(__file__))
sys.path.insert(0, os.path.join(HERE, '..', 'model'))
from programs import RETURN, ROOTS, STOP, branch, build, call, constructor, function, load, packed, payload


def roots():
    """How many roots a list of codes has, as a number; the program of document 01."""
    return ROOTS


# Numbers: one type, zero, and the number after another, of weight 1.
ZERO, NEXT, NUMBER = 0, 1, 0
NUMBERS = [constructor(NUMBER), constructor(NUMBER, (NUMBER,))]


def add():
    """The sum of two numbers, as 001 compiles it: what is taken off the first is put on the second."""
    code = [load(1), branch(NEXT, 7), load(2), build(NEXT), call(0), RETURN, load(2), RETURN]
    return payload(1, NUMBERS, [function(NUMBER, (NUMBER, NUMBER), [((1, 1), 0)], code)])


def double(coefficient=1):
    """Twice a number. It is refused with 10, since its bound says that the result is no larger than the argument."""
    code = [load(1), branch(NEXT, 7), call(0), build(NEXT), build(NEXT), RETURN, build(ZERO), RETURN]
    return payload(1, NUMBERS, [function(NUMBER, (NUMBER,), [((coefficient,), 0)], code)])


def half():
    """Half of an even number. At an odd one it gives up."""
    code = [load(1), branch(NEXT, 8), branch(NEXT, 7), call(0), build(NEXT), RETURN, STOP, RETURN]
    return payload(1, NUMBERS, [function(NUMBER, (NUMBER,), [((1,), 0)], code)])


def pairs(weight=2):
    """A list of pairs of colours as a list of colours. Weight 2 of a pair pays for the two elements that are made of it."""
    colour, pairing, listing = 0, 1, 2
    two, nil, cons = 3, 4, 5
    constructors = [
        constructor(colour), constructor(colour), constructor(pairing), constructor(pairing, (colour, colour, pairing), weight),
        constructor(listing), constructor(listing, (colour, listing))]
    code = [load(1), branch(two, 7), call(0), build(cons), build(cons), RETURN, build(nil), RETURN]
    return payload(3, constructors, [function(listing, (pairing,), [((1,), 0)], code)])


EXAMPLES = {'roots': roots, 'add': add, 'double': double, 'half': half, 'pairs': pairs}

# Three finds as the logger writes them, and what its letters stand for in ROOTS.
SURVEY = b'ROO\nCRA\nROO\n'
CODES = b'''# The finds of ROOTS: letters and constructor.
CRA 0
ROO 1
'''


def main():
    folder = sys.argv[1] if len(sys.argv) > 1 else HERE
    files = {name + '.sheet': packed(program()) for name, program in EXAMPLES.items()}
    for name, data in {**files, 'roots.survey': SURVEY, 'roots.codes': CODES}.items():
        with open(os.path.join(folder, name), 'wb') as file:
            file.write(data)


if __name__ == '__main__':
    main()
