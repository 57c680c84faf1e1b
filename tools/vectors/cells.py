"""Runs at both sides of each limit of the cells, and runs of constants, which take none, with their answers."""
import itertools
from kinds import say
from programs import RETURN, ROOTS, branch, build, constructor, function, load, packed, payload

# The most cells that are used, and the most argument bytes.
MOST_CELLS, MOST_BYTES = 65471, 65535

# One constructor of each arity, so that its number is its arity. The first one is a constant.
ZERO, NEXT, PAIR, TRIPLE, NODE = range(5)
BY_ARITY = [constructor(0, (0,) * arity) for arity in range(5)]
ONE = bytes([NEXT, ZERO])  # the smallest value that takes a cell


def run(program, arguments, numbers, budget=1000, room=64):
    """A run of function 0 with so many numbers of cells, five to a cell."""
    return 'run %s 0 %s %d %d 64 8 %d' % (say(packed(program)), say(bytes(arguments)), budget, numbers, room)


def figure(value, steps):
    return 'figure %s %d 1' % (say(bytes(value)), steps)


def program(arity, code, constructors=BY_ARITY):
    """A program of one function over one type, whose bound lets it build one value of its arguments."""
    return payload(1, constructors, [function(0, (0,) * arity, [((1,) * arity, 1)], code)])


def roots():
    """ROOTS on one root, which is K13, on one crack, and on nil, which is K7: in no cell, one and two, each with a piece of another or not."""
    for numbers in (0, 4, 5, 9, 10, 14):
        cells = numbers // 5
        yield run(ROOTS, (3, 1, 2), numbers), ('refused 15 0 1 0 0', 'refused 15 0 6 9 1', figure((5, 4), 10))[cells]
        yield run(ROOTS, (3, 0, 2), numbers), figure((4,), 10) if cells else 'refused 15 0 1 0 0'
        yield run(ROOTS, (2,), numbers), figure((4,), 3)


def builds():
    """A build of arity 0 to 3 over constants with no cell left, with a piece of one, and with one."""
    for arity in range(4):
        file = program(arity, [build(arity), RETURN])
        value = [arity] + [ZERO] * arity
        for numbers in (0, 4, 5):
            yield run(file, [ZERO] * arity, numbers), figure(value, 1) if arity == 0 or numbers == 5 else 'refused 15 0 1 0 1'


def constants_and_cells():
    """A node over constants and values of a cell each, in every order: too few cells for the arguments, none for the node, enough."""
    file = program(4, [build(NODE), RETURN])
    for parts in itertools.product((bytes([ZERO]), ONE), repeat=4):
        arguments, needed = b''.join(parts), 5 * parts.count(ONE)
        if needed:
            yield run(file, arguments, needed - 1), 'refused 15 0 1 0 0'
        yield run(file, arguments, needed), 'refused 15 0 1 0 1'
        yield run(file, arguments, needed + 5), figure(bytes([NODE]) + arguments, 1)


def results():
    """Results that are an argument: a constant, and nodes with a constant in every place but one; room for them, and a byte less."""
    file = program(1, [RETURN])
    inner = bytes([PAIR, ZERO, NEXT, ZERO])
    nodes = [bytes([NODE]) + bytes(k) + inner + bytes(3 - k) for k in range(4)]
    for value, cells in ((bytes([ZERO]), 0), *((node, 3) for node in nodes)):
        yield run(file, value, 5 * cells, 0, len(value)), figure(value, 0)
        yield run(file, value, 5 * cells, 0, len(value) - 1), 'refused 13 %d 0 0 1' % len(value)


def places():
    """A constant takes a place of the stack, and no cell: given and built with no place, one and two, and with no cell and one."""
    file = say(packed(program(1, [build(ZERO), RETURN])))
    for numbers in (0, 5):
        for stack, answer in ((0, 'refused 16 0 1 0 0'), (1, 'refused 16 0 1 0 1'), (2, figure((ZERO,), 1))):
            yield 'run %s 0 %s 9 %d %d 1 9' % (file, say(bytes([ZERO])), numbers, stack), answer


# 64 constructors, of which two at each end are constants, and what a branch on them gives.
CONSTANTS, TAKEN, LEFT = (0, 1, 62, 63), 62, 1
ALL = [constructor(0, () if k in CONSTANTS else (0,) * (1 + k % 4)) for k in range(64)]


def value_of(number):
    """A value of one of the 64 constructors; its arguments are constants."""
    return bytes([number] + [63] * (0 if number in CONSTANTS else 1 + number % 4))


def branches():
    """Branches on the constructors at both ends and beside them, constants or not, each on a value of the same and on values of the others."""
    for wanted in (0, 1, 2, 61, 62, 63):
        file = program(1, [branch(wanted, 4), build(TAKEN), RETURN, build(LEFT), RETURN], ALL)
        for number in (0, 1, 2, 61, 62, 63):
            numbers = 0 if number in CONSTANTS else 5
            yield run(file, value_of(number), numbers), figure((TAKEN if number == wanted else LEFT,), 2)


def branches_beside():
    """A constant is not the cell at the place of its number: it stands behind values of the first two cells and is tested for theirs."""
    for wanted, before, last in itertools.product((2, 3), ((2, 3), (3, 2)), (0, 1)):
        file = program(3, [branch(wanted, 4), build(TAKEN), RETURN, build(LEFT), RETURN], ALL)
        yield run(file, b''.join(map(value_of, before)) + value_of(last), 10), figure((LEFT,), 2)


def parts():
    """What a branch puts in a node's place, constants and others: each of its four arguments as the result."""
    four = (bytes([ZERO]), ONE, bytes([ZERO]), bytes([PAIR, ZERO, ZERO]))
    for slot in range(1, 5):
        file = program(1, [branch(NODE, 4), load(slot), RETURN, RETURN])
        yield run(file, bytes([NODE]) + b''.join(four), 15), figure(four[slot - 1], 2)


def cell_limits():
    """What the checker computes at once."""
    for some in (roots, builds, constants_and_cells, results, places, branches, branches_beside, parts):
        yield from some()


def of_cells(cells, constants=1):
    """A value of so many cells over so many constants: a list of pairs, one less than the constants, that ends in a number."""
    pairs = constants - 1
    return bytes([PAIR, ZERO] * pairs + [NEXT] * (cells - pairs) + [ZERO])


# Numbers of the most cells, with a piece of another one, and with one and more than that.
MANY_NUMBERS = (5 * MOST_CELLS, 5 * MOST_CELLS + 4, 5 * MOST_CELLS + 5, 327675, 327680)


def long_arguments():
    """Arguments of the most cells and of one more, over one constant and over as many as the bytes have room for; tables too short,
    long enough and longer. The checker takes too long for them."""
    same = program(1, [RETURN])
    for full in (False, True):
        most, more = (of_cells(cells, MOST_BYTES - cells if full else 1) for cells in (MOST_CELLS, MOST_CELLS + 1))
        yield run(same, most, 5 * MOST_CELLS - 1, 0), 'refused 15 0 1 0 0'
        for numbers in MANY_NUMBERS:
            yield run(same, most, numbers, 0), 'refused 13 %d 0 0 1' % len(most)
            yield run(same, more, numbers, 0), 'refused 15 0 1 0 0'
        yield run(same, most, 327675, 0, len(most)), figure(most, 0)


def long_builds():
    """A build where the last cell is left, and where none is; a constant built where none is. The checker takes too long for them."""
    one_more = program(1, [build(NEXT), RETURN])
    for numbers in (5 * MOST_CELLS, 327680):
        yield run(one_more, of_cells(MOST_CELLS - 1), numbers), 'refused 13 %d 0 1 1' % (MOST_CELLS + 1)
        yield run(one_more, of_cells(MOST_CELLS), numbers), 'refused 15 0 1 0 1'
        yield run(program(1, [build(ZERO), RETURN]), of_cells(MOST_CELLS), numbers), figure((ZERO,), 1)
