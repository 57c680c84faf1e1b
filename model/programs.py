"""Writing programs as bytes: records, payload, blocks."""
import struct

BLOCK, ROOM, MOST_BLOCKS = 512, 504, 64


def block(payload, number=0, used=None):
    """One block: number, used count, payload, zeros, checksum."""
    body = struct.pack('<HH', number, len(payload) if used is None else used) + payload.ljust(ROOM, b'\0')
    return body + struct.pack('<I', sum(b * (i + 1) for i, b in enumerate(body)))


def pieces(payload):
    """The parts of a payload that go into one block each."""
    return [payload[k:k + ROOM] for k in range(0, len(payload), ROOM)]


def packed(payload):
    """A payload's blocks."""
    assert 0 < len(payload) <= MOST_BLOCKS * ROOM, len(payload)
    return b''.join(block(piece, n) for n, piece in enumerate(pieces(payload)))


def constructor(result, arguments=(), weight=None):
    """A constructor's record; its weight is 1 unless it takes nothing."""
    weight = (1 if arguments else 0) if weight is None else weight
    return bytes([result, len(arguments), *arguments, *[0] * (4 - len(arguments)), weight, 0])


def load(slot):
    return struct.pack('<BBH', 1, slot, 0)


def build(number):
    return struct.pack('<BBH', 2, number, 0)


def call(number):
    return struct.pack('<BBH', 3, number, 0)


def branch(number, target):
    return struct.pack('<BBH', 4, number, target)


RETURN = struct.pack('<BBH', 5, 0, 0)
STOP = struct.pack('<BBH', 6, 0, 0)


def function(result, arguments, bound, code):
    """A function's head, bound and code. An alternative is its coefficients and a constant."""
    assert 1 <= len(bound) <= 4 and 1 <= len(code) <= 256, (len(bound), len(code))
    head = bytes([result, len(arguments), *arguments, *[0] * (4 - len(arguments)), len(bound), 0])
    head += struct.pack('<H', len(code))
    for coefficients, constant in bound:
        head += bytes([*coefficients, *[0] * (4 - len(coefficients))]) + struct.pack('<H', constant)
    return head + b''.join(code)


def payload(types, constructors, functions):
    """A program's payload from its finished records."""
    return bytes([1, types, len(constructors), len(functions)]) + b''.join(constructors) + b''.join(functions)


ROOTS = payload(
    3,
    [constructor(0), constructor(0), constructor(1), constructor(1, (0, 1)), constructor(2), constructor(2, (2,))],
    [function(2, (1,), [((1,), 0)], [
        load(1), branch(3, 11), load(2), branch(1, 8), call(0), build(5), RETURN, load(3), call(0), RETURN, build(4), RETURN])])
