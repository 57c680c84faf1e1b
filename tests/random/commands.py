"""Commands made by chance, for two programs that are to agree: commands.py COUNT SEED [PROGRAMS], one command a line.

Most start from a program of the stored test commands, mostly an accepted one, and change it in a few places: mostly one field of
one record to a value near by, so that the records stay whole and the later rules decide; sometimes any byte, a cut, or a bit of the
finished file. Some programs are checked, some are run on arguments of the right types with tables and budgets of any size. The other
commands are texts of lines with the letters of a table, mostly right ones; now and then a byte is another, left out or put in.

PROGRAMS is a file of programs, one a line in hexadecimal digits. With it all commands are runs of these, as they are, and no two in
a row are of the same program.
"""
import functools, itertools, os, random, sys

HERE = os.path.dirname(os.path.abspath(__file__))
sys.path.insert(0, os.path.join(HERE, '..', '..', 'model'))
from programs import MOST_BLOCKS, ROOM, packed


def unpacked(blocks):
    """What the blocks of a file hold, by their used counts, whether they are right or not."""
    parts = [blocks[k + 4:k + 4 + int.from_bytes(blocks[k + 2:k + 4], 'little')] for k in range(0, len(blocks), 512)]
    return b''.join(parts)[:MOST_BLOCKS * ROOM]


def stored_payloads():
    """The payloads of the programs that the stored commands check or run: all of them, and those that the check accepts."""
    every, accepted = {}, {}
    stored = os.path.join(HERE, '..', '..', 'crates', 'cases')
    with open(os.path.join(stored, 'stdin')) as commands, open(os.path.join(stored, 'stdout')) as answers:
        for asked, said in zip(commands, answers):
            words, answer = asked.split(), said.split()
            if words[0] not in ('check', 'run') or len(words[1]) % 1024:
                continue
            payload = unpacked(bytes.fromhex(words[1]))
            if len(payload) > 20:
                every[payload] = None
                if answer[0] != 'refused' or int(answer[1]) > 10:
                    accepted[payload] = None
    return list(every), list(accepted)


def starts(payload):
    """The offsets of all records as far as the payload holds them, each with its length: constructors, heads, alternatives, code."""
    at, records = 4, []
    for _ in range(payload[2]):
        records.append((at, 8))
        at += 8
    for _ in range(payload[3]):
        if at + 10 > len(payload):
            break
        alternatives, code = payload[at + 6], int.from_bytes(payload[at + 8:at + 10], 'little')
        records.append((at, 10))
        at += 10
        records += [(at + 6 * k, 6) for k in range(alternatives)]
        at += 6 * alternatives
        records += [(at + 4 * k, 4) for k in range(code)]
        at += 4 * code
    return [(start, length) for start, length in records if start + length <= len(payload)]


def changed(chance, payload):
    """A payload with a few changes."""
    bytes_ = bytearray(payload)
    for _ in range(chance.choice((1, 1, 1, 2, 3))):
        records = starts(bytes_)
        kind = chance.random()
        if kind < 0.7 and records:
            start, length = chance.choice(records)
            at = chance.choice([start + 1] + [k for k in range(start, start + length) if bytes_[k]])
            bytes_[at] = (bytes_[at] + chance.choice((1, 1, 2, 255, 255, 254))) % 256
        elif kind < 0.9 and records:
            start, length = chance.choice(records)
            other = chance.choice([s for s, l in records if l == length])
            bytes_[start:start + length] = bytes_[other:other + length]
        else:
            bytes_[chance.randrange(len(bytes_))] = chance.randrange(256)
    return bytes(bytes_)


@functools.lru_cache(maxsize=10000)
def makers(payload, wanted):
    """The constructors of a type, each with its argument types, and those of them that take none."""
    records = [(c, payload[4 + 8 * c:12 + 8 * c]) for c in range(payload[2]) if 12 + 8 * c <= len(payload)]
    every = [(bytes([c]), record[2:2 + min(record[1], 4)]) for c, record in records if record[0] == wanted]
    return every, [(number, types) for number, types in every if not types] or every


def value(chance, payload, wanted, depth):
    """A value of a type, in prefix order, where there is one of about this depth; else a few bytes."""
    every, small = makers(payload, wanted)
    if not every or depth < -3:
        return bytes([chance.randrange(4)])
    number, types = chance.choice(small if depth == 0 else every)
    return number + b''.join([value(chance, payload, t, depth - 1) for t in types])


def signatures(payload):
    """The argument types of each function that the payload holds."""
    records = starts(payload) if len(payload) > 3 else []
    heads = [payload[start:start + length] for start, length in records if length == 10]
    return [head[2:2 + min(head[1], 4)] for head in heads]


def run_of(chance, payload, functions, file):
    """A run of a program's first function, or now and then of another, or of one that it does not have."""
    entry = chance.choice((0, chance.randrange(len(functions) + 1))) if functions and chance.random() < 0.2 else 0
    types = functions[entry] if entry < len(functions) else b''
    arguments = b''.join(value(chance, payload, t, chance.randrange(5)) for t in types)[:60000]
    if chance.random() < 0.1:
        arguments = arguments[:chance.randrange(len(arguments) + 1)]
    budget = chance.choice((0, 1, 3, 10, 40, 200, 5000, 5000, 5000))
    short, long = (0, 1, 20, 100), (600, 5000)
    tables = [few * chance.choice(short if chance.random() < 0.3 else long) for few in (5, 1, 1, 1)]
    return 'run %s %d %s %d %d %d %d %d' % (file, entry, arguments.hex() or '-', budget, *tables)


def bent(chance, some):
    """Bytes with one of them changed, mostly to one at a limit, left out or put in."""
    at = chance.randrange(len(some) + 1)
    new = bytes([chance.choice((9, 10, 11, 64, 65, 66, 89, 90, 91, 97, chance.randrange(256)))])
    return some[:at] + chance.choice((new, new, b'')) + some[at + chance.choice((0, 1, 1)):]


def mostly(chance, some):
    """The same bytes, and now and then bent ones."""
    return bent(chance, some) if chance.random() < 0.2 else some


def survey(chance):
    """A text by a table. Of few capitals the letters often stand twice in the table, or are near those that do."""
    capitals = chance.choice((b'AZ', b'ABYZ', bytes(range(65, 91))))
    word = lambda: bytes(chance.choices(capitals, k=3))
    words = [word() for _ in range(chance.choice((0, 1, 4, 12, 100, 2000)))]
    table = b''.join(letters + bytes([chance.randrange(256)]) for letters in words)
    found = [chance.choice(words) for _ in range(chance.choice((0, 1, 2, 5, 30, 300)))] if words else []
    if chance.random() < 0.15:
        found.insert(chance.randrange(len(found) + 1), word())
    text, needed = b''.join(letters + b'\n' for letters in found), 2 * len(found) + 1
    cons, nil = chance.choices(range(256), k=2) if chance.random() < 0.9 else (7, 7)
    room = chance.choice((needed, needed, needed + 1, 1000, 1000, 1000, needed - 1, chance.randrange(needed)))
    return 'lines %s %s %d %d %d' % (mostly(chance, text).hex() or '-', mostly(chance, table).hex() or '-', cons, nil, room)


def command(chance, payloads):
    """One command."""
    if chance.random() < 0.25:
        return survey(chance)
    every, accepted = payloads
    payload = changed(chance, chance.choice(accepted if chance.random() < 0.9 else every))
    kind = chance.random()
    if kind < 0.05:
        payload = payload[:chance.randrange(1, len(payload) + 1)]
    file = packed(payload)
    if kind > 0.97:
        file = bytearray(file)
        file[chance.randrange(len(file))] ^= 1 << chance.randrange(8)
    if len(payload) < 20 or chance.random() < 0.5:
        return 'check ' + file.hex()
    return run_of(chance, payload, signatures(payload), file.hex())


def runs(chance, path):
    """Runs of the programs that a file has, without end."""
    files = open(path).read().split()
    payloads = [unpacked(bytes.fromhex(file)) for file in files]
    functions = [signatures(payload) for payload in payloads]
    order, last = list(range(len(files))), None
    while True:
        chance.shuffle(order)
        if order[0] == last:
            order.reverse()
        last = order[-1]
        for k in order:
            yield run_of(chance, payloads[k], functions[k], files[k])


def main():
    count, seed = int(sys.argv[1]), int(sys.argv[2])
    chance = random.Random(seed)
    if len(sys.argv) > 3:
        commands = runs(chance, sys.argv[3])
    else:
        payloads = stored_payloads()
        commands = (command(chance, payloads) for _ in range(count))
    for line in itertools.islice(commands, count):
        print(line)


main()
