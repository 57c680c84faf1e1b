"""What a test vector is about: its command, its answer, and the kind of place that the answer names."""
OPERATIONS = {1: 'load', 2: 'build', 3: 'call', 4: 'branch', 5: 'return', 6: 'stop'}
HEADER = ('edition', 'types', 'constructors', 'functions')


def data(word):
    return b'' if word == '-' else bytes.fromhex(word)


def say(some):
    return some.hex() or '-'


def number(some):
    return int.from_bytes(some, 'little')


def blocks_of(file):
    return [file[k:k + 512] for k in range(0, len(file), 512)]


def payload_of(file):
    return b''.join(block[4:4 + number(block[2:4])] for block in blocks_of(file))


def records(payload):
    """The records that a payload has, or should have, in order: what each is, its offset, its length, and the arity that it goes by."""
    yield 'header', 0, 4, 0
    counts = payload[2:4].ljust(2, b'\0')
    for k in range(counts[0]):
        yield 'constructor', 4 + 8 * k, 8, number(payload[5 + 8 * k:6 + 8 * k])
    at = 4 + 8 * counts[0]
    for _ in range(counts[1]):
        head = payload[at:at + 10].ljust(10, b'\0')
        yield 'head', at, 10, head[1]
        for k in range(head[6]):
            yield 'alternative', at + 10 + 6 * k, 6, head[1]
        for k in range(number(head[8:])):
            yield 'instruction', at + 10 + 6 * head[6] + 4 * k, 4, head[1]
        at += 10 + 6 * head[6] + 4 * number(head[8:])
    yield 'end', at, 0, 0


def functions_of(payload):
    """The code of each function: operation, a and b of each instruction."""
    found = []
    for kind, at, length, _ in records(payload):
        if kind == 'head':
            found.append([])
        elif kind == 'instruction':
            found[-1].append((payload[at], payload[at + 1], number(payload[at + 2:at + 4])))
    return found


def later(n):
    return 'first' if n == 0 else 'later'


def operation(file, function, i):
    return OPERATIONS[functions_of(payload_of(file))[function][i - 1][0]]


def wrong_field(kind, record, arity):
    """The field of a record that is out of its range, as far as that can be told from the record alone."""
    if kind == 'header':
        name, value = next((n, b) for n, b, high in zip(HEADER, record, (1, 32, 64, 32)) if not 1 <= b <= high)
        return name + (' high' if value else ' low')
    if kind == 'instruction':
        return OPERATIONS.get(record[0], 'unknown') + (' a' if record[1] else '') + (' b' if number(record[2:]) else '')
    if kind == 'alternative':
        return 'past the arity' if any(record[arity:4]) else 'coefficient'
    if record[1] > 4:
        return 'arity'
    if any(record[2 + arity:6]):
        return 'past the arity'
    if record[7]:
        return 'zero'
    return 'count' if 1 <= record[6] <= 4 else 'alternatives'


def record_place(file, offset):
    """For 4: the kind of record, and what is wrong with it."""
    payload = payload_of(file)
    kind, at, length, arity = next(r for r in records(payload) if r[1] == offset)
    if kind == 'end':
        return 'left over'
    if at + length > len(payload):
        return kind + (' cut short' if at < len(payload) else ' missing')
    return '%s: %s' % (kind, wrong_field(kind, payload[at:at + length], arity))


def declaration_place(file, group, which):
    """For 5: a constructor's type or weight, or a function's type."""
    if group == 1:
        return 'function ' + later(which)
    record = payload_of(file)[4 + 8 * which:12 + 8 * which]
    types = payload_of(file)[1]
    wrong = 'type' if any(t >= types for t in record[:1] + record[2:2 + record[1]]) else 'weight %d' % min(record[6], 1)
    return 'constructor %s: %s' % (later(which), wrong)


def flow_place(file, function, i):
    """For 7: which rule, as far as the instruction itself tells."""
    code = functions_of(payload_of(file))[function]
    kind, a, b = code[i - 1]
    if kind == 4 and not i + 2 <= b <= len(code):
        return 'branch, target %s' % ('past the end' if b > len(code) else 'i + %d' % (b - i) if b >= i else 'before')
    if kind < 5 and i == len(code):
        return OPERATIONS[kind] + ' at the end'
    arrivals = sum(o < 5 and k + 1 == i or o == 4 and t == i for k, (o, _, t) in enumerate(code[:i - 1], 1))
    return '%s, %s arrivals' % (OPERATIONS[kind], arrivals if i > 1 else 1)


def type_place(file, function, i):
    """For 8: the instruction, and whether what it names exists."""
    payload = payload_of(file)
    kind, a, _ = functions_of(payload)[function][i - 1]
    there = {1: 0 < a <= 16, 2: a < payload[2], 3: a < payload[3], 4: a < payload[2]}.get(kind, True)
    return OPERATIONS[kind] + ('' if there else ' of nothing')


def argument_place(file, entry, arguments, offset):
    """For 12: what is wrong at that offset."""
    if len(arguments) > 65535:
        return 'too long'
    payload = payload_of(file)
    heads = [at for kind, at, _, _ in records(payload) if kind == 'head']
    pending = payload[heads[entry] + 1]
    for c in arguments[:offset]:
        pending += payload[5 + 8 * c] - 1
    where = 'first' if offset == 0 else 'later'
    if offset == len(arguments):
        return 'cut short ' + where
    c = arguments[offset]
    if pending == 0:
        return 'left over ' + where
    if c >= payload[2]:
        return 'unknown ' + where
    return ('pending ' if pending + payload[5 + 8 * c] - 1 > 256 else 'type ') + where


def room_place(room, needed):
    return 'exact' if room == needed else 'one less' if room == needed - 1 else 'none' if room == 0 else 'more' if room > needed else 'less'


def block_place(file, n):
    """For 2 and 3: the block, and of 3 what is wrong in it."""
    found = blocks_of(file)
    block, last = found[n], n == len(found) - 1
    where = 'only block' if len(found) == 1 else 'first block' if n == 0 else 'last block' if last else 'middle block'
    used = number(block[2:4])
    if sum(b * (i + 1) for i, b in enumerate(block[:508])) % 2 ** 32 != number(block[508:]):
        return where
    if number(block[:2]) != n:
        return where + ': number' + (' in its high byte' if block[0] == n % 256 else '')
    if not (1 <= used <= 504 if last else used == 504):
        return where + ': used %s' % ('none' if used == 0 else 'more' if used > 504 else 'less')
    return where + ': unused'


def capital(byte):
    return 65 <= byte <= 90


def letters_place(some):
    """Which of the three letters that an entry or a line begins with is the first that is no capital, or nothing."""
    return next(('letter %d' % k for k, byte in enumerate(some[:3], 1) if not capital(byte)), '')


def table_place(table, same):
    """For 19: all that is wrong, and of the letters the first."""
    entries = [table[k:k + 4] for k in range(0, len(table), 4)]
    letters = ['%s, entry %s' % (letters_place(entry), later(k)) for k, entry in enumerate(entries) if letters_place(entry)]
    return ' and '.join(['length'] * (len(table) % 4 > 0) + letters[:1] + ['cons is nil'] * same)


def line_place(text, n):
    """For 20: which line, and what is wrong with it."""
    lines = text.split(b'\n')
    line, left = lines[n - 1], len(lines) - n
    where = 'first' if n == 1 else 'last' if left < 2 else 'middle'
    if not left:
        return '%s line: no end behind %d' % (where, len(line))
    if len(line) != 3:
        return '%s line: %s' % (where, 'empty' if not line else 'short' if len(line) < 3 else 'long')
    return '%s line: %s' % (where, letters_place(line) or 'not in the table')


def list_place(w, needed):
    """For a list: how many lines it has, whether the table has letters twice, and the room."""
    table = data(w[2])
    letters = [table[k:k + 3] for k in range(0, len(table), 4)]
    lines = {1: 'no lines', 3: 'one line'}.get(needed, 'lines')
    return '%s%s, room %s' % (lines, ', letters twice' * (len(set(letters)) < len(letters)), room_place(int(w[5]), needed))


def refused_place(w, a):
    """The kind of place of a refusal, by its number."""
    n, first, second = (int(x) for x in a[1:4])
    file = data(w[1])
    if n == 1:
        return 'no bytes' if not file else 'over 64 blocks' if len(file) > 32768 else 'no multiple'
    if n in (2, 3):
        return block_place(file, first)
    if n == 13:
        return room_place(int(w[-1]), first) + (', no steps' if len(a) > 4 and a[4] == '0' else '')
    if n == 18:
        return 'empty' if not file else 'too long'
    if n == 19:
        return table_place(data(w[2]), w[3] == w[4])
    if n == 20:
        return line_place(file, first)
    if n == 11:
        return 'next' if first == payload_of(file)[3] else 'far' if first > 255 else 'other'
    if n == 12:
        return argument_place(file, int(w[2]), data(w[3]), first)
    if n == 4:
        return record_place(file, first)
    if n == 5:
        return declaration_place(file, first, second)
    if n == 6:
        return 'function %s, argument %d' % (later(first), second)
    what = {7: flow_place, 8: type_place}.get(n, operation)(file, first, second)
    if n >= 14:
        return '%s, %s' % (what, 'not begun' if a[-1] == '0' else 'no steps' if a[-2] == '0' else 'steps')
    return '%s, function %s' % (what, later(first))


def program_place(file):
    """For an accepted program: what it has. 001's rules for calls, branches and bounds of several alternatives come up only there."""
    payload = payload_of(file)
    found = [kind for kind, _, _, _ in records(payload)]
    used = {o for code in functions_of(payload) for o, _, _ in code}
    several = found.count('alternative') > found.count('head')
    return '%d blocks%s%s%s' % (len(file) // 512, ', calls' * (3 in used), ', branches' * (4 in used), ', alternatives' * several)


def place(command, answer):
    w, a = command.split(), answer.split()
    if a[0] == 'refused':
        return refused_place(w, a)
    if a[0] in ('packed', 'unpacked'):
        return '%d blocks, room %s' % ((len(data(w[1])) + 511) // 512, room_place(int(w[2]), len(data(a[1]))))
    if a[0] == 'lines':
        return list_place(w, len(data(a[1])))
    if a[0] == 'accepted':
        return program_place(data(w[1]))
    taken = 'no steps' if a[-2] == '0' else 'steps' if int(a[-2]) > 1 else 'one step'
    called = ', calls' if any(o == 3 for code in functions_of(payload_of(data(w[1]))) for o, _, _ in code) else ''
    return taken + called + (', room ' + room_place(int(w[-1]), len(data(a[1]))) if a[0] == 'figure' else '')


def kind(command, answer):
    """The command, the answer's word or number, and the kind of place."""
    a = answer.split()
    return command.split()[0], ' '.join(a[:2]) if a[0] == 'refused' else a[0], place(command, answer)
