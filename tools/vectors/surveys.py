"""Commands that turn a survey's text into a list, at both sides of each limit, with their answers."""
import itertools
from kinds import say

CONS, NIL = 3, 2
TABLE = b'AAA\x07AAB\x08ZZZ\x09'
TABLE_WRONG = 'refused 19 0 0'


def lines(text, table=TABLE, cons=CONS, nil=NIL, room=64):
    return 'lines %s %s %d %d %d' % (say(text), say(table), cons, nil, room)


def listed(*codes, cons=CONS, nil=NIL):
    """The answer with a list of these codes."""
    return 'lines ' + say(b''.join(bytes([cons, code]) for code in codes) + bytes([nil]))


def line_wrong(n):
    return 'refused 20 %d 0' % n


def with_byte(some, k, byte):
    return some[:k] + bytes([byte]) + some[k + 1:]


def letters():
    """The bytes at both sides of A and of Z in each of the three places, and others that are no capitals: of the table, and of the text."""
    for k in range(3):
        for byte in (65, 90):
            right = with_byte(b'MMM', k, byte)
            yield lines(right + b'\n', TABLE + right + b'\x05'), listed(5)
            yield lines(b'', right + b'\x05' + TABLE), listed()
        for byte in (64, 91, 97, 225):
            wrong = with_byte(b'AAA', k, byte)
            yield lines(wrong + b'\n', TABLE + wrong + b'\x05'), TABLE_WRONG
            yield lines(b'', wrong + b'\x05' + TABLE), TABLE_WRONG
            yield lines(b'AAB\n' + wrong + b'\n'), line_wrong(2)


def neighbours():
    """Letters that are not in the table, beside those that are: one of them another, or one past Z where the next would follow."""
    for wrong in (b'AAC', b'AZA', b'ZAA', b'ZZY', b'ZYZ', b'YZZ', b'BAA', b'ABA'):
        yield lines(wrong + b'\n'), line_wrong(1)
    for table, wrong in ((b'ABA\x01', b'AA['), (b'BAA\x01', b'A[A'), (b'AAZ\x01', b'AB@'), (b'AZA\x01', b'B@A'), (b'AZZ\x01', b'B@Z')):
        yield lines(wrong + b'\n', table), line_wrong(1)


def table_lengths():
    """Tables cut in every place of an entry, for a text that needs the first entry and for none."""
    for n in range(len(TABLE) + 1):
        whole = n % 4 == 0
        yield lines(b'', TABLE[:n]), listed() if whole else TABLE_WRONG
        yield lines(b'AAA\n', TABLE[:n]), (listed(7) if n else line_wrong(1)) if whole else TABLE_WRONG


def every_entry():
    """A letter that is no capital in any entry, in one that is repeated or that no line needs; the constructors are any bytes."""
    table = b'AAA\x0a' + b'AAA\x00' + b'BBB\xff' + b'AAA\x40'
    yield lines(b'AAA\nBBB\nAAA\n', table), listed(10, 255, 10)
    for at in range(0, len(table), 4):
        for k in range(3):
            yield lines(b'BBB\n', with_byte(table, at + k, 10)), TABLE_WRONG


def ends():
    """A line's end that is another byte, and ends where letters should be."""
    for byte, right in ((9, False), (10, True), (11, False), (13, False), (0, False), (138, False)):
        yield lines(b'AAA' + bytes([byte])), listed(7) if right else line_wrong(1)
        yield lines(b'AAA' + bytes([byte]) + b'AAB\n'), listed(7, 8) if right else line_wrong(1)
    short = (b'\n', b'A\n', b'AA\n', b'AA\n\n', b'A\nA\n', b'\nAA\n', b'\n\n\n\n', b'\nAAA\n')
    for text in (*short, b'AAAA\n', b'AAAAAAA\n', b'AAA\r\n', b' AAA\n'):
        yield lines(text), line_wrong(1)
        yield lines(b'AAB\n' + text), line_wrong(2)
    for text in (b'AAA\n\n', b'AAA\n\nAAB\n', b'AAA\n\n\n\n\n'):
        yield lines(text), line_wrong(2)


def cuts():
    """A text of two lines, cut in every place at its end and at its front."""
    text = b'AAB\nZZZ\n'
    for n in range(9):
        yield lines(text[:n]), {0: listed(), 4: listed(8), 8: listed(8, 9)}.get(n, line_wrong(n // 4 + 1))
        yield lines(text[n:]), {0: listed(8, 9), 4: listed(9), 8: listed()}.get(n, line_wrong(1))


def places():
    """Of three lines none is wrong, or any of them: short, with a letter that is no capital, or not in the table."""
    for wrong in (b'AA\n', b'aAA\n', b'AAC\n'):
        for rights in itertools.product((True, False), repeat=3):
            text = b''.join(b'AAA\n' if right else wrong for right in rights)
            yield lines(text), listed(7, 7, 7) if all(rights) else line_wrong(rights.index(False) + 1)


def twice():
    """Letters that stand twice or three times, with another entry between or not, used or not."""
    tables = (b'AAA\x01AAA\x02', b'AAA\x02AAA\x01', b'AAA\x00AAA\xff', b'AAA\xffAAA\x00', b'AAB\x05AAA\x01AAB\x06AAA\x02AAA\x03')
    for table, code in zip(tables, (1, 2, 0, 255, 1)):
        yield lines(b'AAA\nAAA\n', table), listed(code, code)
        yield lines(b'', table), listed()


def numbers():
    """Any two bytes for cons and nil but equal ones; a code may be either of them."""
    for cons, nil in ((0, 0), (3, 3), (255, 255), (7, 7)):
        yield lines(b'AAA\n', cons=cons, nil=nil), TABLE_WRONG
        yield lines(b'', b'', cons=cons, nil=nil), TABLE_WRONG
    for cons, nil in ((0, 255), (255, 0), (7, 8), (8, 7), (254, 255), (0, 1), (10, 65)):
        yield lines(b'AAA\nAAB\n', cons=cons, nil=nil), listed(7, 8, cons=cons, nil=nil)
        yield lines(b'', b'', cons=cons, nil=nil), listed(cons=cons, nil=nil)


def rooms():
    """Outputs of as many bytes as are needed, of one less or more, and of none."""
    for n in (0, 1, 2, 3, 20):
        text, needed = b'AAA\n' * n, 2 * n + 1
        for room in sorted({0, needed - 1, needed, needed + 1}):
            yield lines(text, room=room), listed(*[7] * n) if room >= needed else 'refused 13 %d 0' % needed


def many_lines():
    """Lines and bytes whose numbers take two bytes."""
    text = b'AAA\nAAB\n' * 128
    yield lines(text + b'AAA\n', room=515), listed(*[7, 8] * 128, 7)
    yield lines(text, room=512), 'refused 13 513 0'
    yield lines(text + b'AAC\n', room=512), line_wrong(257)
    yield lines(text + b'AAA', room=515), line_wrong(257)


def orders():
    """Two or three faults at once: 19, 20, then 13."""
    yield lines(b'AAC\n', TABLE + b'A'), TABLE_WRONG
    yield lines(b'AA', TABLE + b'AA@\x01'), TABLE_WRONG
    yield lines(b'AAC\n', cons=2), TABLE_WRONG
    yield lines(b'AAA\n', b'AAA', room=0), TABLE_WRONG
    yield lines(b'AAA\n', cons=2, room=0), TABLE_WRONG
    yield lines(b'AAC\n', b'AAa\x01', cons=2, room=0), TABLE_WRONG
    yield lines(b'AAC\n', room=0), line_wrong(1)
    yield lines(b'AAA\nAA\n', room=2), line_wrong(2)
    yield lines(b'AAA\nAAB', room=2), line_wrong(2)


def survey_limits():
    """What the checker computes at once."""
    for some in (letters, neighbours, table_lengths, every_entry, ends, cuts, places, twice, numbers, rooms, many_lines, orders):
        yield from some()


def long_texts():
    """Texts that the checker takes too long for."""
    words = [bytes(word) for word in itertools.product(b'A', range(65, 91), range(65, 91))]
    codes = [k % 251 for k in range(len(words))]
    table = b''.join(word + bytes([code]) for word, code in zip(words, codes))
    text, needed = b'\n'.join(words * 20) + b'\n', 2 * 20 * len(words) + 1
    yield lines(text, table, room=needed), listed(*codes * 20)
    yield lines(text, table, room=needed - 1), 'refused 13 %d 0' % needed
    yield lines(text + b'BAA\n', table, room=0), line_wrong(20 * len(words) + 1)


def no_bytes():
    """Numbers of cons and nil that are no bytes are no command's."""
    for cons, nil in ((256, 0), (0, 256), (65539, 2), (3, 4294967295)):
        yield lines(b'', b'', cons, nil), 'bad command'
    yield lines(b'', b'', 255, 254), listed(cons=255, nil=254)
