"""Which test vectors to compute: some of each kind, all of those at a limit, none that takes too long."""
import collections, os
from damage import limits, roots_with
from kinds import data, kind

# A run of more steps, or on more argument bytes, takes the checker too long; so does a check of more blocks.
STEPS, ARGUMENTS = 1000, 1000
BLOCKS_AT_A_LIMIT = 6
ROOTS_ITSELF = roots_with(0, 1)


def lines_of(folder, name):
    return open(os.path.join(folder, name), encoding='ascii').read().splitlines()


def read(folder):
    """The commands of a folder with their agreed answers."""
    return list(zip(lines_of(folder, 'commands.txt'), lines_of(folder, 'answers.txt')))


def read_base(folder):
    """The commands of the folder around it with the answers that this one has to them, where it has any."""
    if os.path.exists(os.path.join(folder, 'base-answers.txt')):
        return list(zip(lines_of(os.path.join(folder, os.pardir), 'commands.txt'), lines_of(folder, 'base-answers.txt')))
    return []


def changes_of_roots(folder):
    """What roots-bytes.txt says where it is there: a payload byte of ROOTS, the values from and to, and the answer with any of them."""
    path = os.path.join(folder, 'roots-bytes.txt')
    if os.path.exists(path):
        for line in open(path, encoding='ascii'):
            at, first, last, answer = line.rstrip('\n').split(' ', 3)
            yield int(at), int(first), int(last), answer


def ends_of_ranges(folder):
    """Of each range of values with the same answer its first, and of those that are accepted its last."""
    for at, first, last, answer in changes_of_roots(folder):
        yield roots_with(at, last if answer.startswith('accepted') else first), answer


def small(command, reply, blocks):
    w, a = command.split(), reply.split()
    if w[0] == 'run':
        few = int(a[-2]) <= STEPS and (len(data(w[3])) <= ARGUMENTS or a[:3] == ['refused', '12', '65535'])
        return few and len(data(w[1])) <= 512 * blocks
    if w[0] == 'lines':
        return len(data(w[1])) + len(data(w[2])) <= 512 * blocks
    return len(data(w[1])) <= 512 * blocks or w[0] == 'pack' and a[0] == 'refused'


def cost(command):
    """Which of two vectors takes the checker longer, roughly: by blocks, and by tables of a hundred thousand numbers."""
    w = command.split()
    return len(data(w[1])) // 512 + sum(int(n) // 100000 for n in w[5:9])


def group(command, reply):
    """A vector's kind. What a run refuses because the check does is spread by its number only."""
    name, answer, place = kind(command, reply)
    refused = answer.split()[-1]
    return name, answer, '' if name == 'run' and refused.isdigit() and int(refused) <= 10 else place


def spread(vectors, per_kind):
    """So many of each kind, evenly over the list."""
    groups = collections.defaultdict(list)
    for name, command, reply in vectors:
        groups[group(command, reply)].append((name, command, reply))
    for key in sorted(groups):
        g = groups[key]
        n = min(per_kind, len(g))
        yield from (g[i * len(g) // n] for i in range(n))


def chosen(folder, per_kind, blocks, only=None):
    """The vectors to compute, each with a name for its statement, and how many at a limit are left out as too long."""
    wanted = lambda command: only is None or command.startswith(only + ' ')
    vectors = [('vector%d' % n, c, r) for n, (c, r) in enumerate(read(folder), 1) if wanted(c)]
    picks = list(spread([v for v in vectors if small(v[1], v[2], blocks)], per_kind))
    at_limits = [('limit%d' % n, c, r) for n, (c, r) in enumerate(limits(), 1)]
    at_limits += [('root%d' % n, c, r) for n, (c, r) in enumerate(ends_of_ranges(folder), 1) if c != ROOTS_ITSELF]
    edges, left_out = os.path.join(folder, 'edges'), 0
    if os.path.isdir(edges):
        there = [('edge%d' % n, c, r) for n, (c, r) in enumerate(read(edges), 1)]
        kept = [v for v in there if small(v[1], v[2], BLOCKS_AT_A_LIMIT)]
        at_limits, left_out = kept + at_limits, len(there) - len(kept)
    return picks + [v for v in at_limits if wanted(v[1])], left_out
