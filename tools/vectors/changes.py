"""Changes of definitions, as tools/wrong-definitions.txt lists them: a name, a file, pairs of old and new text."""
import collections, os

Change = collections.namedtuple('Change', 'name file pairs first')


def blocks(text):
    """The blocks of a list, each its lines as pairs of a word and what stands behind it. Lines with # in front are comments."""
    lines = []
    for line in text.split('\n') + ['']:
        if line.strip() and not line.startswith('#'):
            word, _, rest = line.partition(':')
            lines.append((word, rest[1:]))
        elif not line.strip() and lines:
            yield lines
            lines = []


def change(lines):
    """A block as a change. A pair is an old text, whether it stands more than once, and the new one."""
    olds = [(rest, word == 'every') for word, rest in lines if word in ('old', 'every')]
    news = [rest for word, rest in lines if word == 'new']
    said = dict(lines)
    unknown = set(said) - {'name', 'file', 'old', 'every', 'new', 'first'}
    assert not unknown and len(olds) == len(news) > 0, lines
    first = said.get('first', '')
    return Change(said['name'], said['file'], list(zip(olds, news)), first.split(', ') if first else [])


def changes(path):
    found = [change(lines) for lines in blocks(open(path, encoding='utf-8').read())]
    assert len({c.name for c in found}) == len(found), 'a name stands twice'
    return found


def changed(change, text):
    """A file's text with a change. All old texts are looked for in the text as it was, so that two may change places."""
    for n, ((old, every), _) in enumerate(change.pairs):
        count = text.count(old)
        assert count > 1 if every else count == 1, '%s: %d times: %s' % (change.name, count, old)
        text = text.replace(old, '\0%d\0' % n)
    for n, (_, new) in enumerate(change.pairs):
        text = text.replace('\0%d\0' % n, new)
    return text


def apply(change, folder):
    """Makes a change in a folder of definitions."""
    path = os.path.join(folder, change.file + '.antt')
    text = open(path, encoding='utf-8').read()
    with open(path, 'w', encoding='utf-8') as f:
        f.write(changed(change, text))
