"""Prints the names in code marks of the given documents that exist nowhere in the repository; names.py FILE.."""
import os, re, sys

# Words of commands, formats and the language, which no file has to declare.
PLAIN = {'bash', 'cargo', 'python3', 'rt', 'ci', 'check', 'try', 'sh', 'axioms', 'pub', 'fn', 'requires', 'ensures', 'struct', 'mod',
         'rounds', 'seconds', 'only', 'main', 'unfolding', 'computed', 'std', 'doc', 'tidy', 'allow-holes', 'grind',
         'incremental', 'trusted', 'edit'}
SOURCES = ('crates/', 'model/', 'bench/', 'tests/', 'tools/', 'examples/')  # their documents declare nothing
NAME = re.compile(r'[A-Za-z]\w*(?:[-_]\w+)*')  # a name with a prime is looked up without it


def repository():
    """The paths of its files, without what is built."""
    for folder, folders, files in os.walk('.'):
        folders[:] = [name for name in folders if name not in ('.git', 'target', 'out', '__pycache__')]
        yield from (os.path.relpath(os.path.join(folder, name)) for name in files)


def known(files):
    """Every name that the crates, the model and the scripts have: words of their text, and parts of all paths."""
    names = set(PLAIN)
    for path in files:
        for part in path.split('/'):
            names.add(part)
            names.add(part.rsplit('.', 1)[0])
        if path.startswith(SOURCES) and not path.startswith('tests/docs/') and not path.endswith('.md'):
            names.update(NAME.findall(code(path)))
    return names


def code(path):
    """A file's text without its comments; nothing of a file that is no text."""
    try:
        text = open(path, encoding='utf-8').read()
    except UnicodeDecodeError:
        return ''
    return re.sub(r'(^|\s)(--|//|#).*', '', text)


def spans(text):
    """What stands between single code marks, outside of fenced blocks and behind no command line."""
    text = re.sub(r'^```.*?^```', '', text, flags=re.M | re.S)
    return re.findall(r'`([^`\n]+)`', text)


def missing(span, names, files):
    if os.path.exists(span) or any(f.endswith('/' + span) for f in files):
        return []
    return [word for word in NAME.findall(span) if len(word) > 2 and not word.isupper() and word not in names]


def main():
    files = list(repository())
    names, bad = known(files), 0
    for document in sys.argv[1:]:
        for span in spans(open(document, encoding='utf-8').read()):
            for word in missing(span, names, files):
                print('%s: `%s`: no %s' % (document, span, word))
                bad += 1
    if bad:
        sys.exit(1)
    print('ok: every name in %s exists' % ' '.join(sys.argv[1:]))


main()
