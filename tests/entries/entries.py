"""Holds the functions that have a `requires` to what docs/PROMISES.md says of them."""
import collections, glob, os, re, sys

Function = collections.namedtuple('Function', 'crate file name public exported asks comment type')
# A function, a method or a function of a trait, with what stands in front of it.
FN = re.compile(r'^( *)(pub )?(extern "C" )?fn (\w+)(?:<(?:->|[^<>]|<[^<>]*>)*>)?\(', re.M)
# The block that a method stands in: of a type, or a public or other trait.
BLOCK = re.compile(r'^(?:impl\b(?:<[^>{]*>)? (?:\w+ for )?(\w+)|(pub )?trait (\w+))[^\n]*\{$', re.M)
ATTRIBUTES = re.compile(r'(?:^ *#\[[^\n]*\]\n|^ *#\[[^\n]*\n(?:[ \t][^\n]*\n)+\S*\]\n)+\Z', re.M)


def read(path):
    return open(path, encoding='utf-8').read()


def comment_above(text):
    """The comment that ends a text, but for the attributes behind it."""
    lines, comment = ATTRIBUTES.sub('', text).rstrip('\n ').split('\n'), []
    while lines and lines[-1].lstrip().startswith('//'):
        comment.insert(0, lines.pop().lstrip())
    return comment


def block_of(text, m):
    """The type or trait whose block a method stands in, and whether a trait's is public to whoever sees the trait."""
    if not m[1]:
        return None, False
    block = [b for b in BLOCK.finditer(text[:m.start()])][-1]
    return block[1] or block[3], bool(block[2])


def functions(path, text):
    """The functions of a file, with their clauses counted, each of which may have a name, and the comment above them."""
    starts = [m.start() for m in FN.finditer(text)] + [len(text)]
    for m, end in zip(FN.finditer(text), starts[1:]):
        block, of_trait = block_of(text, m)
        yield Function(path.split('/')[1], os.path.basename(path)[:-3], m[4], bool(m[2]) or of_trait, bool(m[3]),
                       len(re.findall(r'^\s*requires (?:\w+ )?\{', text[m.start():end], re.M)), comment_above(text[:m.start()]), block)


def reachable(f, texts):
    """Whether other crates can name it, or the type or trait that it belongs to: it stands in lib.rt, in a public module, or lib.rt hands it on."""
    lib = texts.get('crates/%s/src/lib.rt' % f.crate, '')
    name = f.type or f.name
    return f.public and (f.file == 'lib' or re.search(r'^pub mod %s\b' % f.file, lib, re.M)
                         or re.search(r'^pub use %s::(\{[^}]*\b)?%s\b[^;]*;' % (f.file, name), lib, re.M)) is not None


def tables(promises):
    """The public entries as crate and name, and for each crate what is listed for the crates above."""
    entries, above = promises.split('| crate | functions | asks |')
    entries = re.findall(r'^\| `(\w+)::(?:\w+::)*(\w+)` \|', entries, re.M)
    return entries, dict(re.findall(r'^\| `(\w+)` \| (.*?) \|', above.split('\n\n')[0], re.M))


def callers(texts):
    """For each name the crates that call a function so named; a function that other crates cannot name is called in its own."""
    called = collections.defaultdict(set)
    for path, text in texts.items():
        for name in re.findall(r'(?<!fn )\b(\w+)(?:::<[^<>]*>)?\(', re.sub('//.*', '', text)):
            called[name].add(path.split('/')[1])
    return called


def wrong(found, texts, entries, listed):
    for crate, name in entries:
        of = [f for f in found if (f.crate, f.name) == (crate, name) and f.public]
        if not of:
            yield '%s::%s is listed as public and is not there' % (crate, name)
        for f in of:
            if f.asks:
                yield '%s::%s is public and has a requires' % (crate, name)
    called = callers(texts)
    for f in found:
        if f.exported and (f.crate, f.name) not in entries:
            yield '%s::%s is exported and not listed as public' % (f.crate, f.name)
        if f.asks and not (called[f.name] if reachable(f, texts) else called[f.name] & {f.crate}):
            yield '%s::%s has a requires and no caller' % (f.crate, f.name)
        if f.asks and reachable(f, texts) and not (f.comment and f.comment[0].startswith('// For the crates above')):
            yield '%s::%s does not say that it is for the crates above' % (f.crate, f.name)
        if f.asks and reachable(f, texts) and '`%s`' % f.name not in listed.get(f.crate, ''):
            yield '%s::%s has a requires and is not listed' % (f.crate, f.name)


def main():
    texts = {path: read(path) for path in sorted(glob.glob('crates/*/src/**/*.rt', recursive=True))}
    found = [f for path, text in texts.items() for f in functions(path, text)]
    entries, listed = tables(read('docs/PROMISES.md'))
    assert entries and listed, 'the tables of docs/PROMISES.md are not found'
    errors = list(wrong(found, texts, entries, listed))
    clauses = sum(f.asks for f in found)
    print('\n'.join(errors) if errors else 'ok: %d public entries ask nothing; %d clauses elsewhere' % (len(entries), clauses))
    sys.exit(1 if errors else 0)


if __name__ == '__main__':
    main()
