"""Prints what nothing in the crates uses: imports, definitions, public marks of laws, parameters; and lines that are too long."""
import collections, glob, os, re, sys

LONGEST = 140
# The files of a function's proof, whose definitions the check asks for by their names.
OF_FUNCTIONS = ('Proof.antt', 'Invariants.antt', 'Answers.antt')
# What is proved for its own sake: a reader looks for it, and no other proof cites it.
THEOREMS = {'cases_hold', 'tally_promise', 'check_exact', 'round_trip', 'exact', 'run_promise', 'number_fact', 'result_fact',
            'cover_fact', 'branch_fact', 'argument_fact', 'read_back_fact', 'room_fact', 'types_fact', 'size_fact', 'choice_fact',
            'progress_fact', 'argument_exact', 'packing_exact', 'unpacking_exact', 'says_operation', 'refusal_exact', 'check_exactly', 'open_exact',
            'check_words_small', 'pack_words_small', 'unpack_words_small', 'run_words_small', 'lines_words_small', 'lines_argument',
            'empty_text', 'lines_exact', 'constants_fact', 'every_byte', 'every_build', 'reads_unpacked', 'found_unpacked'}

# What is called of a trait that a file imports and need not name.
METHODS = {'Read': ('read', 'read_exact', 'read_to_end'), 'Write': ('write', 'write_all', 'flush', 'writeln')}

TOKEN = re.compile(r'[^\s(){}.;,@"«»]+')
SIGNATURE = re.compile(r'((?:(?:unfoldable|abbrev|pub) )*)(?:data |record )?([^\s(){}.;,]+)(?: [({].*)? :(?: |$)', re.M)


def read(path):
    """A file's text without its comments."""
    return re.sub(r'(^|\s)(--|//)(\s.*|-.*|)$', '', open(path, encoding='utf-8').read(), flags=re.M)


def named(item):
    """An item of an import as the name that is imported and the name it has here."""
    names = item.split(' as ')
    return names[0].split('::')[-1], names[-1].split('::')[-1]


def imports(text):
    """Each imported name with the name it has here, and the text without the imports."""
    found = []
    for items in re.findall(r'^\s*(?:ghost )?use \S+?\.\{([^}]*)\};?$', text, re.M):
        found += [named(item) for item in filter(None, map(str.strip, items.split(',')))]
    for path in re.findall(r'^\s*use ([\w:]+(?:::\{[^;]*\}|::\w+(?: as \w+)?));$', text, re.M):
        before = ''
        for item in filter(None, map(str.strip, re.split('[{},]', path))):
            if item.endswith('::'):
                before = item[:-2]
            else:
                found.append(named(before if item == 'self' else item))
    return found, re.sub(r'^\s*(?:pub )?(?:ghost )?(?:use [^\n{;]*(?:\{[^;]*?\})?;?|mod [^\n{]*)$', '', text, flags=re.M)


def is_operator(name):
    return '◌' in name


def occurs(name, tokens):
    """Whether a name, each part of an operator or a method of a trait is among the tokens. A `do` block uses `◌>>=◌` unseen."""
    if name == '◌>>=◌' and '←' in tokens or any(method in tokens for method in METHODS.get(name, ())):
        return True
    return name in tokens or is_operator(name) and all(part in tokens for part in name.split('◌') if part)


def tokens_of(path, text):
    split = set(TOKEN.findall(text))
    return split | set(re.findall(r'\w+', text)) if path.endswith('.rt') else split


def unused_imports(texts):
    for path, text in texts.items():
        names, body = imports(text)
        tokens = tokens_of(path, body)
        for _, here in names:
            if not occurs(here, tokens):
                yield '%s: import %s is not used' % (path, here)


def paragraphs(text):
    return re.split(r'\n\s*\n', text)


def told(paragraph, name):
    """What a public definition tells other modules: its signature, and its body too where it can be unfolded."""
    if re.match(r'(unfoldable|abbrev|pub record|pub data|module)', paragraph):
        return paragraph
    return re.split(r'^\s*%s [^:]*=|^unfolding ' % re.escape(name), paragraph, maxsplit=1, flags=re.M)[0]


def unused_definitions(texts):
    """Definitions that no other paragraph names, and public laws that no other file imports and no public signature has."""
    used, imported, declared, shown = collections.Counter(), set(), [], collections.defaultdict(set)
    for path, text in texts.items():
        names, body = imports(text)
        imported.update(name for name, _ in names)
        imported.update(re.findall(r'\bcrate(?:::\w+)*::(\w+)', body))  # an attribute names a lemma by its path
        for paragraph in paragraphs(body):
            used.update(tokens_of(path, paragraph))
            m = SIGNATURE.match(paragraph)
            for name in re.findall(r'\bpub (?:data |record )?(\S+)', paragraph):
                shown[path].update(set(TOKEN.findall(told(paragraph, name))) - {name})
            if m and path.endswith('.antt') and os.path.basename(path) not in OF_FUNCTIONS:
                declared.append((path, m[2], 'pub ' in m[1]))
    for path, name, public in declared:
        if name in THEOREMS or name in imported:
            continue
        if not is_operator(name) and used[name] < 2:
            yield '%s: %s is not used' % (path, name)
        if public and '/proofs/' in path and name not in shown[path]:
            yield '%s: %s is public and not imported' % (path, name)


def functions(text):
    """Name, parameters and body of each function of a Rattle file. Brackets in a string or a character close nothing."""
    text = re.sub(r'"(?:[^"\\]|\\.)*"|\'(?:[^\'\\]|\\.)\'', lambda m: re.sub(r'[][(){}]', ' ', m[0]), text)
    for m in re.finditer(r'\bfn (\w+)(?:<(?:->|[^<>]|<[^<>]*>)*>)?\(', text):
        end = closing(text, m.end() - 1)
        start = text.index('{', end)
        while re.search(r'(requires|ensures)(?: \w+)?\s*$', text[end:start]):
            end = closing(text, start)
            start = text.index('{', end)
        if re.match(r'\s*;', text[end:]):
            continue  # a trait's function without a body
        yield m[1], text[m.end():closing(text, m.end() - 1)], text[start:closing(text, start)]


def closing(text, start):
    """The place behind the bracket that closes the one at a place."""
    depth = 0
    for at in range(start, len(text)):
        depth += (text[at] in '([{') - (text[at] in ')]}')
        if depth == 0:
            return at + 1
    raise ValueError('a bracket is not closed')


def unread_parameters(texts):
    for path, text in texts.items():
        if path.endswith('.rt'):
            for name, parameters, body in functions(text):
                for parameter in re.findall(r'(?:^|,)\s*(?:mut )?(\w+)\s*:', parameters):
                    if not re.search(r'\b%s\b' % parameter, body):
                        yield '%s: %s never reads its parameter %s' % (path, name, parameter)


def long_lines(paths):
    for path in paths:
        for number, line in enumerate(open(path, encoding='utf-8').read().split('\n'), 1):
            if len(line) > LONGEST:
                yield '%s:%d: %d characters' % (path, number, len(line))


def main():
    paths = [path for folder in ('src', 'specs', 'proofs') for path in glob.glob('crates/*/%s/**' % folder, recursive=True)]
    paths = sorted(path for path in paths if path.endswith(('.antt', '.rt')))
    texts = {path: read(path) for path in paths}
    found = [*unused_imports(texts), *unused_definitions(texts), *unread_parameters(texts), *long_lines(paths)]
    print('\n'.join(found) if found else 'ok: nothing is unused in %d files' % len(paths))
    sys.exit(1 if found else 0)


main()
