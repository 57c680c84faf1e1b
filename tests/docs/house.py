"""Prints what docs/ARCHITECTURE.md does not have as crates.txt and the crates' folders have it: crates, what they use, files."""
import glob, re, sys

OUTSIDE = {'io', 'arrayvec'}  # libraries of the kit


def wanted():
    for line in open('crates.txt', encoding='utf-8'):
        m = re.match(r'(\w+)(?: [^:]*)?:(.*)', line)
        if m:
            yield m[1], set(m[2].split()) - OUTSIDE


def main():
    text = open('docs/ARCHITECTURE.md', encoding='utf-8').read()
    rows = {m[2]: (int(m[1]), set(m[3].split())) for m in re.finditer(r'^\| (\d+) \| `(\w+)` \| .* \| ?([\w ]*) ?\|$', text, re.M)}
    sections = {part.split('`')[0]: part for part in text.split('\n### `')[1:]}
    bad = []
    for crate, uses in wanted():
        floor, said = rows.get(crate, (0, None))
        if said != uses:
            bad.append('%s uses %s' % (crate, ' '.join(sorted(uses))))
        bad += ['%s stands no higher than %s' % (crate, below) for below in uses if rows.get(below, (99,))[0] >= floor]
        files = {path.split('/', 2)[2] for kind in ('src/*.rt', 'specs/*.antt', 'proofs/*.antt') for path in glob.glob('crates/%s/%s' % (crate, kind))}
        files = {path for path in files if not path.endswith('Lib.antt')}
        listed = set(re.findall(r'^\| `(\S+)` \|', sections.get(crate, ''), re.M))
        bad += ['%s/%s is not listed' % (crate, path) for path in sorted(files - listed)]
        bad += ['%s/%s is listed and not there' % (crate, path) for path in sorted(listed - files)]
    print('\n'.join(bad) if bad else 'ok: docs/ARCHITECTURE.md has every crate and file')
    sys.exit(1 if bad else 0)


main()
