"""A temporary repository with a copy of the definitions of crates/rules and a crate of statements, which the checker is to compute."""
import collections, os, re, shutil, subprocess
from statements import IMPORTS, statement

USED = re.compile(r'^use Rattle\.rules\.specs\.(\w+)', re.M)


def definitions(folder):
    """The files of definitions that the statements go through, without theorems such as the table of cases."""
    todo, known = USED.findall(IMPORTS), set()
    while todo:
        name = todo.pop()
        path = os.path.join(folder, name + '.antt')
        if name not in known and os.path.exists(path):
            known.add(name)
            todo += USED.findall(open(path, encoding='utf-8').read())
    return known


class Checker:
    """Lends the folder `top`, which is a repository of the two crates `rules` and `vectors`."""

    def __init__(self, root, top):
        self.top, self.rules = top, os.path.join(top, 'crates', 'rules')
        specs = os.path.join(root, 'crates', 'rules', 'specs')
        shutil.copytree(os.path.join(root, 'crates', 'rules', 'src'), os.path.join(self.rules, 'src'))
        os.makedirs(os.path.join(self.rules, 'specs'))
        names = definitions(specs)
        for name in names:
            shutil.copy(os.path.join(specs, name + '.antt'), os.path.join(self.rules, 'specs'))
        listed = open(os.path.join(specs, 'Lib.antt'), encoding='utf-8').read().splitlines()
        self.write('rules/specs/Lib.antt', '\n'.join(line for line in listed if line.split()[-1] in names) + '\n')
        self.write('vectors/src/lib.rt', '// Vectors.\n')
        self.write('vectors/specs/Lib.antt', 'pub mod Vectors\n')
        with open(os.path.join(top, 'crates.txt'), 'w') as f:
            f.write('rules:\nvectors: rules\n')

    def write(self, path, text):
        path = os.path.join(self.top, 'crates', path)
        os.makedirs(os.path.dirname(path), exist_ok=True)
        with open(path, 'w', encoding='utf-8') as f:
            f.write(text)

    def refusals(self, batch, memory=lambda name: True):
        """Which statements of a batch the checker refuses, by name with its words. (name, command, reply) is a vector; `memory` says
        by its name whether its statement is about the lent slices too."""
        self.write('vectors/specs/Vectors.antt', IMPORTS + ''.join(statement(*vector, memory(vector[0])) for vector in batch))
        code, out = self.run('vectors')
        bad = collections.OrderedDict()
        for line in out.split('\n'):
            m = re.search(r'\b((?:vector|edge|limit|root)\d+)\b', line[:400])
            if m and 'error' in line[:400]:
                bad.setdefault(m.group(1), line[:600])
        if code != 0 and not bad:
            return self.halves(batch, memory, out)
        return bad

    def halves(self, batch, memory, out):
        """The checker ended without a word, as where it finds too little memory beside others: again in two halves."""
        if 'error' in out or len(batch) == 1:
            raise RuntimeError('the checker could not tell:\n' + out[-3000:])
        half = len(batch) // 2
        return {**self.refusals(batch[:half], memory), **self.refusals(batch[half:], memory)}

    def run(self, crate):
        done = subprocess.run(['rt', 'check'], cwd=os.path.join(self.top, 'crates', crate), capture_output=True, text=True)
        return done.returncode, done.stdout + done.stderr


def unfinished(words):
    """Did the checker stop at its step limit, rather than find a difference?"""
    return 'step limit' in words
