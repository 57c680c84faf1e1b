"""Lists the programs of the check commands on standard input; chance.py LISTING VERDICT. Each listing ends well, begins with
the line of the verdict, marks one place of a refused program and none of an accepted one, and says what arrives at each instruction
where the types are known."""
import collections, re, subprocess, sys

INSTRUCTION = re.compile(r'[> ] +\d+  ')


def said(program, file):
    """What a program writes on a file, where it ends well."""
    ended = subprocess.run([program], input=file, stdout=subprocess.PIPE, stderr=subprocess.PIPE)
    assert ended.returncode == 0 and not ended.stderr, (program, file.hex(), ended)
    return ended.stdout.decode('ascii')


def check(listing, verdict):
    """The number of a listing, 0 where the program is accepted; the listing is right as far as its form shows it."""
    lines = listing.split('\n')
    assert lines.pop() == '' and lines[0] + '\n' == verdict, (verdict, listing)
    words = verdict.split()
    number = int(words[1]) if words[0] == 'refused' else 0
    marked = [line for line in lines if line.startswith('> ')]
    assert len(marked) == (1 if number > 1 else 0), listing
    code = marked if number > 7 else [line for line in lines if INSTRUCTION.match(line)]
    assert all((' height ' in line) == (number == 0 or number > 7) for line in code), listing
    return number


def main():
    listing, verdict = sys.argv[1:]
    numbers = collections.Counter()
    for command in sys.stdin:
        words = command.split()
        if words[0] == 'check':
            file = bytes.fromhex(words[1])
            numbers[check(said(listing, file), said(verdict, file))] += 1
    each = ', '.join('%d of %d' % (n, number) for number, n in sorted(numbers.items()))
    print('ok: %d programs made by chance or stored, by number: %s' % (sum(numbers.values()), each))


main()
