"""Prints the wrong definitions whose old text does not stand in its file of crates/rules/specs as often as they say."""
import os, sys

TOP = os.path.dirname(os.path.dirname(os.path.dirname(os.path.abspath(__file__))))
sys.path.insert(0, os.path.join(TOP, 'tools', 'vectors'))
from changes import changed, changes


def wrong(found):
    for change in found:
        text = open(os.path.join(TOP, 'crates', 'rules', 'specs', change.file + '.antt'), encoding='utf-8').read()
        try:
            changed(change, text)
        except AssertionError as error:
            yield error


def main():
    found = changes(os.path.join(TOP, 'tools', 'wrong-definitions.txt'))
    errors = list(wrong(found))
    print('\n'.join(map(str, errors)) if errors else 'ok: %d wrong definitions fit' % len(found))
    sys.exit(1 if errors else 0)


main()
