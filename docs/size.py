#!/usr/bin/env python3
"""size.py [REV]: the table of docs/SIZE.md, with that of an earlier commit beside. size.py --axioms LOG: the table of
docs/TRUST.md.

Lines are counted as they stand: code in src/, definitions and laws in specs/, proofs and lemmas in proofs/. LOG is what
`rt ci --anew` printed on this tree: it proves each crate, and none is taken from an earlier run."""
import re
import subprocess
import sys

PARTS = ('src', 'specs', 'proofs')


def git(*words):
    return subprocess.run(('git',) + words, capture_output=True, check=True).stdout.decode()


def crates_of(rev):
    text = git('show', rev + ':crates.txt')
    return [m[1] for m in re.finditer(r'^(\w+)(?: \w+)?:', text, re.M)]


def lines_of(rev):
    """(crate, part) -> lines, of a commit."""
    lines = {}
    for path in git('ls-tree', '-r', '--name-only', rev, 'crates').split('\n'):
        if path.endswith(('.rt', '.antt')):
            _, crate, part = path.split('/')[:3]
            key = crate, part
            lines[key] = lines.get(key, 0) + git('show', rev + ':' + path).count('\n')
    return lines


def axioms(log):
    """What the last line of each crate's check says."""
    print('| crate | functions | axioms |\n|---|---|---|')
    last, left = '', set(crates_of('HEAD'))
    with open(log, encoding='utf-8') as f:
        for line in f:
            if line.startswith('logic=proved'):
                last = line
            crate = re.fullmatch(r'rt: (\w+) proved\n', line)
            if crate:
                left.discard(crate[1])
                functions = re.search(r'functions=(\d+)', last)[1]
                assumed = re.search(r'axioms=(\d+)', last)
                print('| `%s` | %s | %s |' % (crate[1], functions, assumed[1] if assumed else 0))
    if left:
        sys.exit('not proved in this log: ' + ' '.join(sorted(left)))


def cells(crate, lines):
    return [lines.get((crate, part), '') for part in PARTS]


def total(crates, lines):
    rows = [cells(crate, lines) for crate in crates]
    return [sum(row[k] or 0 for row in rows) for k in range(len(PARTS))]


def main():
    if sys.argv[1:2] == ['--axioms']:
        return axioms(sys.argv[2])
    states = [(crates_of(rev), lines_of(rev)) for rev in ['HEAD'] + sys.argv[1:2]]
    names = states[0][0] + [c for c in states[-1][0] if c not in states[0][0]]
    head = ['code', 'definitions and laws', 'proofs']
    print('| crate | ' + ' | '.join(head) + ' |' + ''.join(' before: %s |' % h for h in head) * (len(states) - 1))
    print('|---|' + '---:|' * len(head) * len(states))
    for crate in names:
        row = [str(c) for _, lines in states for c in cells(crate, lines)]
        print('| `%s` | %s |' % (crate, ' | '.join(row)))
    row = [str(c) for crates, lines in states for c in total(crates, lines)]
    print('| all | %s |' % ' | '.join(row))


main()
