#!/usr/bin/env python3
"""lines.py: brings the line of each place that docs/FORMS.md names up to date, and tells which it does not find.

A place is a name between backquotes and its file with a line, as `words_sum` (file_words/src/lib.rt:183)."""
import pathlib
import re
import sys

ROOT = pathlib.Path(__file__).resolve().parent.parent
PAGE = ROOT / 'docs' / 'FORMS.md'
PLACE = re.compile(r'`(\w+)`(\s+)\((\w+/src/[\w/]+\.rt):\d+\)')
lost = []


def placed(found):
    name, space, file = found.groups()
    declared = re.compile(r'\s*(?:pub )?(?:const )?(?:fn|struct|enum|const) %s\b' % name)
    lines = (ROOT / 'crates' / file).read_text().split('\n')
    at = [number for number, line in enumerate(lines, 1) if declared.match(line)]
    if len(at) != 1:
        lost.append('%s in %s' % (name, file))
        return found[0]
    return '`%s`%s(%s:%d)' % (name, space, file, at[0])


text = PAGE.read_text()
new, count = PLACE.subn(placed, text)
PAGE.write_text(new)
print('%d places, %d not found' % (count, len(lost)))
sys.exit('\n'.join(lost) or 0)
