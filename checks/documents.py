#!/usr/bin/env python3
"""Looks over the documents: no line over 100 columns, and each link leads to a file or a heading that is there.

    checks/documents.py

The last line is `N passed, N failed`. The status is 0 where none failed.
"""
import glob
import os
import re
import sys

os.chdir(os.path.dirname(os.path.dirname(os.path.realpath(__file__))))
MOST = 100
passed, failed = 0, 0


def anchors(text):
    """The names that headings have as links."""
    return {re.sub(r'[^\w\- ]', '', head.lower()).replace(' ', '-') for head in re.findall(r'^#+ (.*)$', text, re.M)}


for path in ['README.md', 'CONTRIBUTING.md', 'CHANGELOG.md', 'examples/README.md', 'docs/looper.1'] + sorted(
        glob.glob('docs/*.md') + glob.glob('docs/proved/*.md')):
    with open(path) as file:
        text = file.read()
    wrong = ['%s:%d: %d columns' % (path, place, len(line))
             for place, line in enumerate(text.split('\n'), 1) if len(line) > MOST]
    for link in re.findall(r'\]\(([^)\s]+)\)', text) if path.endswith('.md') else []:
        name, _, heading = link.partition('#')
        target = os.path.normpath(os.path.join(os.path.dirname(path), name)) if name else path
        if link.startswith('http'):
            continue
        if not os.path.exists(target):
            wrong.append('%s: nothing at %s' % (path, link))
        elif heading:
            with open(target) as file:
                if heading not in anchors(file.read()):
                    wrong.append('%s: no heading at %s' % (path, link))
    print('\n'.join(wrong[:10]), end='\n' if wrong else '')
    passed, failed = passed + (not wrong), failed + (wrong != [])
print('documents: %d passed, %d failed' % (passed, failed))
sys.exit(failed != 0)
