#!/usr/bin/env python3
"""Compares crates.txt with what the crates cite and with the documents' tables.

    checks/crates.py [TABLE]

A crate of crates.txt names exactly the crates that its files cite. README.md has an item for each crate but those that only
measure, read vectors or test, docs/architecture.md one for each with what it stands on, and docs/proved.md links a page for
each that has one. With the word `architecture` the items of docs/architecture.md are printed as crates.txt has them.
The last line is `N passed, N failed`. The status is 0 where none failed.
"""
import os
import re
import sys

os.chdir(os.path.dirname(os.path.dirname(os.path.realpath(__file__))))
# Crates that no other stands on: they measure, read vectors or test.
BESIDE = ['vectors', 'benches', 'worked_runs', 'live_runs', 'ends']
passed, failed = 0, 0


def say(holds, text):
    global passed, failed
    if holds:
        passed += 1
    else:
        failed += 1
        print(text)


def read(path):
    with open(path) as file:
        return file.read()


crates = {}
for line in read('crates.txt').split('\n'):
    name, colon, below = line.partition('#')[0].partition(':')
    if colon:
        crates[name.split()[0]] = below.split()
say(set(crates) == set(os.listdir('crates')), 'crates.txt and crates/ differ: %s' % sorted(set(crates) ^ set(os.listdir('crates'))))


def text_of(crate):
    return '\n'.join(read(os.path.join(path, file)) for part in ['src', 'specs', 'proofs']
                     for path, _, files in os.walk('crates/%s/%s' % (crate, part))
                     for file in files if file.endswith(('.rt', '.antt')))


known = set(crates) | {'arrayvec', 'byteorder', 'crossbeam_queue', 'circular_buffer', 'thiserror', 'atomic_table', 'mio'}
for crate, below in crates.items():
    text = text_of(crate)
    own = set(re.findall(r'^\s*(?:pub )?mod (\w+);', text, re.M))
    cited = {name for name in known - own - {crate} if re.search(r'\bRattle\.%s\.|^\s*(pub )?use %s\b|(?<![:\w])%s::' % (name, name, name), text, re.M)}
    say(cited <= set(below), '%s cites %s, which crates.txt does not name' % (crate, sorted(cited - set(below))))
    say(set(below) <= cited, '%s cites nothing of %s' % (crate, sorted(set(below) - cited)))

def items(text):
    """The items of a document's lists, each on one line."""
    return re.findall(r'^- (.*)$', re.sub(r'\n +(?! *- )', ' ', text), re.M)


rows = [match.group(1) for item in items(read('README.md').split('## The crates')[1].split('\n## ')[0])
        for match in [re.match(r'\*\*(\w+)\*\*: ', item)] if match]
wanted = [crate for crate in crates if crate not in BESIDE]
say(rows == wanted, 'README.md has %s, crates.txt %s' % ([row for row in rows if row not in wanted], [row for row in wanted if row not in rows]))

told, gives = {}, {}
for item in items(read('docs/architecture.md').split('## The crates by layer')[1].split('\n## ')[0]):
    match = re.match(r'\*\*(\w+)\*\*, on ([\w, ]+): (.*)', item)
    say(match, 'docs/architecture.md: not a crate: %s' % item[:60])
    if match:
        told[match.group(1)] = match.group(2).split(', ') if match.group(2) != 'nothing' else []
        gives[match.group(1)] = match.group(3)
say(set(told) == set(crates), 'docs/architecture.md and crates.txt differ: %s' % sorted(set(told) ^ set(crates)))
for crate in crates:
    ours = [below for below in crates[crate] if below in crates]
    say(set(told.get(crate, [])) == set(ours), 'docs/architecture.md: %s stands on %s' % (crate, ', '.join(ours)))

pages = re.findall(r'\(proved/(\w+)\.md\)', read('docs/proved.md'))
stand = {name[:-3] for name in os.listdir('docs/proved') if name.endswith('.md')}
say(set(pages) == stand, 'docs/proved.md and docs/proved/ differ: %s' % sorted(set(pages) ^ stand))
say(stand <= set(crates), 'docs/proved/ has pages of no crate: %s' % sorted(stand - set(crates)))

if sys.argv[1:] == ['architecture']:
    for crate in crates:
        ours = [below for below in crates[crate] if below in crates]
        print('- **%s**, on %s: %s' % (crate, ', '.join(ours) or 'nothing', gives.get(crate, '')))
print('crates and tables: %d passed, %d failed' % (passed, failed))
sys.exit(failed != 0)
