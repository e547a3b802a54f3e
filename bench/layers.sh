#!/bin/sh
# Measures what layers on a shared tape cost, at several lengths and numbers of pieces, beside a plain vector of frames that copies
# itself at an opening, in the same run.
#
#   bench/layers.sh PROGRAM [RUNS [TIMES]]
#
# PROGRAM is crates/benches/out/benches, made by `rt run` in that crate's folder. Each number is the least of RUNS runs
# of the program, each of which takes the least of TIMES. At the end stand the goals. It needs python3.
set -eu
program=$(realpath "$1")
exec python3 - "$program" "${2:-3}" "${3:-8}" <<'PY'
import subprocess
import sys
program, runs, times = sys.argv[1], int(sys.argv[2]), sys.argv[3]
LENGTHS = [4096, 65536, 1048576, 16777216]
# Single frames written over the list: 100, 10,000 and 60,000 pieces, and 200, 1,000, 2,000 and 32,766 seams.
FEW = {4096: [0, 50], 65536: [0, 50, 466, 5000], 1048576: [0, 50, 466, 5000, 30000],
       16777216: [0, 50, 74, 474, 974, 5000, 16357, 30000]}
CALLS = ['append', 'opening_of_the_first', 'opening', 'new', 'fresh', 'new_backward', 'begin', 'insert', 'undo_and_redo', 'pin',
         'search', 'read', 'read_backward', 'span']


def least(kind, frames, singles):
    told = {}
    for _ in range(runs):
        out = subprocess.run([program, 'layers', kind, str(frames), str(singles), times], capture_output=True, text=True, check=True)
        for line in out.stdout.split('\n'):
            if line:
                name, number = line.split()
                told[name] = min(told.get(name, 1 << 63), int(number))
    return {name: number if name == 'seams' else number / 1000 for name, number in told.items()}


def row(words):
    print(' '.join('%10s' % word for word in words))


def shown(told):
    return [str(told.get('seams', '-'))] + ['%.1f' % told[call] if call in told else '-' for call in CALLS]


new = least('new', 0, 0)['new']
print('new, 32768 chunks and 16 loops: %.0f ns' % new)
row(['frames', 'pieces', 'seams'] + [call[:10] for call in CALLS])
layers, vector = {}, {}
for frames in LENGTHS:
    for singles in FEW[frames]:
        layers[frames, singles] = told = least('layers', frames, singles)
        row([frames, 2 * singles + 1] + shown(told))
    vector[frames] = told = least('vector', frames, 0)
    row([frames, 'vector'] + shown(told))
longest = LENGTHS[-1]
opening, short = layers[longest, 474]['opening'], layers[65536, 466]['opening']
one, many = layers[longest, 0]['span'], layers[longest, 5000]['span']
goals = [
    ('new under 1 ms', new / 1e6, 1.0),
    ('an opening over the longest list with 1,000 seams in 50 us', opening / 1e3, 50.0),
    ('and in 1.2 times that over 65,536 frames', opening / short, 1.2),
    ('undo and redo under 1 us', max(told['undo_and_redo'] for told in layers.values()) / 1e3, 1.0),
    ('a span at one piece in 1.5 times a plain copy', one / vector[longest]['span'], 1.5),
    ('a span at 10,000 pieces in twice that', many / one, 2.0),
    ('a write where no piece ends in 10 ns', max(told[call] for told in layers.values() for call in ('new', 'new_backward')), 10.0),
]
for words, reached, goal in goals:
    print('%-60s %8.2f of %5.1f %s' % (words, reached, goal, 'met' if reached <= goal else 'NOT MET'))
PY
