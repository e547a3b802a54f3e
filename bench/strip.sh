#!/bin/sh
# Measures what a frame of one loop costs, in spans of 1, 64 and 1024, at 2, 100 and 10,000 seams, beside the smallest loop that does
# the same by hand over one flat list, in the same program.
#
#   bench/strip.sh PROGRAM [RUNS [TIMES]]
#
# PROGRAM is crates/benches/out/benches, made by `rt run` in that crate's folder. Each number is in nanoseconds a frame, the
# least of RUNS runs of the program, each of which takes the least of TIMES. At the end stand the goals. It needs python3.
set -eu
program=$(realpath "$1")
exec python3 - "$program" "${2:-3}" "${3:-8}" <<'PY'
import subprocess
import sys
program, runs, times = sys.argv[1], int(sys.argv[2]), sys.argv[3]
SPANS = [1, 64, 1024]
# How many runs are written over the list, and the seams that it then has.
SEAMS = {0: 2, 49: 100, 4999: 10000}
CALLS = ['play', 'play_backward', 'overdub', 'overdub_again']


def least(kind, written, span):
    told = {}
    for _ in range(runs):
        out = subprocess.run([program, 'strip', kind, str(written), str(span), times], capture_output=True, text=True, check=True)
        for line in out.stdout.split('\n'):
            if line:
                name, number = line.split()
                told[name] = min(told.get(name, 1 << 63), int(number))
    return {name: number / 1000 for name, number in told.items()}


def row(words):
    print(' '.join('%13s' % word for word in words))


def shown(told):
    return ['%.2f' % told[call] if call in told else '-' for call in CALLS]


row(['span', 'seams'] + CALLS)
loop, plain = {}, {}
for span in SPANS:
    for written, seams in SEAMS.items():
        loop[span, seams] = told = least('loop', written, span)
        row([span, seams] + shown(told))
    plain[span] = told = least('plain', 0, span)
    row([span, 'flat list'] + shown(told))
here, by_hand = loop[1024, 2], plain[1024]
goals = [
    ('playing at 2 seams in 1.5 times the loop by hand', here['play'] / by_hand['play'], 1.5),
    ('an overdub of new cells in 2 times it', here['overdub'] / by_hand['overdub'], 2.0),
    ('an overdub over its fresh cells in 2 times it', here['overdub_again'] / by_hand['overdub'], 2.0),
    ('playing at 10,000 seams in twice that at 2', loop[1024, 10000]['play'] / here['play'], 2.0),
    ('playing backward at 10,000 seams in twice that at 2', loop[1024, 10000]['play_backward'] / here['play_backward'], 2.0),
]
for words, reached, goal in goals:
    print('%-60s %8.2f of %5.1f %s' % (words, reached, goal, 'met' if reached <= goal else 'NOT MET'))
PY
