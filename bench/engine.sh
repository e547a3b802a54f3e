#!/bin/sh
# Measures what an engine takes for a frame of a loop, at 1, 4 and 16 loops of 10 seconds and at two periods, beside the same work
# by hand over flat lists, in the same program.
#
#   bench/engine.sh PROGRAM [RUNS [TIMES]]
#
# PROGRAM is crates/benches/out/benches, made by `rt run` in that crate's folder. Each number is millions of frames of a loop
# a second, the most of RUNS runs of the program, each of which takes the best of TIMES. At the end stand the goals. It needs
# python3.
set -eu
program=$(realpath "$1")
exec python3 - "$program" "${2:-3}" "${3:-3}" <<'PY'
import subprocess
import sys
program, runs, times = sys.argv[1], int(sys.argv[2]), sys.argv[3]


def most(kind, loops, period):
    told = {}
    for _ in range(runs):
        out = subprocess.run([program, 'engine', kind, str(loops), str(period), times], capture_output=True, text=True, check=True)
        for line in out.stdout.split('\n'):
            if line:
                name, number = line.split()
                if name != 'sum':
                    told[name] = max(told.get(name, 0), 1e6 / max(int(number), 1))
    return told


NAMES = ['playing', 'by hand', 'waiting', '1,000 seams', 'one writes', 'again', 'waiting', 'by hand', 'all write', 'again', 'by hand']


def row(words):
    print(' '.join('%11s' % word for word in words))


row(['loops', 'period'] + NAMES)
rows = {}
for loops in [1, 4, 16]:
    for period in [64, 1024]:
        hand = most('hand', loops, period)
        playing = most('playing', loops, period)['playing']
        waiting, source = most('waiting', loops, period)['waiting'], most('source', loops, period).get('source', 0)
        seams = most('seams', loops, period).get('seams', 0)
        one, every = most('one', loops, period), most('all', loops, period)
        rows[loops, period] = told = [playing, hand['playing'], waiting, seams, one['first'], one['again'], source,
                                      hand['one'], every['first'], every['again'], hand['all']]
        row([loops, period] + ['%.1f' % number for number in told])
playing, by_hand, waiting, _, _, one_again, source, _, first, again, all_by_hand = rows[16, 1024]
goals = [('16 loops playing, beside by hand', playing / by_hand, 0.8), ('all overdubbing, once round', first / all_by_hand, 0.6),
         ('all overdubbing, over what was written', again / all_by_hand, 0.6), ('a waiting verb, beside playing', waiting / playing, 0.9),
         ('a verb waiting for a loop that overdubs, beside it', source / one_again, 0.9)]
for name, ratio, goal in goals:
    print('%s: %.2f (goal %.2f) %s' % (name, ratio, goal, 'met' if ratio >= goal else 'MISSED'))
PY
