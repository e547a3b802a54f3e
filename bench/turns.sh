#!/bin/sh
# Measures what turns of audio take for a frame beside the engine alone, at 1 and 16 loops of 10 seconds and periods of 64 and 1024
# frames, and the longest of many turns beside their mean, with openings over a list of many seams among them.
#
#   bench/turns.sh PROGRAM [RUNS [TIMES [TURNS]]]
#
# PROGRAM is crates/benches/out/benches, made by `rt run` in that crate's folder. A turn reads bytes, makes frames of them, plays
# these, and makes bytes of what is heard; the engine alone plays frames. Each number is nanoseconds a frame, the least of RUNS runs
# of the program, each of which takes the least of TIMES, the two by turns. It needs python3.
set -eu
program=$(realpath "$1")
exec python3 - "$program" "${2:-3}" "${3:-5}" "${4:-100000}" <<'PY'
import subprocess
import sys
program, runs, times, turns = sys.argv[1], int(sys.argv[2]), sys.argv[3], sys.argv[4]


def told(*words):
    out = subprocess.run([program, 'turns', *words], capture_output=True, text=True, check=True)
    return {line.split()[0]: int(line.split()[1]) for line in out.stdout.splitlines()}


GOALS = {64: 1.2, 1024: 1.05}
print('loops period   alone   turns   ratio    goal')
for loops in [1, 16]:
    for period in [64, 1024]:
        rows = [told('beside', str(loops), str(period), times) for _ in range(runs)]
        alone, turned = (min(row[name] for row in rows) / 1000 for name in ['alone', 'turns'])
        ratio = turned / alone
        print('%5d %6d %7.2f %7.2f %7.2f %7.2f %s' % (loops, period, alone, turned, ratio, GOALS[period],
                                                      'met' if ratio <= GOALS[period] else 'MISSED'))
print('loops period    mean longest opening, in microseconds a turn, over %s turns' % turns)
for loops in [1, 16]:
    row = told('longest', str(loops), '64', turns)
    print('%5d %6d %7.1f %7.1f %7.1f' % (loops, 64, row['mean'] / 1000, row['longest'] / 1000, row['opening'] / 1000))
PY
