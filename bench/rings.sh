#!/bin/sh
# Measures how many items a second go through a ring, on one thread and between two, beside the bare queue without ends
# and rule in the same program.
#
#   bench/rings.sh PROGRAM [COUNT [CAPACITY [RUNS]]]
#
# PROGRAM is crates/benches/out/benches, made by `rt run` in that crate's folder. Prints the least and the median of
# the runs, in nanoseconds of the clock and of the processor an item, and the ratios. It needs python3 and GNU time.
set -eu
program=$(realpath "$1")
count=${2:-5000000}
capacity=${3:-256}
runs=${4:-5}
folder=$(mktemp -d)
trap 'rm -rf "$folder"' EXIT
cd "$folder"
run=0
while [ "$run" -lt "$runs" ]; do
    for threads in one two; do
        for kind in ring bare; do
            /usr/bin/time -f "$kind $threads %e %U %S" -a -o times "$program" rings "$kind" "$threads" "$count" "$capacity"
        done
    done
    run=$((run + 1))
done
python3 - "$count" <<'PY'
import statistics
import sys
count = int(sys.argv[1])
runs = {}
for line in open('times'):
    kind, threads, wall, user, system = line.split()
    runs.setdefault((kind, threads), []).append((float(wall), float(user) + float(system)))
for word, pick in (('least', min), ('median', statistics.median)):
    for threads in ('one', 'two'):
        told = {}
        for kind in ('ring', 'bare'):
            wall, processor = (pick(column) for column in zip(*runs[kind, threads]))
            told[kind] = wall, processor
            print('%-6s %s, %s thread%s: %.1f ns of the clock, %.1f ns of the processor an item, %.1f million items a second'
                  % (word, kind, threads, '' if threads == 'one' else 's', wall * 1e9 / count, processor * 1e9 / count,
                     count / max(wall, 0.001) / 1e6))
        print('%-6s ring against bare: clock %.2f, processor %.2f'
              % (word, told['ring'][0] / max(told['bare'][0], 0.001), told['ring'][1] / max(told['bare'][1], 0.001)))
PY
