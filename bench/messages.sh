#!/bin/sh
# Measures how long one message from outside takes: a packet of one hit and one of 292 hits with what they ask for, a
# note of three MIDI bytes, and the look-up of a note that the last of 1024 bindings has.
#
#   bench/messages.sh PROGRAM [COUNT [RUNS]]
#
# PROGRAM is crates/benches/out/benches, made by `rt run` in that crate's folder. Each kind of message is
# read COUNT times, notes ten times as often, and looked up a tenth as often. Prints the least and the median of the runs, in nanoseconds of the processor a message. It needs
# python3 and GNU time.
set -eu
program=$(realpath "$1")
count=${2:-1000000}
runs=${3:-5}
folder=$(mktemp -d)
trap 'rm -rf "$folder"' EXIT
cd "$folder"
run=0
while [ "$run" -lt "$runs" ]; do
    /usr/bin/time -f "hit $count %U %S" -a -o times "$program" messages hit "$count"
    /usr/bin/time -f "flood $((count / 292 * 292)) %U %S" -a -o times "$program" messages flood "$((count / 292))"
    /usr/bin/time -f "midi $((count * 10)) %U %S" -a -o times "$program" messages midi "$((count / 100))"
    /usr/bin/time -f "bound $((count / 10)) %U %S" -a -o times "$program" messages bound "$((count / 10))"
    run=$((run + 1))
done
python3 - <<'PY'
import statistics
runs = {}
for line in open('times'):
    kind, count, user, system = line.split()
    runs.setdefault(kind, []).append((float(user) + float(system)) / int(count) * 1e9)
for kind, times in runs.items():
    print('%-5s least %.0f ns, median %.0f ns a message' % (kind, min(times), statistics.median(times)))
PY
