#!/bin/sh
# Measures the readers of texts beside `wc FILE` in the same run, on a journal of 1,000,000 lines, on a session of 16
# loops and on a WAV file of 100 MB, of 2 channels of 24 bits.
#
#   bench/readers.sh PROGRAM [RUNS]
#
# PROGRAM is that of the crate vectors. Prints, for each, the least and the median of wall and of processor seconds and
# the greatest memory. It needs python3 and GNU time.
set -eu
program=$(realpath "$1")
runs=${2:-5}
folder=$(mktemp -d)
trap 'rm -rf "$folder"' EXIT
cd "$folder"
python3 - <<'PY'
verbs = 'record overdub multiply insert replace mute oneshot trigger reverse pause undo redo undo_all'.split()
with open('journal.txt', 'w') as file:
    file.write('looper journal 1\n')
    for place in range(1000000):
        command = ['hit %d %s' % (place % 16, verbs[place % 13]), 'set %d feedback %d' % (place % 16, place % 1001),
                   'get -3 loop_len', 'down -1 record'][place % 4]
        file.write('%d %d %d %s\n' % (place * 48, place % 2, place // 2, command))
    file.write('end\n')
with open('session.txt', 'w') as file:
    file.write('looper session 1\nrate 48000\nloops 16\ndry 0\nsync_source -3\nselected_loop_num 1\nfade_step 20\n'
               'long_press 24000\npulse 24000\n')
    for place in range(16):
        file.write('loop %d %d 48000 1000 1000 0 3 8388607\n' % (place, 48000 * (place + 1)))
    file.write('end\n')
import struct
size = 6 * 16666666
block = bytes((place * 7919 >> 3) % 251 for place in range(600000))
with open('file.wav', 'wb') as file:
    file.write(struct.pack('<4sI4s4sIHHIIHH4sI', b'RIFF', 36 + size, b'WAVE', b'fmt ', 16, 1, 2, 48000, 288000, 6, 24,
                           b'data', size))
    left = size
    while left > 0:
        file.write(block[:left])
        left -= len(block)
PY
measure() {
    name=$1
    shift
    run=0
    while [ "$run" -lt "$runs" ]; do
        /usr/bin/time -f "$name %e %U %S %M" -a -o times "$@" >told 2>&1 || { cat told; exit 1; }
        run=$((run + 1))
    done
}
measure journal "$program" journal 16 journal.txt
cat told
measure wc-of-journal wc journal.txt
measure session "$program" session - session.txt
cat told
measure wc-of-session wc session.txt
measure wav "$program" wav - file.wav
cat told
measure wc-of-wav wc file.wav
python3 - <<'PY'
import os
rows = [line.split() for line in open('times')]
print('%-16s %28s %28s %12s' % ('', 'clock, least and median', 'processor, least and median', 'memory, MB'))
for name in dict.fromkeys(row[0] for row in rows):
    mine = [row for row in rows if row[0] == name]
    clock = sorted(float(row[1]) for row in mine)
    processor = sorted(float(row[2]) + float(row[3]) for row in mine)
    memory = max(int(row[4]) for row in mine) * 1024 / 1e6
    print('%-16s %20.2f %7.2f %20.2f %7.2f %12.1f' % (name, clock[0], clock[len(clock) // 2], processor[0],
                                                      processor[len(processor) // 2], memory))
print('journal.txt %d bytes, file.wav %d bytes' % (os.path.getsize('journal.txt'), os.path.getsize('file.wav')))
PY
