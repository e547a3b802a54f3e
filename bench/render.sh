#!/bin/sh
# Measures `looper render`, beside sox in the same run where sox is there, in seconds of the
# processor: the least of RUNS runs each, taken in turns.
#
#   bench/render.sh PROGRAM [RUNS [PART..]]
#
# The parts are: `record` (16,777,216 frames in mono, half of them recorded), `mix` (1, 4 and 16
# stereo loops of SECONDS seconds from a session, which play or overdub for as long, beside `sox -m`
# over the loops' files), `parts` (what a frame of a render takes, part by part), `lengths` (a frame
# of one loop that plays, by its length and layers) and `second` (a file of one second). Without a
# PART all are measured. It needs python3, GNU time and some gigabytes of memory and disk.
set -eu
program=$(realpath "$1")
runs=${2:-5}
[ $# -gt 2 ] && shift 2 || set -- record mix parts lengths second
exec python3 - "$program" "$runs" "$@" <<'PY'
import os
import shutil
import struct
import subprocess
import sys
import tempfile

PROGRAM, RUNS, PARTS = sys.argv[1], int(sys.argv[2]), sys.argv[3:]
SECONDS = int(os.environ.get('SECONDS', '60'))
RATE = 48000
SOX = shutil.which('sox')
SET = ('looper session 1\nrate 48000\nloops %d\ndry 0\nsync_source 0\nselected_loop_num 0\n'
       'fade_step 20\nlong_press 24000\npulse 24000\n%send\n')


def wav(path, channels, bits, frames):
    """A WAV file whose samples differ from one another."""
    step = channels * bits // 8
    block = b''.join(struct.pack('<i', (place * 7919 % 20001 - 10000) << 8)[:3][-bits // 8:]
                     for place in range(24576))
    with open(path, 'wb') as file:
        file.write(struct.pack('<4sI4s4sIHHIIHH4sI', b'RIFF', 36 + frames * step, b'WAVE', b'fmt ',
                               16, 1, channels, RATE, RATE * step, step, bits, b'data',
                               frames * step))
        for left in range(frames * step, 0, -len(block)):
            file.write(block[:left])


def session(name, lengths):
    """A session of loops of these lengths in frames."""
    lines = ''
    for index, length in enumerate(lengths):
        lines += 'loop %d %d %d 1000 1000 0 0 0\n' % (index, length, length)
        wav('%s-%d.wav' % (name, index), 2, 24, length)
    with open(name, 'w') as file:
        file.write(SET % (len(lengths), lines))


def journal(name, entries):
    with open(name, 'w') as file:
        file.write('looper journal 1\n')
        for number, (frame, command) in enumerate(entries):
            file.write('%d 0 %d %s\n' % (frame, number, command))
        file.write('end\n')


def processor(command):
    """The processor's seconds that one run takes."""
    with open(os.devnull, 'w') as nothing:
        run = subprocess.Popen(command, stdout=nothing, stderr=nothing)
        _, status, used = os.wait4(run.pid, 0)
    if status != 0:
        raise SystemExit('%s: status %d' % (' '.join(command), status >> 8))
    return used.ru_utime + used.ru_stime


def least(commands, runs=RUNS):
    """Of each command the least of the runs, which are made in turns."""
    turns = [[processor(command) for command in commands] for _ in range(runs)]
    return [min(column) for column in zip(*turns)]


def memory(command):
    """The greatest memory of a run, in KiB."""
    words = ['/usr/bin/time', '-f', '%M', '-o', 'memory'] + command
    subprocess.run(words, stdout=subprocess.DEVNULL, check=True)
    with open('memory') as file:
        return int(file.read())


def render(given, entries, options=()):
    return [PROGRAM, 'render', given, entries, 'out.wav'] + list(options)


def beside(title, command, other):
    """One line: the run, the other program's, and how many times as fast the run is."""
    if SOX:
        mine, theirs = least([command, other])
        print('%-44s %8.3f s, sox %8.3f s, ratio %.2f' % (title, mine, theirs, theirs / mine),
              flush=True)
    else:
        print('%-44s %8.3f s' % (title, least([command])[0]), flush=True)


def record():
    frames = 16777216
    wav('in.wav', 1, 16, frames)
    journal('half.txt', [(0, 'hit 0 record'), (frames // 2, 'hit 0 record')])
    command = render('in.wav', 'half.txt')
    beside('16,777,216 frames, half of them recorded', command, ['sox', 'in.wav', 'other.wav'])
    print('%.1f bytes a frame' % (memory(command) * 1024 / frames), flush=True)


def mix():
    frames = SECONDS * RATE
    wav('in.wav', 2, 24, frames)
    journal('none.txt', [])
    journal('play.txt', [(0, 'hit -1 trigger')])
    journal('one.txt', [(0, 'hit -1 trigger'), (0, 'hit 0 overdub')])
    journal('all.txt', [(0, 'hit -1 trigger'), (0, 'hit -1 overdub')])
    beside('no loop', render('in.wav', 'none.txt'), ['sox', 'in.wav', 'other.wav'])
    session('files', [frames] * 16)
    for loops in (1, 4, 16):
        files = ['files-%d.wav' % index for index in range(loops)]
        other = ['sox'] + (['-m'] if loops > 1 else []) + files + ['other.wav']
        runs = [('loaded alone', 'none.txt'), ('playing', 'play.txt')]
        if loops == 16:
            runs += [('playing, one overdubbing', 'one.txt'), ('all overdubbing', 'all.txt')]
        for length in (frames // 6, frames):
            session('set', [length] * loops)
            options = ['--session', 'set', '--chunks', '32768']
            for what, entries in runs:
                title = '%d loops of %d s, %s' % (loops, length // RATE, what)
                beside(title, render('in.wav', entries, options), other)


def a_frame(runs, frames):
    """Of each run the nanoseconds of a frame: what a long IN takes more than a short one."""
    pairs = [render(given, entries, options) for entries, options in runs
             for given in ('in.wav', 'short.wav')]
    told = least(pairs)
    return [(long - short) / frames * 1e9 for long, short in zip(told[::2], told[1::2])]


def parts():
    """What a frame takes while 4 loops do nothing, play or overdub."""
    frames = SECONDS * RATE
    wav('in.wav', 2, 16, frames + RATE)
    wav('short.wav', 2, 16, RATE)
    session('set', [frames + RATE] * 4)
    journal('none.txt', [])
    journal('play.txt', [(0, 'hit -1 trigger')])
    journal('all.txt', [(0, 'hit -1 trigger'), (0, 'hit -1 overdub')])
    loaded = ['--session', 'set', '--chunks', '32768']
    runs = [('none.txt', []), ('none.txt', ['--loops', '4']), ('none.txt', loaded),
            ('play.txt', loaded), ('all.txt', loaded)]
    titles = ['one empty loop', '4 empty loops', '4 paused loops', '4 loops that play',
              '4 loops that overdub']
    for title, told in zip(titles, a_frame(runs, frames)):
        print('%-24s %7.2f ns a frame' % (title, told), flush=True)


def lengths():
    """What a frame takes by the length and the layers of one loop that plays."""
    frames = 300 * RATE
    wav('in.wav', 2, 16, frames + RATE)
    wav('short.wav', 2, 16, RATE)
    options, runs, titles = ['--chunks', '8192'], [], []
    for seconds in (1, 60, 300):
        session('set%d' % seconds, [seconds * RATE])
        for layers in (1, 200):
            entries = [(0, 'hit 0 trigger')]
            for layer in range(layers - 1):
                begin = 100 * layer
                entries += [(begin, 'hit 0 overdub'), (begin + 50, 'hit 0 overdub')]
            journal('layers%d.txt' % layers, entries)
            runs.append(('layers%d.txt' % layers, ['--session', 'set%d' % seconds] + options))
            titles.append('a loop of %3d s, layers: %3d' % (seconds, layers))
    told = a_frame(runs, frames)
    for title, number in zip(titles, told):
        print('%s  %6.2f ns a frame' % (title, number), flush=True)
    print('the most beside the least: %.2f' % (max(told) / min(told)))


def second():
    wav('in.wav', 2, 16, RATE)
    journal('half.txt', [(0, 'hit 0 record'), (RATE // 2, 'hit 0 record')])
    command = render('in.wav', 'half.txt')
    # Such runs are short, so that more of them are made.
    mine, theirs = least([command, ['sox', 'in.wav', 'other.wav']] if SOX else [command] * 2,
                         20 * RUNS)
    held = sum(os.path.getsize(name) for name in ('in.wav', 'half.txt', 'out.wav'))
    print('one second: %.4f s, sox %.4f s; %d KiB, of which its files %d KiB'
          % (mine, theirs, memory(command), held // 1024), flush=True)


with tempfile.TemporaryDirectory(prefix='looper_bench_') as folder:
    os.chdir(folder)
    print('load: %s' % ' '.join('%.1f' % load for load in os.getloadavg()), flush=True)
    for part in PARTS:
        {'record': record, 'mix': mix, 'parts': parts, 'lengths': lengths,
         'second': second}[part]()
    os.chdir('/')
PY
