#!/bin/sh
# Measures a live session: `looper live` fed over pipes, played over loopback.
#
#   bench/live.sh PROGRAM [RUNS [PART..]]
#
# The parts are: `speed` (SECONDS seconds of 1, 4 and 16 stereo loops from a session, which play, or of which one or all overdub, fed
# as fast as they are read, in periods of 64, 256 and 1024: times real time, and the processor's time beside that of `render` of the
# journal that was written, in the same run), `idle` (the processor's share of a session fed in real time), `start` (from the start to
# the first answered ping, with the default options) and `gets` (20,000 questions at once: accepted, refused and dropped by the kernel
# add up). Without a PART all are measured. Times are the least of RUNS runs (3), starts the median. It needs python3 alone.
set -eu
program=$(realpath "$1")
runs=${2:-3}
top=$(cd "$(dirname "$0")/.." && pwd)
[ $# -gt 2 ] && shift 2 || set -- speed idle start gets
PYTHONPATH=$top/checks exec python3 - "$program" "$runs" "$@" <<'PY'
import os
import resource
import statistics
import struct
import subprocess
import sys
import tempfile
import threading
import time

from live_session import Live, drops, noise, osc, write_wav

PROGRAM, RUNS, PARTS = sys.argv[1], int(sys.argv[2]), sys.argv[3:]
SECONDS = int(os.environ.get('SECONDS', '60'))
RATE = 48000
SET = ('looper session 1\nrate 48000\nloops %d\ndry 0\nsync_source 0\nselected_loop_num 0\n'
       'fade_step 20\nlong_press 24000\npulse 24000\n%send\n')
JOURNAL = ['--journal', 'journal.txt']


def session(loops, length):
    """A session of so many stereo loops of 24 bits in the working directory."""
    block = b''.join(struct.pack('<i', (place * 7919 % 20001 - 10000) << 8)[1:] for place in range(2 * length))
    head = struct.pack('<4sI4s4sIHHIIHH4sI', b'RIFF', 36 + len(block), b'WAVE', b'fmt ', 16, 1, 2, RATE, RATE * 6, 6, 24, b'data',
                       len(block))
    lines = ''
    for index in range(loops):
        lines += 'loop %d %d %d 1000 1000 0 0 0\n' % (index, length, length)
        with open('set-%d.wav' % index, 'wb') as file:
            file.write(head + block)
    with open('set', 'w') as file:
        file.write(SET % (loops, lines))


def processor():
    """The processor's seconds of the children that have ended."""
    used = resource.getrusage(resource.RUSAGE_CHILDREN)
    return used.ru_utime + used.ru_stime


def beginning(live, texts):
    """Sends commands before any frame is played."""
    for text in texts:
        live.do(text)
    live.heard()


def ended(live):
    """The processor's seconds of the program, behind its end."""
    before = processor()
    status = live.finish()
    if status != 0:
        raise SystemExit('status %d: %s' % (status, live.told))
    return processor() - before


def fed(audio, period, texts, words):
    """A session fed as fast as it reads: seconds of the clock for all frames, and of the processor in all."""
    live = Live(PROGRAM, os.getcwd(), audio, 2, period, words=JOURNAL + words)
    try:
        beginning(live, texts)
        begin = time.monotonic()
        live.feed(len(audio))
        live.wait(lambda: len(live.out) >= len(audio), 'the sound', seconds=600)
        took = time.monotonic() - begin
        return took, ended(live)
    finally:
        live.stop()


def rendered(period, words):
    before = processor()
    subprocess.run([PROGRAM, 'render', 'in.wav', 'journal.txt', 'out.wav', '--period', str(period)] + words, stdout=subprocess.DEVNULL,
                   check=True)
    return processor() - before


def speed():
    # Whole periods of each size: what is left of one is played only where the input ends.
    audio = noise(1, RATE * SECONDS // 1024 * 1024, 2)
    write_wav('in.wav', 2, RATE, audio)
    words = ['--session', 'set', '--chunks', '32768']
    for loops in (1, 4, 16):
        session(loops, RATE * SECONDS // 6)
        for what, texts in (('playing', []), ('one overdubbing', ['hit 0 overdub']), ('all overdubbing', ['hit -1 overdub'])):
            for period in (64, 256, 1024):
                took, live, render = [], [], []
                for _ in range(RUNS):
                    clock, used = fed(audio, period, ['hit -1 trigger'] + texts, words)
                    took.append(clock)
                    live.append(used)
                    render.append(rendered(period, words))
                print('%2d loops, %-16s period %4d: %6.0f times real time; live %.3f s, render %.3f s, ratio %.2f' % (
                    loops, what + ',', period, SECONDS / min(took), min(live), min(render), min(live) / min(render)), flush=True)


def in_real_time(live, seconds):
    """Feeds a period each time that one is due."""
    begin, size = time.monotonic(), live.period * live.step
    for turn in range(1, seconds * live.rate // live.period + 1):
        left = begin + turn * live.period / live.rate - time.monotonic()
        if left > 0:
            time.sleep(left)
        live.feed(turn * size)
    return time.monotonic() - begin


def times_of(child):
    """The processor's seconds of a program that runs."""
    with open('/proc/%d/stat' % child.pid) as file:
        words = file.read().rsplit(') ', 1)[1].split(' ')
    return (int(words[11]) + int(words[12])) / os.sysconf('SC_CLK_TCK')


def idle():
    seconds = 10
    for period in (64, 256, 1024):
        live = Live(PROGRAM, os.getcwd(), noise(2, RATE, 2) * (seconds + 1), 2, period, words=JOURNAL)
        try:
            live.heard()
            before = times_of(live.child)
            took = in_real_time(live, seconds)
            used = times_of(live.child) - before
            ended(live)
        finally:
            live.stop()
        print('idle in real time, period %4d: %.1f %% of one processor over %.1f s' % (period, 100 * used / took, took), flush=True)


def start():
    """From the start to the first answered ping. A ping is sent each millisecond."""
    for words in ([], ['--chunks', '32768']):
        told = []
        for _ in range(5 * RUNS):
            live = Live(PROGRAM, os.getcwd(), b'', 2, 1024, words=words, listens=False)
            try:
                while live.first is None:
                    live.send(osc.message('/ping', '', '/first'))
                    time.sleep(0.001)
                    if time.monotonic() - live.began > 10:
                        raise SystemExit('no ping was answered: %s' % live.told)
                told.append(live.first - live.began)
                ended(live)
            finally:
                live.stop()
        print('start to the first answered ping%s: median %.3f s, most %.3f s, of %d' % (
            ', 32768 chunks' if words else '', statistics.median(told), max(told), len(told)), flush=True)


def gets():
    count = 20000
    for words in ([], ['--quota', '5000']):
        live = Live(PROGRAM, os.getcwd(), noise(3, RATE, 2) * 600, 2, 1024, words=JOURNAL + words)
        feeding = threading.Thread(target=live.feed, args=(len(live.audio),))
        try:
            packet = osc.message('/sl/0/get', 'loop_len', '', '/answer/0')
            feeding.start()
            begin = time.monotonic()
            for _ in range(count):
                live.send(packet)
            took = time.monotonic() - begin
            live.heard()
            lost = drops(live.port)
            live.do('quit')
            feeding.join()
            live.finish()
        finally:
            live.stop()
        # The quit was sent beside them, and pings; one whose answer didn't come may have been dropped on either way.
        accepted, refused = live.closing()['osc'], live.refusals('OSC')
        beside = 1 + live.pings - sum(address.startswith('/here/') for address, _ in live.answers)
        print('%d gets in %.2f s%s: %d commands accepted, %d answers (%d more dropped here), %d refused, %d packets dropped by the kernel: %s' % (
            count, took, ' with a quota of 5000' if words else '', accepted, live.count('/answer/0'), live.missed, refused, lost,
            'they add up' if count < accepted + refused + lost <= count + beside else 'they do not add up'), flush=True)


with tempfile.TemporaryDirectory(prefix='looper_bench_') as folder:
    os.chdir(folder)
    print('load: %s' % ' '.join('%.1f' % load for load in os.getloadavg()), flush=True)
    for part in PARTS:
        {'speed': speed, 'idle': idle, 'start': start, 'gets': gets}[part]()
    os.chdir('/')
PY
