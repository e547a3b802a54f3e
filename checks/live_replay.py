#!/usr/bin/env python3
"""live_replay.py PROGRAM [CASE..]: what is played live is what `render` makes of its journal, byte for byte.

Sessions are played through the running program over pipes, loopback and FIFOs: in periods of 1 to 8192 frames, mono and stereo, with
a save and a session saved in the middle of an overdub, twenty undos at once, MIDI, a session that is loaded again, an end of the
input and an end by /quit. Of each the journal is rendered over the same input. Sound and saved files have to be the same; each
command that was accepted stands in the journal once and in its order; each question was answered once, and as `render` answers it;
and the closing line tells the same numbers. When a command acts differs from run to run in some of them, and nothing that is judged
depends on it. The last line is 'N passed, M failed', and the exit status 0 where M is 0.
"""
import os
import shutil
import subprocess
import sys
import tempfile
import threading
import time

from live_session import TOP, Again, Failure, Live, noise, osc

PROGRAM = os.path.abspath(sys.argv[1])
JOURNAL = ['--journal', 'journal.txt']
BINDINGS = """looper bindings 1
on 1 60 hit 0 overdub
on 1 61 hit 0 undo
off 1 61 hit 0 redo
cc 2 64 down 0 mute
co 2 64 up 0 mute
pc 16 5 hit -1 reverse
cv 1 7 set 0 wet 0 1000
end
"""
# MIDI bytes and the commands that they are bound to. Running status, a clock in a note and system exclusive are among them.
PRESSES = [('90 3c 40', ['hit 0 overdub']), ('3c 40', ['hit 0 overdub']), ('90 3d f8 01', ['hit 0 undo']),
           ('90 3d 00', ['hit 0 redo']), ('f0 7d 90', []), ('3d', []), ('7f 90 7f 7f', ['hit 0 undo']), ('b1 40 40', ['down 0 mute']),
           ('40 3f', ['up 0 mute']), ('cf 05', ['hit -1 reverse']), ('05', ['hit -1 reverse']), ('b0 07 40', ['set 0 wet 503']),
           ('07 7f', ['set 0 wet 1000']), ('80 3d 40', ['hit 0 redo']), ('3c 40', []), ('b0 07 00', ['set 0 wet 0'])]
passed, failed = 0, 0


def judge(title, wrong):
    global passed, failed
    if wrong:
        failed += 1
        print('\n'.join('%s: %s' % (title, line) for line in wrong[:5]))
    else:
        passed += 1


def judged(title, live, status, begun=(), passed_over=('journal.txt',), all_of_them=True, files=None):
    """Renders the journal and compares."""
    again = Again(live, 'journal.txt', begun)
    again.judge(status == 0, 'status %d, and it said: %s' % (status, live.told.strip()))
    again.sound()
    again.numbers()
    again.answers(again.accepted(all_of_them))
    count = again.files(passed_over)
    again.judge(files is None or count == files, '%d files are saved' % count)
    judge(title, again.wrong)
    return again


def take(live):
    """Two loops with most of what can be done to them, from the second period on. Some saves are waited for."""
    step = 5 * live.period
    frame = 2 * live.period
    live.at(frame, 'gset dry 300', 'set -1 feedback 900', 'hit 0 record', 'gget dry')
    live.at(frame + step, 'hit 0 record', 'get 0 loop_len', 'hit 1 record', 'down 1 overdub')
    live.at(frame + 2 * step, 'up 1 overdub', 'get 1 loop_len', 'hit 0 overdub', 'get 0 state')
    frame = live.at_answer(frame + 3 * step, 'save 0 take.wav')
    live.at(frame, 'get 0 layers', 'get 0 state')
    frame = live.at_answer(frame + live.period, 'session set')
    live.at(frame, 'get 0 state', 'session other', 'save 1 other.wav', 'get -3 loop_pos')
    live.at(frame + step, 'hit 0 overdub', 'hit 0 multiply', 'save 0 again.wav')
    live.at(frame + 2 * step, 'hit 0 multiply', 'get 0 cycle_len', 'gset sync_source 1', 'set 1 quantize 1', 'hit 1 mute')
    live.at(frame + 3 * step, 'get 1 waiting', 'hit 0 insert', 'hit -1 reverse')
    live.at(frame + 4 * step, *['hit 0 undo'] * 20 + ['get 0 layers', 'get 0 redo_layers'])
    live.at(frame + 5 * step, *['hit 0 redo'] * 3 + ['hit 0 oneshot', 'get 0 loop_len', 'session late'])
    live.do_all(['hit 0 replace', 'hit 0 replace'] * 10 + ['get 0 free_time', 'get 0 refused', 'save 0 last.wav', 'save 1 empty.wav'])
    live.heard()
    live.play_to(frame + 7 * step)


def run(title, folder, channels, period, chunks):
    """One take, which ends with its input, in the middle of a period."""
    live = Live(PROGRAM, folder, noise(period, 1100 * period, channels), channels, period,
                words=JOURNAL + ['--loops', '2', '--chunks', str(chunks)])
    try:
        take(live)
        status = live.finish(more=False)
    finally:
        live.stop()
    judged(title, live, status)


def ended_by_quit(folder):
    """The turn in which the quit is taken is the last one. What is sent behind it is refused."""
    period = 128
    live = Live(PROGRAM, folder, noise(5, 1100 * period, 2), 2, period, words=JOURNAL)
    try:
        live.at(period, 'hit 0 record')
        live.at(8 * period, 'hit 0 record', 'hit 0 overdub')
        frame = live.at_answer(9 * period, 'session set') + period
        live.at(frame, 'save 0 take.wav', 'get 0 loop_len', 'quit')
        kept = list(live.sent)
        for text in ('hit 0 overdub', 'get 0 state', 'save 0 late.wav', 'quit'):
            live.do(text)
        live.heard()
        live.sent = kept
        status = live.finish(close=False)
    finally:
        live.stop()
    again = judged('an end by /quit', live, status, files=3)
    judge('the frames behind a quit', [] if again.closing.get('frames') == frame + period else ['%s' % again.closing])
    judge('what is refused behind a quit', [] if live.refusals('OSC') == 4 else [live.told])


def without_frames(folder):
    """The input is over at once: what OSC hears until then acts at frame 0."""
    live = Live(PROGRAM, folder, b'', 1, 64, words=JOURNAL)
    try:
        live.do('get 0 loop_len')
        live.heard()
        status = live.finish()
    finally:
        live.stop()
    again = judged('no frames', live, status)
    judge('the answer at frame 0', [] if [entry[0] for entry in again.entries] == [0] else ['%s' % again.entries])


def midi(folder, fifo):
    """Bytes of MIDI, over a FIFO while it plays or from a file at once."""
    period = 64
    path = os.path.join(folder, 'pedal')
    with open(os.path.join(folder, 'bindings.txt'), 'w') as file:
        file.write(BINDINGS)
    with open(path, 'wb') as file:
        file.write(b''.join(bytes.fromhex(text) for text, _ in PRESSES))
    if fifo:
        os.remove(path)
        os.mkfifo(path)
        pedal = os.open(path, os.O_RDWR)
    live = Live(PROGRAM, folder, noise(9, 2100 * period, 2), 2, period,
                words=JOURNAL + ['--midi', 'pedal', '--bind', 'bindings.txt', '--loops', '2'])
    try:
        live.at(period, 'hit 0 record')
        live.at(10 * period, 'hit 0 record')
        for number, (text, _) in enumerate(PRESSES):
            live.play_to((12 + 3 * number) * period)
            if fifo:
                os.write(pedal, bytes.fromhex(text))
            live.do('get 0 state')
        come = is_told(live, 'wet', 0)
        status = live.finish(more=False)
    finally:
        live.stop()
        if fifo:
            os.close(pedal)
    title = 'MIDI from a %s' % ('FIFO' if fifo else 'file')
    again = judged(title, live, status, passed_over=('journal.txt', 'pedal', 'bindings.txt'))
    wanted = [command for _, commands in PRESSES for command in commands]
    found = [entry[3] for entry in again.entries if entry[1] == 1]
    judge('the commands of ' + title, [] if come and found == wanted else ['%s, and not %s' % (found, wanted)])


def is_told(live, control, value):
    """Plays on, period by period, until loop 0 tells this value of the control."""
    for turn in range(60, 1990):
        path = live.do('get 0 ' + control)
        live.play_to(turn * live.period)
        live.heard()
        live.play_to((turn + 1) * live.period)
        live.wait(lambda: live.count(path), 'the value of ' + control)
        if (path, [0, control, value]) in live.answers:
            return True
        time.sleep(0.002)
    return False


def loaded(folder, begun):
    """The session that was saved in the middle of an overdub is loaded and played on."""
    for name in begun:
        shutil.copy(begun[name], os.path.join(folder, name))
    period = 64
    live = Live(PROGRAM, folder, noise(21, 2200 * period, 2), 2, period, words=JOURNAL + ['--session', 'set'])
    try:
        live.at(period, 'hit -1 trigger', 'get 0 loop_len', 'get 1 loop_len', 'get 0 feedback')
        live.at(9 * period, 'hit 0 overdub', 'hit 1 substitute')
        frame = live.at_answer(20 * period, 'session set')
        live.at(frame + period, 'hit -1 undo', 'get 0 layers')
        live.at_answer(frame + 9 * period, 'save 0 take.wav')
        status = live.finish(more=False)
    finally:
        live.stop()
    again = judged('a session loaded', live, status, begun)
    judge('the files of a session loaded', [] if os.path.exists(os.path.join(again.folder, 'take.wav')) else ['no take.wav'])


def all_words(folder):
    """Every verb and control that tools/send knows, at both ends of its range, over 16 loops: all are accepted and answered."""
    live = Live(PROGRAM, folder, noise(50, 60 * 64, 2), 2, 64, words=JOURNAL + ['--loops', '16', '--chunks', '64'])
    texts = ['%s %d %s' % (way, loop, verb) for way in ('hit', 'down', 'up') for verb in osc.VERBS for loop in (-3, -1, 15)]
    texts += ['set -1 %s %d' % (control, edge) for control in osc.SET for edge in osc.SET[control]]
    texts += ['gset %s %d' % (control, edge) for control in osc.GLOBAL for edge in osc.GLOBAL[control]]
    texts += ['get -3 ' + control for control in (*osc.SET, *osc.READ)] + ['gget ' + control for control in osc.GLOBAL]
    try:
        for number in range(0, len(texts), 20):
            live.play_to((number // 20 + 1) * 64)
            live.do_all(texts[number:number + 20])
            live.heard()
        status = live.finish()
    finally:
        live.stop()
    judged('all verbs and controls', live, status)


def hurried(folder):
    """The input comes as fast as it is read, and commands in bundles beside it. Some may find their ring full."""
    live = Live(PROGRAM, folder, noise(33, 480000, 2), 2, 256, words=JOURNAL)
    feeding = threading.Thread(target=live.feed, args=(len(live.audio),))
    try:
        feeding.start()
        for number in range(30):
            live.do_all(['set 0 feedback %d' % (number * 30 + k) if k % 3 else 'hit 0 %s' % ('record', 'overdub', 'undo')[k // 3 % 3]
                         for k in range(30)] + ['get 0 loop_len', 'get 0 layers', 'gget dry', 'save 0 s%d.wav' % number])
            live.heard()
        live.do('quit')
        live.heard()
        feeding.join()
        status = live.finish()
    finally:
        live.stop()
    judged('a hurried session', live, status, all_of_them=False)


def demo(folder):
    done = subprocess.run([sys.executable, os.path.join(TOP, 'examples', 'live', 'demo.py'), PROGRAM, os.path.join(folder, 'demo')],
                          stdout=subprocess.PIPE, stderr=subprocess.STDOUT)
    text = done.stdout.decode()
    good = done.returncode == 0 and text.split('\n')[-2].startswith('live and render agree: 144000 frames, 15 entries')
    judge('the demo', [] if good else [text])


def main():
    with tempfile.TemporaryDirectory(prefix='looper_live_') as top:
        def case(name, play, *words, **more):
            folder = os.path.join(top, name)
            os.mkdir(folder)
            if sys.argv[2:] and name not in sys.argv[2:]:
                return folder
            try:
                play(*words, folder=folder, **more)
            except Failure as failure:
                judge(name, [str(failure)])
            return folder

        kept = None
        for channels, period, chunks in [(1, 1, 4096), (2, 1, 1), (2, 64, 4096), (1, 250, 4), (2, 1024, 12), (1, 8192, 4096),
                                         (2, 8192, 90)]:
            title = '%s in periods of %d with %d chunks' % (('mono', 'stereo')[channels - 1], period, chunks)
            kept = case('take-%d-%d' % (channels, period), run, title, channels=channels, period=period, chunks=chunks)
        case('quit', ended_by_quit)
        case('none', without_frames)
        case('fifo', midi, fifo=True)
        case('file', midi, fifo=False)
        begun = {name: os.path.join(kept, name) for name in os.listdir(kept) if name == 'set' or name.startswith('set-')}
        case('loaded', loaded, begun=begun)
        case('words', all_words)
        case('hurried', hurried)
        case('demo', demo)
    print('live and render: %d passed, %d failed' % (passed, failed))
    sys.exit(failed != 0)


if __name__ == '__main__':
    main()
