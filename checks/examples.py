#!/usr/bin/env python3
"""examples.py PROGRAM [FOLDER]: renders each session of examples/ and compares OUT, second by
second and sample by sample, with what the rules let be heard.

A second of OUT is the sum of some seconds of IN, counted from 0: [] is silence, [0, 2] the sum of
the first and the third. What is printed is compared too. The files stay in FOLDER where one is
given. The last line is 'N seconds as they should be, M not', and the exit status 0 where M is 0.
"""
import os
import shutil
import struct
import subprocess
import sys
import tempfile
import wave

HERE = os.path.join(os.path.dirname(os.path.dirname(os.path.abspath(__file__))), 'examples')

# Of each run: its folder, journal, OUT and options; the seconds of OUT; and what is printed.
RUNS = [
    ('first-loop', 'journal.txt', 'out.wav', [],
     [[], [0], [0]],
     ['frames 144000 entries 2 replies 0 saves 0 refused 0']),
    # A melody (second 2) over the phrase (0), undo, redo, clicks (6) over both, undo_all.
    ('layers', 'journal.txt', 'out.wav', [],
     [[], [0], [0], [0, 2], [0], [0, 2], [0, 2], [0, 2, 6], []],
     ['frames 144000 entries 9 replies 0 saves 0 refused 0']),
    # Two seconds of melody (1, 2) over two turns of the phrase, then bass (5) before them.
    ('multiply-and-insert', 'journal.txt', 'out.wav', [],
     [[], [0], [0], [0, 1], [0, 2], [], [0, 1], [0, 2], [5]],
     ['frames 144000 entries 6 replies 0 saves 0 refused 0']),
    # The second loop records second 2, is muted in second 5 and heard again in 6. Each of these
    # waits for the first loop to come round, half a second or less behind its hit.
    ('two-loops', 'journal.txt', 'out.wav', ['--loops', '2'],
     [[], [0], [0], [0, 2], [0, 2], [0], [0, 2]],
     ['frames 112000 entries 8 replies 0 saves 0 refused 0']),
    ('saved-session', 'journal.txt', 'out.wav', ['--loops', '2'],
     [[], [0], [1], [1]],
     ['reply 0 4 -2 save_session 0', 'frames 64000 entries 7 replies 1 saves 1 refused 0']),
    ('saved-session', 'again.txt', 'again.wav', ['--session', 'take'],
     [[], [0, 1], [1], [0, 1]],
     ['frames 64000 entries 3 replies 0 saves 0 refused 0']),
]


def seconds_of(path):
    """The rate, and the samples of a file of one channel of 16 bits, a list for each second."""
    with wave.open(path, 'rb') as file:
        if (file.getnchannels(), file.getsampwidth()) != (1, 2):
            raise SystemExit('%s has another form' % path)
        rate, frames = file.getframerate(), file.getnframes()
        samples = struct.unpack('<%dh' % frames, file.readframes(frames))
    return rate, [list(samples[at:at + rate]) for at in range(0, frames, rate)]


def summed(seconds, rate):
    """The sum of some seconds, clamped to 16 bits."""
    return [max(-32768, min(32767, sum(samples))) for samples in zip([0] * rate, *seconds)]


def rendered(program, folder, run):
    """Renders a session, and says whether it ends and prints as it should."""
    example, journal, out, options, _, lines = run
    source = os.path.join(HERE, example)
    for name in os.listdir(source):
        if name.endswith(('.wav', '.txt')):
            shutil.copy(os.path.join(source, name), folder)
    command = [program, 'render', 'in.wav', journal, out] + options
    done = subprocess.run(command, cwd=folder, stdout=subprocess.PIPE)
    told, status = done.stdout.decode(), done.returncode
    if status == 0 and told == ''.join(line + '\n' for line in lines + ['status 0']):
        return True
    print('%s, %s: status %d, and this was printed:\n%s' % (example, journal, status, told))
    return False


def judged(folder, run):
    """Says of each second whether it is as it should be. Gives how many are, and aren't."""
    example, _, out, _, wanted, _ = run
    rate, given = seconds_of(os.path.join(folder, 'in.wav'))
    _, heard = seconds_of(os.path.join(folder, out))
    if len(heard) != len(wanted):
        print('%s, %s: %d seconds, not %d' % (example, out, len(heard), len(wanted)))
        return 0, 1
    good = 0
    for number, (was, parts) in enumerate(zip(heard, wanted), 1):
        text = ' + '.join('second %d of in.wav' % (part + 1) for part in parts) or 'silence'
        right = was == summed([given[part] for part in parts], rate)
        good += right
        told = text if right else 'something else than ' + text
        print('%s/%s, second %d: %s' % (example, out, number, told))
    return good, len(wanted) - good


def main():
    program = os.path.abspath(sys.argv[1])
    base = sys.argv[2] if len(sys.argv) > 2 else tempfile.mkdtemp(prefix='looper_examples_')
    good = bad = 0
    for run in RUNS:
        folder = os.path.join(base, run[0])
        os.makedirs(folder, exist_ok=True)
        right, wrong = judged(folder, run) if rendered(program, folder, run) else (0, 1)
        good, bad = good + right, bad + wrong
    if len(sys.argv) <= 2:
        shutil.rmtree(base)
    print('%d seconds as they should be, %d not' % (good, bad))
    sys.exit(1 if bad else 0)


if __name__ == '__main__':
    main()
