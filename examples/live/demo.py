#!/usr/bin/env python3
"""demo.py PROGRAM FOLDER: plays a session live, and renders its journal over the same input.

No sound card is needed: `looper live` gets in.wav over a pipe, as fast as it reads, the commands of sent.txt as OSC over this
machine's loopback, and the bytes of pedal.midi over a FIFO. A line of sent.txt is a second of in.wav and a command in the journal's
words, or `pedal N` for the next N bytes. All files stay in FOLDER, which must not be there yet. Needs Python 3 alone.
"""
import os
import shutil
import sys
import time

HERE = os.path.dirname(os.path.realpath(__file__))
sys.path.insert(0, os.path.join(os.path.dirname(os.path.dirname(HERE)), 'checks'))
from live_session import Again, Failure, Live, samples_of  # noqa: E402

RATE, PERIOD = 16000, 1000
OPTIONS = ['--midi', 'pedal', '--bind', 'bindings.txt', '--journal', 'journal.txt']
# What is in the folder before the session, or is made by the demo.
OWN = ['pedal', 'bindings.txt', 'journal.txt', 'out.raw']


class Pedal:
    """The bytes of pedal.midi, which go into the FIFO a few at a time."""

    def __init__(self, path):
        with open(os.path.join(HERE, 'pedal.midi'), 'rb') as file:
            self.left = file.read()
        os.mkfifo(path)
        self.file = os.open(path, os.O_RDWR)

    def press(self, count):
        """Gives the next bytes, and waits a moment, since nothing answers MIDI."""
        now, self.left = self.left[:count], self.left[count:]
        os.write(self.file, now)
        time.sleep(0.05)
        return now.hex(' ')


def schedule():
    """The frame, the second and the words of each line."""
    with open(os.path.join(HERE, 'sent.txt')) as file:
        for line in file:
            second, _, words = line.strip().partition(' ')
            yield round(float(second) * RATE), second, words


def play(live, pedal):
    """Plays the whole list. A question is answered once the frames behind it are played."""
    for frame, second, words in schedule():
        live.play_to(frame)
        if words.startswith('pedal '):
            print('second %-4s MIDI %s' % (second, pedal.press(int(words[6:]))))
        else:
            live.do(words)
            print('second %-4s OSC  %s' % (second, words))
        live.heard()
    return live.finish()


def told(live, again):
    """Prints what was answered, the journal, and what live said."""
    print()
    paths = {path: text for text, path in live.sent}
    for address, args in live.answers:
        if address in paths:
            print('%-20s was answered %s' % (paths[address], ' '.join(map(str, args))))
    print('\njournal.txt, in frames of %d a second:' % RATE)
    for entry in again.entries:
        print('%d %d %d %s' % entry)
    print('\n' + live.told.strip())


def main():
    program, folder = os.path.abspath(sys.argv[1]), os.path.abspath(sys.argv[2])
    os.makedirs(folder)
    shutil.copy(os.path.join(HERE, 'bindings.txt'), folder)
    pedal = Pedal(os.path.join(folder, 'pedal'))
    audio = samples_of(os.path.join(HERE, 'in.wav'))
    live = Live(program, folder, audio, channels=1, period=PERIOD, rate=RATE, words=OPTIONS)
    try:
        status = play(live, pedal)
    finally:
        live.stop()
    again = Again(live, 'journal.txt')
    told(live, again)
    again.judge(status == 0, 'live ended with %d' % status)
    again.sound()
    files = again.files(OWN)
    again.numbers()
    again.answers(again.accepted())
    with open(os.path.join(folder, 'out.raw'), 'wb') as file:
        file.write(live.out)
    for line in again.wrong:
        print(line)
    if not again.wrong:
        print('\nsaved files that are the same: %d' % files)
        print('live and render agree: %d frames, %d entries' % (again.closing['frames'], again.closing['entries']))
    return 1 if again.wrong else 0


if __name__ == '__main__':
    try:
        sys.exit(main())
    except Failure as failure:
        print(failure)
        sys.exit(1)
