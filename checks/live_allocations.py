#!/usr/bin/env python3
"""live_allocations.py PROGRAM [FIRST [LAST]]: a live session, played again and again, in each run of which one allocation is refused.

The session hears OSC over loopback and MIDI from a file: it records a loop, asks for its length, saves it, and ends with its input. A
library that is put in front of the C library counts malloc, calloc and realloc, whether the program or the C library calls them, and
refuses the one with the run's number. Which one that is behind the start differs a little from run to run, as its threads take turns.

Each run has to end by itself, with a status, its sound and its files as wanted. With 0 all is as ever, but that a save may be answered
4, or OSC heard only behind the audio, where no thread could be made for it. With 8 nothing was played; or all was, and what is saved
and in the journal is as `render` makes it, or no journal is there. With 4 or 7 it is said that MIDI or the port couldn't be had. Each
kind of end is told with its numbers. The last line is 'N passed, M failed', and the exit status 0 where M is 0. Needs Linux and `cc`.
"""
import os
import shutil
import struct
import subprocess
import sys
import tempfile
import time

from live_session import Again, Failure, Live, noise

PERIOD, PERIODS = 64, 60
OPTIONS = ['--midi', 'pedal', '--bind', 'bindings.txt', '--journal', 'journal.txt', '--chunks', '4', '--quota', '64']
BINDINGS = 'looper bindings 1\non 1 60 hit 0 overdub\ncv 1 7 set 0 feedback 0 1000\nend\n'
PEDAL = bytes.fromhex('903c40b0077f')
OWN = ['pedal', 'bindings.txt', 'journal.txt']
# How long one answer of the program is waited for.
SECONDS = 5
REFUSING = r'''
#include <errno.h>
#include <fcntl.h>
#include <stdatomic.h>
#include <stdlib.h>
#include <sys/mman.h>
#include <unistd.h>

void *__libc_malloc(size_t), *__libc_calloc(size_t, size_t), *__libc_realloc(void *, size_t);
static unsigned long refused;
static _Atomic unsigned long *count;

__attribute__((constructor)) static void begin(void) {
    refused = strtoul(getenv("REFUSED"), NULL, 10);
    int file = open(getenv("COUNTED"), O_RDWR);
    void *page = mmap(NULL, sizeof *count, PROT_READ | PROT_WRITE, MAP_SHARED, file, 0);
    close(file);
    count = page == MAP_FAILED ? NULL : page;
}

static int is_refused(void) {
    if (count == NULL || atomic_fetch_add(count, 1) + 1 != refused) return 0;
    errno = ENOMEM;
    return 1;
}

void *malloc(size_t size) { return is_refused() ? NULL : __libc_malloc(size); }
void *calloc(size_t number, size_t size) { return is_refused() ? NULL : __libc_calloc(number, size); }
void *realloc(void *old, size_t size) { return is_refused() ? NULL : __libc_realloc(old, size); }
'''


class Refused(Live):
    """A session of which the allocation with this number is refused."""

    def __init__(self, program, top, number):
        self.number_refused, self.library, self.counted = number, os.path.join(top, 'refusing.so'), os.path.join(top, 'counted')
        with open(self.counted, 'wb') as file:
            file.write(bytes(8))
        self.deaf = False
        super().__init__(program, given_folder(top), noise(number, PERIODS * PERIOD, 1), 1, PERIOD, words=OPTIONS, listens=False)

    def command(self, port):
        return ['env', 'LD_PRELOAD=' + self.library, 'REFUSED=%d' % self.number_refused,
                'COUNTED=' + self.counted] + super().command(port)

    def wait(self, holds, what, seconds=SECONDS, pause=0.05):
        """Where it listens may be left unsaid."""
        may_lack = what == 'where it listens'
        try:
            super().wait(holds, what, 1 if may_lack else min(seconds, SECONDS), pause)
        except Failure:
            if not may_lack:
                raise

    def heard(self):
        """Waits until all packets that were sent are heard, or will no longer be."""
        self.deaf = self.deaf or not self.is_there(SECONDS)

    def count_of_allocations(self):
        with open(self.counted, 'rb') as file:
            return struct.unpack('=Q', file.read())[0]


def given_folder(top):
    """The session's folder with its bindings and the bytes of MIDI alone."""
    folder = os.path.join(top, 'session')
    shutil.rmtree(folder, ignore_errors=True)
    os.mkdir(folder)
    with open(os.path.join(folder, 'bindings.txt'), 'w') as file:
        file.write(BINDINGS)
    with open(os.path.join(folder, 'pedal'), 'wb') as file:
        file.write(PEDAL)
    return folder


def play(live):
    """Plays the session, and gives its status."""
    live.heard()
    live.at(2 * PERIOD, 'hit 0 record')
    live.at(6 * PERIOD, 'hit 0 record', 'get 0 loop_len')
    live.play_to(8 * PERIOD)
    path = live.do('save 0 take.wav')
    live.heard()
    for turn in range(9, PERIODS):
        live.play_to(turn * PERIOD)
        if live.deaf or live.count(path):
            break
        time.sleep(0.005)
    return live.finish()


def outcome_of_save(live):
    """What the save was answered, or None."""
    return next((args[-1] for _, args in live.answers if args[1:2] == ['save_loop']), None)


def is_there(live, name):
    return os.path.exists(os.path.join(live.folder, name))


def replayed(live, status):
    """What differs from the render of the session's journal."""
    again = Again(live, 'journal.txt')
    again.sound()
    again.files(OWN if is_there(live, 'take.wav') else OWN + ['take.wav'])
    again.judge(is_there(live, 'take.wav') == (outcome_of_save(live) == 0) or live.deaf, 'take.wav is there or not as it isn\'t told')
    if live.closing():
        again.numbers()
    if status == 0 and not live.deaf:
        again.answers(again.accepted())
    return again.wrong


def wrong_with(live, status):
    """What is wrong with an end."""
    others = set(os.listdir(live.folder)) - set(OWN) - {'take.wav'}
    if status not in (0, 4, 7, 8) or others:
        return ['status %d, files %s, and it said: %s' % (status, sorted(others), live.told.strip())]
    if status == 8 and not live.out:
        left = [name for name in ('journal.txt', 'take.wav') if is_there(live, name)]
        return ['nothing was played, and %s is there' % left] if left or live.closing() else []
    if len(live.out) != len(live.audio):
        return ['%d bytes of %d were played' % (len(live.out), len(live.audio))]
    if status in (4, 7) and ('cannot read MIDI from pedal: ', 'cannot hear OSC at port ')[status == 7] not in live.told:
        return ['status %d, and it said: %s' % (status, live.told.strip())]
    if is_there(live, 'journal.txt'):
        return replayed(live, status)
    return [] if status == 8 else ['status %d without a journal' % status]


def told_end(live, status):
    """An end in words."""
    if not live.out:
        return 'status %d, nothing is played' % status
    save = outcome_of_save(live)
    said = ['status %d' % status, 'all is played']
    said += ['MIDI is not read'] * ('cannot read MIDI' in live.told) + ['OSC is not heard'] * ('cannot hear OSC' in live.told)
    said += ['OSC ends or comes behind the audio'] * (live.deaf and 'cannot hear OSC' not in live.told)
    said += ['the save is answered %s' % save] * bool(save) + ['no take.wav'] * (not is_there(live, 'take.wav'))
    said += ['no journal'] * (not is_there(live, 'journal.txt')) + ['no closing line'] * (not live.closing())
    said += ['where it listens is not said'] * ('OSC at' not in live.told and 'cannot hear OSC' not in live.told)
    return ', '.join(said)


def ranges(numbers):
    """Numbers that rise, those in a row as `FIRST to LAST`."""
    rows = []
    for number in numbers:
        if rows and rows[-1][1] == number - 1:
            rows[-1][1] = number
        else:
            rows.append([number, number])
    return ', '.join('%d' % first if first == last else '%d to %d' % (first, last) for first, last in rows)


def run(program, top, number):
    """One run, and another where its port was taken: how it ended in words, what is wrong with it, and how many allocations it had."""
    live = Refused(program, top, number)
    try:
        status = play(live)
    except Failure as failure:
        return 'no end', [str(failure)], live.count_of_allocations()
    finally:
        live.stop()
    if 'in use' in live.told:
        return run(program, top, number)
    try:
        return told_end(live, status), wrong_with(live, status), live.count_of_allocations()
    except Failure as failure:
        return told_end(live, status), [str(failure)], live.count_of_allocations()


def main():
    program, ends, passed, failed = os.path.abspath(sys.argv[1]), {}, 0, 0
    with tempfile.TemporaryDirectory(prefix='looper_allocations_') as top:
        subprocess.run(['cc', '-O2', '-shared', '-fPIC', '-x', 'c', '-', '-o', os.path.join(top, 'refusing.so')],
                       input=REFUSING.encode(), check=True)
        told, wrong, last = run(program, top, 0)
        print('none is refused, of %d: %s' % (last, told))
        passed, failed = passed + (not wrong), failed + bool(wrong)
        print('\n'.join(wrong), end='\n' if wrong else '')
        first = int(sys.argv[2]) if len(sys.argv) > 2 else 1
        for number in range(first, (int(sys.argv[3]) if len(sys.argv) > 3 else last) + 1):
            told, wrong, asked = run(program, top, number)
            ends.setdefault(told if asked >= number else 'not so many are asked for', []).append(number)
            passed, failed = passed + (not wrong), failed + bool(wrong)
            for line in wrong[:5]:
                print('%d: %s' % (number, line))
    for told, numbers in ends.items():
        print('%s: %s' % (ranges(numbers), told))
    print('refused allocations of a live session: %d passed, %d failed' % (passed, failed))
    return failed != 0


if __name__ == '__main__':
    sys.exit(main())
