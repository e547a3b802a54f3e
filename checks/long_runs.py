#!/usr/bin/env python3
"""long_runs.py PROGRAM: runs over more than a chunk of frames, sample by sample.

An overdub of two turns takes one chunk; the last chunk is shared by two loops; and with the
default options a phrase of two seconds in stereo leaves room for minutes. Of each run the text and
all samples of OUT are compared. The last line is 'N passed, M failed', and the exit status 0 where
M is 0.
"""
import array
import os
import subprocess
import sys
import tempfile
import wave

CHUNK = 4096
# Both sides of two seconds, each with numbers of its own.
PHRASE = [number for place in range(96000)
          for number in (place * 7919 % 20001 - 10000, place * 104729 % 30011 - 15000)]

# Of each run: its title, channels, options, samples, entries, text and what OUT has.
RUNS = [
    ('two turns of an overdub', 1, ['--chunks', '16'], [1] * (4 * CHUNK),
     ['0 0 0 hit 0 record', '4096 0 1 hit 0 record', '4096 0 2 get 0 free_time',
      '4096 0 3 hit 0 overdub', '12288 0 4 hit 0 overdub', '12288 0 5 get 0 free_time'],
     ['reply 0 2 0 free_time 61440', 'reply 0 5 0 free_time 57344',
      'frames 16384 entries 6 replies 2 saves 0 refused 0'],
     [turn for turn in range(4) for _ in range(CHUNK)]),
    ('the last chunk', 1, ['--loops', '2', '--chunks', '3', '--period', '8192'], [0] * (2 * CHUNK),
     ['0 0 0 hit 1 record', '1 0 1 hit 0 record', '8192 0 2 get 0 loop_len',
      '8192 0 3 get 0 state', '8192 0 4 get 0 refused', '8192 0 5 get 1 loop_len',
      '8192 0 6 get 1 state', '8192 0 7 get 1 refused', '8192 0 8 get 0 free_time'],
     ['reply 0 2 0 loop_len 4096', 'reply 0 3 0 state 4', 'reply 0 4 0 refused 1',
      'reply 0 5 1 loop_len 8192', 'reply 0 6 1 state 2', 'reply 0 7 1 refused 0',
      'reply 0 8 0 free_time 0', 'frames 8192 entries 9 replies 7 saves 0 refused 1'],
     [0] * (2 * CHUNK)),
    ('two seconds in stereo with the default options', 2, [], PHRASE + [0] * len(PHRASE),
     ['0 0 0 hit 0 record', '96000 0 1 hit 0 record', '96000 0 2 get 0 free_time'],
     ['reply 0 2 0 free_time 16678912', 'frames 192000 entries 3 replies 1 saves 0 refused 0'],
     [0] * len(PHRASE) + PHRASE),
]


def written(path, channels, samples):
    """Writes a WAV file of 16 bits at 48000 frames a second."""
    with wave.open(path, 'wb') as file:
        file.setnchannels(channels)
        file.setsampwidth(2)
        file.setframerate(48000)
        file.writeframes(array.array('h', samples).tobytes())


def samples_of(path, channels):
    with wave.open(path, 'rb') as file:
        if (file.getnchannels(), file.getsampwidth(), file.getframerate()) != (channels, 2, 48000):
            return None
        return array.array('h', file.readframes(file.getnframes())).tolist()


def differences(program, folder, run):
    """What is otherwise than it should be."""
    title, channels, options, samples, entries, lines, wanted = run
    written(os.path.join(folder, 'in.wav'), channels, samples)
    with open(os.path.join(folder, 'journal.txt'), 'w') as file:
        file.write('\n'.join(['looper journal 1'] + entries + ['end', '']))
    command = [program, 'render', 'in.wav', 'journal.txt', 'out.wav'] + options
    done = subprocess.run(command, cwd=folder, stdout=subprocess.PIPE)
    told = done.stdout.decode().split('\n')
    if done.returncode != 0 or told != lines + ['status 0', '']:
        return ['%s: status %d, and this was printed: %s' % (title, done.returncode, told)]
    heard = samples_of(os.path.join(folder, 'out.wav'), channels)
    if heard is None or len(heard) != len(wanted):
        return ['%s: OUT has another form or length' % title]
    wrong = [place for place in range(len(wanted)) if heard[place] != wanted[place]]
    return ['%s: sample %d is %d, not %d' % (title, place, heard[place], wanted[place])
            for place in wrong[:3]]


def main():
    program, passed = os.path.abspath(sys.argv[1]), 0
    for run in RUNS:
        with tempfile.TemporaryDirectory(prefix='looper_long_') as folder:
            found = differences(program, folder, run)
        passed += not found
        for line in found:
            print(line)
    print('long runs: %d passed, %d failed' % (passed, len(RUNS) - passed))
    sys.exit(passed != len(RUNS))


if __name__ == '__main__':
    main()
