#!/bin/sh
# text_vectors.sh PROGRAM CASES: the vectors of texts in the folder CASES, read by the program of the crate vectors, and
# every prefix of some valid files. It needs python3.
# The last line is `N passed, N failed`. The status is 0 where none failed.
exec python3 - "$1" "$2" <<'PY'
import json, subprocess, sys

program, cases = sys.argv[1:]


def wav(row):
    if 'fault' in row:
        return 'fault %d' % row['fault']
    sides = ''.join(' %d %d' % tuple(frame) for frame in row['frames'])
    return 'wav %d %d %d %d%s' % (row['rate'], row['channels'], row['bits'], len(row['frames']), sides)


def vectors(name):
    with open('%s/texts/%s.jsonl' % (cases, name)) as file:
        return [json.loads(line) for line in file]


def fault(row):
    return 'fault %d %d' % tuple(row['fault'])


lines, wanted = [], []


def ask(line, answer):
    lines.append(line)
    wanted.append(answer)


# A prefix of a text that is read has its fault behind its last whole line.
def ask_prefixes(words, text):
    for length in range(len(text)):
        prefix = text[:length]
        ask('%s %s' % (words, prefix.hex()), 'fault 6 %d' % (prefix.count(b'\n') + 1))


journals = vectors('journals')
for row in journals:
    ask('journal %d %s' % (row['loops'], row['hex']), fault(row) if 'fault' in row else 'entries %d' % row['entries'])
for row in [row for row in journals if 'entries' in row and len(row['hex']) < 2000][:10]:
    ask_prefixes('journal %d' % row['loops'], bytes.fromhex(row['hex']))

sessions = vectors('sessions')
for row in sessions:
    ask('session - %s' % row['hex'], fault(row) if 'fault' in row else 'session')
for row in [row for row in sessions if 'fault' not in row and len(row['hex']) < 1000][:10]:
    ask_prefixes('session -', bytes.fromhex(row['hex']))

for row in vectors('wavs'):
    ask('wav - %s' % row['hex'], wav(row))

# Files that other programs wrote: of those that are read, the form and the number of frames.
with open(cases + '/peers/wav.json') as file:
    for row in json.load(file):
        with open('%s/peers/%s' % (cases, row['file']), 'rb') as wav_file:
            form = 'wav %d %d %d' % tuple(row['read']) + ' %d' % row['frames'] if row['fault'] is None else None
            ask('wav - %s' % wav_file.read().hex(), form or 'fault %d' % row['fault'])

# A prefix of a WAV file with a format of 16 bytes: no WAVE, no whole format, no data, too few samples.
with open(cases + '/peers/python-2-24.wav', 'rb') as file:
    whole = file.read()
for length in range(len(whole)):
    ask('wav - %s' % whole[:length].hex(), 'fault %d' % (1 if length < 12 else 2 if length < 36 else 4 if length < 44 else 5))

run = subprocess.run([program], input=''.join(line + '\n' for line in lines), capture_output=True, text=True)
told = run.stdout.split('\n')[:-1]


# What is wanted is told, or of a WAV file of which only the form is known what begins with that.
def is_right(place):
    if place >= len(told):
        return False
    known = wanted[place]
    return told[place] == known or (known.startswith('wav') and len(known.split()) == 5 and told[place].startswith(known + ' '))


wrong = [place for place in range(len(wanted)) if not is_right(place)]
for place in wrong[:10]:
    print('wanted %s, told %s: %s' % (wanted[place], told[place] if place < len(told) else 'nothing', lines[place][:200]))
failed = len(wrong) + (run.returncode != 0) + (len(told) > len(wanted))
print('text vectors: %d passed, %d failed' % (len(wanted) - len(wrong), failed))
sys.exit(failed != 0)
PY
