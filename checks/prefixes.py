#!/usr/bin/env python3
"""prefixes.py PROGRAM: every prefix of valid inputs, read by the program of the crate vectors.

The inputs are WAV files, journals, a session, bindings, OSC packets and MIDI bytes. What each prefix says, or its first fault and
where it stands, is worked out here from the rules of docs/formats.md, by readers that share nothing with ours. It needs no other
file. The last line is `N passed, N failed`, and the exit status 0 where none failed.
"""
import struct
import subprocess
import sys

lines, wanted = [], []


def ask(line, answer):
    lines.append(line)
    wanted.append(answer)


def prefixes(whole):
    """Each prefix, with the whole as the last."""
    return [whole[:length] for length in range(len(whole) + 1)]


# WAV files.

def samples(numbers, size):
    return b''.join(number.to_bytes(size, 'little', signed=True) for number in numbers)


def wav_file(channels, size, data, form=b'', before=b'', told=None):
    step = channels * size
    body = struct.pack('<HHIIHH', 0xfffe if form else 1, channels, 48000, 48000 * step, step, 8 * size) + form
    chunks = before + b'fmt ' + struct.pack('<I', len(body)) + body + b'data' + struct.pack('<I', len(data) if told is None else told)
    return b'RIFF' + struct.pack('<I', 4 + len(chunks) + len(data)) + b'WAVE' + chunks + data


PCM = bytes.fromhex('0100000000001000800000aa00389b71')
# Eight samples, as they are recorded; four frames, as they are saved; and a file with a chunk of odd size, a long format and a size of
# its data that stands for all that is left.
WAVS = [wav_file(1, 2, samples(range(1, 9), 2)),
        wav_file(2, 3, samples([256, 256, 512, 512, 768, 768, 1024, 1024], 3)),
        wav_file(2, 2, samples([1, -1, 2, -2, 3, -3], 2), struct.pack('<HHI', 22, 16, 3) + PCM, b'LIST\3\0\0\0abc\0', 0xffffffff)]


def format_of(body):
    """Channels, rate and bits of a format, or None where it isn't one that is read."""
    if len(body) not in (16, 18, 40):
        return None
    tag, channels, rate, _, step, bits = struct.unpack('<HHIIHH', body[:16])
    if tag != 1 and not (tag == 0xfffe and len(body) == 40 and body[24:] == PCM):
        return None
    if channels not in (1, 2) or bits not in (16, 24) or step != channels * bits // 8 or not 1 <= rate <= 768000:
        return None
    return channels, rate, bits


def chunks(data):
    """The name, the size and the body's place of each chunk up to the data, as far as they are whole."""
    at = 12
    while len(data) - at >= 8:
        name, size = struct.unpack('<4sI', data[at:at + 8])
        if name != b'data' and at + 8 + size > len(data):
            return
        yield name, size, at + 8
        if name == b'data':
            return
        at += 8 + size + size % 2


def wav(data):
    if len(data) < 12 or data[:4] != b'RIFF' or data[8:12] != b'WAVE':
        return 'fault 1'
    found = list(chunks(data))
    form = next((data[at:at + size] for name, size, at in found if name == b'fmt '), None)
    if form is None:
        return 'fault 2'
    if format_of(form) is None:
        return 'fault 3'
    channels, rate, bits = format_of(form)
    if not found or found[-1][0] != b'data':
        return 'fault 4'
    _, size, at = found[-1]
    if size != 0xffffffff and len(data) - at < size:
        return 'fault 5'
    body = data[at:] if size == 0xffffffff else data[at:at + size]
    if len(body) % (channels * bits // 8):
        return 'fault 6'
    sides = [int.from_bytes(body[place:place + bits // 8], 'little', signed=True) << (24 - bits)
             for place in range(0, len(body), bits // 8)]
    if channels == 1:
        sides = [side for side in sides for _ in range(2)]
    return ' '.join(str(word) for word in ['wav', rate, channels, bits, len(sides) // 2] + sides)


# Texts. Each has one form, and a prefix that isn't the whole lacks its last line: the fault is 6, behind the last whole line.

JOURNALS = ['looper journal 1\n0 0 0 hit 0 record\n4 0 1 hit 0 record\nend\n',
            'looper journal 1\n0 0 0 hit 0 record\n4 0 1 hit 0 record\n4 0 2 session set1\n4 2 0 release -1 0\nend\n']
SESSION = """looper session 1
rate 48000
loops 1
dry 0
sync_source 0
selected_loop_num 0
fade_step 20
long_press 24000
pulse 24000
loop 0 4 4 1000 1000 0 0 0
end
"""
BINDINGS = 'looper bindings 1\non 1 60 hit 0 overdub\ncv 1 7 set 0 wet 0 1000\nend\n'


def ask_text(words, text, answer):
    for prefix in prefixes(text.encode()):
        lacks = 'fault 6 %d' % (prefix.count(b'\n') + 1)
        ask('%s %s' % (words, prefix.hex()), answer if len(prefix) == len(text) else lacks)


# OSC packets.

def string(text):
    return text + bytes(4 - len(text) % 4)


def bundle(*packets):
    return b'#bundle\0' + bytes(7) + b'\1' + b''.join(struct.pack('>I', len(packet)) + packet for packet in packets)


HIT = string(b'/sl/0/hit') + string(b',s') + string(b'record')
PACKETS = [HIT,
           string(b'/sl/0/hit') + string(b',f') + bytes(4),
           string(b'/sl/0/set') + string(b',si') + string(b'feedback') + struct.pack('>i', 1001),
           string(b'/sl/0/set') + string(b',si') + string(b'nothing') + struct.pack('>i', 5),
           string(b'/ping') + string(b',ss') + string(b'') + string(b'/p'),
           bundle(HIT, bundle(string(b'/b') + string(b',bfis') + struct.pack('>I', 5) + b'?????\0\0\0' + bytes(4)
                              + struct.pack('>i', -7) + string(b'xyz'), bundle()), string(b'/quit') + string(b','))]
SIZE, TEXT, TAGS, SHORT, EXTRA, DEPTH = range(1, 7)


class Fault(Exception):
    """The first fault of a packet: its kind and its place."""


def read_string(data, at, end, lack):
    """The text of a string and the place behind it."""
    if at == end:
        raise Fault(lack, at)
    zero = data.find(b'\0', at, end)
    if zero < 0 or any(data[zero:zero + 4 - zero % 4]):
        raise Fault(TEXT, at)
    return data[at:zero], zero + 4 - zero % 4


def read_argument(data, at, end, letter):
    """How an argument is told, and the place behind it."""
    if letter == 's':
        text, behind = read_string(data, at, end, SHORT)
        return 's' + text.hex(), behind
    if end - at < 4:
        raise Fault(SHORT, at)
    number = int.from_bytes(data[at:at + 4], 'big', signed=letter == 'i')
    if letter != 'b':
        return 'i%d' % number if letter == 'i' else 'x', at + 4
    behind = at + 4 + number + -number % 4
    if behind > end:
        raise Fault(SHORT, at)
    if any(data[at + 4 + number:behind]):
        raise Fault(TEXT, at)
    return 'x', behind


def read_message(data, at, end):
    address, tags_at = read_string(data, at, end, TEXT)
    if address[:1] != b'/':
        raise Fault(TEXT, at)
    tags, at = read_string(data, tags_at, end, TAGS)
    if tags[:1] != b',' or any(letter not in b'isfb' for letter in tags[1:]):
        raise Fault(TAGS, tags_at)
    told = [address.hex()]
    for letter in tags[1:].decode():
        argument, at = read_argument(data, at, end, letter)
        told.append(argument)
    if at < end:
        raise Fault(EXTRA, at)
    return [':'.join(told)]


def read_part(data, at, end, within):
    """What the messages of a packet or of an element say, `within` so many bundles."""
    if data[at:min(at + 8, end)] != b'#bundle\0':
        return read_message(data, at, end)
    if within == 8:
        raise Fault(DEPTH, at)
    if end - at < 16:
        raise Fault(SHORT, at + 8)
    messages, at = [], at + 16
    while at < end:
        size = int.from_bytes(data[at:at + 4], 'big')
        if size == 0 or size % 4:
            raise Fault(SIZE, at)
        if size > end - at - 4:
            raise Fault(SHORT, at)
        messages += read_part(data, at + 4, at + 4 + size, within + 1)
        at += 4 + size
    return messages


def packet(data):
    """What a packet's messages say, or the kind and the place of its first fault."""
    if len(data) < 4 or len(data) > 8192 or len(data) % 4:
        return SIZE, 0
    try:
        return read_part(data, 0, len(data), 0)
    except Fault as fault:
        return fault.args


def ask_sender(whole):
    """A new sender gets the prefixes of one packet, one after another, and at last the whole, which is a hit of record."""
    faults = [packet(prefix) for prefix in prefixes(whole)[:-1]]
    told = ['account'] + [' Packet:%d:%d' % fault for fault in faults] + [' Accepted:0', ' accepted hit 0 record']
    told += [' counts 0 0 0 %d' % len(faults) + 8 * ' 0', ' last' + ''.join(' 1:%d' % kind for kind, _ in faults[-32:])]
    ask('account osc 100 256 1 2130706433 9951 ' + ' '.join(prefix.hex() for prefix in prefixes(whole)), ';'.join(told))


# MIDI bytes.

STREAMS = [bytes.fromhex('45903cf8403e00'),
           bytes.fromhex('903c40b00740fe077fc005f806e00140d07f80a03c01f07d01f73c40f2013c90feff3d01f33e3ef68001')]
KINDS = {8: 'NoteOff', 9: 'NoteOn', 10: 'PolyPressure', 11: 'ControlChange', 12: 'ProgramChange', 13: 'Pressure', 14: 'PitchBend'}


def event_at(data, place):
    """The event at a byte, by the last status byte before it and the data bytes since."""
    if data[place] >= 0x80:
        return ['Real', data[place]] if data[place] in (0xf8, 0xfa, 0xfb, 0xfc) else None
    heard = [byte for byte in data[:place + 1] if byte < 0xf8]
    since = next((count for count, byte in enumerate(reversed(heard)) if byte >= 0x80), None)
    if since is None or heard[-since - 1] >= 0xf0:
        return None
    status = heard[-since - 1]
    size = 1 if status >> 4 in (12, 13) else 2
    if since % size:
        return None
    fields = list(heard[-size:])
    kind = KINDS[status >> 4]
    if kind == 'PitchBend':
        fields = [fields[0] + 128 * fields[1]]
    if kind == 'NoteOff' or kind == 'NoteOn' and fields[1] == 0:
        kind, fields = 'NoteOff', fields[:1]
    return [kind, status & 15] + fields


def events(data):
    found = [(place, event_at(data, place)) for place in range(len(data))]
    return [(place, event) for place, event in found if event is not None]


def told_event(place, event):
    return '%d:%s' % (place, ':'.join(str(field) for field in event))


def command_of(event):
    """What an event is bound to by BINDINGS."""
    if event[:3] == ['NoteOn', 0, 60]:
        return 'hit 0 overdub'
    if event[:3] == ['ControlChange', 0, 7]:
        return 'set 0 wet %d' % (1000 * event[3] // 127)
    return None


def ask_stream(data):
    found = events(data)
    ask('midi ' + data.hex(), ' '.join(['events'] + [told_event(place, event) for place, event in found]))
    given = ['%s %s' % (told_event(place, event), command_of(event)) for place, event in found if command_of(event)]
    ask('looked 1 %s %s' % (BINDINGS.encode().hex(), data.hex()), '; '.join(['commands'] + given))


def main():
    for whole in WAVS:
        for prefix in prefixes(whole):
            ask('wav - ' + prefix.hex(), wav(prefix))
    for journal in JOURNALS:
        ask_text('journal 1', journal, 'entries %d' % (journal.count('\n') - 2))
    ask_text('session -', SESSION, 'session')
    ask_text('bindings 1', BINDINGS, 'text ' + BINDINGS.encode().hex())
    for whole in PACKETS:
        for prefix in prefixes(whole):
            said = packet(prefix)
            ask('packet ' + prefix.hex(), 'fault %d %d' % said if isinstance(said, tuple) else ' '.join(['messages'] + said))
    ask_sender(HIT)
    for stream in STREAMS:
        for prefix in prefixes(stream):
            ask_stream(prefix)
    if sys.argv[1:] == ['--lines']:
        print('\n'.join('%s\t%s' % pair for pair in zip(lines, wanted)))
        return 0
    run = subprocess.run([sys.argv[1]], input=''.join(line + '\n' for line in lines), stdout=subprocess.PIPE, text=True, timeout=60)
    told = run.stdout.split('\n')[:-1]
    told += ['nothing'] * (len(wanted) - len(told))
    wrong = [place for place in range(len(wanted)) if told[place] != wanted[place]]
    for place in wrong[:10]:
        print('%s\n  wanted %s\n  told   %s' % (lines[place][:200], wanted[place][:200], told[place][:200]))
    failed = len(wrong) + (run.returncode != 0) + (len(told) > len(wanted))
    print('prefixes: %d passed, %d failed' % (len(wanted) - len(wrong), failed))
    return failed != 0


if __name__ == '__main__':
    sys.exit(main())
