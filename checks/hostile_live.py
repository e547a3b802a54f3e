#!/usr/bin/env python3
"""hostile_live.py PROGRAM [CASE..]: a running live session under hostile input and failing devices, each of which it outlasts or ends at
as it should.

5,000 changed packets among valid ones; noise as MIDI; packets and commands in floods; a listener that goes away; an input that ends
within a frame; a port that is taken, devices that aren't there, a journal that can't be written; bad files and words before anything
is used; a stop by SIGKILL in a save. Behind each that used its devices the journal renders to the same sound, and the saved files are
whole. All that is sent comes from a fixed seed. The last line is 'N passed, M failed', and the exit status 0 where M is 0.
"""
import os
import random
import signal
import socket
import subprocess
import sys
import tempfile
import time
import wave

from live_session import CLOSING, Again, Failure, Live, free_port, noise, osc

PROGRAM = os.path.abspath(sys.argv[1])
JOURNAL = ['--journal', 'journal.txt']
passed, failed = 0, 0


def judge(title, wrong):
    global passed, failed
    if wrong:
        failed += 1
        print('\n'.join('%s: %s' % (title, line) for line in wrong[:5]))
    else:
        passed += 1


def judged(title, live, status, wanted=0, more=0, all_of_them=True, whole=True, passed_over=(), numbers=True):
    """Renders the journal and compares."""
    again = Again(live, 'journal.txt')
    again.judge(status == wanted, 'status %d, not %d, and it said: %s' % (status, wanted, live.told.strip()))
    again.sound(whole)
    again.files(('journal.txt', *passed_over))
    if numbers:
        again.numbers()
    again.answers(again.accepted(all_of_them, more))
    judge(title, again.wrong)
    return again


# Changed packets.

VALID = ['set 0 feedback %d', 'get 0 loop_len', 'gset pulse %d', 'hit 0 overdub', 'gget pulse', 'set -1 rec_thresh %d',
         'save 0 take%d.wav', 'get -3 state']
# What is changed says something else to begin with, so that none of it is taken for a valid one.
OTHERS = ['set 0 wet %d', 'get 0 cycle_len', 'gset long_press %d', 'hit 0 undo', 'gget dry', 'set -1 round 1', 'save 0 other%d.wav',
          'get -3 layers', 'down -3 mute', 'up -3 mute', 'session set']


def command(texts, number, path):
    """One command in the journal's words, its packet, and whether it asks."""
    text = texts[number % len(texts)]
    text = text % (number // len(texts) + 1) if '%' in text else text
    return (text, *osc.packet_of(text.split(' '), path))


def changed(source, packet):
    """A packet with a fault or another meaning; maybe it is as it was."""
    data = bytearray(packet)
    for _ in range(source.choice((1, 1, 1, 2, 5))):
        kind, at = source.randrange(9), source.randrange(len(data) + 1)
        if kind == 0:
            data[at:at + 1] = bytes([source.randrange(256)])
        elif kind == 1:
            del data[at:]
        elif kind == 2:
            data[at:at] = source.randbytes(source.randrange(9))
        elif kind == 3:
            del data[at:at + source.choice((1, 4, 8))]
        elif kind == 4:
            data = bytearray(b'#bundle\0' + source.randbytes(8) + len(data).to_bytes(4, 'big') + data)
        elif kind == 5:
            data[at:at] = source.choice((b'/', b',', b'\0\0\0\0', b'\xff\xff\xff\xff', b'\x7f\xff\xff\xfc', b',sssssssssssss\0\0', b'i'))
        elif kind == 6:
            data = bytearray(source.randbytes(source.choice((0, 3, 4, 8, 60, 400, 8192, 9000))))
        elif kind == 7:
            at -= at % 4
            data[at:at + 4] = source.randbytes(4)
        else:
            data += data[:source.randrange(len(data) + 1)]
    # One that would end the session, or have others sent to elsewhere, is for other cases.
    return bytes(data) if b'/quit' not in data and b':' not in data else b''


def changed_packets(folder):
    """5,000 changed packets among 1,250 valid ones; every 25 packets some frames are played."""
    source, period = random.Random(20261202), 64
    live = Live(PROGRAM, folder, noise(41, 300 * period, 1), 1, period, words=JOURNAL)
    tries = 0
    try:
        live.at(period, 'hit 0 record')
        live.at(3 * period, 'hit 0 record')
        for turn in range(250):
            live.play_to((turn + 5) * period)
            for number in range(turn * 5, turn * 5 + 5):
                path = '/answer/%d' % len(live.sent)
                text, packet, asks = command(VALID, number, path)
                live.send(packet)
                live.sent.append((text, path if asks else None))
                for _ in range(4):
                    live.send(changed(source, command(OTHERS, source.randrange(5000), '/other')[1]))
                    tries += 1
            live.heard()
        status = live.finish()
    finally:
        live.stop()
    again = judged('changed packets', live, status, more=tries)
    refused = tries + len(live.sent) - again.closing.get('osc', 0)
    judge('refusals of changed packets', [] if refused > tries // 2 else ['only %d of %d were refused' % (refused, tries)])


def flood(folder):
    """Bundles of 292 commands: what finds its ring full is refused, the rest is in the journal in order."""
    period = 64
    live = Live(PROGRAM, folder, noise(43, 60 * period, 2), 2, period, words=JOURNAL + ['--quota', '2000'])
    count = 0
    try:
        for turn in range(1, 12):
            live.play_to(2 * turn * period)
            packets = []
            for _ in range(200):
                text = 'gset pulse %d' % (count + 1)
                packets.append(osc.packet_of(text.split(' '))[0])
                live.sent.append((text, None))
                count += 1
            live.send(osc.bundle(packets))
            live.send(osc.bundle(packets[:90]))
            live.sent.extend(live.sent[-200:][:90])
            live.heard()
        status = live.finish()
    finally:
        live.stop()
    again = judged('a flood of commands', live, status, all_of_them=False)
    found = again.closing.get('osc')
    judge('the quota', [] if found == 2000 else ['%s commands are accepted' % found])


def midi_events(data):
    """The commands of `on C N` with channel 1 and of `cv 1 7`, read plainly: groups of the status in force."""
    status, group, out = None, [], []
    for byte in data:
        if byte >= 0xf8:
            continue
        if byte >= 0xf0:
            status, group = None, []
        elif byte >= 0x80:
            status, group = byte, []
        elif status is not None:
            group.append(byte)
            if len(group) == (1 if status >> 4 in (0xc, 0xd) else 2):
                if status == 0x90 and group[1] > 0 and group[0] == 60:
                    out.append('hit 0 overdub')
                elif status == 0xb0 and group[0] == 7:
                    out.append('set 0 wet %d' % (1000 * group[1] // 127))
                group = []
    return out


def broken_midi(folder):
    """Noise with some notes in it: the notes are heard, and nothing else is."""
    source, period = random.Random(7), 64
    data = bytearray()
    for number in range(100):
        data += source.randbytes(source.randrange(400))
        data += bytes.fromhex(source.choice(('903c40', 'b0f80711', '903cf0409040', '90fa3cff7f', 'f7903c01', '80f43c40')))
    with open(os.path.join(folder, 'bindings.txt'), 'w') as file:
        file.write('looper bindings 1\non 1 60 hit 0 overdub\ncv 1 7 set 0 wet 0 1000\nend\n')
    path = os.path.join(folder, 'pedal')
    os.mkfifo(path)
    pedal = os.open(path, os.O_RDWR)
    live = Live(PROGRAM, folder, noise(44, 400 * period, 2), 2, period, words=JOURNAL + ['--midi', 'pedal', '--bind', 'bindings.txt'])
    wanted = midi_events(data)
    try:
        live.at(period, 'hit 0 record')
        live.at(9 * period, 'hit 0 record')
        for turn in range(100):
            live.play_to((turn + 11) * period)
            at = len(data) * turn // 100
            os.write(pedal, data[at:len(data) * (turn + 1) // 100])
        # Two bytes that make the last event, which tells that all the others came.
        os.write(pedal, bytes.fromhex('b00700 b00701'))
        wanted += ['set 0 wet 0', 'set 0 wet 7']
        turn, come = 112, False
        while not come and turn < 398:
            path = live.do('get 0 wet')
            live.at(turn * period)
            live.play_to((turn + 1) * period)
            live.wait(lambda path=path: live.count(path), 'the value of wet')
            come = (path, [0, 'wet', 7]) in live.answers
            turn += 1
            time.sleep(0.01)
        status = live.finish()
    finally:
        live.stop()
        os.close(pedal)
    again = judged('noise as MIDI', live, status, passed_over=('pedal', 'bindings.txt'))
    found = [entry[3] for entry in again.entries if entry[1] == 1]
    place = next((at for at, pair in enumerate(zip(found, wanted)) if pair[0] != pair[1]), min(len(found), len(wanted)))
    judge('%d notes in noise' % len(wanted), [] if come and found == wanted else
          ['%d commands, not %d, and number %d is another' % (len(found), len(wanted), place)])


# Devices that go away, or aren't there.

def played(folder, words=(), audio=None, channels=2, listens=True):
    """A short take: a loop, an overdub, a save."""
    period = 64
    live = Live(PROGRAM, folder, noise(45, 40 * period, channels) if audio is None else audio, channels, period,
                words=list(words), listens=listens)
    live.at(period, 'hit 0 record')
    live.at(9 * period, 'hit 0 record', 'get 0 loop_len')
    live.at(12 * period, 'hit 0 overdub', 'save 0 take.wav')
    return live


def listener_goes(folder):
    """The program that listens ends. So does the session, with status 5, and all that it has is there."""
    # More than a pipe holds, so that it is noticed.
    live = played(folder, JOURNAL, noise(45, 4000 * 64, 2))
    try:
        live.at(20 * 64, 'hit 0 undo', 'session set')
        live.wait(lambda: len(live.out) >= 19 * 64 * live.step, 'the sound')
        # The reading end is closed for good: a second one is dropped from below the thread that reads.
        null = os.open(os.devnull, os.O_RDONLY)
        os.dup2(null, live.child.stdout.fileno())
        os.close(null)
        status = live.finish(close=False)
    finally:
        live.stop()
    judged('a listener that goes away', live, status, wanted=5, whole=False)


def torn(folder):
    """The input ends within a frame."""
    for channels, extra in ((1, 1), (2, 1), (2, 2), (2, 3)):
        inner = os.path.join(folder, 'torn-%d-%d' % (channels, extra))
        os.mkdir(inner)
        live = played(inner, JOURNAL, noise(46, 40 * 64, channels) + b'\1\2\3'[:extra], channels)
        try:
            status = live.finish()
        finally:
            live.stop()
        again = judged('%d bytes behind the last frame of %d channels' % (extra, channels), live, status, wanted=6)
        judge('the frames of a torn input', [] if again.closing.get('frames') == 40 * 64 else ['%s' % again.closing])


def alone(folder, *words, data=b''):
    """A run without commands: its status, what it plays and says."""
    done = subprocess.run([PROGRAM, 'live', *words], cwd=folder, input=data, stdout=subprocess.PIPE, stderr=subprocess.PIPE,
                          timeout=60)
    return done.returncode, done.stdout, done.stderr.decode(errors='replace')


def told_numbers(text):
    return [tuple(map(int, found.groups())) for found in map(CLOSING.match, text.split('\n')) if found]


def missing_devices(folder):
    """A port that is taken, a MIDI device that isn't there: that is said, and audio goes on."""
    data = noise(47, 1000, 2)
    with socket.socket(socket.AF_INET, socket.SOCK_DGRAM) as taken:
        taken.bind(('127.0.0.1', 0))
        port = str(taken.getsockname()[1])
        status, out, text = alone(folder, '--port', port, data=data)
    good = status == 7 and len(out) == len(data) and told_numbers(text) == [(1000, 0, 0, 0, 0, 0, 0)] and 'status 7' in text
    judge('a port that is taken', [] if good else ['status %d, %d bytes: %s' % (status, len(out), text)])
    judge('a taken port is said', [] if port in text.split('frames')[0] else [text])
    status, out, text = alone(folder, '--port', str(free_port()), '--midi', 'nothing/here', data=data)
    good = status == 4 and len(out) == len(data) and told_numbers(text)[:1] == [(1000, 0, 0, 0, 0, 0, 0)]
    judge('a MIDI device that is not there', [] if good else ['status %d, %d bytes: %s' % (status, len(out), text)])
    judge('a missing device is said', [] if 'nothing/here' in text.split('frames')[0] else [text])


def unwritten(folder):
    """Saves and a journal that can't be written: a save is answered 1, and the journal is status 5."""
    os.mkdir(os.path.join(folder, 'journal.txt'))
    live = played(folder, JOURNAL)
    try:
        status = live.finish()
    finally:
        live.stop()
    judge('a journal that can not be written', [] if status == 5 and live.closing() else ['status %d: %s' % (status, live.told)])
    inner = os.path.join(folder, 'inner')
    os.makedirs(os.path.join(inner, 'take.wav'))
    live = played(inner, JOURNAL)
    try:
        status = live.finish()
    finally:
        live.stop()
    answers = [args for _, args in live.answers if args[1:2] == ['save_loop']]
    with open(os.path.join(inner, 'journal.txt')) as file:
        released = ' 2 0 release 0 1\n' in file.read()
    good = status == 0 and answers == [[0, 'save_loop', 1]] and released
    judge('a save that can not be written', [] if good else ['status %d, answers %s: %s' % (status, answers, live.told)])
    full = '/dev/full'
    if os.path.exists(full):
        with open(full, 'wb') as sink:
            done = subprocess.run([PROGRAM, 'live', '--port', str(free_port())], cwd=inner, input=noise(1, 500, 2), stdout=sink,
                                  stderr=subprocess.PIPE, timeout=60)
        judge('a device that is full', [] if done.returncode == 5 else ['status %d: %s' % (done.returncode, done.stderr.decode())])


def not_begun(folder):
    """Words and files that are refused before a device is used: nothing is played."""
    with open(os.path.join(folder, 'bad.txt'), 'w') as file:
        file.write('looper bindings 1\non 1 60 hit 7 record\nend\n')
    for name, length in (('set', 4), ('long', 8192)):
        with open(os.path.join(folder, name), 'w') as file:
            file.write('looper session 1\nrate 48000\nloops 1\ndry 0\nsync_source 0\nselected_loop_num 0\nfade_step 20\nlong_press 24000\n'
                       'pulse 24000\nloop 0 %d %d 1000 1000 0 0 0\nend\n' % (length, length))
    with wave.open(os.path.join(folder, 'long-0.wav'), 'wb') as file:
        file.setnchannels(2)
        file.setsampwidth(3)
        file.setframerate(48000)
        file.writeframes(bytes(6 * 8192))
    for words, wanted, line in [
            (['--period', '0'], 2, None), (['--port', '0'], 2, None), (['--port', '1', '--port', '1'], 2, None), (['--what', '1'], 2, None),
            (['--listen', 'here'], 2, None), (['--channels', '3'], 2, None), (['--session', 'set', '--loops', '2'], 2, None),
            (['--session', 'set', '--rate', '48000'], 2, None), (['--midi', ''], 2, None), (['in.wav'], 2, None),
            (['--bind', 'bad.txt'], 3, 'file bad.txt fault 3 line 2'), (['--bind', 'none.txt'], 3, 'file none.txt fault 0 line 0'),
            (['--session', 'set', '--bind', 'bad.txt'], 3, 'file set-0.wav fault 0 line 0'),
            (['--session', 'nothing'], 3, 'file nothing fault 0 line 0'), (['--session', 'long', '--chunks', '1'], 9, None)]:
        status, out, text = alone(folder, *words, data=noise(1, 100, 2))
        lines = text.split('\n')
        good = status == wanted and out == b'' and 'status %d' % wanted in lines and not told_numbers(text)
        good = good and (line is None or line in lines)
        judge('live ' + ' '.join(words), [] if good else ['status %d, %d bytes: %s' % (status, len(out), text)])


# Stops.

def killed(folder):
    """SIGKILL in a save, again and again: the file is the old one or the new one, and the next session isn't held up."""
    seconds, period = 8, 4096
    frames = seconds * 48000 // period * period
    audio = noise(48, 2 * frames + 40 * period, 2)
    sizes, whole = set(), {44 + 6 * frames}
    old = b'the old file\n' * 9
    for delay in (0, 0.002, 0.005, 0.01, 0.02, 0.03, 0.05, 0.08):
        with open(os.path.join(folder, 'take.wav'), 'wb') as file:
            file.write(old)
        live = Live(PROGRAM, folder, audio, 2, period, words=JOURNAL)
        try:
            live.at(period, 'hit 0 record')
            live.at(period + frames, 'hit 0 record', 'save 0 take.wav')
            live.play_to(3 * period + frames)
            live.feed(len(audio) - 1) if delay else None
            time.sleep(delay)
            live.child.send_signal(signal.SIGKILL)
            status = live.ended()
        finally:
            live.stop()
        with open(os.path.join(folder, 'take.wav'), 'rb') as file:
            data = file.read()
        sizes.add(len(data))
        good = status == -signal.SIGKILL and (data == old or len(data) in whole and data[:4] == b'RIFF')
        judge('a stop %g s into a save' % delay, [] if good else ['status %d, and the file has %d bytes' % (status, len(data))])
        if os.path.exists(os.path.join(folder, 'journal.txt')):
            judge('no journal behind a stop', ['there is one'])
    # The next session in this folder writes its files, and takes away what the others left.
    live = played(folder, JOURNAL)
    try:
        status = live.finish()
    finally:
        live.stop()
    judged('a session behind a stop', live, status)
    left = [name for name in os.listdir(folder) if name.startswith('.looper-new')]
    judge('what a stop left', left)


CASES = {'changed': changed_packets, 'flood': flood, 'midi': broken_midi, 'listener': listener_goes, 'torn': torn,
         'missing': missing_devices, 'unwritten': unwritten, 'words': not_begun, 'killed': killed}


def main():
    with tempfile.TemporaryDirectory(prefix='looper_hostile_') as top:
        for name in sys.argv[2:] or CASES:
            folder = os.path.join(top, name)
            os.mkdir(folder)
            try:
                CASES[name](folder)
            except (Failure, OSError, subprocess.TimeoutExpired) as failure:
                judge(name, [repr(failure)])
    print('hostile live: %d passed, %d failed' % (passed, failed))
    sys.exit(failed != 0)


if __name__ == '__main__':
    main()
