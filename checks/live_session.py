"""A live session over pipes and loopback, for the checks and the demo: started, fed, played, ended, and rendered again from its journal.

Nothing here waits for a time to pass: what is waited for is an answer, or that the program has read what it was given. Each wait
ends after WAIT seconds with an error.
"""
import array
import fcntl
import os
import random
import re
import select
import shutil
import socket
import struct
import subprocess
import termios
import threading
import time
import wave
from importlib.machinery import SourceFileLoader
from importlib.util import module_from_spec, spec_from_loader

TOP = os.path.dirname(os.path.dirname(os.path.realpath(__file__)))
WAIT = 60
CLOSING = re.compile(r'frames (\d+) entries (\d+) osc (\d+) midi (\d+) unsent (\d+) saves (\d+) refused (\d+)$')


def loaded(name):
    """A tool as a module; it has no ending."""
    loader = SourceFileLoader(name, os.path.join(TOP, 'tools', name))
    module = module_from_spec(spec_from_loader(name, loader))
    loader.exec_module(module)
    return module


osc = loaded('send')


def noise(seed, frames, channels):
    """Samples of no pattern that a loop could have, quiet enough that some of them can be added."""
    source = random.Random(seed)
    block = array.array('h', [source.randrange(-9000, 9001) for _ in range(min(frames, 20011) * channels)]).tobytes()
    size = 2 * channels * frames
    return (block * (size // len(block) + 1))[:size] if size else b''


def write_wav(path, channels, rate, data):
    with wave.open(path, 'wb') as file:
        file.setnchannels(channels)
        file.setsampwidth(2)
        file.setframerate(rate)
        file.writeframes(data)


def samples_of(path):
    with wave.open(path, 'rb') as file:
        return file.readframes(file.getnframes())


def free_port():
    with socket.socket(socket.AF_INET, socket.SOCK_DGRAM) as sock:
        sock.bind(('127.0.0.1', 0))
        return sock.getsockname()[1]


def drops(port):
    """How many packets to this port the kernel dropped."""
    with open('/proc/net/udp') as file:
        for line in file:
            words = line.split()
            if words[1].endswith(':%04X' % port):
                return int(words[-1])
    return 0


class Failure(Exception):
    """What was waited for didn't come."""


class Live:
    """One run of `looper live`: its audio is `audio`, of which it gets what `play_to` and `feed` give it."""

    def __init__(self, program, folder, audio, channels=2, period=1024, rate=48000, words=(), listens=True):
        self.program, self.folder, self.audio = program, folder, audio
        self.channels, self.period, self.rate, self.words = channels, period, rate, list(words)
        self.step = 2 * channels
        self.given, self.out, self.told, self.sent, self.answers = 0, bytearray(), '', [], []
        self.changed = threading.Condition()
        self.number = self.pings = self.missed = 0
        self.gone = False
        self.child = None
        self.begin(listens)

    def command(self, port):
        form = ['--channels', str(self.channels), '--period', str(self.period)]
        if '--session' not in self.words:
            form += ['--rate', str(self.rate)]
        return [self.program, 'live', '--port', str(port)] + form + self.words

    def begin(self, listens):
        """Starts the program at a port that is free; another program may take it in between, and then another one is tried."""
        for _ in range(5):
            self.port, self.began, self.first = free_port(), time.monotonic(), None
            self.child = subprocess.Popen(self.command(self.port), cwd=self.folder, stdin=subprocess.PIPE, stdout=subprocess.PIPE,
                                          stderr=subprocess.PIPE, bufsize=0)
            self.sock = socket.socket(socket.AF_INET, socket.SOCK_DGRAM)
            self.sock.setsockopt(socket.SOL_SOCKET, socket.SO_RCVBUF, 1 << 20)
            self.sock.connect(('127.0.0.1', self.port))
            self.told = ''
            self.threads = [threading.Thread(target=work, daemon=True) for work in (self.hear, self.listen, self.read)]
            for thread in self.threads:
                thread.start()
            self.wait(lambda: 'OSC at' in self.told or self.child.poll() is not None, 'where it listens')
            if not listens or self.child.poll() is not None or self.is_there():
                return
            self.stop()
        raise Failure('no port is free')

    def hear(self):
        """Keeps what the program plays."""
        child = self.child
        while True:
            data = os.read(child.stdout.fileno(), 1 << 16)
            with self.changed:
                self.out += data
                self.changed.notify_all()
            if not data:
                return

    def listen(self):
        """Keeps what it says."""
        child = self.child
        while True:
            data = os.read(child.stderr.fileno(), 1 << 16)
            with self.changed:
                self.told += data.decode(errors='replace')
                self.changed.notify_all()
            if not data:
                return

    def read(self):
        """Keeps the packets that come back, until the socket is closed."""
        sock = self.sock
        while True:
            try:
                if not select.select([sock], [], [], 0.2)[0]:
                    if self.sock is not sock or self.gone:
                        return
                    continue
                # What was there may be an error alone, which a send has taken since.
                data = sock.recv(65536, socket.MSG_DONTWAIT)
            except (ConnectionRefusedError, BlockingIOError):
                continue
            except (OSError, ValueError):
                return
            try:
                answer = osc.read(data)
            except (ValueError, IndexError, struct.error):
                answer = ('no OSC', [data.hex()])
            with self.changed:
                self.first = self.first or time.monotonic()
                self.answers.append(answer)
                self.changed.notify_all()

    def wait(self, holds, what, seconds=WAIT, pause=0.05):
        """Waits until something holds. What isn't told by a thread is looked at after each pause."""
        with self.changed:
            end = time.monotonic() + seconds
            while not holds():
                left = end - time.monotonic()
                if left <= 0:
                    raise Failure('waited for %s in vain; it said: %s' % (what, self.told.strip()))
                self.changed.wait(min(left, pause))

    def count(self, path):
        return sum(address == path for address, _ in self.answers)

    def send(self, packet):
        try:
            self.sock.send(packet)
        except OSError:
            pass

    def is_there(self, seconds=5):
        """Whether a ping is answered. The packets that were sent before it were then received and heard."""
        self.number += 1
        path = '/here/%d' % self.number
        end = time.monotonic() + seconds
        while time.monotonic() < end and self.child.poll() is None:
            self.send(osc.message('/ping', '', path))
            self.pings += 1
            try:
                self.wait(lambda: self.count(path), 'a ping', 1)
                return True
            except Failure:
                continue
        return False

    def heard(self):
        """Waits until all packets that were sent are heard."""
        if not self.is_there(WAIT):
            raise Failure('a ping is not answered; it said: %s' % self.told.strip())

    def do(self, text):
        """Sends one command in the journal's words; an answer goes to a path of its own. Gives the path."""
        path = '/answer/%d' % len(self.sent)
        packet, asks = osc.packet_of(text.split(' '), path)
        self.send(packet)
        self.sent.append((text, path if asks else None))
        return path

    def do_all(self, texts):
        """Sends commands in bundles."""
        for at in range(0, len(texts), 100):
            packets = []
            for text in texts[at:at + 100]:
                path = '/answer/%d' % len(self.sent)
                packet, asks = osc.packet_of(text.split(' '), path)
                packets.append(packet)
                self.sent.append((text, path if asks else None))
            self.send(osc.bundle(packets))

    def unread(self):
        """How many bytes of its input the program hasn't read."""
        left = array.array('i', [0])
        fcntl.ioctl(self.child.stdin.fileno(), termios.FIONREAD, left)
        return left[0]

    def feed(self, end):
        """Gives the audio up to this byte. What is given once the program has ended is lost."""
        end = min(end, len(self.audio))
        while self.given < end and not self.gone:
            try:
                self.given += os.write(self.child.stdin.fileno(), self.audio[self.given:min(end, self.given + 65536)])
            except BrokenPipeError:
                self.gone = True

    def play_to(self, frame):
        """Gives the audio so far that a command that is sent now acts at this frame, which is a multiple of the period, and not 0.

        The program is then in the turn before it: it has taken all commands that were there before that turn, and waits for frames.
        """
        before = (frame - self.period) * self.step
        self.feed(before + 1)
        self.wait(lambda: self.gone or self.child.poll() is not None or (len(self.out) >= before and self.unread() == 0),
                  'the frames up to %d' % frame, pause=0.0005)

    def at(self, frame, *texts):
        """Sends commands that act at this frame."""
        self.play_to(frame)
        for text in texts:
            self.do(text)
        self.heard()

    def at_answer(self, frame, text):
        """Sends one command that acts at this frame, and plays on until it is answered. Gives a frame behind that."""
        self.play_to(frame)
        path = self.do(text)
        self.heard()
        for turn in range(1000):
            frame += self.period
            self.play_to(frame)
            if self.count(path):
                return frame
            time.sleep(0.002 if turn < 500 else 0.1)
        raise Failure('%s is not answered; it said: %s' % (text, self.told.strip()))

    def finish(self, more=True, close=True):
        """Gives what is left of the audio, ends the input, and waits for the program's end. Gives its status."""
        if more:
            self.feed(len(self.audio))
        else:
            self.feed(-(-self.given // self.step) * self.step)
        if close:
            self.child.stdin.close()
        return self.ended()

    def ended(self):
        try:
            status = self.child.wait(WAIT)
        except subprocess.TimeoutExpired:
            self.stop()
            raise Failure('it did not end; it said: %s' % self.told.strip()) from None
        for thread in self.threads[:2]:
            thread.join(WAIT)
        self.wait_quiet()
        self.missed = drops(self.sock.getsockname()[1])
        self.stop()
        return status

    def wait_quiet(self):
        """Reads the packets that are still in the socket: all of them are there once the program has ended."""
        while select.select([self.sock], [], [], 0)[0]:
            time.sleep(0.002)

    def stop(self):
        """Ends the program, where it runs, and closes all that it had."""
        if self.child.poll() is None:
            self.child.kill()
            self.child.wait()
        self.gone = True
        for thread in self.threads:
            thread.join(WAIT)
        self.gone = False
        for file in (self.child.stdin, self.child.stdout, self.child.stderr, self.sock):
            try:
                file.close()
            except OSError:
                pass

    def refusals(self, side):
        """How many packets and commands were refused: the sum over the lines behind the closing line, of OSC or of MIDI."""
        return sum(int(count) for count in re.findall(r'^(?:looper: )?%s: ([0-9]+) ' % side, self.told, re.M))

    def closing(self):
        """The numbers of the closing line: frames, entries, osc, midi, unsent, saves, refused. None where there is none."""
        for line in self.told.split('\n'):
            found = CLOSING.match(line)
            if found:
                return dict(zip('frames entries osc midi unsent saves refused'.split(), map(int, found.groups())))
        return None


def entries_of(path):
    """The entries of a journal: frame, sender, number, command."""
    with open(path) as file:
        lines = file.read().split('\n')
    if lines[0] != 'looper journal 1' or lines[-2:] != ['end', '']:
        raise Failure('%s is no whole journal' % path)
    try:
        return [(int(frame), int(sender), int(number), command)
                for frame, sender, number, command in (line.split(' ', 3) for line in lines[1:-2])]
    except ValueError:
        raise Failure('%s has a line that is no entry' % path) from None


class Again:
    """The render of a live session's journal over the same input, in a folder beside it."""

    def __init__(self, live, journal, begun=()):
        """`begun` are the files of the session that it began with."""
        self.live, self.wrong = live, []
        self.folder = live.folder + '-again'
        shutil.rmtree(self.folder, ignore_errors=True)
        os.mkdir(self.folder)
        for name in begun:
            shutil.copy(begun[name], os.path.join(self.folder, name))
        self.entries = entries_of(os.path.join(live.folder, journal))
        self.closing = live.closing() or {}
        shutil.copy(os.path.join(live.folder, journal), os.path.join(self.folder, 'journal.txt'))
        frames = self.closing.get('frames', len(live.audio) // live.step)
        write_wav(os.path.join(self.folder, 'in.wav'), live.channels, live.rate, live.audio[:frames * live.step])
        words = []
        for name, value in zip(live.words[::2], live.words[1::2]):
            if name in ('--loops', '--chunks', '--session'):
                words += [name, value]
        done = subprocess.run([live.program, 'render', 'in.wav', 'journal.txt', 'out.wav'] + words, cwd=self.folder,
                              stdout=subprocess.PIPE, stderr=subprocess.PIPE)
        self.told = done.stdout.decode().split('\n')[:-1]
        self.judge(done.returncode == 0, 'render: status %d: %s' % (done.returncode, done.stderr.decode().strip() or self.told[-2:]))

    def judge(self, good, text):
        if not good:
            self.wrong.append(text)
        return good

    def sound(self, whole=True):
        """Whether both sound the same; where the listener went away, what it heard is the beginning."""
        if self.wrong:
            return
        wanted, heard = samples_of(os.path.join(self.folder, 'out.wav')), bytes(self.live.out)
        if not whole:
            wanted = wanted[:len(heard)]
        if heard != wanted:
            place = next((at for at, pair in enumerate(zip(heard, wanted)) if pair[0] != pair[1]), min(len(heard), len(wanted)))
            self.judge(False, 'live gave %d bytes, render %d, which differ from frame %d on' % (
                len(heard), len(wanted), place // self.live.step))

    def files(self, passed_over=()):
        """Whether the saved files are the same, by name and byte for byte."""
        def found(folder):
            return {name for name in os.listdir(folder)} - set(passed_over)

        mine, theirs = found(self.live.folder), found(self.folder) - {'in.wav', 'out.wav', 'journal.txt'}
        self.judge(mine == theirs, 'live wrote %s, render %s' % (sorted(mine - theirs), sorted(theirs - mine)))
        for name in sorted(mine & theirs):
            with open(os.path.join(self.live.folder, name), 'rb') as one, open(os.path.join(self.folder, name), 'rb') as other:
                self.judge(one.read() == other.read(), 'the file %s differs' % name)
        return len(mine & theirs)

    def numbers(self):
        """Whether the closing line, the journal and render's summary tell the same numbers."""
        c = self.closing
        if not self.judge(c, 'no closing line: %s' % self.live.told.strip()):
            return
        counts = [sum(entry[1] == sender for entry in self.entries) for sender in range(3)]
        self.judge(c['entries'] == len(self.entries), '%d entries, and the journal has %d' % (c['entries'], len(self.entries)))
        self.judge([c['osc'], c['midi'], c['saves']] == counts,
                   'osc %d midi %d saves %d, and the journal has %s' % (c['osc'], c['midi'], c['saves'], counts))
        summary = 'frames %d entries %d replies %d saves %d refused %d' % (
            c['frames'], c['entries'], len(self.replies()), c['saves'], c['refused'])
        self.judge(summary in self.told, 'render tells %s, live %s' % (self.told[-2:], summary))

    def replies(self):
        """What render answers, by the number of the command of OSC."""
        lines = [line.split(' ') for line in self.told if line.startswith('reply ')]
        return {int(words[2]): (int(words[3]), words[4], int(words[5])) for words in lines}

    def accepted(self, all_of_them=True, more=0):
        """Whether the commands of OSC that were sent are in the journal in their order: each of them once, or each at most once.

        `more` is how many others there may be. Gives for each entry of OSC the place of its command among those sent, or None.
        """
        # A question without an answer wasn't accepted; which of several that are alike was, its answer tells.
        answered = {address for address, _ in self.live.answers}
        order = [place for place, (_, path) in enumerate(self.live.sent) if all_of_them or path is None or path in answered]
        sent = [self.live.sent[place][0] for place in order]
        known, places, at = set(sent), [], 0
        for command in (entry[3] for entry in self.entries if entry[1] == 0):
            if command not in known:
                places.append(None)
                continue
            if all_of_them:
                place = at if sent[at:at + 1] == [command] else None
            else:
                place = sent.index(command, at) if command in sent[at:] else None
            if place is None:
                self.judge(False, 'entry %d of OSC, %s, is not the next that was sent' % (len(places), command))
                return places
            at = place + 1
            places.append(order[place])
        self.judge(places.count(None) <= more, '%d entries were not sent' % places.count(None))
        self.judge(not all_of_them or at == len(sent), '%d commands were sent, and %d are in the journal' % (len(sent), at))
        lost = len(self.live.sent) - len(places)
        self.judge(all_of_them or self.live.refusals('OSC') == lost,
                   '%d commands are not in the journal, and %d are told as refused' % (lost, self.live.refusals('OSC')))
        return places

    def answers(self, places):
        """Whether each question in the journal was answered once, with what render answers."""
        replies = self.replies()
        wanted = {}
        for seq, place in enumerate(places):
            if place is None:
                continue
            path = self.live.sent[place][1]
            if path is not None:
                wanted[path] = replies.get(seq)
        got = {}
        for address, args in self.live.answers:
            if address.startswith('/answer/'):
                got.setdefault(address, []).append(tuple(args))
        self.judge(set(got) <= set(wanted), 'answers to what was not asked: %s' % sorted(set(got) - set(wanted))[:3])
        wrong = [path for path in wanted if got.get(path) != [wanted[path]]]
        self.judge(not wrong, '%d questions were not answered once as render does: %s' % (
            len(wrong), [(path, got.get(path), wanted[path]) for path in wrong[:3]]))
        return len(wanted)
