#!/usr/bin/env python3
"""Puts bytes through the real ends of a live session, over loopback and FIFOs, and compares what comes.

    checks/ends.py PROGRAM

PROGRAM is `ends`. Each part is bounded in time. The last line is `N passed, N failed`, and the status is 0 where none failed.
"""
import os
import resource
import select
import socket
import subprocess
import sys
import tempfile
import threading
import time

program = os.path.abspath(sys.argv[1])
passed = 0
failed = 0


def judge(title, good, more=''):
    global passed, failed
    if good:
        passed += 1
    else:
        failed += 1
        print(f'{title}: {more}')


def begun(*words, **more):
    return subprocess.Popen([program, *words], stdout=subprocess.PIPE, **more)


def answer(sock, seconds=2):
    """The next packet, or None."""
    if not select.select([sock], [], [], seconds)[0]:
        return None
    return sock.recv(70000)


def packets():
    """Packets of all sizes go in and come back; more than 8192 bytes are cut; foreign ones harm nothing."""
    child = begun('link', 'local')
    port = int(child.stdout.readline().split()[1])
    sock = socket.socket(socket.AF_INET, socket.SOCK_DGRAM)
    for size in (0, 4, 28, 8191, 8192, 9000):
        sent = bytes((7 * place + size) % 256 for place in range(size))
        sock.sendto(sent, ('127.0.0.1', port))
        back = answer(sock)
        judge(f'a packet of {size} bytes', back == sent[:8192],
              'none came back' if back is None else f'{len(back)} bytes came back')
    try:
        six = socket.socket(socket.AF_INET6, socket.SOCK_DGRAM)
        six.sendto(b'six', ('::1', port))
    except OSError:
        pass
    # An address that can't be reached: the answer to it is lost, and the link goes on.
    closed = socket.socket(socket.AF_INET, socket.SOCK_DGRAM)
    closed.sendto(b'gone', ('127.0.0.1', port))
    closed.close()
    sock.sendto(b'still', ('127.0.0.1', port))
    judge('a packet behind one whose sender is gone', answer(sock) == b'still')
    sock.sendto(b'end', ('127.0.0.1', port))
    judge('the end of the link', child.wait(timeout=5) == 0)


def addresses():
    """At 127.0.0.1 alone, or at all addresses of the machine."""
    other = [info[4][0] for info in socket.getaddrinfo(socket.gethostname(), None, socket.AF_INET)]
    other = [ip for ip in other if not ip.startswith('127.0.0.1')]
    for kind in ('local', 'all'):
        child = begun('link', kind)
        port = int(child.stdout.readline().split()[1])
        for ip in other[:1]:
            sock = socket.socket(socket.AF_INET, socket.SOCK_DGRAM)
            try:
                sock.sendto(b'from outside', (ip, port))
                heard = answer(sock, 0.5) == b'from outside'
            except OSError:
                heard = False
            judge(f'{kind}: a packet to {ip}', heard == (kind == 'all'), f'heard: {heard}')
        sock = socket.socket(socket.AF_INET, socket.SOCK_DGRAM)
        sock.sendto(b'end', ('127.0.0.1', port))
        judge(f'{kind}: the end', child.wait(timeout=5) == 0)
    child = begun('link', 'none')
    judge('the link to nowhere has ended', child.wait(timeout=5) == 0)


def idle():
    """A second without packets takes next to no processor time."""
    child = begun('link', 'local')
    port = int(child.stdout.readline().split()[1])
    time.sleep(1)
    sock = socket.socket(socket.AF_INET, socket.SOCK_DGRAM)
    sock.sendto(b'end', ('127.0.0.1', port))
    before = resource.getrusage(resource.RUSAGE_CHILDREN)
    status = child.wait(timeout=5)
    after = resource.getrusage(resource.RUSAGE_CHILDREN)
    took = after.ru_utime + after.ru_stime - before.ru_utime - before.ru_stime
    judge('an idle second', status == 0 and took < 0.2, f'status {status}, {took:.3f} s of the processor')


def files(folder):
    """Regular files, a file that isn't there, FIFOs without a writer, with one that closes, and with two."""
    path = os.path.join(folder, 'bytes')
    data = os.urandom(100000)
    with open(path, 'wb') as file:
        file.write(data)
    child = begun('file', path)
    out = child.communicate(timeout=10)[0]
    judge('a regular file', child.returncode == 0 and out == data, f'status {child.returncode}')
    child = begun('file', os.path.join(folder, 'none'))
    judge('a file that is not there', child.wait(timeout=10) == 4)
    child = begun('file', '/dev/null')
    judge('a device at its end', child.wait(timeout=10) in (0, 1))
    fifo = os.path.join(folder, 'fifo')
    os.mkfifo(fifo)
    child = begun('file', fifo)
    judge('a FIFO without a writer', child.wait(timeout=10) == 1)

    def write():
        for part in (data[:3], data[3:6000]):
            with open(fifo, 'wb') as file:
                file.write(part)
            time.sleep(0.1)

    child = begun('file', fifo)
    writer = threading.Thread(target=write)
    writer.start()
    out = child.communicate(timeout=10)[0]
    writer.join()
    judge('a FIFO whose writers close', child.returncode == 1 and out == data[:6000],
          f'status {child.returncode}, {len(out)} bytes')


def streams():
    """Standard input gives what has come, without waiting for more."""
    child = begun('input', stdin=subprocess.PIPE)
    for part in (b'a', b'bcd', b'e' * 3000):
        child.stdin.write(part)
        child.stdin.flush()
        got = b''
        while len(got) < len(part) and select.select([child.stdout], [], [], 2)[0]:
            got += os.read(child.stdout.fileno(), 70000)
        judge(f'{len(part)} bytes of standard input', got == part, f'{len(got)} bytes')
    child.stdin.close()
    judge('the end of standard input', child.wait(timeout=5) == 0)


def keepers(folder):
    """Two programs write in one folder at the same time, and one that is killed leaves nothing in the way."""
    children = [begun('keep', name, '200', cwd=folder) for name in ('first', 'the-second')]
    found = [child.wait(timeout=60) for child in children]
    judge('two programs in one folder', found == [0, 0], f'statuses {found}')
    for _ in range(20):
        child = begun('keep', 'killed', '1000000', cwd=folder)
        time.sleep(0.01)
        child.kill()
        child.wait()
    judge('a write behind programs that were killed', begun('keep', 'after', '1', cwd=folder).wait(timeout=10) == 0)
    judge('nothing is left', set(os.listdir(folder)) <= {'first', 'the-second', 'killed', 'after'}, os.listdir(folder))


packets()
addresses()
idle()
with tempfile.TemporaryDirectory() as folder:
    files(folder)
with tempfile.TemporaryDirectory() as folder:
    keepers(folder)
streams()
print(f'{passed} passed, {failed} failed')
sys.exit(failed > 0)
