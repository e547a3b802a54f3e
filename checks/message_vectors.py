#!/usr/bin/env python3
"""Puts vectors of messages to the program vectors, and compares what it tells.

    checks/message_vectors.py PROGRAM CASES
    checks/message_vectors.py --lines CASES [EVERY]

CASES is the folder of cases. Vectors that ask for more than is built are passed over, and of two with the same bytes the
later counts. With --lines the lines for the program are printed, each EVERYth alone, with what it has to tell behind a tab.
"""
import json
import os
import subprocess
import sys

BUILT = 14


def number(ip):
    parts = [int(part) for part in ip.split('.')]
    return ((parts[0] * 256 + parts[1]) * 256 + parts[2]) * 256 + parts[3]


def latest(vectors, key):
    """What is built, and of two vectors with the same bytes the later one."""
    kept = {}
    for vector in vectors:
        stage = vector.get('upto', BUILT)
        if stage > BUILT or stage == 6:
            continue
        before = kept.get(key(vector))
        if before is None or before.get('upto', BUILT) <= stage:
            kept[key(vector)] = vector
    return list(kept.values())


def read(path):
    with open(path, encoding='utf-8') as file:
        return [json.loads(line) for line in file]


def arg(value):
    return {'i': lambda: 'i%d' % value[1], 's': lambda: 's' + value[1], 'x': lambda: 'x'}[value[0]]()


def parts(message):
    if isinstance(message, dict):
        return message['address'], message['args']
    return message


def told_packet(vector):
    if 'fault' in vector:
        return 'fault %d %d' % (vector['fault']['kind'], vector['fault']['at'])
    return ' '.join(['messages'] + [':'.join([address] + [arg(a) for a in args]) for address, args in map(parts, vector['messages'])])


def place(to):
    return '%d %d %s' % (number(to[0]), to[1], to[2])


def told_path(vector):
    if 'fault' in vector:
        return 'asked; fault %d' % vector['fault']
    if 'ping' in vector:
        return 'asked; ping ' + place(vector['ping'])
    return 'asked; play ' + vector['play'] + (' to ' + place(vector['to']) if vector['to'] else '')


def told_events(events):
    return ' '.join(['events'] + ['%d:%s' % (at, ':'.join(str(f) for f in event)) for at, event in events])


def binding_line(line):
    """The line of a binding: its channel is counted from 0, and in a text from 1."""
    if line[0] == 'give':
        return '%s %d %d %s' % (line[1], line[2] + 1, line[3], line[4])
    return 'cv %d %d set %s' % (line[1] + 1, line[2], ' '.join(str(word) for word in line[3:]))


def told_bindings(vector):
    if 'fault' in vector:
        return 'fault %d %d' % (vector['fault']['kind'], vector['fault']['line'])
    if isinstance(vector['lines'], int):  # many lines are told by their number, and the bytes are their spelling
        return 'text ' + vector['hex']
    text = ''.join(line + '\n' for line in ['looper bindings 1'] + [binding_line(line) for line in vector['lines']] + ['end'])
    return 'text ' + text.encode().hex()


def told_commands(vector):
    given = ['%d:%s %s' % (at, ':'.join(str(f) for f in event), command) for at, event, command in vector['commands'] if command]
    return '; '.join(['commands'] + given)


def lines(cases):
    """Each line for the program, with what it has to tell."""
    folder = os.path.join(cases, 'messages')
    for v in latest(read(os.path.join(folder, 'packets.jsonl')), lambda v: v['hex']):
        yield 'packet ' + v['hex'], told_packet(v)
    for v in latest(read(os.path.join(folder, 'paths.jsonl')), lambda v: (v['packet'], v['loops'], tuple(v['from']))):
        yield 'asked %d %d %d %s' % (v['loops'], number(v['from'][0]), v['from'][1], v['packet']), told_path(v)
    for v in latest(read(os.path.join(folder, 'urls.jsonl')), lambda v: (v['hex'], tuple(v['from']))):
        addr = v['addr']
        yield ('url %d %d %s' % (number(v['from'][0]), v['from'][1], v['hex']),
               '%d %d' % (number(addr[0]), addr[1]) if addr else 'none')
    for v in latest(read(os.path.join(folder, 'writes.jsonl')), lambda v: (v['address'], str(v['args']))):
        yield ' '.join(['write', v['address']] + [arg(a) for a in v['args']]), v['hex'] if v['hex'] else 'none'
    for v in latest(read(os.path.join(folder, 'midi.jsonl')), lambda v: v['hex']):
        yield 'midi ' + v['hex'], told_events(v['events'])
    for v in latest(read(os.path.join(folder, 'bindings.jsonl')), lambda v: (v['hex'], v['loops'])):
        yield 'bindings %d %s' % (v['loops'], v['hex']), told_bindings(v)
    for v in latest(read(os.path.join(folder, 'lookups.jsonl')), lambda v: (v['text'], v['loops'], v['hex'])):
        yield 'looked %d %s %s' % (v['loops'], v['text'].encode().hex(), v['hex']), told_commands(v)
    for v in read(os.path.join(folder, 'accounts.jsonl')):
        yield account_line(v), told_account(v)
    yield from peer_lines(os.path.join(cases, 'peers'))


def account_line(vector):
    """A sender's numbers and steps; `take:` is by the ring's other end."""
    words = ['account', vector['sender'], str(vector['quota']), str(vector['capacity']), str(vector['loops'])]
    if vector['sender'] == 'osc':
        words += [str(number(vector['from'][0])), str(vector['from'][1])]
    else:
        words.append(vector['text'].encode().hex())
    for step in vector['steps']:
        words.append({'packet': lambda: step[1], 'byte': lambda: step[1] if isinstance(step[1], str) else '%02x' % step[1],
                      'take': lambda: 'take:%d' % step[1], 'unsent': lambda: 'unsent'}[step[0]]())
    return ' '.join(words)


def told_decision(decision):
    if decision[0] == 'Ping':
        return 'Ping ' + place(decision[1])
    return ':'.join(str(part) for part in decision)


def told_account(vector):
    account = vector['account']
    told = ['account']
    decisions = iter(vector['decisions'])
    for step in vector['steps']:
        if step[0] == 'unsent':
            told.append('')
        if step[0] in ('packet', 'byte'):
            decided = next(decisions) or []
            decided = [decided] if decided and isinstance(decided[0], str) else decided
            told.append(''.join(' ' + told_decision(d) for d in decided))
    text = ';'.join(told)
    for command, to in account['accepted']:
        text += '; accepted ' + command + (' to ' + place(to) if to else '')
    counts = [account[key] for key in ('ring_full', 'session_full', 'ended', 'packet_faults')] + account['path_faults'] + [account['unsent']]
    return text + '; counts ' + ' '.join(str(count) for count in counts) + '; last' + ''.join(' %d:%d' % tuple(r) for r in account['last'])


def peer_lines(folder):
    """What other programs send: their packets' first message, and the events of their streams without places."""
    with open(os.path.join(folder, 'osc.json'), encoding='utf-8') as file:
        for v in json.load(file):
            yield from peer_packet(v)
    with open(os.path.join(folder, 'midi.json'), encoding='utf-8') as file:
        for v in json.load(file):
            yield 'stream ' + v['hex'], ' '.join(['events'] + [':'.join(str(f) for f in e) for e in v['events']])


FAULTS = ['UnknownPath', 'BadArguments', 'UnknownCommand', 'UnknownControl', 'OutOfRange', 'BadUrl', 'BadName']
KINDS = ['Size', 'Text', 'Tags', 'Short', 'Extra', 'Depth']
FROM = ('10.0.0.9', 40123)


def told_answer(answer):
    """What the program tells of one message, by the words of a peer's answer."""
    if answer in FAULTS:
        return 'fault %d' % (FAULTS.index(answer) + 1)
    words, at, to = answer.partition(' to ')
    if to:
        where, path = to.split(' ')
        ip, port = FROM if where == 'sender' else (where.split(':')[0], int(where.split(':')[1]))
        to = ' %d %d %s' % (number(ip), port, path.encode().hex())
    if words == 'ping':
        return 'ping' + to
    return 'play ' + words + (' to' + to if to else '')


def peer_packet(vector):
    """A peer's packet with all its answers; none where it asks for more than is built."""
    answers = vector['answers']
    if any(answer.startswith('load ') for answer in answers):
        return []
    if len(answers) == 1 and answers[0].split(' ')[0] in KINDS:
        kind, _, at = answers[0].split(' ')
        told = 'fault %d %s' % (KINDS.index(kind) + 1, at)
    else:
        told = ''.join(['asked'] + ['; ' + told_answer(answer) for answer in answers])
    return [('asked %d %d %d %s' % (vector['loops'], number(FROM[0]), FROM[1], vector['hex']), told)]


def main():
    words = sys.argv[1:]
    if words[:1] == ['--lines']:
        every = int(words[2]) if len(words) > 2 else 1
        for line, told in list(lines(words[1]))[::every]:
            print(line + '\t' + told)
        return 0
    program, cases = words
    pairs = list(lines(cases))
    text = ''.join(line + '\n' for line, told in pairs)
    done = subprocess.run([program], input=text.encode(), stdout=subprocess.PIPE, check=True)
    told = done.stdout.decode().split('\n')[:-1]
    failed = 0
    for (line, wanted), got in zip(pairs, told):
        if wanted != got:
            failed += 1
            if failed <= 20:
                print('%s\n  wanted %s\n  told   %s' % (line[:300], wanted[:300], got[:300]))
    failed += abs(len(pairs) - len(told))
    print('%d of %d vectors of messages agree' % (len(pairs) - failed, len(pairs)))
    return 1 if failed else 0


if __name__ == '__main__':
    sys.exit(main())
