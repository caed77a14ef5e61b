#!/usr/bin/env python3
"""thousands.py [SNG]

Measures a field of 10,000 clients with 3 filters each through SNG (if none is given, the build that `rt run`
leaves in crates/sng/out/sng), beside a small field. Each figure is processor time, reading and printing
included, less that of the same script up to there; the best of several runs, which take turns since the machine
may be busy for a while. Prints

- what a PINGREQ costs where all clients ping in turn, and where one of them pings as often;
- what a message of the broker to one holder costs, of 30,000 filters and of 3, and one that nobody holds;
- what a tick costs where nothing is due, over all clients and over three, and one that sends again to 100
  clients, in the great field and in one of 100;
- what a policy costs that changes the scope of one client, in the great field and in one of 256, with 4 pairs
  each: beside the reading of its text, which is that of a text that is refused for its last topic;
- what `sng policy` and `sng may` cost for each client of a policy, of both fields, with 64 pairs each;
- by how much the most memory of the program grows with all these clients, connected and without filters.

Fails where other rows are printed, or where a round of pings costs more than 1.5 times as much as one client's."""
import json
import os
import re
import resource
import subprocess
import sys
import tempfile
import time

HERE = os.path.dirname(os.path.abspath(__file__))
CLIENTS, FEW, FILTERS, PAIRS, FEW_PAIRS, DUE = 10_000, 256, 3, 64, 4, 100
ROUNDS, MESSAGES, TICKS, CYCLES, POLICIES, RUNS = 20, 100_000, 400_000, 100, 40, 3
SECONDS, MOST_RATIO = 600, 1.5
MS_TO_ANSWER = 10_000


def name(number):
    return 'c%d' % number


def says(number, octets):
    return 'from 10.1.%d.%d:4000 %02x%s' % (number // 256, number % 256, len(octets) + 1, octets.hex())


def policy(clients, scope_of, last='t/1'):
    """The line of a policy that lists so many clients; a last topic that is no name has it refused."""
    whole = {'version': 4, 'limits': {'clients': CLIENTS, 'waiting': 50_000, 'in_flight': 16_000},
             'clients': {name(number): scope_of(number) for number in range(clients)}, 'topics': {'9': last}}
    return 'policy ' + json.dumps(whole, separators=(',', ':'))


def everything(_):
    return [['#', ['sub']]]


def pattern(number, place):
    return ('f/%05d/%d' % (number, place)).encode()


def front(clients, filters=FILTERS, qos=0):
    """The lines until so many clients are let in, each with so many filters, which the broker was told of."""
    lines = [policy(clients, everything), 'up']
    lines += [says(number, b'\x04\x04\x01\0\0' + name(number).encode()) for number in range(clients)]
    for number in range(clients):
        for place in range(filters):
            lines.append(says(number, bytes([0x12, qos << 5, 0, place + 1]) + pattern(number, place)))
    return lines + ['take']


def message(number, place=0, qos=0):
    topic = pattern(number, place)
    body = bytes([0, len(topic)]) + topic + (b'\0\1' if qos else b'') + bytes(range(32))
    return 'broker ' + (bytes([0x30 + 2 * qos, len(body)]) + body).hex()


def again(clients, is_due):
    """Messages at QoS 1 to the first clients, which answer once a tick has come: where `is_due` that sends all
    of them again."""
    lines = front(clients, 1, 1)
    for turn in range(1, CYCLES + 1):
        lines += [message(number, qos=1) for number in range(DUE)]
        lines.append('tick %d' % (turn * MS_TO_ANSWER if is_due else 0))
        # the first id of each client is that of its filter
        lines += [says(number, b'\x0d\0\1' + turn.to_bytes(2, 'big') + b'\0') for number in range(DUE)]
        lines.append('take')
    return lines


def some_pairs(count, words):
    """So many pairs for each client, of which the first client's last one has these words."""
    def scope_of(number):
        pairs = [['site/%05d/%02d/+' % (number, place), ['sub']] for place in range(count)]
        pairs[-1][1] = words if number == 0 else ['sub']
        return pairs
    return scope_of


def replaced(clients, last):
    """So many policies, each of which changes one client's scope; they are refused where `last` is no name."""
    lines = [policy(clients, some_pairs(FEW_PAIRS, ['sub'])), 'up']
    lines += [says(number, b'\x04\x04\x01\0\0' + name(number).encode()) for number in range(clients)]
    texts = [policy(clients, some_pairs(FEW_PAIRS, words), last) for words in (['pub'], ['sub'])]
    return lines, lines + texts * (POLICIES // 2)


def spent(words, given=subprocess.DEVNULL, out=subprocess.DEVNULL):
    before = resource.getrusage(resource.RUSAGE_CHILDREN)
    done = subprocess.run(words, stdin=given, stdout=out, timeout=SECONDS, check=False)
    after = resource.getrusage(resource.RUSAGE_CHILDREN)
    if done.returncode:
        raise SystemExit('%s: status %d' % (words, done.returncode))
    return after.ru_utime - before.ru_utime + after.ru_stime - before.ru_stime


def least(program, scripts):
    """The least processor seconds of each script, which take turns."""
    files = []
    for lines in scripts:
        files.append(tempfile.TemporaryFile())
        files[-1].write(''.join(line + '\n' for line in lines).encode())
    best = [None] * len(files)
    for _ in range(RUNS):
        for place, file in enumerate(files):
            file.seek(0)
            took = spent([program, 'play'], file)
            best[place] = took if best[place] is None else min(best[place], took)
    return best


def counted(program, lines, pattern_of_lines, wanted):
    """Fails where other rows are printed."""
    text = ''.join(line + '\n' for line in lines).encode()
    done = subprocess.run([program, 'play'], input=text, stdout=subprocess.PIPE, timeout=SECONDS, check=False)
    found = len(re.findall(pattern_of_lines, done.stdout, re.M))
    if done.returncode or found != wanted:
        raise SystemExit('status %d, %d lines of %r, not %d'
                         % (done.returncode, found, pattern_of_lines, wanted))


def pings(program):
    ping, before = b'\x16', front(CLIENTS)
    around = before + [says(number, ping) for _ in range(ROUNDS) for number in range(CLIENTS)]
    one = before + [says(CLIENTS // 2, ping)] * (ROUNDS * CLIENTS)
    counted(program, around, rb'^send \S+ 0217$', ROUNDS * CLIENTS)
    start, all_of_them, alone = least(program, [before, around, one])
    costs = [(took - start) / (ROUNDS * CLIENTS) * 1e9 for took in (all_of_them, alone)]
    print('a PINGREQ: %.0f ns round %d clients, %.0f ns by one of them: %.2f times as much'
          % (costs[0], CLIENTS, costs[1], costs[0] / costs[1]))
    return costs[0] <= MOST_RATIO * costs[1]


def messages(program):
    great, small = front(CLIENTS), front(1)
    kinds = [great, great + [message(CLIENTS // 2)] * MESSAGES, small, small + [message(0)] * MESSAGES,
             great + [message(CLIENTS)] * MESSAGES]
    counted(program, kinds[1], rb'^note hand ', MESSAGES)
    counted(program, kinds[4], rb'^note hand ', 0)
    start, held, start_small, alone, nobody = least(program, kinds)
    costs = [(end - begin) / MESSAGES * 1e9
             for begin, end in ((start, held), (start_small, alone), (start, nobody))]
    print('a message to one holder: %.0f ns of %d filters, %.0f ns of %d; that nobody holds: %.0f ns'
          % (costs[0], CLIENTS * FILTERS, costs[1], FILTERS, costs[2]))


def ticks(program):
    great, small = front(CLIENTS), front(1)
    scripts = [great, great + ['tick 1'] * TICKS, small, small + ['tick 1'] * TICKS]
    for clients in (CLIENTS, DUE):
        scripts += [again(clients, False), again(clients, True)]
    counted(program, scripts[5], rb'^note retry ', CYCLES * DUE)
    took = least(program, scripts)
    idle = [(took[place + 1] - took[place]) / TICKS * 1e9 for place in (0, 2)]
    due = [(took[place + 1] - took[place]) / CYCLES * 1e6 for place in (4, 6)]
    print('a tick with nothing due: %.0f ns over %d clients, %.0f ns over one' % (idle[0], CLIENTS, idle[1]))
    print('a tick that sends again to %d clients: %.0f us in a field of %d, %.0f us in one of %d'
          % (DUE, due[0], CLIENTS, due[1], DUE))


def policies(program):
    scripts = []
    for clients in (CLIENTS, FEW):
        before, accepted = replaced(clients, 't/1')
        refused = replaced(clients, 't/#')[1]
        scripts += [before, accepted, refused]
    counted(program, scripts[4], rb'^row \d+ 0 replace$', POLICIES + 1)
    counted(program, scripts[5], rb'^refused policy ', POLICIES)
    took = least(program, scripts)
    for place, clients in ((0, CLIENTS), (3, FEW)):
        start, accepted, refused = took[place:place + 3]
        print('a policy that changes one of %d clients: %.2f ms beside its reading, which takes %.2f us a client'
              ' with %d pairs' % (clients, (accepted - refused) / POLICIES * 1e3,
                                  (refused - start) / POLICIES / clients * 1e6, FEW_PAIRS))


def questions(program):
    with tempfile.TemporaryDirectory() as folder:
        for clients in (CLIENTS, FEW):
            path = os.path.join(folder, 'policy.json')
            with open(path, 'w') as file:
                file.write(policy(clients, some_pairs(PAIRS, ['sub']))[len('policy '):])
            costs = [min(spent([program, *words]) for _ in range(RUNS)) / clients * 1e6
                     for words in (['policy', path],
                                   ['may', '--policy', path, name(0), 'subscribe', 'site/00000/00/+'])]
            print('%d clients with %d pairs: sng policy takes %.1f us a client, sng may %.1f'
                  % (clients, PAIRS, *costs))


def peak(program, lines):
    """The most memory in KiB that the program has held once all lines are played."""
    text = ''.join(line + '\n' for line in lines).encode()
    with tempfile.TemporaryFile() as printed, \
            subprocess.Popen([program, 'play'], stdin=subprocess.PIPE, stdout=printed) as process:
        process.stdin.write(text)
        process.stdin.flush()
        end, before, now = time.monotonic() + SECONDS, None, spent_by(process)
        while now != before and time.monotonic() < end:
            time.sleep(0.5)
            before, now = now, spent_by(process)
        with open('/proc/%d/status' % process.pid) as status:
            most = max(int(line.split()[1]) for line in status if line.startswith('VmHWM:'))
        process.stdin.close()
        process.wait()
        printed.seek(0)
        rows = printed.read().count(b'row ')
    if process.returncode or rows != len(lines):
        raise SystemExit('status %d, %d rows, not %d' % (process.returncode, rows, len(lines)))
    return most


def spent_by(process):
    """The processor time that the process took, in ticks of the clock."""
    with open('/proc/%d/stat' % process.pid) as stat:
        return stat.read().rsplit(')', 1)[1].split()[11:13]


def memory(program):
    """The reading of the policy leaves memory behind that clients use again: so the second half of them counts,
    too, for which none of it is left."""
    lines = front(CLIENTS, 0)[:-1]
    listed, half, whole = [peak(program, lines[:2 + count]) for count in (0, CLIENTS // 2, CLIENTS)]
    print('%d clients that connected: %.1f MB more than their policy alone; the second half of them %d octets each'
          % (CLIENTS, (whole - listed) * 1024 / 1e6, (whole - half) * 1024 // (CLIENTS // 2)))


def main(argv):
    program = argv[0] if argv else os.path.join(HERE, '..', 'crates', 'sng', 'out', 'sng')
    is_kept = pings(program)
    for measure in (messages, ticks, policies, questions, memory):
        measure(program)
    return 0 if is_kept else 1


if __name__ == '__main__':
    sys.exit(main(sys.argv[1:]))
