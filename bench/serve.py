#!/usr/bin/env python3
"""serve.py [SNG]

Measures `sng serve` on loopback (SNG is the build that `rt run` leaves in crates/sng/out/sng, where none is
given), beside plain programs that decide nothing (serve.c, built on the spot by `cc -O2`): a relay of UDP to
TCP, and one that sends each message of the broker to each device, in one thread, with a thread beside it that
waits for devices, with that thread and keeping what it sends, and with all that where another thread sends
half. Prints how many PUBLISHes a second reach the broker at QoS -1 and at QoS 1, with 1, 2 and 4 workers, and
at QoS 1 also by a policy that lets 16,000 be in flight where 128 may by default; how many of a burst of
10,000 reach it; how many messages of the broker a second reach 1, 10 and 100 devices; the median and the 99th
percentile of a round trip in microseconds; the memory of a row; and what an idle gateway uses of a processor.
Each figure is of payloads of 32 bytes, that of the run in the middle of several; plain program and gateway
take turns."""
import json
import os
import re
import socket
import subprocess
import sys
import tempfile
import time
from functools import partial

HERE = os.path.dirname(os.path.abspath(__file__))
PROVED = os.path.join(os.path.dirname(HERE), 'crates', 'sng', 'out', 'sng')
HOST = '127.0.0.1'
ROUNDS = 5
SECONDS = 60
IDLE_SECONDS = 20
MINUS, ONE, TRIPS, BURST = '100000', '30000', '10000', '10000'
# How many datagrams leave for the devices in a run: with 20,000 it was over in a tenth of a second
OUTS = 100_000
# What the book takes for a datagram of these, which a plain program keeps as well: a note and the datagram
KEPT = '240'
POLICY = {'version': 1, 'sources': {HOST: [['ab', ['pub']]]},
          'clients': dict({'s1': [['t/1', ['pub']]]}, **{'d%03d' % k: [['ab', ['sub']]] for k in range(100)})}

# The same, by which more publishes may be in flight than the driver sends at once
WIDE = dict(POLICY, version=4, limits={'in_flight': 16_000, 'waiting': 65_000})


def free_port(kind):
    with socket.socket(socket.AF_INET, kind) as found:
        found.bind((HOST, 0))
        return found.getsockname()[1]


def figures(text):
    return {name: float(value) for name, value in re.findall(r'(\w+) ([\d.]+)', text)}


def resident(pid):
    with open('/proc/%d/status' % pid) as status:
        return int(re.search(r'VmRSS:\s+(\d+)', status.read())[1]) * 1024


def processor_seconds(pid):
    with open('/proc/%d/stat' % pid) as stat:
        return sum(map(int, stat.read().rsplit(')', 1)[1].split()[11:13])) / os.sysconf('SC_CLK_TCK')


def by_plain(tool, program, words, *more):
    port, udp = free_port(socket.SOCK_STREAM), free_port(socket.SOCK_DGRAM)
    driver = subprocess.Popen([tool, words[0], str(port), *words[1:]], stdin=subprocess.PIPE,
                              stdout=subprocess.PIPE, text=True)
    relay = None
    try:
        for _ in range(100):
            relay = subprocess.Popen([tool, program, str(udp), str(port), *more], stderr=subprocess.DEVNULL)
            try:
                relay.wait(0.1)
            except subprocess.TimeoutExpired:
                break
        return figures(driver.communicate('%d\n' % udp, timeout=SECONDS)[0])
    finally:
        for process in (driver, relay):
            if process and process.poll() is None:
                process.kill()
                process.wait()


def begun(gateway):
    """The port of the devices, once the policy is in force and the broker is connected."""
    udp, awaited = None, {'policy in force', 'connected'}
    for line in gateway.stderr:
        found = re.search(r'listening on [\d.]+:(\d+)', line)
        udp = int(found[1]) if found else udp
        awaited = {what for what in awaited if what not in line}
        if not awaited:
            break
    time.sleep(0.2)
    return udp


def started(sng, policy, workers, port, *more):
    words = ['--listen', HOST + ':0', '--broker', '%s:%d' % (HOST, port), '--id', 'gw1', '--workers',
             str(workers), '--policy', policy, *more]
    return subprocess.Popen([sng, 'serve', *words], stdin=subprocess.PIPE, stdout=subprocess.PIPE,
                            stderr=subprocess.PIPE, text=True)


def by_gateway(tool, sng, policy, workers, words):
    port = free_port(socket.SOCK_STREAM)
    driver = subprocess.Popen([tool, words[0], str(port), *words[1:]], stdin=subprocess.PIPE,
                              stdout=subprocess.PIPE, text=True, env=dict(os.environ, SESSION='1'))
    gateway = started(sng, policy, workers, port)
    try:
        udp = begun(gateway)
        before = resident(gateway.pid)
        came = figures(driver.communicate('%d\n' % udp, timeout=SECONDS)[0])
        after = resident(gateway.pid)
        printed, _ = gateway.communicate('quit\n', timeout=SECONDS)
        rows = int(re.search(r'closed (\d+) rows', printed)[1])
        return dict(came, row=(after - before) / rows)
    finally:
        for process in (driver, gateway):
            if process.poll() is None:
                process.kill()
                process.wait()


def idle(tool, sng, policy, workers):
    """Which part of a processor a gateway uses to which nothing comes."""
    port = free_port(socket.SOCK_STREAM)
    driver = subprocess.Popen([tool, 'minus', str(port), '1'], stdin=subprocess.PIPE, stdout=subprocess.DEVNULL)
    gateway = started(sng, policy, workers, port)
    try:
        begun(gateway)
        before = processor_seconds(gateway.pid)
        time.sleep(IDLE_SECONDS)
        return (processor_seconds(gateway.pid) - before) / IDLE_SECONDS
    finally:
        for process in (driver, gateway):
            process.kill()
            process.wait()


def middles(runs, by='rate'):
    """Of several rounds, in each of which the runs take turns, the run in the middle by its rate, of each."""
    rounds = [[run() for run in runs] for _ in range(ROUNDS)]
    return [sorted(came, key=lambda one: one[by])[ROUNDS // 2] for came in zip(*rounds)]


def show(name, came, scale=None):
    line = '%-34s %9.0f /s' % (name, came['rate'])
    if 'p50' in came:
        line += '   p50 %7.1f   p99 %7.1f' % (came['p50'], came['p99'])
    if 'row' in came:
        line += '   %4.0f bytes a row' % came['row']
    if scale:
        line += '   rate x %.2f' % (came['rate'] / scale['rate'])
        if 'p50' in came:
            line += ', p50 x %.2f, p99 x %.2f' % (came['p50'] / scale['p50'], came['p99'] / scale['p99'])
    print(line, flush=True)


def show_burst(relay, *others):
    for name, came in zip(('relay', 'sng, workers 1', 'sng, workers 2', 'sng, workers 4'), (relay, *others)):
        print('of a burst of %s at QoS -1: %s %6.0f, of %.0f sent a second' % (BURST, name, came['arrived'],
                                                                              came['rate']), flush=True)


def main():
    sng = os.path.abspath(sys.argv[1]) if len(sys.argv) > 1 else PROVED
    with tempfile.TemporaryDirectory() as room:
        tool, policy = os.path.join(room, 'serve'), os.path.join(room, 'policy.json')
        subprocess.run(['cc', '-O2', '-o', tool, os.path.join(HERE, 'serve.c'), '-lpthread'], check=True)
        wide = os.path.join(room, 'wide.json')
        for path, of in ((policy, POLICY), (wide, WIDE)):
            with open(path, 'w') as file:
                json.dump(of, file)
        for title, words, by in (('QoS -1', ['minus', MINUS], policy),
                                 ('QoS 1, 32 on the way', ['one', ONE, '32'], policy),
                                 ('QoS 1, 32 of 16,000', ['one', ONE, '32'], wide),
                                 ('QoS 1, one at a time', ['one', TRIPS, '1'], policy)):
            scale, *others = middles([partial(by_plain, tool, 'relay', words)] + [
                partial(by_gateway, tool, sng, by, workers, words) for workers in (1, 2, 4)])
            show(title + ': relay', scale)
            for workers, came in zip((1, 2, 4), others):
                show('%s: sng, workers %d' % (title, workers), came, scale)
        show_burst(*middles([partial(by_plain, tool, 'relay', ['burst', BURST])] + [
            partial(by_gateway, tool, sng, policy, workers, ['burst', BURST]) for workers in (1, 2, 4)],
            'arrived'))
        for devices in (1, 10, 100):
            words = ['fan', str(OUTS // devices), str(devices)]
            scale, beside, keeping, shared, came = middles([
                partial(by_plain, tool, 'cast', words), partial(by_plain, tool, 'cast', words, '1', '0'),
                partial(by_plain, tool, 'cast', words, '1', KEPT),
                partial(by_plain, tool, 'cast', words, '1', KEPT, '1'),
                partial(by_gateway, tool, sng, policy, 2, words)])
            show('to %d devices: plain' % devices, scale)
            show('to %d devices: plain, a thread beside' % devices, beside, scale)
            show('to %d devices: plain, and kept' % devices, keeping, scale)
            show('to %d devices: plain, two senders' % devices, shared, scale)
            show('to %d devices: sng, workers 2' % devices, came, scale)
        for workers in (1, 8):
            print('idle, workers %d: %.4f of a processor' % (workers, idle(tool, sng, policy, workers)))


if __name__ == '__main__':
    main()
