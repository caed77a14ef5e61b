"""Cases of tests/live.py: what devices and a broker exchange by the gateway."""
import os
import threading
import time

from live_parts import HOST, Failure, wanted

BOTH = ['pub', 'sub']
S1 = {'version': 1, 'clients': {'s1': [['t/#', BOTH]]}}
SOURCE = {'version': 1, 'sources': {HOST: [['ab', ['pub']]]}}
# What is not answered comes again at the first tick 10 seconds later.
AGAIN_SECONDS = 30


def a_publish_without_a_session(room):
    broker = room.broker()
    heard = room.subscriber(broker, 'ab', 2)
    gateway = room.gateway(broker.port, policy=SOURCE)
    device = room.device(gateway)
    device.publish_short('ab', b'one')
    device.publish_short('cd', b'denied')
    device.publish_short('ab', b'two')
    wanted(heard.ended() == 0, 'both messages')
    wanted([line for line in heard.lines['out'] if line.startswith('got')] == ['got ab one', 'got ab two'],
           'the messages, and not %r' % heard.lines['out'])
    gateway.close()
    wanted(len(gateway.notes('publish %s ab allowed' % HOST)) == 2, 'two notes')
    wanted(gateway.notes('publish %s cd 10 MissingPub cd' % HOST), 'a denial')


def a_session_that_publishes(room):
    broker = room.broker()
    heard = room.subscriber(broker, 't/1', 1)
    gateway = room.gateway(broker.port, policy=S1)
    device = room.device(gateway)
    device.connect('s1')
    device.publish(device.register('t/1'), b'hi')
    wanted(heard.ended() == 0 and 'got t/1 hi' in heard.lines['out'], 'the message')
    device.register('x/1', code=3)
    device.leave()
    rows = gateway.close()
    wanted(rows >= 8, 'eight rows or more, and not %d' % rows)
    wanted(gateway.notes('forward s1 t/1 allowed'), 'a note of what left')


def a_subscription(room):
    broker = room.broker()
    gateway = room.gateway(broker.port, policy=S1)
    device = room.device(gateway)
    device.connect('s1')
    device.subscribe('t/#')
    gateway.line('out', '^wire 82')
    gateway.line('out', '^row .* broker')
    room.publish(broker, 't/9', 'first', '-q', '1')
    topic = device.announced('t/9')
    device.handed(topic, b'first')
    room.publish(broker, 't/9', 'second')
    device.handed(topic, b'second')
    room.publish(broker, 'u/9', 'not subscribed')
    device.silent()
    gateway.close()
    wanted(len(gateway.notes('hand s1 t/9 allowed')) == 2, 'two hand-overs')


def a_policy_that_ends_a_subscription(room):
    broker = room.broker()
    gateway = room.gateway(broker.port, policy=S1)
    device = room.device(gateway)
    device.connect('s1')
    device.subscribe('t/#')
    gateway.line('out', '^row .* broker')
    room.publish(broker, 't/1', 'held')
    device.receive(0x0a)
    gateway.replace({'version': 1, 'clients': {'s1': [['t/1', ['pub']]]}})
    gateway.line('out', '^note end s1 t/# 12 Uncovered')
    device.send(0x0b, b'\0\1\0\1\0')
    gateway.line('out', '^note hand s1 t/1 11 MissingSub t/1')
    gateway.line('out', '^wire a2')
    device.silent()
    gateway.say('policy not JSON')
    gateway.line('out', '^refused policy 1 NotJson$')
    gateway.close()


def a_scope_that_ends(room):
    """By the clock that is told at the start: the tick that reaches it ends what stands, and denies then."""
    broker = room.broker()
    gateway = room.gateway(broker.port, policy=S1)
    now = int(gateway.line('err', r'clock: (\d+) ms of Unix time, \d{4}-\d\d-\d\dT')[1])
    wanted(abs(now - time.time() * 1000) < 60_000, 'the wall clock, and not %d' % now)
    wanted(gateway.line('out', '^row 1 .*')[0].endswith(' tick'), 'the clock before everything else')
    device = room.device(gateway)
    device.connect('s1')
    device.subscribe('t/#')
    gateway.line('out', '^row .* broker')
    end = int(time.time() * 1000) + 2000
    shown = time.strftime('%Y-%m-%dT%H:%M:%S', time.gmtime(end // 1000))
    gateway.replace({'version': 2, 'clients': {'s1': {'scope': [['t/#', BOTH]], 'exp': end}}})
    gateway.line('err', '; 1 scopes end, the first at %d ms of Unix time, %s' % (end, shown))
    topic = device.register('t/1')
    gateway.line('out', '^note end s1 t/# 3 NoScope s1')
    gateway.line('out', '^wire a2')
    wanted(time.time() * 1000 >= end - 100, 'not before it ends')
    device.publish(topic, b'behind the end', code=3)
    gateway.line('out', '^note publish s1 - 3 NoScope s1')
    device.register('t/2', code=3)
    room.publish(broker, 't/9', 'to nobody')
    device.silent()
    gateway.close()


def twenty_devices_at_once(room):
    broker = room.broker()
    names = ['d%d' % number for number in range(20)]
    heard = room.subscriber(broker, 'd/#', 100)
    policy = {'version': 1, 'clients': {name: [['d/' + name, ['pub']]] for name in names}}
    gateway = room.gateway(broker.port, workers=4, policy=policy)
    faults, together = [], threading.Barrier(len(names))

    def live(name):
        try:
            device = room.device(gateway)
            device.connect(name)
            topic = device.register('d/' + name)
            for number in range(5):
                # All pause together, and for longer than a wait of a worker lasts, so that the next one's turn comes
                together.wait(30)
                time.sleep(0.3)
                device.publish(topic, b'%d' % number)
            device.leave()
        except (Failure, OSError, threading.BrokenBarrierError) as fault:
            together.abort()
            faults.append('%s: %r' % (name, fault))
    threads = [threading.Thread(target=live, args=(name,)) for name in names]
    for thread in threads:
        thread.start()
    for thread in threads:
        thread.join(30)
    wanted(not faults, '; '.join(faults))
    wanted(heard.ended(20) == 0, 'all messages')
    got = [line for line in heard.lines['out'] if line.startswith('got')]
    for name in names:
        mine = [line for line in got if ' d/%s ' % name in line]
        wanted(mine == ['got d/%s %d' % (name, k) for k in range(5)], 'the messages of %s in order' % name)
    rows = gateway.close()
    tags = {line.split()[2] for line in gateway.lines['out'] if line.startswith('row ')}
    wanted(rows >= 20 * 8, 'a row for each frame, and not %d' % rows)
    wanted(len(tags & set('0123')) > 1, 'more than one worker at work')


def the_test_broker(room):
    broker = room.test_broker()
    policy = {'version': 1, 'clients': {'s1': [['t/1', ['pub']]], 's2': [['t/#', ['sub']]]}}
    gateway = room.gateway(broker.port, policy=policy)
    one, two = room.device(gateway), room.device(gateway)
    one.connect('s1')
    two.connect('s2')
    two.subscribe('t/#')
    gateway.line('out', '^row .* broker')
    topic = one.register('t/1')
    one.publish(topic, b'hi')
    name = two.announced('t/1')
    two.handed(name, b'hi')
    for number in range(100):
        one.publish(topic, b'%d' % number)
        two.handed(name, b'%d' % number)
    broker.kill()
    gateway.line('err', 'lost: ')
    one.publish(topic, b'refused', code=1)
    room.test_broker(broker.port)
    gateway.line('err', 'connected', count=2)
    gateway.line('out', '^wire 82', count=2)
    one.publish(topic, b'again')
    two.handed(name, b'again')
    one.leave()
    two.leave()
    gateway.close()


def rubbish(room):
    broker = room.broker()
    gateway = room.gateway(broker.port, policy=S1)
    stranger = room.device(gateway)
    for text in (b'', b'\x00', b'\x02', b'\x01', b'\x01\x00\x04\x16', b'\xff' * 300, b'\x05\x0c',
                 os.urandom(2048), b'\x01' + b'\x09\xc4' + b'\x0c' + b'x' * 2496):
        stranger.socket.send(text)
    device = room.device(gateway)
    device.connect('s1')
    device.leave()
    gateway.close()
    wanted(len(gateway.notes('1 Malformed')) >= 6, 'notes of what is malformed')


def subscribed(room, broker, gateway, name='s1'):
    """A device whose subscription t/# stands at the broker."""
    device = room.device(gateway)
    device.connect(name)
    device.subscribe('t/#')
    gateway.line('out', '^wire 82')
    gateway.line('out', '^row .* broker')
    return device


def a_will(room, broker):
    heard = room.subscriber(broker, 'w/#', 1)
    policy = {'version': 1, 'clients': {'s1': [['w/1', ['pub']]], 's2': [['w/2', ['pub']]]}}
    gateway = room.gateway(broker.port, policy=policy)
    one, two = room.device(gateway), room.device(gateway)
    two.states_will('s2', 'w/2', b'denied', 3)
    one.states_will('s1', 'w/1', b'off', 2)
    gateway.replace({'version': 1, 'clients': {'s1': [['w/1', ['pub']]]}})
    gateway.line('out', '^note lost s1 - done$')
    gateway.line('out', '^note lost s2 - done$')
    heard.hears('w/1', 'off')
    gateway.line('out', '^note forward s1 w/1 allowed$')
    gateway.line('out', '^note forward s2 w/2 3 NoScope s2$')
    one.send(0x16, b's1')
    one.receive(0x18)
    two.silent()
    gateway.close()
    wires = [line for line in gateway.lines['out'] if line.startswith('wire 3')]
    wanted(len(wires) == 1, 'one will that leaves, and not %r' % wires)


def a_sleeper(room, broker):
    gateway = room.gateway(broker.port, policy=S1)
    device = subscribed(room, broker, gateway)
    device.sleep()
    for at, payload in enumerate(('one', 'two')):
        room.publish(broker, 't/1', payload, '-q', '1')
        gateway.line('out', '^row .* broker', count=2 + at)
    device.silent()
    device.wake('s1')
    topic = device.announced('t/1')
    device.handed(topic, b'one')
    device.handed(topic, b'two')
    device.receive(0x17)
    room.publish(broker, 't/1', 'three', '-q', '1')
    gateway.line('out', '^row .* broker', count=4)
    device.silent()
    device.wake('s1')
    device.handed(topic, b'three')
    device.receive(0x17)
    device.wake('s1')
    device.receive(0x17)
    device.connect('s1', flags=0)
    room.publish(broker, 't/1', 'four', '-q', '1')
    device.handed(device.announced('t/1'), b'four')
    device.leave()
    gateway.close()
    wanted(len(gateway.notes('hand s1 t/1 allowed')) == 4, 'four hand-overs')


def a_policy_that_ends_what_waits(room, broker):
    path = room.file('policy.json', '{"version":1,"clients":{"s1":[["t/#",["sub"]]],"s2":[["t/2",["sub"]]]}}')
    gateway = room.gateway(broker.port, '--policy', path)
    device = subscribed(room, broker, gateway)
    device.sleep()
    for at, topic in enumerate(('t/1', 't/2')):
        room.publish(broker, topic, 'held', '-q', '1')
        gateway.line('out', '^row .* broker', count=2 + at)
    room.file('policy.json', '{"version":1,"clients":{"s1":[["t/2",["sub"]]]}}')
    gateway.say('reload')
    gateway.line('out', '^note end s1 t/# 12 Uncovered t/# t$')
    gateway.line('out', '^wire a2')
    device.wake('s1')
    device.handed(device.announced('t/2'), b'held')
    device.receive(0x17)
    gateway.line('out', '^note hand s1 t/1 11 MissingSub t/1$')
    room.publish(broker, 't/2', 'not subscribed any more')
    device.wake('s1')
    device.receive(0x17)
    gateway.close()
    wanted(len(gateway.notes('hand s1 t/2 allowed')) == 1, 'one hand-over')
    wanted(not gateway.notes('hand s1 t/1 allowed'), 'no hand-over that the policy denies')


def what_is_not_answered(room, broker):
    gateway = room.gateway(broker.port, policy=S1)
    device = subscribed(room, broker, gateway)
    room.publish(broker, 't/1', 'held', '-q', '1')
    topic = device.announced('t/1')
    first = device.receive(0x0c)
    wanted(first[0] == 0x20 and first[1:3] == topic, 'a message at QoS 1, and not %s' % first.hex())
    again = device.receive(0x0c, AGAIN_SECONDS)
    wanted(again == b'\xa0' + first[1:], 'the same with DUP, and not %s' % again.hex())
    device.send(0x0d, again[1:5] + b'\0')
    room.publish(broker, 't/1', 'next', '-q', '1')
    device.handed(topic, b'next')
    device.silent()
    gateway.close()
    wanted(len(gateway.notes('retry s1 t/1 allowed')) == 1, 'one that is sent again')
    wanted(len(gateway.notes('hand s1 t/1 allowed')) == 2, 'two hand-overs')
