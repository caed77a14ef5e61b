#!/usr/bin/env python3
"""kinds.py [--gateway IP:PORT] [--from IP] [--topic-id N] [--pause S] {meter,valve,probe} NAME

A device of the field, until it is stopped. A meter sleeps; it wakes to be handed what waits, and to say what
it read. A valve stays awake, and does what it is told. A probe has no session: it sends at QoS -1, from an
address that the policy lists, by a topic id to which the policy gives a name."""
import argparse
import time

from device import Device, Refused


def meter(device, pause):
    """Says what it read at every second waking. `pause` in its settings is how many seconds it sleeps."""
    topic, settings = 'field/meters/%s/' % device.name, {'pause': pause}
    device.heard = lambda _, payload: settings.update(pause=float(payload))
    device.connect()
    device.subscribe(topic + 'pause')
    for count in range(1000000):
        device.publish(topic + 'reading', b'%d pause %g' % (count, settings['pause']))
        for step in (device.sleep, device.wake):
            step()
            time.sleep(settings['pause'] / 2)
        device.connect(clean=False)  # only who is connected may publish


def valve(device, pause):
    """Says how it stands, once it was told, and sends a PINGREQ between."""
    topic, told = 'field/valves/%s/' % device.name, ['shut']
    device.heard = lambda _, payload: told.append(payload.decode())
    device.connect()
    device.subscribe(topic + 'set')
    while True:
        while told:
            device.publish(topic + 'state', told.pop(0).encode())
        if device.receive(pause)[0] is None:
            device.ping()


def main():
    words = argparse.ArgumentParser(description='A device of MQTT-SN')
    words.add_argument('kind', choices=('meter', 'valve', 'probe'))
    words.add_argument('name')
    words.add_argument('--gateway', default='127.0.0.1:1884')
    words.add_argument('--from', dest='source', default='', help='the address to send from')
    words.add_argument('--topic-id', type=int, default=1, help='of a probe: the predefined topic id')
    words.add_argument('--pause', type=float, default=20.0, help='seconds between two messages')
    asked = words.parse_args()
    host, port = asked.gateway.rsplit(':', 1)
    device = Device((host, int(port)), asked.name, asked.source)
    while asked.kind == 'probe':
        device.publish_alone(asked.topic_id, b'%d' % (time.time() % 100))
        time.sleep(asked.pause)
    while True:
        try:
            {'meter': meter, 'valve': valve}[asked.kind](device, asked.pause)
        except (OSError, Refused) as fault:
            print(fault, flush=True)
            time.sleep(1)


if __name__ == '__main__':
    main()
