#!/usr/bin/env python3
"""live.py [PROGRAM [CASE ..]]

Runs `sng serve` between devices and a real broker, on loopback: mosquitto with its clients, and devices in
Python (live_ends.py). PROGRAM is the proved program where none is given. Each case is bounded, ends its
processes by their ids, and checks what arrived, the rows, and the exit status. Where mosquitto cannot be had
the cases that need it are left out, and a line says so; those of BY_ANY_BROKER run by the program's own test
broker in any case. A case that this user or machine cannot run is left out, and a line says why. With
SNG_LIVE_SLOW in the environment brokers that hang or read slowly are tried, too, which takes two minutes;
with SNG_LIVE_FIGURES the figures of docs/hardening.md are printed. Exit status 1 where a case fails."""
import os
import subprocess
import sys
import time

sys.dont_write_bytecode = True
import live_book as book_cases
import live_broker as broker_cases
import live_faults as fault_cases
import live_flood as flood_cases
import live_hostile as hostile_cases
import live_limits as limit_cases
import live_network as network_cases
import live_operator as operator_cases
import live_order as order_cases
import live_policy as policy_cases
import live_program as program_cases
import live_rows as row_cases
import live_sessions as session_cases
from live_parts import Failure, Skipped, measured, tool
from live_room import Room

HERE = os.path.dirname(os.path.abspath(__file__))
PROVED = os.path.join(os.path.dirname(HERE), 'crates', 'sng', 'out', 'sng')
NEEDED = ('mosquitto', 'mosquitto_pub', 'mosquitto_sub')

ALONE = (session_cases.the_test_broker, program_cases.a_test_broker_that_does_not_open,
         program_cases.an_unreachable_broker, program_cases.a_broker_that_says_nothing,
         program_cases.a_hostile_broker, program_cases.the_end_of_the_input,
         program_cases.a_service_without_input, program_cases.the_version, program_cases.a_start_that_fails,
         program_cases.a_configuration_file, program_cases.the_command_line_goes_before_the_file,
         program_cases.a_configuration_at_fault,
         program_cases.an_input_that_cannot_be_read, program_cases.a_full_disk)
ALONE = (ALONE + operator_cases.ALONE + row_cases.ALONE + broker_cases.ALONE + fault_cases.ALONE
         + limit_cases.ALONE + network_cases.ALONE + order_cases.ALONE + hostile_cases.ALONE
         + flood_cases.ALONE + book_cases.ALONE + policy_cases.ALONE)
BESIDE_A_BROKER = (session_cases.a_publish_without_a_session, session_cases.a_session_that_publishes,
                   session_cases.a_subscription, session_cases.a_policy_that_ends_a_subscription,
                   session_cases.a_scope_that_ends,
                   program_cases.a_broker_that_comes_back, program_cases.a_subscription_outlives_the_broker,
                   program_cases.a_broker_that_refuses, session_cases.twenty_devices_at_once,
                   session_cases.rubbish, program_cases.a_policy_of_a_file, program_cases.idle)
BESIDE_A_BROKER = BESIDE_A_BROKER + order_cases.BESIDE_A_BROKER + flood_cases.BESIDE_A_BROKER
BY_ANY_BROKER = (session_cases.a_will, session_cases.a_sleeper, session_cases.a_policy_that_ends_what_waits,
                 session_cases.what_is_not_answered)


def alone(case):
    return case.__name__, case


def beside_mosquitto(case):
    return case.__name__, lambda room: case(room, room.broker())


def beside_the_test_broker(case):
    return case.__name__ + '_by_the_test_broker', lambda room: case(room, room.test_broker())


def main():
    words = sys.argv[1:]
    program = os.path.abspath(words[0]) if words else PROVED
    if not os.path.exists(program):
        print('no program at %s: `rt run` in crates/sng makes it' % program)
        return 1
    missing = [name for name in NEEDED if not tool(name)]
    cases = [alone(case) for case in ALONE] + [beside_the_test_broker(case) for case in BY_ANY_BROKER]
    if missing:
        print('not there: %s (apt-get install mosquitto mosquitto-clients); the cases beside it are left out'
              % ', '.join(missing))
    else:
        cases = ([alone(case) for case in BESIDE_A_BROKER]
                 + [beside_mosquitto(case) for case in BY_ANY_BROKER] + cases)
    chosen = [(name, case) for name, case in cases if not words[1:] or name in words[1:]]
    failed, left = 0, 0
    for name, case in chosen:
        begun = time.monotonic()
        try:
            with Room(program) as room:
                case(room)
        except Skipped as why:
            left += 1
            print('left out: %s: %s' % (name, why), flush=True)
        except (Failure, OSError, subprocess.SubprocessError) as fault:
            failed += 1
            print('failed: %s: %s' % (name, fault), flush=True)
        measured('%s took %.1f s' % (name, time.monotonic() - begun))
    print('live: %d passed, %d failed, %d left out' % (len(chosen) - failed - left, failed, left))
    return 1 if failed or not chosen else 0


if __name__ == '__main__':
    sys.exit(main())
