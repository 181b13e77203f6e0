"""Plays courses on the benchmark's program, which has gilrs and the hub in it, and reads what it says.

The folder, the program's first word, holds the program `pace` and the courses that it made."""
import os
import platform
import shlex
import subprocess
import sys

ROOT = os.path.dirname(os.path.dirname(os.path.abspath(__file__)))
FOLDER = os.path.abspath(sys.argv[1])
PROGRAM = os.path.join(FOLDER, 'pace')
ORACLE = os.path.join(FOLDER, 'oracle', 'oracle')
RUN = shlex.split(os.environ.get('X86_RUN', ''))  # what an x86-64 program is run under here
NATIVE = platform.machine() == 'x86_64'

COUNTS = ('CALLS', 'DRAINED', 'REFUSALS', 'RECORDS', 'EVENTS', 'STEPS', 'HELD')
HEAD = 8  # a course's rounds and its opening's size
PUMP = 4


def require(holds, what):
    if not holds:
        sys.exit(f'benchmark: {what}')


def course(name, rounds):
    with open(os.path.join(FOLDER, name), 'rb') as file:
        return rounds.to_bytes(4, 'big') + file.read()


def shortened(given, every):
    """The course with the first `every` pump calls of its round and what follows them, with twice as many, and so on up to the whole."""
    at, calls = HEAD + int.from_bytes(given[4:HEAD], 'big'), 0
    while at < len(given):
        if given[at] == PUMP:
            if calls > 0 and calls % every == 0:
                yield given[:at]
            calls += 1
        at += 5 + int.from_bytes(given[at + 1:at + 5], 'big')
    yield given


def run(words, given):
    """What a program wrote, and what it said."""
    done = subprocess.run(words, input=given, capture_output=True, check=True)
    return done.stdout.decode(), done.stderr.decode()


def played(side, given):
    return run([*RUN, PROGRAM, side], given)


def oracle(given):
    """The lines that the oracle's player prints for the operations of a course."""
    scenario = os.path.join(FOLDER, 'scenario')
    with open(scenario, 'wb') as file:
        file.write(given[HEAD:])
    return run([*RUN, ORACLE, 'play', scenario], b'')[0].splitlines()


def read(text):
    """The counts, and the lines of the last call's events."""
    counts, lines = {}, []
    for line in text.splitlines():
        word, rest = line.split(' ', 1)
        if word in COUNTS:
            counts[word] = int(rest)
        else:
            lines.append(line)
    return counts, lines
