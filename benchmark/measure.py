"""Plays the same courses on gilrs and on the hub, requires that they do the same, and prints what it costs as tables for benchmark/README.md.

measure.py FOLDER: the folder holds the program and the courses that it made. Each side times its own part by the processor's clock, the two sides in turn;
instructions are counted inside the measured parts, at 2n rounds over n."""
import os
import platform
import re
import statistics
import subprocess

import counting
from counting import ASKS, READS, TAKES
from playing import FOLDER, NATIVE, course, oracle, played, read, require, shortened

TIMES = 15  # runs of each, the sides in turn
STREAM_ROUNDS = 10
SMALL_ROUNDS = 1_000
WAITING_ROUNDS = 100
SMALL = 1_000  # bare calls, or queries, of a course
TAKEN = (0, 12, 24, 36, 48)  # steps that take one of 48 waiting events
PUSHED = (0, 4, 8, 12, 16)  # steps that turn one of 16 waiting hat events
BARE, ASKING = f'bare-{SMALL}', f'asking-{SMALL}'
COMPARED = {'stream': 1, 'singly': 100, BARE: SMALL, ASKING: 1}  # each so many calls of these courses are compared
LIBRARY = os.path.join(FOLDER, '..', 'staticlib', 'libcopperyarn.a')
OBJDUMP = 'objdump' if NATIVE else 'x86_64-linux-gnu-objdump'


# ---- both do the same


def compare_stream(name, every):
    """The numbers after each so many calls, and the events of the last of them. Answers what a round is."""
    for given in shortened(course(name, 1), every):
        counts, lines = read(played('hub', given)[0])
        other, other_lines = read(played('gilrs', given)[0])
        require(counts['REFUSALS'] == 0 and counts['DRAINED'] == counts['CALLS'], f'{name}: the hub did not drain the records: {counts}')
        for word in other:
            require(counts[word] == other[word], f'{name}: {word} differ: hub {counts[word]}, gilrs {other[word]}')
        require(lines == other_lines, f'{name}: the events of call {counts["CALLS"]} differ')
    return counts


def compare_waiting(name, steps):
    """With the oracle's player, which plays the same operations: the events of the last call."""
    counts, lines = read(played('hub', course(name, 2))[0])
    require(counts['REFUSALS'] == 0 and counts['STEPS'] == counts['EVENTS'] == 2 * steps, f'{name}: {counts}')
    of_oracle = oracle(course(name, 1))
    require(of_oracle[len(of_oracle) - 1 - steps:-1] == lines, f'{name}: the oracle plays other events')


# ---- nanoseconds of a round, the median and the least


def nanoseconds(name, rounds):
    """Of gilrs, of the hub, and of the stand-in for gilrs's backend."""
    times = {'gilrs': [], 'hub': [], 'stand-in': []}
    for _ in range(TIMES):
        for side in ('gilrs', 'hub'):
            said = played(side, course(name, rounds))[1]
            times[side].append(int(re.search(r'NANOSECONDS (\d+)', said).group(1)) / rounds)
            if side == 'gilrs':
                times['stand-in'].append(int(re.search(r'STAND-IN (\d+)', said).group(1)) / rounds)
    return {who: (statistics.median(spent), min(spent)) for who, spent in times.items()}


# ---- the tables


def row(what, gilrs, hub, parts, places=0):
    """A table's row: of each a cost, or the median and the least one, by the number of parts."""
    def cell(cost):
        told = [f'{one / parts:,.{places}f}' for one in cost]
        return told[0] + (f' ({told[1]})' if len(told) > 1 else '')
    ratios = [f'{mine / other:.2f}' for mine, other in zip(hub, gilrs)]
    print(f'| {what} | {cell(gilrs)} | {cell(hub)} | {ratios[0]}' + (f' ({ratios[1]})' if len(ratios) > 1 else '') + ' |')


def tell_times(counts):
    times = nanoseconds('stream', STREAM_ROUNDS)
    row('batches of 372, every event read: ns a record', times['gilrs'], times['hub'], counts['stream']['RECORDS'])
    row('ns an event', times['gilrs'], times['hub'], counts['stream']['EVENTS'])
    backend = times['stand-in'][0] / counts['stream']['RECORDS']
    times = nanoseconds('singly', STREAM_ROUNDS)
    row('one record a call, every event read, and a query: ns a record', times['gilrs'], times['hub'], counts['singly']['RECORDS'])
    few = nanoseconds('bare-0', SMALL_ROUNDS)
    for name, what in ((BARE, 'a call that makes no step: ns'), (ASKING, 'a query by code: ns')):
        many = nanoseconds(name, SMALL_ROUNDS)
        row(what, *([a - b for a, b in zip(many[side], few[side])] for side in ('gilrs', 'hub')), SMALL)
    return backend


def tell_instructions(counts):
    def told(what, name, parts, of, less=None, places=0):
        costs = [counting.instructions(side, parts, name) - (counting.instructions(side, parts, less) if less else 0) for side in ('gilrs', 'hub')]
        row(what, costs[:1], costs[1:], of, places)
    told('batches of 372: instructions a record', 'stream', (TAKES,), counts['stream']['RECORDS'])
    told('instructions an event', 'stream', (TAKES,), counts['stream']['EVENTS'])
    told('batches of 372, every event read: instructions a record', 'stream', (TAKES, READS), counts['stream']['RECORDS'])
    told('one record a call, every event read, and a query: instructions a record', 'singly', (TAKES, READS, ASKS), counts['singly']['RECORDS'])
    # the batch that the calls come behind is taken by the same part
    told('a call that makes no step: instructions', BARE, (TAKES,), SMALL, less='bare-0', places=1)
    told('a query by code: instructions', ASKING, (ASKS,), SMALL, places=1)


def tell_waiting(word, what, points, after):
    """`after` says how many wait after so many steps."""
    costs = [counting.instructions('hub', (TAKES,), f'{word}-{steps}', WAITING_ROUNDS) for steps in points]
    print(f'\n| {what} | ' + ' | '.join(f'{after(a)} to {after(b)}' for a, b in zip(points, points[1:])) + ' |\n|---|' + '---|' * (len(points) - 1))
    cells = [f'{(costs[at] - costs[at - 1]) / (points[at] - points[at - 1]):.1f}' for at in range(1, len(costs))]
    print('| instructions a step | ' + ' | '.join(cells) + ' |')


def require_no_copies():
    """The library's code moves no block of memory: it calls neither memcpy nor memmove, and repeats no move."""
    code = subprocess.run([OBJDUMP, '-dr', LIBRARY], capture_output=True, text=True, check=True).stdout
    require(not re.search(r'\b(memcpy|memmove)\b|rep movs', code), 'the library copies blocks of memory')
    print('\nThe library calls neither memcpy nor memmove: nothing larger than the head is copied.')


def main():
    counts = {name: compare_stream(name, every) for name, every in COMPARED.items()}
    for word, points in (('taking', TAKEN), ('pushing', PUSHED)):
        for steps in points:
            compare_waiting(f'{word}-{steps}', steps)
    print('The hub and gilrs hand out the same events, and answer the queries alike.')
    for name in ('stream', 'singly'):
        print(f'A round of `{name}`: ' + ', '.join(f'{number:,} {word.lower()}' for word, number in counts[name].items()) + '.')
    require_no_copies()
    lacks = counting.missing()
    if not NATIVE:
        print(f'Both run in an emulator on {platform.machine()}: no times.')
    print(f'\n| of {TIMES} runs the median (the least) | gilrs | hub | hub / gilrs |\n|---|---|---|---|')
    backend = tell_times(counts) if NATIVE else None
    if lacks:
        print(f'\nNo instructions are counted here: {lacks}.')
    else:
        tell_instructions(counts)
        tell_waiting('taking', 'a step that takes an event, while so many wait', TAKEN, lambda steps: 48 - steps)
        tell_waiting('pushing', 'a step that turns a hat event and queues three', PUSHED, lambda steps: 16 + 2 * steps)
    if backend is not None:
        print(f"\nOf gilrs's time the stand-in for its backend takes {backend:.0f} ns a record.")


main()
