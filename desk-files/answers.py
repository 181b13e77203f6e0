#!/usr/bin/env python3
"""answers.py FOLDER: what padlog prints for each case of cases.txt, made by the oracle: gilrs plays the sheet and the batch, pumped again after Full or
Paused, and the steps are summed."""
import pathlib, subprocess, sys, tempfile

HERE = pathlib.Path(__file__).resolve().parent
NEW, REGISTER, PUMP = 1, 2, 4
PRESSED, RELEASED, FILTERS_AND_UPDATES = 0x3F400000, 0x3F000000, 6


def operation(opcode, payload):
    return bytes([opcode]) + len(payload).to_bytes(4, 'big') + payload


def pump(place, batch):
    return operation(PUMP, place.to_bytes(4, 'big') + (16_384).to_bytes(4, 'big') + (65_535).to_bytes(2, 'big') + batch)


def play(scenario):
    with tempfile.NamedTemporaryFile() as file:
        file.write(scenario)
        file.flush()
        return subprocess.run([HERE / '../oracle/play', file.name], check=True, capture_output=True, text=True).stdout.splitlines()


def answer(sheet, batch):
    scenario = operation(NEW, PRESSED.to_bytes(4, 'big') + RELEASED.to_bytes(4, 'big') + bytes([FILTERS_AND_UPDATES]))
    scenario += operation(REGISTER, sheet)
    registered = play(scenario)[1].split()
    if registered[0] == 'REFUSED':
        return ['SHEET ' + registered[1]]
    place, steps, shown = 0, 0, 2
    lines = []
    while True:
        scenario += pump(place, batch)
        played = play(scenario)
        lines += played[shown:-1]
        shown = len(played)
        words = played[-1].split()
        if words[0] == 'REFUSED':
            return lines + ['STOPPED %s %s' % (words[1], words[2])]
        place, steps = int(words[1]), steps + int(words[3])
        if words[0] == 'DRAINED':
            return lines + ['DRAINED %d' % steps]


folder = pathlib.Path(sys.argv[1])
for line in (HERE / 'cases.txt').read_text().splitlines():
    if line.startswith('#'):
        continue
    sheet, batch = line.split()
    data = [(HERE / 'sheets' / (sheet + '.bin')).read_bytes(), (HERE / 'batches' / (batch + '.bin')).read_bytes()]
    (folder / (sheet + '+' + batch + '.txt')).write_text('\n'.join(answer(*data)) + '\n')
