#!/usr/bin/env python3
"""Writes the shipped sheets and batches, byte by byte as document 01 has them. cases.txt says which are played together."""
import pathlib

HERE = pathlib.Path(__file__).resolve().parent
BUTTON, AXIS = 1, 2
PRESSED, RELEASED, MOVED, CONNECTED, DISCONNECTED = 1, 2, 3, 4, 5
ABSENT = 0xFFFFFFFF

# names of 01, and the codes of the Linux input header
SOUTH, EAST, START, LEFT_TRIGGER2 = 1, 2, 12, 8
LEFT_STICK_X, LEFT_STICK_Y, DPAD_X, DPAD_Y = 33, 34, 39, 40
BTN_SOUTH, BTN_EAST, BTN_START = 0x00010130, 0x00010131, 0x0001013B
ABS_X, ABS_Y, ABS_Z, ABS_HAT0X, ABS_HAT0Y = 0x00030000, 0x00030001, 0x00030002, 0x00030010, 0x00030011


def button(code, name):
    return code, BUTTON, name, 0, 0, 0


def axis(code, name, low, high, deadzone=ABSENT):
    return code, AXIS, name, low, high, deadzone


def sheet(hats, elements):
    body = bytes([1, hats, len(elements)])
    for code, kind, name, low, high, deadzone in elements:
        body += code.to_bytes(4, 'big') + bytes([kind, name])
        body += low.to_bytes(4, 'big', signed=True) + high.to_bytes(4, 'big', signed=True) + deadzone.to_bytes(4, 'big')
    return len(body).to_bytes(2, 'big') + body


def record(kind, code=0, value=0, time=0, pad=0):
    body = bytes([1, kind, pad]) + code.to_bytes(4, 'big') + value.to_bytes(4, 'big', signed=True) + time.to_bytes(8, 'big')
    return len(body).to_bytes(2, 'big') + body


def moves(code, values, step=1000):
    return b''.join(record(MOVED, code, value, step * (at + 1)) for at, value in enumerate(values))


HAT = [axis(ABS_HAT0X, DPAD_X, -1, 1, 0)]
DESK = [
    button(BTN_SOUTH, SOUTH), button(BTN_EAST, EAST), button(BTN_START, START),
    axis(ABS_X, LEFT_STICK_X, 0, 255, 15), axis(ABS_Y, LEFT_STICK_Y, 0, 255, 15), axis(ABS_Z, LEFT_TRIGGER2, 0, 255),
    axis(ABS_HAT0X, DPAD_X, -1, 1), axis(ABS_HAT0Y, DPAD_Y, -1, 1),
]

SHEETS = {
    'hat': sheet(0, HAT),
    'desk': sheet(0, DESK),
    'none': b'',
    'cut': b'\0',
    'count-off': b'\0\x16' + sheet(0, HAT)[2:],
    'hats-7': sheet(7, HAT),
    'hats-16': sheet(16, HAT),
    'name-twice': sheet(0, [button(BTN_SOUTH, SOUTH), button(BTN_EAST, SOUTH)]),
}

# a rally: a point to the left, the stick through its deadzone, a trigger pulled and let go, the hat across, the pad pulled out and back
RALLY = (
    record(PRESSED, BTN_SOUTH, 0, 1_000_000) + record(RELEASED, BTN_SOUTH, 0, 1_090_000)
    + b''.join(record(MOVED, ABS_X, value, 2_000_000 + at) for at, value in enumerate((128, 129, 131, 190, 191, 255, 128)))
    + b''.join(record(MOVED, ABS_Y, value, 2_100_000 + at) for at, value in enumerate((127, 0, 64, 127)))
    + b''.join(record(MOVED, ABS_Z, value, 2_200_000 + at) for at, value in enumerate((40, 190, 200, 255, 128, 127, 0)))
    + b''.join(record(MOVED, ABS_HAT0X, value, 2_300_000 + at) for at, value in enumerate((-1, 1, 0)))
    + b''.join(record(MOVED, ABS_HAT0Y, value, 2_400_000 + at) for at, value in enumerate((1, -1, 0)))
    + record(DISCONNECTED, 0, 0, 3_000_000) + record(PRESSED, BTN_EAST, 0, 3_100_000) + record(CONNECTED, 0, 0, 3_200_000)
    + record(PRESSED, BTN_START, 0, 2**62 - 1)
)

BATCHES = {
    'hat': record(MOVED, ABS_HAT0X, -1, 100) + record(MOVED, ABS_HAT0X, 1, 200),
    'rally': RALLY,
    'none': b'',
    # 780 records, the most that a batch holds, and each a move across: the out buffer of 744 events fills four times
    'across': moves(ABS_HAT0X, [(-1, 1)[at % 2] for at in range(780)]),
    'unlisted': record(MOVED, ABS_HAT0X, -1, 100) + record(PRESSED, 0x00010199, 0, 200) + record(MOVED, ABS_HAT0X, 1, 300),
    'no-pad': record(MOVED, ABS_HAT0X, -1, 100) + record(MOVED, ABS_HAT0X, 1, 200, pad=1),
    'cut': (record(MOVED, ABS_HAT0X, -1, 100) + record(MOVED, ABS_HAT0X, 1, 200))[:-1],
    'too-long': moves(ABS_HAT0X, [0] * 780) + bytes(5),
}

for folder, files in (('sheets', SHEETS), ('batches', BATCHES)):
    (HERE / folder).mkdir(exist_ok=True)
    for name, data in files.items():
        (HERE / folder / (name + '.bin')).write_bytes(data)
