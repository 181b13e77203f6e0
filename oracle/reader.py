#!/usr/bin/env python3
"""A reader of 01's byte forms, written from document 01 and, for new sheets, from W-212 of document 02; from no program.

    python3 oracle/reader.py make [FOLDER]

writes stdin and stdout (those of crates/compare_forms if no folder is named): good and damaged sheets, records and
events, each with the pads that it meets, and this reader's answer to each. Readers in other languages are compared with
that list.

A case is a kind (1 a sheet alone, given to the archived call, 2 a record, 3 an event given to update, 4 an event given
to insert, 5 a sheet alone, given to the plain call), the length of its payload in 4 bytes, and the payload. For 2 to 4 it
opens with the number of pads (1 byte) and each pad's sheet (its length in 2 bytes, its bytes; all of them such as the
archived call takes), for 4 the number of waiting events (1 byte) follows; the rest is the record, never longer than 21
bytes, or the event. An answer is `SHEET n`, `RECORD n` or `EVENT n`, n the refusal or ok.
"""

import os
import struct
import sys

TIME_LIMIT = 2 ** 62
RAW_LOW, RAW_HIGH = -8388608, 8388607
DEADZONE_HIGH = 16777215
NO_DEADZONE = 0xFFFFFFFF
DIRECTIONS = (0x00010220, 0x00010221, 0x00010222, 0x00010223)
SHEET_NAMES = set(range(1, 20)) | set(range(33, 41)) | {255}
ELEMENT = ">IBBiiI"  # code, kind, name, min, max, deadzone


# -- 01's rules ---------------------------------------------------------------------------------------------------

def elements_of(sheet):
    """The elements of a sheet whose size is right."""
    return [struct.unpack(ELEMENT, sheet[5 + 18 * i:23 + 18 * i]) for i in range(sheet[4])]


def element_breaks_a_rule(element):
    code, kind, name, low, high, deadzone = element
    if kind not in (1, 2) or name not in SHEET_NAMES:
        return True
    if kind == 1:
        return (low, high, deadzone) != (0, 0, 0)
    inside = RAW_LOW <= low < high <= RAW_HIGH
    return not inside or (deadzone > DEADZONE_HIGH and deadzone != NO_DEADZONE)


def judge_sheet(sheet, archived):
    """Sheet order: 3, 4, 5; of a new sheet, one that is not archived, 29 after 4. (2 is about the hub.)"""
    if len(sheet) < 5 or int.from_bytes(sheet[:2], "big") != len(sheet) - 2:
        return 3
    if sheet[2] != 1 or sheet[4] > 48 or len(sheet) != 5 + 18 * sheet[4]:
        return 3
    elements = elements_of(sheet)
    if sheet[3] > 15 or any(element_breaks_a_rule(element) for element in elements):
        return 4
    codes = [element[0] for element in elements]
    if any(codes[i] >= codes[i + 1] for i in range(len(codes) - 1)):
        return 4
    if not archived and sheet[3] not in (0, 15):
        return 29
    names = [element[2] for element in elements if element[2] != 255]
    return 5 if len(names) != len(set(names)) else 0


def judge_record(record, pads):
    """Record order: 8, 6, 9, 10, 11, 12."""
    if len(record) != 21:
        return 8
    count, version, kind, pad, code, value, time = struct.unpack(">HBBBIiQ", record)
    if (count, version) != (19, 1) or kind not in (1, 2, 3, 4, 5):
        return 8
    if (kind != 3 and value != 0) or (kind in (4, 5) and code != 0):
        return 8
    if pad >= len(pads):
        return 6
    if kind in (1, 2, 3):
        kinds = {element[0]: element[1] for element in elements_of(pads[pad])}
        if code not in kinds:
            return 9
        if kinds[code] != (2 if kind == 3 else 1):
            return 10
    if not RAW_LOW <= value <= RAW_HIGH:
        return 11
    return 12 if time >= TIME_LIMIT else 0


def value_stands(bits):
    """Finite and in -1..1: the sign apart, the bits of a float rise with its size; 1.0 is 0x3F800000."""
    return bits & 0x7FFFFFFF <= 0x3F800000


def judge_event(event, pads, waiting=0):
    """Event order: 8, 6, 9, 11, 12, and for insert 13."""
    if len(event) != 22:
        return 8
    count, version, kind, pad, name, code, bits, time = struct.unpack(">HBBBBIIQ", event)
    if (count, version) != (20, 1) or not 1 <= kind <= 8:
        return 8
    sort = range(0, 20) if kind <= 4 else range(32, 41) if kind == 5 else (255,)
    if name not in sort or (kind >= 6 and code != 0) or (kind not in (4, 5) and bits != 0):
        return 8
    if pad >= len(pads):
        return 6
    codes = [element[0] for element in elements_of(pads[pad])]
    if kind <= 5 and code not in codes and code not in DIRECTIONS:
        return 9
    if not value_stands(bits):
        return 11
    if time >= TIME_LIMIT:
        return 12
    return 13 if waiting >= 16 else 0


# -- the cases ----------------------------------------------------------------------------------------------------

class Chance:
    """Seeded numbers that are the same under every version of Python."""

    def __init__(self, seed):
        self.state = seed

    def below(self, bound):
        self.state = (self.state * 6364136223846793005 + 1442695040888963407) % 2 ** 64
        return (self.state >> 33) % bound

    def among(self, choices):
        return choices[self.below(len(choices))]


def sheet_bytes(hats, elements, version=1, count=None, size=None):
    body = b"".join(struct.pack(ELEMENT, *element) for element in elements)
    size = len(elements) if size is None else size
    count = 3 + len(body) if count is None else count
    return struct.pack(">HBBB", count, version, hats, size) + body


def record_bytes(kind, pad, code, value, time, count=19, version=1):
    return struct.pack(">HBBBIiQ", count, version, kind, pad, code, value, time)


def event_bytes(kind, pad, name, code, bits, time, count=20, version=1):
    return struct.pack(">HBBBBIIQ", count, version, kind, pad, name, code, bits, time)


BUTTON = (0x00010130, 1, 1, 0, 0, 0)
STICK = (0x00030000, 2, 33, -32768, 32767, 128)
TRIGGER = (0x00030002, 2, 8, 0, 255, NO_DEADZONE)
HAT = (0x00030010, 2, 39, -1, 1, 0)
RIGHT = (DIRECTIONS[3], 1, 255, 0, 0, 0)
LIMITS = (0xFFFFFFFF, 2, 40, RAW_LOW, RAW_HIGH, DEADZONE_HIGH)
FULL = [(0x00010100 + i, 1, 255, 0, 0, 0) for i in range(30)]
FULL += [(0x00030000 + i, 2, 255, 0, i + 1, i) for i in range(18)]

GOOD_SHEETS = [
    sheet_bytes(0, []),
    sheet_bytes(15, [BUTTON]),
    sheet_bytes(0, [HAT]),
    sheet_bytes(0, [BUTTON, STICK]),
    sheet_bytes(9, [BUTTON, RIGHT, STICK, TRIGGER, HAT, LIMITS]),
    sheet_bytes(0, [(i, 1, 255, 0, 0, 0) for i in range(3)]),
    sheet_bytes(0, FULL),
]
PADS = [
    [],
    [sheet_bytes(0, [BUTTON, HAT])],
    [sheet_bytes(15, [BUTTON]), sheet_bytes(0, [RIGHT, STICK])],
    [sheet_bytes(0, []), sheet_bytes(0, [HAT]), sheet_bytes(0, [BUTTON]), sheet_bytes(0, [RIGHT, LIMITS])],
]
SWAPS = (0, 1, 2, 3, 5, 6, 9, 15, 16, 19, 20, 31, 32, 33, 40, 41, 48, 49, 63, 64, 127, 128, 191, 192, 254, 255)


def changed(form, values):
    """Every form that differs from this one in one byte, the byte taking each of the values and its two neighbours."""
    for at, byte in enumerate(form):
        for value in sorted(set(values) | {(byte + 1) % 256, (byte - 1) % 256} - {byte}):
            if value != byte:
                yield form[:at] + bytes([value]) + form[at + 1:]


def resized(form, longer=True):
    """Every shorter front of the form, and two longer ones."""
    for size in range(len(form)):
        yield form[:size]
    if longer:
        yield form + b"\0"
        yield form + form


def wrong_elements():
    """Elements that break a rule, each near a good one."""
    for kind in (0, 3, 255):
        yield (5, kind, 1, 0, 0, 0)
    for name in (0, 20, 31, 32, 41, 254):
        yield (5, 1, name, 0, 0, 0)
        yield (5, 2, name, 0, 1, 0)
    for numbers in ((1, 0, 0), (0, 1, 0), (0, 0, 1), (0, 0, NO_DEADZONE), (-1, 1, 0)):
        yield (5, 1, 1) + numbers
    for numbers in ((0, 0, 0), (1, 0, 0), (RAW_LOW - 1, 0, 0), (0, RAW_HIGH + 1, 0), (-2 ** 31, 2 ** 31 - 1, 0),
                    (0, 1, DEADZONE_HIGH + 1), (0, 1, NO_DEADZONE - 1), (0, 1, 0x80000000)):
        yield (5, 2, 33) + numbers


def sheet_cases():
    yield from GOOD_SHEETS
    for sheet in GOOD_SHEETS[:5]:
        yield from changed(sheet, SWAPS)
        yield from resized(sheet)
    full = GOOD_SHEETS[-1]
    yield from (bytes([head]) + full[1:] for head in range(8))
    yield from (full[:4] + bytes([size]) + full[5:] for size in (0, 1, 47, 49, 255))
    yield sheet_bytes(0, FULL + [LIMITS])  # 49 elements
    twin = (6, 1, 1, 0, 0, 0)
    for wrong in wrong_elements():
        yield sheet_bytes(0, [wrong])
        yield sheet_bytes(16, [wrong])
        yield sheet_bytes(0, [wrong, twin])  # a rule broken, at times a name twice
        yield sheet_bytes(0, [(4, 1, 1, 0, 0, 0), wrong, twin])  # 4 before 5
        yield sheet_bytes(0, [wrong], version=2)  # 3 before 4
    for other in ((7, 1, 1, 0, 0, 0), (7, 2, 1, 0, 1, 0), (6, 1, 2, 0, 0, 0), (5, 1, 2, 0, 0, 0)):
        yield sheet_bytes(0, [twin, other])
        yield sheet_bytes(0, [twin, other], count=40)
    for name in sorted(SHEET_NAMES):
        pair = [(6, 1, name, 0, 0, 0), (8, 2, name, 0, 1, 0)]
        yield sheet_bytes(0, pair)
        yield sheet_bytes(0, [pair[0], (7, 1, 255, 0, 0, 0), pair[1]])
    for size in range(0, 4):
        for given in range(0, 4):
            yield sheet_bytes(0, FULL[:given], size=size)
            yield sheet_bytes(0, FULL[:given], size=size, count=3 + 18 * size)


def new_sheet_cases():
    """For the plain call: every hats byte, alone and with each fault that comes before 29 or behind it."""
    yield from GOOD_SHEETS
    yield from (sheet_bytes(hats, [BUTTON, HAT]) for hats in range(256))
    twin, twins = (6, 1, 1, 0, 0, 0), [(5, 1, 1, 0, 0, 0), (6, 1, 1, 0, 0, 0)]
    for low in range(16):
        for hats in (low, 16 + low, 128 + low):
            yield sheet_bytes(hats, [])
            yield sheet_bytes(hats, twins)  # 29 before 5
            yield sheet_bytes(hats, [(5, 1, 20, 0, 0, 0), twin])  # 4 before 29
            yield sheet_bytes(hats, twins + [twin])  # a code and a name twice
            yield sheet_bytes(hats, twins, count=40)  # 3 before all
    for wrong in wrong_elements():
        yield from (sheet_bytes(hats, [wrong]) for hats in (0, 6, 15, 22))
        yield sheet_bytes(9, [wrong, twin])
    for name in sorted(SHEET_NAMES):
        yield from (sheet_bytes(hats, [(6, 1, name, 0, 0, 0), (8, 2, name, 0, 1, 0)]) for hats in (0, 5, 15))
    partial = sheet_bytes(6, [BUTTON])
    yield from changed(partial, SWAPS)
    yield from resized(partial)


RECORD_FIELDS = dict(
    kind=(0, 1, 2, 3, 4, 5, 6),
    pad=(0, 1, 2, 3, 4, 255),
    code=(0, BUTTON[0], STICK[0], HAT[0], DIRECTIONS[3], DIRECTIONS[0], 0xFFFFFFFF),
    value=(0, 1, -1, RAW_LOW, RAW_LOW - 1, RAW_HIGH, RAW_HIGH + 1, -2 ** 31),
    time=(0, 1, TIME_LIMIT - 1, TIME_LIMIT, 2 ** 64 - 1),
)
EVENT_FIELDS = dict(
    kind=(0, 1, 2, 3, 4, 5, 6, 7, 8, 9),
    pad=(0, 1, 2, 3, 4, 255),
    name=(0, 1, 19, 20, 31, 32, 33, 40, 41, 254, 255),
    code=(0, BUTTON[0], STICK[0], HAT[0], DIRECTIONS[3], DIRECTIONS[0], 0x00010224, 0xFFFFFFFF),
    bits=(0, 0x80000000, 0x3F800000, 0xBF800000, 1, 0x3F800001, 0xBF800001, 0x7F800000, 0xFF800000, 0x7FC00000),
    time=(0, 1, TIME_LIMIT - 1, TIME_LIMIT, 2 ** 64 - 1),
)


def good_records():
    yield record_bytes(1, 0, BUTTON[0], 0, 7)
    yield record_bytes(2, 0, BUTTON[0], 0, TIME_LIMIT - 1)
    yield record_bytes(3, 0, HAT[0], -1, 0)
    yield record_bytes(4, 0, 0, 0, 7)
    yield record_bytes(5, 0, 0, 0, 7)


def good_events():
    for kind in (1, 2, 3, 4):
        yield event_bytes(kind, 0, 1, BUTTON[0], 0x3F000000 if kind == 4 else 0, 7)
    yield event_bytes(5, 0, 39, HAT[0], 0xBF800000, 7)
    yield event_bytes(5, 0, 32, DIRECTIONS[0], 0, TIME_LIMIT - 1)
    for kind in (6, 7, 8):
        yield event_bytes(kind, 0, 255, 0, 0, 7)


def chosen(chance, fields, count):
    """Fields put together at random, so that several are wrong at once and the order is tried."""
    for _ in range(count):
        yield {name: chance.among(values) for name, values in fields.items()}


def chosen_records(chance, count):
    """Three in four have their unused fields in order, so that 6 and what follows it is met."""
    for fields in chosen(chance, RECORD_FIELDS, count):
        if chance.below(4):
            fields["kind"] = chance.among((1, 2, 3, 3, 3, 4, 5))
            fields["pad"] = chance.among((0, 0, 0, 1, 1, 2, 3))
            fields["value"] = fields["value"] if fields["kind"] == 3 else 0
            fields["code"] = 0 if fields["kind"] > 3 else fields["code"]
        yield record_bytes(**fields)


def chosen_events(chance, count):
    """Three in four have their unused fields in order, so that 6 and what follows it is met."""
    for fields in chosen(chance, EVENT_FIELDS, count):
        if chance.below(4):
            kind = fields["kind"] = chance.among((1, 2, 3, 4, 4, 5, 5, 6, 7, 8))
            fields["pad"] = chance.among((0, 0, 0, 1, 1, 2, 3))
            fields["name"] = chance.among((0, 1, 19) if kind < 5 else (32, 33, 40) if kind == 5 else (255,))
            fields["bits"] = fields["bits"] if kind in (4, 5) else 0
            fields["code"] = 0 if kind > 5 else fields["code"]
        yield event_bytes(**fields)


def with_pads(pads, rest, waiting=None):
    sheets = b"".join(struct.pack(">H", len(sheet)) + sheet for sheet in pads)
    middle = b"" if waiting is None else bytes([waiting])
    return bytes([len(pads)]) + sheets + middle + rest


def record_cases(chance):
    """Pairs of pads and record."""
    for good in good_records():
        for form in [good, *changed(good, SWAPS[:12]), *resized(good, longer=False)]:
            yield PADS[1], form
        for pads in PADS:
            yield pads, good
    for record in chosen_records(chance, 4000):
        yield chance.among(PADS[1:]), record


def event_cases(chance, count):
    """Pairs of pads and event."""
    for good in good_events():
        for form in [good, *changed(good, SWAPS[:9]), *resized(good)]:
            yield PADS[1], form
        for pads in PADS:
            yield pads, good
    for event in chosen_events(chance, count):
        yield chance.among(PADS[1:]), event


def cases():
    """Each case as kind, payload and answer line."""
    chance = Chance(20)
    for sheet in sheet_cases():
        yield 1, sheet, "SHEET", judge_sheet(sheet, archived=True)
    for pads, record in record_cases(chance):
        yield 2, with_pads(pads, record), "RECORD", judge_record(record, pads)
    for pads, event in event_cases(chance, 3000):
        yield 3, with_pads(pads, event), "EVENT", judge_event(event, pads)
    for pads, event in event_cases(chance, 3000):
        waiting = chance.among((0, 1, 15, 16, 17, 64))
        yield 4, with_pads(pads, event, waiting), "EVENT", judge_event(event, pads, waiting)
    for sheet in new_sheet_cases():
        yield 5, sheet, "SHEET", judge_sheet(sheet, archived=False)


def make(folder):
    os.makedirs(folder, exist_ok=True)
    made = list(cases())
    with open(os.path.join(folder, "stdin"), "wb") as forms:
        for kind, payload, _, _ in made:
            forms.write(struct.pack(">BI", kind, len(payload)) + payload)
    with open(os.path.join(folder, "stdout"), "w") as answers:
        for _, _, word, refusal in made:
            answers.write(f"{word} {refusal or 'ok'}\n")


if __name__ == "__main__":
    if sys.argv[1:2] != ["make"] or len(sys.argv) > 3:
        sys.exit(__doc__)
    make(sys.argv[2] if len(sys.argv) == 3 else os.path.join(os.path.dirname(os.path.abspath(__file__)), "..", "crates", "compare_forms"))
