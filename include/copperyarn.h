/* Copperyarn for C (C11) and C++ (C++17): up to four gamepads, raw records in, named events out, filtered and in order, with the state that they leave.
 *
 * A hub is one struct, `copperyarn_hub`, of some 16 kilobytes, wherever you put it: a static, a local, a part of your own. Every call takes a pointer to it.
 * No call allocates, none copies the hub, none keeps a pointer. Give a hub of any bytes to `copperyarn_new`; then describe each pad by its sheet
 * (`copperyarn_register`), hand batches of raw records to `copperyarn_pump`, read the events that it writes, 22 bytes each, and ask for the state in between.
 * Every call ends with an answer for every input: bad input is refused by a number, 1 to 16 or 29 (`copperyarn_sentence` says it in words), and 0 is served.
 * A refusal leaves the hub and all lent bytes as they were, except in the pump, where the steps before it stand, and in `copperyarn_new`.
 * A hub is not safe for threads by itself: one call at a time on one hub (queries may run beside queries). Nothing is shared between two hubs.
 * Bytes that are lent must not overlap the hub, nor a pump's batch its out buffer; where a size is 0 the pointer may be NULL.
 * `copperyarn_bytes.h` beside this file writes sheets and records and reads events. Link libcopperyarn.a (x86-64). The rules: docs/SCOPE.md. */
#ifndef COPPERYARN_H
#define COPPERYARN_H

#include <stdbool.h>
#include <stddef.h>
#include <stdint.h>

#ifdef __cplusplus
#define COPPERYARN_HOLDS(fact) static_assert(fact, #fact)
extern "C" {
#else
#define COPPERYARN_HOLDS(fact) _Static_assert(fact, #fact)
#endif

/* ---- numbers */

enum {
    COPPERYARN_PADS = 4,
    COPPERYARN_ELEMENTS = 48,         /* of one pad, at most */
    COPPERYARN_RECORD_SIZE = 21,      /* a raw record */
    COPPERYARN_EVENT_SIZE = 22,       /* an event */
    COPPERYARN_SHEET_HEAD_SIZE = 5,   /* a sheet without elements */
    COPPERYARN_ELEMENT_SIZE = 18,     /* each element more */
    COPPERYARN_SHEET_MOST = 869,      /* a sheet of 48 elements */
    COPPERYARN_BATCH_MOST = 16384,    /* a pump's batch, in bytes */
    COPPERYARN_OUT_MOST = 16384,      /* a pump's out buffer, in bytes */
    COPPERYARN_EVENTS_MOST = 744,     /* what such an out buffer holds */
    COPPERYARN_QUEUE_ROOM = 64,       /* events that can wait */
    COPPERYARN_INSERT_LIMIT = 16,     /* from here on an insert is refused */
    COPPERYARN_VALUE_LEAST = -8388608, /* raw values, and an axis's min and max */
    COPPERYARN_VALUE_MOST = 8388607,
    COPPERYARN_WAIT_MOST = 60000000   /* repeat's after and every, in microseconds */
};
#define COPPERYARN_TIME_MOST UINT64_C(0x3fffffffffffffff) /* microseconds; also the counter's last */
#define COPPERYARN_DEADZONE_MOST UINT32_C(16777215)
#define COPPERYARN_DEADZONE_ABSENT UINT32_C(0xffffffff)

enum copperyarn_direction {
    COPPERYARN_CODE_UP = 0x00010220, COPPERYARN_CODE_DOWN = 0x00010221, COPPERYARN_CODE_LEFT = 0x00010222, COPPERYARN_CODE_RIGHT = 0x00010223
};

enum copperyarn_element_kind { COPPERYARN_ELEMENT_BUTTON = 1, COPPERYARN_ELEMENT_AXIS = 2 };

enum copperyarn_record_kind {
    COPPERYARN_RECORD_PRESSED = 1, COPPERYARN_RECORD_RELEASED = 2, COPPERYARN_RECORD_AXIS = 3,
    COPPERYARN_RECORD_CONNECTED = 4, COPPERYARN_RECORD_DISCONNECTED = 5
};

/* Changed has a button's value, axis an axis's. */
enum copperyarn_event_kind {
    COPPERYARN_EVENT_PRESSED = 1, COPPERYARN_EVENT_RELEASED = 2, COPPERYARN_EVENT_REPEATED = 3, COPPERYARN_EVENT_CHANGED = 4,
    COPPERYARN_EVENT_AXIS = 5, COPPERYARN_EVENT_CONNECTED = 6, COPPERYARN_EVENT_DISCONNECTED = 7, COPPERYARN_EVENT_DROPPED = 8
};

/* The two Unknown stand in events alone: no sheet, rename list or query may have them. */
enum copperyarn_name {
    COPPERYARN_BUTTON_UNKNOWN = 0,
    COPPERYARN_BUTTON_SOUTH = 1, COPPERYARN_BUTTON_EAST = 2, COPPERYARN_BUTTON_NORTH = 3, COPPERYARN_BUTTON_WEST = 4,
    COPPERYARN_BUTTON_C = 5, COPPERYARN_BUTTON_Z = 6,
    COPPERYARN_BUTTON_LEFT_TRIGGER = 7, COPPERYARN_BUTTON_LEFT_TRIGGER2 = 8, COPPERYARN_BUTTON_RIGHT_TRIGGER = 9, COPPERYARN_BUTTON_RIGHT_TRIGGER2 = 10,
    COPPERYARN_BUTTON_SELECT = 11, COPPERYARN_BUTTON_START = 12, COPPERYARN_BUTTON_MODE = 13,
    COPPERYARN_BUTTON_LEFT_THUMB = 14, COPPERYARN_BUTTON_RIGHT_THUMB = 15,
    COPPERYARN_BUTTON_DPAD_UP = 16, COPPERYARN_BUTTON_DPAD_DOWN = 17, COPPERYARN_BUTTON_DPAD_LEFT = 18, COPPERYARN_BUTTON_DPAD_RIGHT = 19,
    COPPERYARN_AXIS_UNKNOWN = 32,
    COPPERYARN_AXIS_LEFT_STICK_X = 33, COPPERYARN_AXIS_LEFT_STICK_Y = 34, COPPERYARN_AXIS_LEFT_Z = 35,
    COPPERYARN_AXIS_RIGHT_STICK_X = 36, COPPERYARN_AXIS_RIGHT_STICK_Y = 37, COPPERYARN_AXIS_RIGHT_Z = 38,
    COPPERYARN_AXIS_DPAD_X = 39, COPPERYARN_AXIS_DPAD_Y = 40,
    COPPERYARN_NO_NAME = 255
};

/* Why a pump that was not refused stopped. */
enum copperyarn_reason {
    COPPERYARN_DRAINED = 1, /* nothing waits and the batch is used up */
    COPPERYARN_FULL = 2,    /* under 22 bytes of the out buffer are left */
    COPPERYARN_PAUSED = 3   /* the allowance is spent */
};

/* Which of three a deadzone calculation was, copperyarn_tilt, and the calculation by itself. */
#include "copperyarn_tilt.h"

/* ---- refusals: COPPERYARN_REFUSED_THRESHOLDS is 1, and so on; each given exactly when its sentence holds, in the order that its call names */

#define COPPERYARN_REFUSALS(EACH)                                                                                                       \
    EACH(1, THRESHOLDS, "pressed <= released, either outside 0..1, or NaN")                                                             \
    EACH(2, PADS, "four pads stand")                                                                                                    \
    EACH(3, SHEET, "sheet's size, count, version or n wrong; rename list not one name per element")                                     \
    EACH(4, ELEMENT, "hats over 15 or an element breaks a rule (first one decides), duplicate names apart")                             \
    EACH(5, NAME_TWICE, "a name stands twice")                                                                                          \
    EACH(6, NO_PAD, "pad not registered")                                                                                               \
    EACH(7, DISCONNECTED, "rename of a disconnected pad")                                                                               \
    EACH(8, MALFORMED, "record or event malformed: size, count, version, kind, an unused field, an event's name of the wrong sort")     \
    EACH(9, UNLISTED, "code not listed (an event may also carry a direction code)")                                                     \
    EACH(10, WRONG_ELEMENT, "record of kind 1 or 2 on an axis element, of kind 3 on a button")                                          \
    EACH(11, VALUE, "raw value out of limits; event value not finite in -1..1")                                                         \
    EACH(12, TIME, "time too large, record, event or repeat clock")                                                                     \
    EACH(13, WAITING, "caller's insert while 16 or more wait")                                                                          \
    EACH(14, TOO_LONG, "batch or out buffer too long")                                                                                  \
    EACH(15, REPEAT, "repeat settings out of limits")                                                                                   \
    EACH(16, NAME, "query by a byte that is no name of the sort asked, Unknown included")                                               \
    EACH(29, PARTIAL_HATS, "hats map one to three directions, which only an archived sheet may")

#define COPPERYARN_NUMBERED(number, name, sentence) COPPERYARN_REFUSED_##name = number,
enum copperyarn_refusal { COPPERYARN_REFUSALS(COPPERYARN_NUMBERED) COPPERYARN_SERVED = 0 };
#undef COPPERYARN_NUMBERED

/* A refusal's sentence, "served" for 0, "no refusal" for any other number. */
static inline const char *copperyarn_sentence(uint8_t refusal) {
    switch (refusal) {
#define COPPERYARN_SPOKEN(number, name, sentence) \
    case number: return sentence;
        COPPERYARN_REFUSALS(COPPERYARN_SPOKEN)
#undef COPPERYARN_SPOKEN
    case 0: return "served";
    default: return "no refusal";
    }
}

/* ---- answers: `refusal` is 0 where the call was served; without an answer the other fields are 0 or false */

typedef struct copperyarn_pad_answer {
    uint8_t refusal;
    uint8_t pad;
} copperyarn_pad_answer;

typedef struct copperyarn_truth_answer {
    uint8_t refusal;
    bool is;
} copperyarn_truth_answer;

/* Here and below `known` is false where there is no such value, name, code or record. */
typedef struct copperyarn_value_answer {
    uint8_t refusal;
    bool known;
    float value;
} copperyarn_value_answer;

typedef struct copperyarn_number_answer {
    uint8_t refusal;
    bool known;
    uint32_t number; /* a name or a code */
} copperyarn_number_answer;

typedef struct copperyarn_button_answer {
    uint8_t refusal;
    bool known;
    bool pressed;
    bool repeating;
    float value;
    uint64_t stamp; /* the time of the event that wrote it */
    uint64_t counter; /* the hub's counter then */
    uint64_t since; /* when it last went from not pressed to pressed, which repeats and releases leave; 0 where it never did */
} copperyarn_button_answer;

typedef struct copperyarn_axis_answer {
    uint8_t refusal;
    bool known;
    float value;
    uint64_t stamp;
    uint64_t counter;
} copperyarn_axis_answer;

/* What is down on a pad. */
typedef struct copperyarn_down_answer {
    uint8_t refusal;
    uint8_t count; /* of its button records that are pressed, 52 at most */
    bool axis;     /* whether one of them is an axis element's */
} copperyarn_down_answer;

typedef struct copperyarn_pump_answer {
    uint8_t refusal;
    uint8_t reason; /* a copperyarn_reason; 0 where it was refused */
    uint8_t tilt;   /* a copperyarn_tilt: of the call's last axis event that met a threshold, handed out or not; where it was refused, of what came before */
    size_t place;   /* in the batch, in bytes: where to go on, or the record that was refused */
    size_t events;  /* written */
    size_t steps;   /* made */
} copperyarn_pump_answer;

typedef struct copperyarn_due_answer {
    uint8_t refusal;
    bool due;
} copperyarn_due_answer;

/* ---- the hub. Read its fields if you must; let the calls alone write them. Where columns start in values, times, marks and queuebytes: crates/columns */

typedef struct copperyarn_head {
    float pressed, released;
    bool reversed, filters, updates;
    uint64_t counter;
    uint64_t down[4]; /* of each pad a bit for each place whose button record is pressed */
    uint8_t pads;
    uint8_t counts[4];
    bool connected[4];
    uint8_t hats[4];
    bool converts[4];
    bool renamed[4];
    uint8_t newhats[4];
    bool newconverts[4];
    uint8_t held[4];     /* how many these are */
    uint8_t heldaxes[4]; /* and how many of them axis elements' */
    bool flags[24];
    uint8_t head, waiting;
} copperyarn_head;

typedef struct copperyarn_hub {
    copperyarn_head head;
    uint32_t codes[208];
    uint8_t kinds[208];
    uint8_t names[208];
    uint8_t renames[208];
    bool hasbutton[208];
    bool hasaxis[208];
    float values[1109];
    uint64_t times[1109];
    bool marks[627];
    uint8_t queuebytes[192];
    uint32_t queuecodes[64];
} copperyarn_hub;

/* The layout, held by assertions, and the library's own functions, which the calls below lend the hub's fields to. */
#include "copperyarn_lent.h"

/* A pointer to lend: the library takes no NULL, not even for no bytes. */
static inline const uint8_t *copperyarn_lend(const uint8_t *bytes, size_t size) {
    static const uint8_t none = 0;
    return size == 0 ? &none : bytes;
}

/* ---- setting a desk up */

/* A fresh hub, whatever its bytes were: thresholds that press and release a trigger, whether Y axes are reversed, whether filters and updates are on.
 * Answers 0 or refuses 1; then the hub is a fresh one with thresholds 1.0 and 0.0 and all three off. */
static inline uint8_t copperyarn_new(copperyarn_hub *hub, float pressed, float released, bool reversed, bool filters, bool updates) {
    copperyarn_lent_done done = copperyarn_lent_new(
        pressed, released, reversed, filters, updates, hub->codes, hub->kinds, hub->names, hub->renames, hub->hasbutton, hub->hasaxis, hub->values,
        hub->times, hub->marks, hub->queuebytes, hub->queuecodes);
    hub->head = done.head;
    return done.refusal;
}

/* A pad from its sheet, 5 bytes and 18 for each element, whose hats map no direction or all four; pads count up from 0, and it is connected at once.
 * Answers the pad's number, or refuses 2, 3, 4, 29, 5 in this order. */
static inline copperyarn_pad_answer copperyarn_register(copperyarn_hub *hub, const uint8_t *sheet, size_t size) {
    copperyarn_lent_registered registered = copperyarn_lent_register(
        hub->head, hub->codes, hub->kinds, hub->names, hub->hasbutton, hub->hasaxis, hub->values, hub->marks, copperyarn_lend(sheet, size), size);
    hub->head = registered.head;
    return registered.pad;
}

/* The same for a sheet of the archive, whose hats may be partial too, 1 to 14: they stay as they are, and `copperyarn_is_old` tells such a pad.
 * Answers the pad's number, or refuses 2, 3, 4, 5 in this order. */
static inline copperyarn_pad_answer copperyarn_register_archived(copperyarn_hub *hub, const uint8_t *sheet, size_t size) {
    copperyarn_lent_registered registered = copperyarn_lent_register_archived(
        hub->head, hub->codes, hub->kinds, hub->names, hub->hasbutton, hub->hasaxis, hub->values, hub->marks, copperyarn_lend(sheet, size), size);
    hub->head = registered.head;
    return registered.pad;
}

/* New names for a pad's elements, one byte for each in code order; they hold until the pad's next Connected. The pad's hats become 0.
 * Answers 0 or refuses 6, 7, 3, 4, 5 in this order. */
static inline uint8_t copperyarn_rename(copperyarn_hub *hub, uint8_t pad, const uint8_t *names, size_t size) {
    copperyarn_lent_done done = copperyarn_lent_rename(hub->head, hub->codes, hub->kinds, hub->renames, pad, copperyarn_lend(names, size), size);
    hub->head = done.head;
    return done.refusal;
}

/* ---- events */

/* Takes what waits, else the batch's records from a place on, and writes each event behind the one before; what it does not write of `out` stays.
 * Answers why it stopped, the place, events and steps; refuses 14, 8 (place past the end), and a record by 8, 6, 9, 10, 11, 12, each in this order.
 * Beside each answer it reports which of three the deadzone calculation was for the last axis event of this call that met a threshold: with the filters on, one
 * of an axis element's code that is no hat turned into directions and is not dropped by jitter. A stick that is held still is, so it reports none. */
static inline copperyarn_pump_answer copperyarn_pump(
    copperyarn_hub *hub, const uint8_t *batch, size_t batch_size, size_t place, uint8_t *out, size_t out_size, uint16_t allowance) {
    uint8_t none = 0;
    copperyarn_lent_pumped pumped = copperyarn_lent_pump(
        hub->head, hub->codes, hub->kinds, hub->names, hub->renames, hub->hasbutton, hub->hasaxis, hub->values, hub->times, hub->marks,
        hub->queuebytes, hub->queuecodes, copperyarn_lend(batch, batch_size), batch_size, place, out_size == 0 ? &none : out, out_size, allowance);
    hub->head = pumped.head;
    return pumped.report;
}

/* Gives an event, 22 bytes, to the state alone: what a repeat that is due is fed back by.
 * Answers 0 or refuses 8, 6, 9, 11, 12 in this order. */
static inline uint8_t copperyarn_update(copperyarn_hub *hub, const uint8_t *event, size_t size) {
    copperyarn_lent_done done = copperyarn_lent_update(
        hub->head, hub->codes, hub->kinds, hub->hasbutton, hub->hasaxis, hub->values, hub->times, hub->marks, copperyarn_lend(event, size), size);
    hub->head = done.head;
    return done.refusal;
}

/* Lets an event, 22 bytes, wait behind those that wait; the next pump takes it before any record.
 * Answers 0 or refuses 8, 6, 9, 11, 12, 13 in this order. */
static inline uint8_t copperyarn_insert_event(copperyarn_hub *hub, const uint8_t *event, size_t size) {
    copperyarn_lent_done done = copperyarn_lent_insert_event(
        hub->head, hub->codes, hub->values, hub->times, hub->queuebytes, hub->queuecodes, copperyarn_lend(event, size), size);
    hub->head = done.head;
    return done.refusal;
}

/* Whether a held button's repeat is due by the clock, first after `after`, then every `every` microseconds; its event is written to `event`, else that stays.
 * Refuses 15, 12 in this order. The hub stays as it is: give the event to `copperyarn_update`, and ask again until none is due. */
static inline copperyarn_due_answer copperyarn_repeat(
    const copperyarn_hub *hub, uint64_t after, uint64_t every, uint64_t clock, uint8_t event[COPPERYARN_EVENT_SIZE]) {
    return copperyarn_lent_repeat(
        hub->head, hub->codes, hub->names, hub->renames, hub->hasbutton, hub->values, hub->times, hub->marks, after, every, clock, event);
}

/* ---- the counter, which the state's records keep */

/* One up; behind its last, 2^62-1, comes 0.
 * Refuses nothing. */
static inline void copperyarn_inc(copperyarn_hub *hub) { hub->head = copperyarn_lent_inc(hub->head); }

/* The counter.
 * Refuses nothing. */
static inline uint64_t copperyarn_counter(const copperyarn_hub *hub) { return copperyarn_lent_counter(hub->head); }

/* The counter at 0.
 * Refuses nothing. */
static inline void copperyarn_reset_counter(copperyarn_hub *hub) { hub->head = copperyarn_lent_reset_counter(hub->head); }

/* ---- queries: whether a button is pressed, an axis's value, records, names, what is down; each takes a const hub, and it stays as it is */

#include "copperyarn_queries.h"

#ifdef __cplusplus
}
#endif

#endif
