/* What is down right now, W-213's sentences from C: each by events given to the state and by events that wait for the pump; then by records, of a button, a
 * trigger and a hat, also between two steps; on a pad of 48 elements; and what leaves it, what takes it away. */
#include "desk.h"

enum { PLAIN = 0x00010131, HAT = 0x00030010, EVENTS = 3, PLACES = COPPERYARN_ELEMENTS + 4 };

enum { PRESSED = COPPERYARN_EVENT_PRESSED, RELEASED = COPPERYARN_EVENT_RELEASED, REPEATED = COPPERYARN_EVENT_REPEATED, CHANGED = COPPERYARN_EVENT_CHANGED };
enum { AXIS = COPPERYARN_EVENT_AXIS, LEFT = COPPERYARN_CODE_LEFT };

static const copperyarn_element PAD[4] = {
    {SOUTH, COPPERYARN_ELEMENT_BUTTON, COPPERYARN_BUTTON_SOUTH, 0, 0, 0},
    {PLAIN, COPPERYARN_ELEMENT_BUTTON, COPPERYARN_NO_NAME, 0, 0, 0},
    {TRIGGER, COPPERYARN_ELEMENT_AXIS, COPPERYARN_BUTTON_LEFT_TRIGGER2, 0, 4, COPPERYARN_DEADZONE_ABSENT},
    {HAT, COPPERYARN_ELEMENT_AXIS, COPPERYARN_AXIS_DPAD_X, -1, 1, 0},
};

static copperyarn_hub hub, before;
static uint8_t out[10 * COPPERYARN_EVENT_SIZE];

static void desk(void) {
    fresh(&hub, true);
    enrol(&hub, PAD, 4);
}

/* Whether so many records of a pad are pressed, an axis element's among them or not. */
static bool down(uint8_t pad, uint8_t count, bool axis) {
    copperyarn_down_answer answer = copperyarn_down(&hub, pad);
    return answer.refusal == 0 && answer.count == count && answer.axis == axis;
}

static bool lowest(uint8_t pad, uint32_t code) {
    copperyarn_number_answer answer = copperyarn_lowest_pressed(&hub, pad);
    return answer.refusal == 0 && answer.known && answer.number == code;
}

/* Whether nothing of a pad is down. */
static bool none(uint8_t pad) {
    copperyarn_number_answer answer = copperyarn_lowest_pressed(&hub, pad);
    return down(pad, 0, false) && answer.refusal == 0 && !answer.known && answer.number == 0;
}

/* ---- by events */

static void write_event(uint8_t bytes[COPPERYARN_EVENT_SIZE], uint8_t kind, uint32_t code, float value) {
    copperyarn_event event = {kind, 0, COPPERYARN_BUTTON_UNKNOWN, code, value, 5};
    if (kind >= AXIS) event.name = kind == AXIS ? COPPERYARN_AXIS_UNKNOWN : COPPERYARN_NO_NAME;
    copperyarn_write_event(bytes, event);
}

/* Gives an event to the state. */
static void give(uint8_t kind, uint32_t code, float value) {
    uint8_t bytes[COPPERYARN_EVENT_SIZE];
    write_event(bytes, kind, code, value);
    CHECK(copperyarn_update(&hub, bytes, sizeof bytes) == 0);
}

/* Lets it wait, and pumps it. */
static void hand(uint8_t kind, uint32_t code, float value) {
    uint8_t bytes[COPPERYARN_EVENT_SIZE];
    write_event(bytes, kind, code, value);
    memcpy(&before, &hub, sizeof hub);
    CHECK(copperyarn_insert_event(&hub, bytes, sizeof bytes) == 0);
    CHECK(copperyarn_down(&hub, 0).count == copperyarn_down(&before, 0).count); /* as long as it waits it moves nothing */
    CHECK(copperyarn_pump(&hub, NULL, 0, 0, out, sizeof out, UINT16_MAX).events == 1);
}

/* Up to three events, and what is down behind them. */
static const struct {
    struct {
        uint8_t kind;
        uint32_t code;
        float value;
    } events[EVENTS];
    uint8_t count;
    bool axis;
    uint32_t lowest;
} CASES[] = {
    {{{PRESSED, SOUTH, 0}}, 1, false, SOUTH},
    {{{PRESSED, SOUTH, 0}, {PRESSED, SOUTH, 0}}, 1, false, SOUTH}, /* a press of a pressed button counts once */
    {{{PRESSED, SOUTH, 0}, {PRESSED, PLAIN, 0}}, 2, false, SOUTH},
    {{{PRESSED, SOUTH, 0}, {PRESSED, PLAIN, 0}, {RELEASED, SOUTH, 0}}, 1, false, PLAIN},
    {{{PRESSED, SOUTH, 0}, {RELEASED, PLAIN, 0}, {RELEASED, PLAIN, 0}}, 1, false, SOUTH}, /* nor does a release of a released one */
    {{{REPEATED, SOUTH, 0}}, 1, false, SOUTH},                                            /* a repeat presses where no record stood */
    {{{REPEATED, SOUTH, 0}, {REPEATED, SOUTH, 0}}, 1, false, SOUTH},
    {{{PRESSED, PLAIN, 0}, {RELEASED, SOUTH, 0}, {REPEATED, SOUTH, 0}}, 1, false, PLAIN}, /* and nowhere else */
    {{{PRESSED, PLAIN, 0}, {CHANGED, SOUTH, 1}, {REPEATED, SOUTH, 0}}, 1, false, PLAIN},
    {{{PRESSED, SOUTH, 0}, {CHANGED, TRIGGER, 0.75f}, {CHANGED, PLAIN, 0.5f}}, 1, false, SOUTH}, /* a value presses nothing, nor does it release */
    {{{PRESSED, SOUTH, 0}, {CHANGED, SOUTH, 0}}, 1, false, SOUTH},
    {{{PRESSED, SOUTH, 0}, {AXIS, PLAIN, 1}}, 1, false, SOUTH},
    {{{PRESSED, SOUTH, 0}, {COPPERYARN_EVENT_DISCONNECTED, 0, 0}}, 1, false, SOUTH},
    {{{PRESSED, SOUTH, 0}, {COPPERYARN_EVENT_CONNECTED, 0, 0}}, 1, false, SOUTH}, /* of Connected the record clears, and not its event */
    {{{PRESSED, TRIGGER, 0}}, 1, true, TRIGGER},
    {{{PRESSED, HAT, 0}, {PRESSED, SOUTH, 0}}, 2, true, SOUTH}, /* an axis element by its kind, whatever its name */
    {{{PRESSED, TRIGGER, 0}, {PRESSED, SOUTH, 0}, {RELEASED, TRIGGER, 0}}, 1, false, SOUTH},
    {{{PRESSED, TRIGGER, 0}, {PRESSED, HAT, 0}, {RELEASED, TRIGGER, 0}}, 1, true, HAT},
    {{{PRESSED, LEFT, 0}}, 1, false, LEFT}, /* a direction that the sheet does not list is no element, and counts */
    {{{PRESSED, TRIGGER, 0}, {PRESSED, LEFT, 0}}, 2, true, LEFT},
};

static void sentences(void) {
    static void (*const ways[])(uint8_t, uint32_t, float) = {give, hand};
    for (size_t way = 0; way < sizeof ways / sizeof *ways; way++) {
        for (size_t i = 0; i < sizeof CASES / sizeof *CASES; i++) {
            desk();
            CHECK(none(0));
            for (size_t n = 0; n < EVENTS && CASES[i].events[n].kind != 0; n++)
                ways[way](CASES[i].events[n].kind, CASES[i].events[n].code, CASES[i].events[n].value);
            CHECK(down(0, CASES[i].count, CASES[i].axis) && lowest(0, CASES[i].lowest));
            give(RELEASED, CASES[i].lowest, 0);
            CHECK(CASES[i].count == 1 ? none(0) : copperyarn_down(&hub, 0).count == CASES[i].count - 1);
        }
    }
}

/* Repeats that are due, fed back, press nothing more. */
static void repeats(void) {
    uint8_t event[COPPERYARN_EVENT_SIZE];
    desk();
    give(PRESSED, SOUTH, 0);
    while (copperyarn_repeat(&hub, 500, 30, 1000, event).due) CHECK(copperyarn_update(&hub, event, sizeof event) == 0 && down(0, 1, false));
    give(RELEASED, SOUTH, 0);
    CHECK(none(0));
}

/* All 52 records of a pad: the first code is 0, the directions stand in the middle, and the last code would be below 0 with a sign. */
static void every_place(void) {
    copperyarn_element elements[COPPERYARN_ELEMENTS];
    uint32_t codes[PLACES];
    for (uint32_t i = 0; i < PLACES; i++) codes[i] = i == 0 ? 0 : i == PLACES - 1 ? UINT32_MAX : COPPERYARN_CODE_UP - 20 + i;
    for (size_t i = 0, n = 0; i < PLACES; i++) {
        const copperyarn_element button = {codes[i], COPPERYARN_ELEMENT_BUTTON, COPPERYARN_NO_NAME, 0, 0, 0};
        if (codes[i] < COPPERYARN_CODE_UP || codes[i] > COPPERYARN_CODE_RIGHT) elements[n++] = button;
    }
    fresh(&hub, true);
    enrol(&hub, elements, COPPERYARN_ELEMENTS);
    for (uint8_t i = PLACES; i > 0; i--) {
        give(PRESSED, codes[i - 1], 0);
        CHECK(down(0, (uint8_t)(PLACES + 1 - i), false) && lowest(0, codes[i - 1]));
    }
    for (uint8_t i = 0; i < PLACES; i++) {
        CHECK(down(0, (uint8_t)(PLACES - i), false) && lowest(0, codes[i]));
        give(RELEASED, codes[i], 0);
    }
    CHECK(none(0));
}

/* ---- by records */

static void records(void) {
    desk();
    CHECK(take(&hub, moved(HAT, -1, 5), out).events > 0 && down(0, 1, false) && lowest(0, LEFT));
    CHECK(take(&hub, moved(HAT, -1, 6), out).events > 0 && down(0, 1, false)); /* it presses again at each -1.0 */
    CHECK(take(&hub, moved(TRIGGER, 2, 7), out).events == 1 && down(0, 1, false));
    CHECK(take(&hub, moved(TRIGGER, 3, 8), out).events == 2 && down(0, 2, true) && lowest(0, LEFT));
    CHECK(take(&hub, moved(HAT, 0, 9), out).events > 0 && down(0, 1, true) && lowest(0, TRIGGER));
    CHECK(take(&hub, moved(TRIGGER, 0, 10), out).events == 2 && none(0));
}

/* It is kept in the step: a pump that stops after one has counted the press, though its Changed still waits. */
static void steps(void) {
    const copperyarn_record press = {COPPERYARN_RECORD_PRESSED, 0, SOUTH, 0, 5};
    uint8_t batch[COPPERYARN_RECORD_SIZE];
    copperyarn_write_record(batch, press);
    desk();
    CHECK(copperyarn_pump(&hub, batch, sizeof batch, 0, out, sizeof out, 0).reason == COPPERYARN_PAUSED && none(0));
    CHECK(copperyarn_pump(&hub, batch, sizeof batch, 0, out, COPPERYARN_EVENT_SIZE - 1, 9).reason == COPPERYARN_FULL && none(0));
    CHECK(copperyarn_pump(&hub, batch, sizeof batch, 0, out, sizeof out, 1).reason == COPPERYARN_PAUSED && copperyarn_waiting(&hub) == 1);
    CHECK(down(0, 1, false) && lowest(0, SOUTH));
    CHECK(copperyarn_pump(&hub, batch, sizeof batch, sizeof batch, out, sizeof out, 1).events == 1 && down(0, 1, false));
}

/* ---- what leaves it, and what takes it away */

/* Neither a pad that leaves, nor new names, nor one more pad, nor a call that is refused. */
static void kept(void) {
    const copperyarn_record leave = {COPPERYARN_RECORD_DISCONNECTED, 0, 0, 0, 6}, late = {COPPERYARN_RECORD_RELEASED, 0, SOUTH, 0, COPPERYARN_TIME_MOST + 1};
    static const uint8_t names[4] = {COPPERYARN_AXIS_LEFT_Z, COPPERYARN_BUTTON_EAST, COPPERYARN_NO_NAME, COPPERYARN_NO_NAME};
    uint8_t bytes[COPPERYARN_EVENT_SIZE];
    desk();
    give(PRESSED, SOUTH, 0);
    give(PRESSED, TRIGGER, 0);
    memcpy(&before, &hub, sizeof hub);
    write_event(bytes, PRESSED, NOWHERE, 0);
    CHECK(copperyarn_update(&hub, bytes, sizeof bytes) == COPPERYARN_REFUSED_UNLISTED && same_hub(&hub, &before));
    CHECK(take(&hub, late, out).refusal == COPPERYARN_REFUSED_TIME && same_hub(&hub, &before) && down(0, 2, true));
    CHECK(copperyarn_rename(&hub, 0, names, 3) == COPPERYARN_REFUSED_SHEET && same_hub(&hub, &before));
    CHECK(copperyarn_rename(&hub, 0, names, sizeof names) == 0 && down(0, 2, true) && lowest(0, SOUTH));
    enrol(&hub, PAD, 4);
    CHECK(down(0, 2, true) && none(1));
    CHECK(take(&hub, leave, out).events == 1 && !copperyarn_is_connected(&hub, 0).is && down(0, 2, true) && lowest(0, SOUTH));
}

/* Connected takes all away, of its pad alone, also from a pad that has not left. */
static void taken_away(void) {
    const copperyarn_record leave = {COPPERYARN_RECORD_DISCONNECTED, 0, 0, 0, 6}, join = {COPPERYARN_RECORD_CONNECTED, 0, 0, 0, 7};
    const copperyarn_record press = {COPPERYARN_RECORD_PRESSED, 0, PLAIN, 0, 8}, other = {COPPERYARN_RECORD_PRESSED, 1, SOUTH, 0, 5};
    for (int leaves = 0; leaves < 2; leaves++) {
        desk();
        enrol(&hub, PAD, 4);
        give(PRESSED, SOUTH, 0);
        give(PRESSED, TRIGGER, 0);
        CHECK(take(&hub, other, out).events == 2 && down(0, 2, true) && down(1, 1, false));
        if (leaves) CHECK(take(&hub, leave, out).events == 1);
        CHECK(take(&hub, join, out).events == 1 && none(0) && down(1, 1, false) && lowest(1, SOUTH));
        CHECK(take(&hub, press, out).events == 2 && down(0, 1, false) && lowest(0, PLAIN));
    }
}

/* Without updates a pumped press moves nothing; an event given to the state does, and a Connected record clears as ever. */
static void without_updates(void) {
    const copperyarn_record press = {COPPERYARN_RECORD_PRESSED, 0, SOUTH, 0, 5}, join = {COPPERYARN_RECORD_CONNECTED, 0, 0, 0, 7};
    CHECK(copperyarn_new(&hub, 0.75f, 0.5f, false, true, false) == 0);
    enrol(&hub, PAD, 4);
    CHECK(take(&hub, press, out).events == 2 && none(0));
    give(PRESSED, TRIGGER, 0);
    CHECK(take(&hub, press, out).events == 2 && down(0, 1, true) && lowest(0, TRIGGER));
    CHECK(take(&hub, join, out).events == 1 && none(0));
}

int main(void) {
    sentences();
    repeats();
    every_place();
    records();
    steps();
    kept();
    taken_away();
    without_updates();
    puts("down: what is down right now, by each of W-213's sentences");
    return 0;
}
