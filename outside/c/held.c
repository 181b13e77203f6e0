/* Since when a button is held, W-206's sentences from C: each by events given to the state and by events that wait for the pump; then by records, of a button,
 * a trigger and a hat; and what leaves it, what takes it away. */
#include "desk.h"

enum { HAT = 0x00030010, EVENTS = 3 };

static copperyarn_hub hub, before;
static uint8_t out[10 * COPPERYARN_EVENT_SIZE];

static void desk(void) {
    fresh(&hub, true);
    enrol(&hub, ELEMENTS, 3);
}

static copperyarn_button_answer south(void) { return copperyarn_button_data_by_code(&hub, 0, SOUTH); }

/* ---- by events */

/* An event of South. */
static void write_event(uint8_t bytes[COPPERYARN_EVENT_SIZE], uint8_t kind, uint64_t time) {
    const float value = kind == COPPERYARN_EVENT_CHANGED ? 0.5f : 0.0f;
    const copperyarn_event event = {kind, 0, COPPERYARN_BUTTON_SOUTH, SOUTH, value, time};
    copperyarn_write_event(bytes, event);
}

/* Gives it to the state. */
static void give(uint8_t kind, uint64_t time) {
    uint8_t bytes[COPPERYARN_EVENT_SIZE];
    write_event(bytes, kind, time);
    CHECK(copperyarn_update(&hub, bytes, sizeof bytes) == 0);
}

/* Lets it wait, and pumps it. */
static void hand(uint8_t kind, uint64_t time) {
    uint8_t bytes[COPPERYARN_EVENT_SIZE];
    write_event(bytes, kind, time);
    CHECK(copperyarn_insert_event(&hub, bytes, sizeof bytes) == 0);
    CHECK(copperyarn_pump(&hub, NULL, 0, 0, out, sizeof out, UINT16_MAX).events == 1);
}

static void sentences(void) {
    enum { PRESSED = COPPERYARN_EVENT_PRESSED, RELEASED = COPPERYARN_EVENT_RELEASED, REPEATED = COPPERYARN_EVENT_REPEATED, CHANGED = COPPERYARN_EVENT_CHANGED };
    static const struct {
        struct {
            uint8_t kind;
            uint64_t time;
        } events[EVENTS];
        bool pressed;
        uint64_t since;
    } cases[] = {
        {{{PRESSED, 5}}, true, 5},
        {{{PRESSED, 5}, {REPEATED, 9}, {PRESSED, 12}}, true, 5}, /* neither a repeat nor a second press moves it */
        {{{PRESSED, 5}, {RELEASED, 6}}, false, 5},               /* release keeps it */
        {{{PRESSED, 5}, {RELEASED, 6}, {PRESSED, 8}}, true, 8},
        {{{PRESSED, 5}, {CHANGED, 7}}, true, 5},
        {{{PRESSED, 5}, {RELEASED, 6}, {REPEATED, 9}}, false, 5}, /* a repeat presses no button that has a record */
        {{{RELEASED, 6}}, false, 0},
        {{{CHANGED, 4}}, false, 0},
        {{{CHANGED, 4}, {REPEATED, 7}}, false, 0},
        {{{CHANGED, 4}, {PRESSED, 7}}, true, 7},
        {{{RELEASED, 6}, {PRESSED, 7}, {CHANGED, 8}}, true, 7},
        {{{REPEATED, 7}}, true, 7},
        {{{REPEATED, 7}, {REPEATED, 9}, {PRESSED, 12}}, true, 7},
        {{{PRESSED, 9}, {RELEASED, 8}, {PRESSED, 2}}, true, 2}, /* the event's time, and no clock: it may be an earlier one */
        {{{PRESSED, COPPERYARN_TIME_MOST}}, true, COPPERYARN_TIME_MOST},
        {{{PRESSED, 0}}, true, 0}, /* 0 is also a press at 0: `pressed` tells */
    };
    static void (*const ways[])(uint8_t, uint64_t) = {give, hand};
    for (size_t way = 0; way < sizeof ways / sizeof *ways; way++) {
        for (size_t i = 0; i < sizeof cases / sizeof *cases; i++) {
            uint64_t last = 0;
            desk();
            for (size_t n = 0; n < EVENTS && cases[i].events[n].kind != 0; n++) {
                last = cases[i].events[n].time;
                ways[way](cases[i].events[n].kind, last);
            }
            copperyarn_button_answer answer = south();
            CHECK(answer.refusal == 0 && answer.known && answer.pressed == cases[i].pressed);
            CHECK(answer.since == cases[i].since && answer.stamp == last);
            CHECK(copperyarn_button_data(&hub, 0, COPPERYARN_BUTTON_SOUTH).since == cases[i].since);
        }
    }
}

/* Repeats that are due, fed back: the stamp goes with them and `since` stays, so that the hold is as long as it is. */
static void repeats(void) {
    uint8_t event[COPPERYARN_EVENT_SIZE];
    desk();
    give(COPPERYARN_EVENT_PRESSED, 20);
    while (copperyarn_repeat(&hub, 500, 30, 1000, event).due) CHECK(copperyarn_update(&hub, event, sizeof event) == 0);
    CHECK(south().repeating && south().stamp == 1000 && south().since == 20);
    give(COPPERYARN_EVENT_RELEASED, 1100);
    CHECK(south().stamp - south().since == 1080);
}

/* ---- by records */

static uint64_t since(uint32_t code) {
    copperyarn_button_answer answer = copperyarn_button_data_by_code(&hub, 0, code);
    CHECK(answer.refusal == 0 && answer.known);
    return answer.since;
}

static void records(void) {
    copperyarn_record press = {COPPERYARN_RECORD_PRESSED, 0, SOUTH, 0, 5};
    desk();
    CHECK(take(&hub, press, out).events == 2 && since(SOUTH) == 5); /* Pressed, and the Changed behind it */
    press.time = 9;
    CHECK(take(&hub, press, out).events == 2 && since(SOUTH) == 5 && south().stamp == 9);
    /* a trigger: its record begins with Changed, its press comes later, and what it does while it is held moves nothing */
    CHECK(take(&hub, moved(TRIGGER, 51, 10), out).events == 1 && since(TRIGGER) == 0);
    CHECK(take(&hub, moved(TRIGGER, 255, 11), out).events == 2 && since(TRIGGER) == 11);
    CHECK(take(&hub, moved(TRIGGER, 240, 12), out).events == 1 && since(TRIGGER) == 11);
    CHECK(take(&hub, moved(TRIGGER, 0, 13), out).events == 2 && since(TRIGGER) == 11);
    CHECK(!copperyarn_is_pressed_by_code(&hub, 0, TRIGGER).is);
}

/* A plain hat presses its direction, which has a code and no element of that name, again at each 1.0. */
static void hat(void) {
    const copperyarn_element element = {HAT, COPPERYARN_ELEMENT_AXIS, COPPERYARN_AXIS_DPAD_X, -1, 1, 0};
    fresh(&hub, true);
    enrol(&hub, &element, 1);
    for (uint64_t time = 5; time < 8; time++) {
        CHECK(take(&hub, moved(HAT, 1, time), out).events > 0 && copperyarn_read_event(out).kind == COPPERYARN_EVENT_PRESSED);
        CHECK(copperyarn_button_data_by_code(&hub, 0, COPPERYARN_CODE_RIGHT).stamp == time && since(COPPERYARN_CODE_RIGHT) == 5);
    }
    CHECK(take(&hub, moved(HAT, 0, 8), out).events > 0 && !copperyarn_is_pressed_by_code(&hub, 0, COPPERYARN_CODE_RIGHT).is);
    CHECK(since(COPPERYARN_CODE_RIGHT) == 5);
    CHECK(take(&hub, moved(HAT, 1, 9), out).events > 0 && since(COPPERYARN_CODE_RIGHT) == 9);
}

/* ---- what leaves it, and what takes it away */

/* Neither a pad that leaves, nor new names, nor a call that is refused. */
static void kept(void) {
    const copperyarn_record leave = {COPPERYARN_RECORD_DISCONNECTED, 0, 0, 0, 6}, late = {COPPERYARN_RECORD_PRESSED, 0, SOUTH, 0, COPPERYARN_TIME_MOST + 1};
    static const uint8_t names[3] = {COPPERYARN_BUTTON_EAST, COPPERYARN_AXIS_DPAD_X, COPPERYARN_NO_NAME};
    uint8_t bytes[COPPERYARN_EVENT_SIZE];
    desk();
    give(COPPERYARN_EVENT_PRESSED, 5);
    give(COPPERYARN_EVENT_RELEASED, 6);
    memcpy(&before, &hub, sizeof hub);
    write_event(bytes, COPPERYARN_EVENT_PRESSED, COPPERYARN_TIME_MOST + 1);
    CHECK(copperyarn_update(&hub, bytes, sizeof bytes) == COPPERYARN_REFUSED_TIME && same_hub(&hub, &before));
    CHECK(take(&hub, late, out).refusal == COPPERYARN_REFUSED_TIME && same_hub(&hub, &before) && since(SOUTH) == 5);
    CHECK(copperyarn_rename(&hub, 0, names, sizeof names) == 0 && since(SOUTH) == 5);
    CHECK(copperyarn_button_data(&hub, 0, COPPERYARN_BUTTON_EAST).since == 5);
    CHECK(take(&hub, leave, out).events == 1 && since(SOUTH) == 5);
}

/* Connected takes the record away, and the next one begins anew. */
static void taken_away(void) {
    static const uint64_t begun[] = {0, 9, 0, 9, 0}; /* by the kind of its first event */
    const copperyarn_record join = {COPPERYARN_RECORD_CONNECTED, 0, 0, 0, 7};
    for (uint8_t kind = COPPERYARN_EVENT_PRESSED; kind <= COPPERYARN_EVENT_CHANGED; kind++) {
        desk();
        give(COPPERYARN_EVENT_PRESSED, 5);
        CHECK(take(&hub, join, out).events == 1 && !south().known && south().since == 0);
        give(kind, 9);
        CHECK(since(SOUTH) == begun[kind]);
    }
}

/* What happens to the same code of another pad is that pad's. */
static void other_pad(void) {
    const copperyarn_record press = {COPPERYARN_RECORD_PRESSED, 1, SOUTH, 0, 9}, join = {COPPERYARN_RECORD_CONNECTED, 1, 0, 0, 10};
    desk();
    enrol(&hub, ELEMENTS, 3);
    give(COPPERYARN_EVENT_PRESSED, 5);
    give(COPPERYARN_EVENT_RELEASED, 6);
    CHECK(take(&hub, press, out).events == 2 && since(SOUTH) == 5 && copperyarn_button_data_by_code(&hub, 1, SOUTH).since == 9);
    CHECK(take(&hub, join, out).events == 1 && since(SOUTH) == 5 && !copperyarn_button_data_by_code(&hub, 1, SOUTH).known);
}

/* Without updates a pumped press writes nothing; an event given to the state does. */
static void without_updates(void) {
    copperyarn_record press = {COPPERYARN_RECORD_PRESSED, 0, SOUTH, 0, 5};
    CHECK(copperyarn_new(&hub, 0.75f, 0.5f, false, true, false) == 0);
    enrol(&hub, ELEMENTS, 3);
    CHECK(take(&hub, press, out).events == 2 && !south().known);
    give(COPPERYARN_EVENT_RELEASED, 6);
    press.time = 7;
    CHECK(take(&hub, press, out).events == 2 && since(SOUTH) == 0);
    give(COPPERYARN_EVENT_PRESSED, 8);
    CHECK(since(SOUTH) == 8);
}

int main(void) {
    sentences();
    repeats();
    records();
    hat();
    kept();
    taken_away();
    other_pad();
    without_updates();
    puts("held: since when a button is held, by each of W-206's sentences");
    return 0;
}
