/* Document 01's worked numbers from C, and the byte forms of copperyarn_bytes.h, each against bytes written out by hand. */
#include "desk.h"

static copperyarn_hub hub;
static uint8_t out[10 * COPPERYARN_EVENT_SIZE];

/* ---- bytes */

static void forms(void) {
    static const uint8_t sheet[] = {
        0, 39, 1, 15, 2,
        0, 1, 1, 0x30, 1, 1, 0, 0, 0, 0, 0, 0, 0, 0, 0, 0, 0, 0,
        0, 3, 0, 0x10, 2, 39, 0xff, 0xff, 0xff, 0xff, 0, 0, 0, 1, 0xff, 0xff, 0xff, 0xff,
    };
    static const uint8_t record[] = {0, 19, 1, 3, 2, 0, 3, 0, 0x10, 0xff, 0xff, 0xff, 0xfe, 1, 2, 3, 4, 5, 6, 7, 8};
    static const uint8_t event[] = {0, 20, 1, 5, 3, 39, 0, 3, 0, 0x10, 0xbf, 0x40, 0, 0, 8, 7, 6, 5, 4, 3, 2, 1};
    const copperyarn_element elements[2] = {
        {SOUTH, COPPERYARN_ELEMENT_BUTTON, COPPERYARN_BUTTON_SOUTH, 0, 0, 0},
        {0x00030010, COPPERYARN_ELEMENT_AXIS, COPPERYARN_AXIS_DPAD_X, -1, 1, COPPERYARN_DEADZONE_ABSENT},
    };
    const copperyarn_record given = {COPPERYARN_RECORD_AXIS, 2, 0x00030010, -2, UINT64_C(0x0102030405060708)};
    uint8_t bytes[COPPERYARN_SHEET_MOST];
    CHECK(copperyarn_write_sheet(bytes, 15, elements, 2) == sizeof sheet && memcmp(bytes, sheet, sizeof sheet) == 0);
    CHECK(sizeof record == COPPERYARN_RECORD_SIZE && sizeof event == COPPERYARN_EVENT_SIZE);
    copperyarn_write_record(bytes, given);
    CHECK(memcmp(bytes, record, sizeof record) == 0);
    copperyarn_event read = copperyarn_read_event(event);
    CHECK(read.kind == COPPERYARN_EVENT_AXIS && read.pad == 3 && read.name == COPPERYARN_AXIS_DPAD_X && read.code == 0x00030010);
    CHECK(read.value == -0.75f && read.time == UINT64_C(0x0807060504030201));
    copperyarn_write_event(bytes, read);
    CHECK(memcmp(bytes, event, sizeof event) == 0);
    CHECK(copperyarn_bits(1.0f) == 0x3f800000 && copperyarn_float(0x80000000) == 0.0f && copperyarn_bits(copperyarn_float(0x80000000)) == 0x80000000);
}

/* ---- arithmetic */

static copperyarn_element axis(uint32_t code, uint8_t name, int32_t min, int32_t max, uint32_t deadzone) {
    copperyarn_element element = {code, COPPERYARN_ELEMENT_AXIS, name, min, max, deadzone};
    return element;
}

/* The value of the last event that a record gives. */
static float given(copperyarn_record record, size_t events) {
    copperyarn_pump_answer report = take(&hub, record, out);
    CHECK(report.reason == COPPERYARN_DRAINED && report.place == COPPERYARN_RECORD_SIZE && report.events == events);
    return copperyarn_read_event(out + (events - 1) * COPPERYARN_EVENT_SIZE).value;
}

static void scaling(void) {
    static const struct {
        int32_t min, max, value;
        float scaled;
    } cases[] = {
        {0, 255, 0, -0.9921875f}, {0, 255, 127, 0.0f}, {0, 255, 255, 1.0f}, {-32768, 32767, -1, 0.0f}, {-32768, 32767, 0, 1.0f / 32768.0f},
        {-1, 1, -1, -1.0f}, {-1, 1, 0, 0.0f}, {-1, 1, 1, 1.0f},
    };
    for (size_t i = 0; i < sizeof cases / sizeof *cases; i++) {
        copperyarn_element stick = axis(STICK, COPPERYARN_AXIS_LEFT_STICK_X, cases[i].min, cases[i].max, 0);
        fresh(&hub, false);
        enrol(&hub, &stick, 1);
        CHECK(given(moved(STICK, cases[i].value, 7), 1) == cases[i].scaled);
        CHECK(copperyarn_value(&hub, 0, COPPERYARN_AXIS_LEFT_STICK_X).value == cases[i].scaled);
    }
    copperyarn_element trigger = axis(TRIGGER, COPPERYARN_BUTTON_LEFT_TRIGGER2, 0, 4, 0);
    fresh(&hub, true);
    enrol(&hub, &trigger, 1);
    CHECK(given(moved(TRIGGER, 3, 7), 2) == 0.75f);
    CHECK(copperyarn_is_pressed(&hub, 0, COPPERYARN_BUTTON_LEFT_TRIGGER2).is);
}

static void stick_of(uint32_t deadzone) {
    const copperyarn_element stick[2] = {
        axis(STICK, COPPERYARN_AXIS_LEFT_STICK_X, 0, 256, deadzone), axis(STICK + 1, COPPERYARN_AXIS_LEFT_STICK_Y, 0, 256, deadzone),
    };
    fresh(&hub, true);
    enrol(&hub, stick, 2);
}

static void deadzones(void) {
    stick_of(32);
    copperyarn_value_answer threshold = copperyarn_deadzone_threshold(&hub, 0, STICK);
    CHECK(threshold.known && threshold.value == 0.25f);
    copperyarn_pump_answer dropped = take(&hub, moved(STICK, 160, 7), out); /* (0.25, 0) at 0.25 */
    CHECK(dropped.reason == COPPERYARN_DRAINED && dropped.events == 0 && dropped.steps == 1 && dropped.tilt == COPPERYARN_TILT_INSIDE);
    CHECK(copperyarn_value(&hub, 0, COPPERYARN_AXIS_LEFT_STICK_X).value == 0.0f);
    stick_of(64);
    CHECK(given(moved(STICK, 224, 7), 1) == 0.5f); /* (0.75, 0) at 0.5 */
    stick_of(64);
    CHECK(given(moved(STICK, 256, 7), 1) == 1.0f); /* (1, 1) at 0.5 */
    CHECK(given(moved(STICK + 1, 256, 8), 1) == 1.0f);
}

/* ---- time */

/* "held since 0, after 500, every 30, now 1,000: 17 repeats; now 499: none" */
static void repeats(void) {
    const copperyarn_record press = {COPPERYARN_RECORD_PRESSED, 0, SOUTH, 0, 0};
    uint8_t event[COPPERYARN_EVENT_SIZE] = {0};
    int due = 0;
    fresh(&hub, true);
    enrol(&hub, ELEMENTS, 3);
    CHECK(take(&hub, press, out).events == 2);
    CHECK(!copperyarn_repeat(&hub, 500, 30, 499, event).due && event[1] == 0);
    while (copperyarn_repeat(&hub, 500, 30, 1000, event).due) {
        CHECK(copperyarn_read_event(event).kind == COPPERYARN_EVENT_REPEATED && copperyarn_read_event(event).time == 500 + 30 * (uint64_t)due);
        CHECK(copperyarn_update(&hub, event, sizeof event) == 0);
        due++;
    }
    copperyarn_button_answer held = copperyarn_button_data(&hub, 0, COPPERYARN_BUTTON_SOUTH);
    CHECK(due == 17 && held.pressed && held.repeating && held.stamp == 980 && held.since == 0);
}

static void counter(void) {
    fresh(&hub, true);
    copperyarn_inc(&hub);
    CHECK(copperyarn_counter(&hub) == 1);
    hub.head.counter = COPPERYARN_TIME_MOST;
    copperyarn_inc(&hub);
    CHECK(copperyarn_counter(&hub) == 0);
    copperyarn_inc(&hub);
    copperyarn_reset_counter(&hub);
    CHECK(copperyarn_counter(&hub) == 0);
}

int main(void) {
    forms();
    scaling();
    deadzones();
    repeats();
    counter();
    puts("worked: 01's numbers and the byte forms are as written");
    return 0;
}
