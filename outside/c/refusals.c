/* Each public call served once and each of its refusals provoked, in the order that document 01 gives: every call climbs a ladder whose first rung has all
 * faults, and each rung mends the one that was named. Behind each refusal the hub is as it was; in `new`, which has no hub before it, it is the one that is
 * promised. */
#include "desk.h"

#include <math.h>

static copperyarn_hub hub, before;
static uint8_t out[10 * COPPERYARN_EVENT_SIZE];

/* A call that is refused by a number and leaves the hub as it was. */
#define REFUSES(number, answered)          \
    do {                                   \
        memcpy(&before, &hub, sizeof hub); \
        CHECK((answered) == (number));     \
        CHECK(same_hub(&hub, &before));    \
    } while (0)

static void desk(void) {
    fresh(&hub, true);
    enrol(&hub, ELEMENTS, 3);
}

/* ---- setting a desk up */

static void new_hub(void) {
    static const float thresholds[][2] = {{0.5f, 0.5f}, {0.5f, 0.75f}, {1.5f, 0.5f}, {0.5f, -0.5f}, {NAN, 0.5f}, {0.5f, NAN}, {INFINITY, 0.0f}};
    for (size_t i = 0; i < sizeof thresholds / sizeof *thresholds; i++) {
        desk();
        CHECK(copperyarn_new(&hub, thresholds[i][0], thresholds[i][1], true, true, true) == COPPERYARN_REFUSED_THRESHOLDS);
        memset(&before, 0x77, sizeof before);
        CHECK(copperyarn_new(&before, 1.0f, 0.0f, false, false, false) == 0);
        CHECK(same_hub(&hub, &before));
    }
    CHECK(hub.head.pressed == 1.0f && hub.head.released == 0.0f && !hub.head.reversed && !hub.head.filters && !hub.head.updates);
    CHECK(copperyarn_new(&hub, 1.0f, 0.0f, true, false, true) == 0 && hub.head.reversed && !hub.head.filters && hub.head.updates);
    CHECK(copperyarn_new(&hub, 1.0f, 0.0f, false, true, false) == 0 && !hub.head.reversed && hub.head.filters && !hub.head.updates);
}

/* 4 in its other ways, each before 29. */
static void element_rules(void) {
    static const copperyarn_element bad[] = {
        {SOUTH, 0, 1, 0, 0, 0}, {SOUTH, 3, 1, 0, 0, 0}, {SOUTH, 1, 0, 0, 0, 0}, {SOUTH, 1, 20, 0, 0, 0}, {SOUTH, 1, 32, 0, 0, 0}, {SOUTH, 1, 41, 0, 0, 0},
        {SOUTH, 1, 254, 0, 0, 0}, {SOUTH, 1, 1, 1, 0, 0}, {SOUTH, 1, 1, 0, 1, 0}, {SOUTH, 1, 1, 0, 0, 1}, {STICK, 2, 33, 5, 5, 0}, {STICK, 2, 33, 6, 5, 0},
        {STICK, 2, 33, COPPERYARN_VALUE_LEAST - 1, 5, 0}, {STICK, 2, 33, 0, COPPERYARN_VALUE_MOST + 1, 0}, {STICK, 2, 33, 0, 5, COPPERYARN_DEADZONE_MOST + 1},
    };
    uint8_t sheet[COPPERYARN_SHEET_MOST];
    for (size_t i = 0; i < sizeof bad / sizeof *bad; i++)
        REFUSES(COPPERYARN_REFUSED_ELEMENT, copperyarn_register(&hub, sheet, copperyarn_write_sheet(sheet, 6, bad + i, 1)).refusal);
    const copperyarn_element falling[2] = {ELEMENTS[1], ELEMENTS[0]};
    REFUSES(COPPERYARN_REFUSED_ELEMENT, copperyarn_register(&hub, sheet, copperyarn_write_sheet(sheet, 6, falling, 2)).refusal);
}

static void register_pad(void) {
    copperyarn_element twice[2] = {{SOUTH, 1, 1, 0, 0, 0}, {SOUTH + 1, 1, 1, 0, 0, 0}};
    uint8_t sheet[COPPERYARN_SHEET_MOST];
    size_t size = copperyarn_write_sheet(sheet, 22, twice, 2);
    sheet[2] = 2;
    fresh(&hub, true);
    for (int pad = 0; pad < COPPERYARN_PADS; pad++) enrol(&hub, ELEMENTS, 3);
    REFUSES(COPPERYARN_REFUSED_PADS, copperyarn_register(&hub, sheet, size).refusal);
    fresh(&hub, true);
    REFUSES(COPPERYARN_REFUSED_SHEET, copperyarn_register(&hub, sheet, size).refusal);
    sheet[2] = 1;
    REFUSES(COPPERYARN_REFUSED_ELEMENT, copperyarn_register(&hub, sheet, size).refusal);
    sheet[3] = 6;
    REFUSES(COPPERYARN_REFUSED_PARTIAL_HATS, copperyarn_register(&hub, sheet, size).refusal);
    sheet[3] = 15;
    REFUSES(COPPERYARN_REFUSED_NAME_TWICE, copperyarn_register(&hub, sheet, size).refusal);
    /* 3 in its other ways: the size, the count, n */
    REFUSES(COPPERYARN_REFUSED_SHEET, copperyarn_register(&hub, NULL, 0).refusal);
    REFUSES(COPPERYARN_REFUSED_SHEET, copperyarn_register(&hub, sheet, size - 1).refusal);
    sheet[1]++;
    REFUSES(COPPERYARN_REFUSED_SHEET, copperyarn_register(&hub, sheet, size).refusal);
    sheet[1]--;
    sheet[4] = 3;
    REFUSES(COPPERYARN_REFUSED_SHEET, copperyarn_register(&hub, sheet, size).refusal);
    element_rules();
    twice[1].name = COPPERYARN_NO_NAME;
    copperyarn_pad_answer answer = copperyarn_register(&hub, sheet, copperyarn_write_sheet(sheet, 15, twice, 2));
    CHECK(answer.refusal == 0 && answer.pad == 0 && copperyarn_is_connected(&hub, 0).is);
    /* whatever marks stood at its places, a new pad has no record */
    fresh(&hub, true);
    hub.hasbutton[0] = hub.hasaxis[1] = true;
    enrol(&hub, ELEMENTS, 3);
    CHECK(!hub.hasbutton[0] && !hub.hasaxis[1]);
}

/* A sheet of the archive: the same rungs without 29. */
static void register_archived_pad(void) {
    copperyarn_element twice[2] = {{SOUTH, 1, 1, 0, 0, 0}, {SOUTH + 1, 1, 1, 0, 0, 0}};
    uint8_t sheet[COPPERYARN_SHEET_MOST];
    size_t size = copperyarn_write_sheet(sheet, 22, twice, 2);
    sheet[2] = 2;
    fresh(&hub, true);
    for (int pad = 0; pad < COPPERYARN_PADS; pad++) enrol(&hub, ELEMENTS, 3);
    REFUSES(COPPERYARN_REFUSED_PADS, copperyarn_register_archived(&hub, sheet, size).refusal);
    fresh(&hub, true);
    REFUSES(COPPERYARN_REFUSED_SHEET, copperyarn_register_archived(&hub, sheet, size).refusal);
    REFUSES(COPPERYARN_REFUSED_SHEET, copperyarn_register_archived(&hub, NULL, 0).refusal);
    sheet[2] = 1;
    REFUSES(COPPERYARN_REFUSED_ELEMENT, copperyarn_register_archived(&hub, sheet, size).refusal);
    sheet[3] = 6;
    REFUSES(COPPERYARN_REFUSED_NAME_TWICE, copperyarn_register_archived(&hub, sheet, size).refusal);
    twice[1].name = COPPERYARN_NO_NAME;
    size = copperyarn_write_sheet(sheet, 6, twice, 2);
    REFUSES(COPPERYARN_REFUSED_PARTIAL_HATS, copperyarn_register(&hub, sheet, size).refusal);
    copperyarn_pad_answer answer = copperyarn_register_archived(&hub, sheet, size);
    CHECK(answer.refusal == 0 && answer.pad == 0 && copperyarn_is_connected(&hub, 0).is && copperyarn_is_old(&hub, 0).is);
}

static void rename_pad(void) {
    const copperyarn_record leave = {COPPERYARN_RECORD_DISCONNECTED, 0, 0, 0, 1}, join = {COPPERYARN_RECORD_CONNECTED, 0, 0, 0, 2};
    uint8_t names[4] = {COPPERYARN_BUTTON_EAST, COPPERYARN_BUTTON_EAST, 20, COPPERYARN_BUTTON_WEST};
    desk();
    CHECK(take(&hub, leave, out).events == 1 && !copperyarn_is_connected(&hub, 0).is);
    REFUSES(COPPERYARN_REFUSED_NO_PAD, copperyarn_rename(&hub, 1, names, 4));
    REFUSES(COPPERYARN_REFUSED_DISCONNECTED, copperyarn_rename(&hub, 0, names, 4));
    CHECK(take(&hub, join, out).events == 1 && copperyarn_is_connected(&hub, 0).is);
    REFUSES(COPPERYARN_REFUSED_SHEET, copperyarn_rename(&hub, 0, names, 4));
    REFUSES(COPPERYARN_REFUSED_SHEET, copperyarn_rename(&hub, 0, NULL, 0));
    REFUSES(COPPERYARN_REFUSED_ELEMENT, copperyarn_rename(&hub, 0, names, 3));
    names[2] = COPPERYARN_NO_NAME;
    REFUSES(COPPERYARN_REFUSED_NAME_TWICE, copperyarn_rename(&hub, 0, names, 3));
    names[1] = COPPERYARN_AXIS_RIGHT_Z;
    CHECK(copperyarn_rename(&hub, 0, names, 3) == 0);
    CHECK(copperyarn_axis_or_btn_name(&hub, 0, SOUTH).number == COPPERYARN_BUTTON_EAST && !copperyarn_axis_or_btn_name(&hub, 0, TRIGGER).known);
    CHECK(copperyarn_code_of_name(&hub, 0, COPPERYARN_AXIS_RIGHT_Z).number == STICK);
    CHECK(take(&hub, join, out).events == 1 && copperyarn_axis_or_btn_name(&hub, 0, SOUTH).number == COPPERYARN_BUTTON_SOUTH);
}

/* ---- events */

/* A pump whose second record is refused: the first one's two events stand, and the place is the second's. */
static void pump_record(uint8_t number, copperyarn_record record, uint8_t version) {
    uint8_t batch[2 * COPPERYARN_RECORD_SIZE];
    const copperyarn_record press = {COPPERYARN_RECORD_PRESSED, 0, SOUTH, 0, 5};
    copperyarn_write_record(batch, press);
    copperyarn_write_record(batch + COPPERYARN_RECORD_SIZE, record);
    batch[COPPERYARN_RECORD_SIZE + 2] = version;
    desk();
    memset(out, 0x5a, sizeof out);
    copperyarn_pump_answer report = copperyarn_pump(&hub, batch, sizeof batch, 0, out, sizeof out, UINT16_MAX);
    CHECK(report.refusal == number && report.reason == 0 && report.place == COPPERYARN_RECORD_SIZE && report.events == 2 && report.steps == 2);
    CHECK(out[2 * COPPERYARN_EVENT_SIZE] == 0x5a && copperyarn_is_pressed(&hub, 0, COPPERYARN_BUTTON_SOUTH).is);
    /* by itself, with nothing waiting, it leaves the hub as it was */
    REFUSES(number, copperyarn_pump(&hub, batch, sizeof batch, COPPERYARN_RECORD_SIZE, out, sizeof out, UINT16_MAX).refusal);
}

static void pump_records(void) {
    copperyarn_record record = {COPPERYARN_RECORD_AXIS, 1, NOWHERE, COPPERYARN_VALUE_MOST + 1, COPPERYARN_TIME_MOST + 1};
    pump_record(COPPERYARN_REFUSED_MALFORMED, record, 2);
    pump_record(COPPERYARN_REFUSED_NO_PAD, record, 1);
    record.pad = 0;
    pump_record(COPPERYARN_REFUSED_UNLISTED, record, 1);
    record.code = SOUTH;
    pump_record(COPPERYARN_REFUSED_WRONG_ELEMENT, record, 1);
    record.code = STICK;
    pump_record(COPPERYARN_REFUSED_VALUE, record, 1);
    record.value = 255;
    pump_record(COPPERYARN_REFUSED_TIME, record, 1);
    record.time = COPPERYARN_TIME_MOST;
    CHECK(take(&hub, record, out).events == 1 && copperyarn_value(&hub, 0, COPPERYARN_AXIS_LEFT_STICK_X).value == 1.0f);
    const copperyarn_record pressed_axis = {COPPERYARN_RECORD_PRESSED, 0, STICK, 0, 6}, left_over = {COPPERYARN_RECORD_CONNECTED, 0, STICK, 0, 6};
    pump_record(COPPERYARN_REFUSED_WRONG_ELEMENT, pressed_axis, 1);
    pump_record(COPPERYARN_REFUSED_MALFORMED, left_over, 1);
}

static void pump_call(void) {
    static uint8_t long_batch[COPPERYARN_BATCH_MOST + 1], long_out[COPPERYARN_OUT_MOST + 1];
    desk();
    REFUSES(COPPERYARN_REFUSED_TOO_LONG, copperyarn_pump(&hub, long_batch, sizeof long_batch, sizeof long_batch + 1, out, sizeof out, 9).refusal);
    REFUSES(COPPERYARN_REFUSED_TOO_LONG, copperyarn_pump(&hub, NULL, 0, 1, long_out, sizeof long_out, 9).refusal);
    REFUSES(COPPERYARN_REFUSED_MALFORMED, copperyarn_pump(&hub, NULL, 0, 1, long_out, sizeof long_out - 1, 9).refusal);
    CHECK(copperyarn_pump(&hub, NULL, 0, SIZE_MAX, NULL, 0, 9).place == SIZE_MAX);
    CHECK(copperyarn_pump(&hub, NULL, 0, 0, NULL, 0, 9).reason == COPPERYARN_DRAINED);
    uint8_t batch[COPPERYARN_RECORD_SIZE];
    const copperyarn_record press = {COPPERYARN_RECORD_PRESSED, 0, SOUTH, 0, 5};
    copperyarn_write_record(batch, press);
    CHECK(copperyarn_pump(&hub, batch, sizeof batch, 0, out, COPPERYARN_EVENT_SIZE - 1, 9).reason == COPPERYARN_FULL);
    CHECK(copperyarn_pump(&hub, batch, sizeof batch, 0, out, sizeof out, 0).reason == COPPERYARN_PAUSED);
    CHECK(copperyarn_pump(&hub, batch, sizeof batch, 0, out, sizeof out, 1).place == sizeof batch && copperyarn_waiting(&hub) == 1);
}

/* The ladder of update and of insert_event, up to the rung where they are served. */
static copperyarn_event event_ladder(uint8_t (*call)(copperyarn_hub *, const uint8_t *, size_t)) {
    copperyarn_event event = {COPPERYARN_EVENT_AXIS, 1, COPPERYARN_BUTTON_SOUTH, NOWHERE, NAN, COPPERYARN_TIME_MOST + 1};
    uint8_t bytes[COPPERYARN_EVENT_SIZE];
    copperyarn_write_event(bytes, event);
    REFUSES(COPPERYARN_REFUSED_MALFORMED, call(&hub, bytes, sizeof bytes));
    event.name = COPPERYARN_AXIS_LEFT_STICK_X;
    copperyarn_write_event(bytes, event);
    REFUSES(COPPERYARN_REFUSED_MALFORMED, call(&hub, bytes, sizeof bytes - 1));
    REFUSES(COPPERYARN_REFUSED_MALFORMED, call(&hub, NULL, 0));
    REFUSES(COPPERYARN_REFUSED_NO_PAD, call(&hub, bytes, sizeof bytes));
    event.pad = 0;
    copperyarn_write_event(bytes, event);
    REFUSES(COPPERYARN_REFUSED_UNLISTED, call(&hub, bytes, sizeof bytes));
    event.code = STICK;
    copperyarn_write_event(bytes, event);
    REFUSES(COPPERYARN_REFUSED_VALUE, call(&hub, bytes, sizeof bytes));
    event.value = 0.5f;
    copperyarn_write_event(bytes, event);
    REFUSES(COPPERYARN_REFUSED_TIME, call(&hub, bytes, sizeof bytes));
    event.time = COPPERYARN_TIME_MOST;
    return event;
}

static void events(void) {
    uint8_t bytes[COPPERYARN_EVENT_SIZE];
    desk();
    copperyarn_write_event(bytes, event_ladder(copperyarn_update));
    CHECK(copperyarn_update(&hub, bytes, sizeof bytes) == 0 && copperyarn_value_by_code(&hub, 0, STICK).value == 0.5f);
    for (int waiting = 0; waiting <= COPPERYARN_INSERT_LIMIT; waiting++) {
        copperyarn_write_event(bytes, event_ladder(copperyarn_insert_event));
        if (waiting < COPPERYARN_INSERT_LIMIT) CHECK(copperyarn_insert_event(&hub, bytes, sizeof bytes) == 0 && copperyarn_waiting(&hub) == waiting + 1);
    }
    REFUSES(COPPERYARN_REFUSED_WAITING, copperyarn_insert_event(&hub, bytes, sizeof bytes));
}

static void repeat(void) {
    const copperyarn_record press = {COPPERYARN_RECORD_PRESSED, 0, SOUTH, 0, 5};
    const uint64_t most = COPPERYARN_WAIT_MOST, late = COPPERYARN_TIME_MOST + 1;
    uint8_t event[COPPERYARN_EVENT_SIZE] = {0}, none[COPPERYARN_EVENT_SIZE] = {0};
    desk();
    CHECK(take(&hub, press, out).events == 2);
    REFUSES(COPPERYARN_REFUSED_REPEAT, copperyarn_repeat(&hub, most + 1, 1, late, event).refusal);
    REFUSES(COPPERYARN_REFUSED_REPEAT, copperyarn_repeat(&hub, 0, 0, late, event).refusal);
    REFUSES(COPPERYARN_REFUSED_REPEAT, copperyarn_repeat(&hub, 0, most + 1, late, event).refusal);
    REFUSES(COPPERYARN_REFUSED_TIME, copperyarn_repeat(&hub, most, most, late, event).refusal);
    CHECK(memcmp(event, none, sizeof event) == 0);
    CHECK(copperyarn_repeat(&hub, most, most, late - 1, event).due && copperyarn_read_event(event).code == SOUTH);
}

/* ---- queries */

static void queries(void) {
    static const uint8_t no_button[] = {0, 20, 32, 33, 255}, no_axis[] = {1, 19, 32, 41, 255}, no_name[] = {0, 20, 32, 41, 255};
    const copperyarn_record press = {COPPERYARN_RECORD_PRESSED, 0, SOUTH, 0, 5};
    desk();
    CHECK(take(&hub, press, out).events == 2 && take(&hub, moved(STICK, 255, 6), out).events == 1);
    for (size_t i = 0; i < 5; i++) {
        for (uint8_t pad = 0; pad < 2; pad++) {
            uint8_t number = pad == 0 ? COPPERYARN_REFUSED_NAME : COPPERYARN_REFUSED_NO_PAD;
            CHECK(copperyarn_is_pressed(&hub, pad, no_button[i]).refusal == number && copperyarn_button_data(&hub, pad, no_button[i]).refusal == number);
            CHECK(copperyarn_value(&hub, pad, no_axis[i]).refusal == number && copperyarn_axis_data(&hub, pad, no_axis[i]).refusal == number);
            CHECK(copperyarn_code_of_name(&hub, pad, no_name[i]).refusal == number);
        }
    }
    const uint8_t number = COPPERYARN_REFUSED_NO_PAD;
    CHECK(copperyarn_is_pressed_by_code(&hub, 1, SOUTH).refusal == number && copperyarn_value_by_code(&hub, 255, STICK).refusal == number);
    CHECK(copperyarn_button_data_by_code(&hub, 4, SOUTH).refusal == number && copperyarn_axis_data_by_code(&hub, 1, STICK).refusal == number);
    CHECK(copperyarn_deadzone_threshold(&hub, 1, STICK).refusal == number && copperyarn_axis_or_btn_name(&hub, 1, STICK).refusal == number);
    CHECK(copperyarn_is_connected(&hub, 1).refusal == number && copperyarn_is_connected(&hub, 0).is);
    CHECK(copperyarn_is_old(&hub, 0).refusal == 0 && !copperyarn_is_old(&hub, 0).is);
    for (int pad = 1; pad <= UINT8_MAX; pad++) {
        copperyarn_down_answer down = copperyarn_down(&hub, (uint8_t)pad);
        copperyarn_number_answer lowest = copperyarn_lowest_pressed(&hub, (uint8_t)pad);
        CHECK(down.refusal == number && down.count == 0 && !down.axis && lowest.refusal == number && !lowest.known && lowest.number == 0);
        CHECK(copperyarn_is_old(&hub, (uint8_t)pad).refusal == number && !copperyarn_is_old(&hub, (uint8_t)pad).is);
    }
    CHECK(copperyarn_down(&hub, 0).count == 1 && !copperyarn_down(&hub, 0).axis && copperyarn_lowest_pressed(&hub, 0).number == SOUTH);
    CHECK(copperyarn_is_pressed(&hub, 0, COPPERYARN_BUTTON_SOUTH).is && copperyarn_is_pressed_by_code(&hub, 0, SOUTH).is);
    CHECK(copperyarn_value(&hub, 0, COPPERYARN_AXIS_LEFT_STICK_X).value == 1.0f && copperyarn_value_by_code(&hub, 0, STICK).value == 1.0f);
    CHECK(copperyarn_button_data(&hub, 0, COPPERYARN_BUTTON_SOUTH).stamp == 5 && copperyarn_button_data_by_code(&hub, 0, SOUTH).value == 1.0f);
    CHECK(copperyarn_button_data(&hub, 0, COPPERYARN_BUTTON_SOUTH).since == 5 && copperyarn_button_data_by_code(&hub, 0, SOUTH).since == 5);
    CHECK(copperyarn_axis_data(&hub, 0, COPPERYARN_AXIS_LEFT_STICK_X).stamp == 6 && copperyarn_axis_data_by_code(&hub, 0, STICK).value == 1.0f);
    CHECK(copperyarn_deadzone_threshold(&hub, 0, STICK).known && !copperyarn_deadzone_threshold(&hub, 0, SOUTH).known);
    CHECK(copperyarn_axis_or_btn_name(&hub, 0, STICK).number == COPPERYARN_AXIS_LEFT_STICK_X);
    CHECK(copperyarn_code_of_name(&hub, 0, COPPERYARN_BUTTON_SOUTH).number == SOUTH);
    /* a code that is not known reads false or 0.0, and has no record and no name */
    CHECK(copperyarn_is_pressed_by_code(&hub, 0, NOWHERE).refusal == 0 && !copperyarn_is_pressed_by_code(&hub, 0, NOWHERE).is);
    CHECK(copperyarn_value_by_code(&hub, 0, NOWHERE).known && copperyarn_value_by_code(&hub, 0, NOWHERE).value == 0.0f);
    CHECK(!copperyarn_button_data_by_code(&hub, 0, NOWHERE).known && !copperyarn_axis_or_btn_name(&hub, 0, NOWHERE).known);
    CHECK(copperyarn_button_data_by_code(&hub, 0, NOWHERE).since == 0 && copperyarn_button_data_by_code(&hub, 4, SOUTH).since == 0);
}

/* Each number from 0 to 16, and 29, has a sentence of its own; no other has one. */
static void sentences(void) {
    for (int a = 0; a <= UINT8_MAX; a++) {
        bool spoken = a <= COPPERYARN_REFUSED_NAME || a == COPPERYARN_REFUSED_PARTIAL_HATS;
        CHECK(spoken == (strcmp(copperyarn_sentence((uint8_t)a), "no refusal") != 0));
        for (int b = 0; b < a; b++) CHECK(!spoken || strcmp(copperyarn_sentence((uint8_t)a), copperyarn_sentence((uint8_t)b)) != 0);
    }
    CHECK(strcmp(copperyarn_sentence(6), "pad not registered") == 0 && COPPERYARN_REFUSED_PARTIAL_HATS == 29);
}

int main(void) {
    new_hub();
    register_pad();
    register_archived_pad();
    rename_pad();
    pump_records();
    pump_call();
    events();
    repeat();
    queries();
    sentences();
    puts("refusals: every call served, and refused by each of its numbers in their order");
    return 0;
}
