/* Why a stick went quiet, W-205 from C: the deadzone calculation by itself, and a pump's report of it: each of the three, what meets no threshold, which event
 * of which call is told of, dropped or not, and what a refused call tells. */
#include "desk.h"

#include <math.h>

enum { NONE = COPPERYARN_TILT_NONE, INSIDE = COPPERYARN_TILT_INSIDE, BETWEEN = COPPERYARN_TILT_BETWEEN, FULL = COPPERYARN_TILT_FULL };

/* The stick's second axis, and a hat. */
enum { OTHER = STICK + 1, HAT = 0x00030010 };

/* Raw values of the stick: the middle, then a quarter of the way, a half, which is its threshold, one step more, three quarters, the end; and the other end. */
enum { MIDDLE = 128, QUARTER = 160, HALF = 192, PAST_HALF = 193, MOST = 224, END = 256, START = 0 };

static copperyarn_hub hub, before;
static uint8_t out[10 * COPPERYARN_EVENT_SIZE];
static uint64_t now;

static void desk_with(bool filters, bool updates, uint32_t deadzone) {
    const copperyarn_element elements[] = {
        ELEMENTS[0],
        {STICK, COPPERYARN_ELEMENT_AXIS, COPPERYARN_AXIS_LEFT_STICK_X, START, END, deadzone},
        {OTHER, COPPERYARN_ELEMENT_AXIS, COPPERYARN_AXIS_LEFT_STICK_Y, START, END, deadzone},
        ELEMENTS[2],
        {HAT, COPPERYARN_ELEMENT_AXIS, COPPERYARN_AXIS_DPAD_X, -1, 1, 0},
    };
    memset(&hub, 0xa5, sizeof hub);
    CHECK(copperyarn_new(&hub, 0.75f, 0.5f, false, filters, updates) == 0);
    enrol(&hub, elements, sizeof elements / sizeof *elements);
}

/* A stick with a threshold of 0.5. */
static void desk(void) { desk_with(true, true, 64); }

/* ---- calls */

static copperyarn_record x(int32_t value) { return moved(STICK, value, now++); }

static copperyarn_record y(int32_t value) { return moved(OTHER, value, now++); }

static copperyarn_record press(void) {
    copperyarn_record record = {COPPERYARN_RECORD_PRESSED, 0, SOUTH, 0, now++};
    return record;
}

/* One call over some records, from a place on. */
static copperyarn_pump_answer call(const copperyarn_record *records, size_t n, size_t place, uint16_t allowance) {
    uint8_t batch[10 * COPPERYARN_RECORD_SIZE];
    CHECK(n <= 10);
    for (size_t i = 0; i < n; i++) copperyarn_write_record(batch + COPPERYARN_RECORD_SIZE * i, records[i]);
    return copperyarn_pump(&hub, batch, COPPERYARN_RECORD_SIZE * n, place, out, sizeof out, allowance);
}

/* The report of a call over one record, two records, none. */
static uint8_t one(copperyarn_record record) { return call(&record, 1, 0, UINT16_MAX).tilt; }

static uint8_t two(copperyarn_record first, copperyarn_record second) {
    const copperyarn_record records[2] = {first, second};
    copperyarn_pump_answer report = call(records, 2, 0, UINT16_MAX);
    CHECK(report.reason == COPPERYARN_DRAINED);
    return report.tilt;
}

static uint8_t nothing(void) { return call(NULL, 0, 0, UINT16_MAX).tilt; }

/* ---- the calculation */

static void calculation(void) {
    static const struct {
        float x, y, threshold;
        uint8_t tilt;
        float pair[2];
    } cases[] = {
        {0.25f, 0.0f, 0.25f, INSIDE, {0.0f, 0.0f}}, /* at the threshold, not only below it */
        {0.75f, 0.0f, 0.5f, BETWEEN, {0.5f, 0.0f}},
        {1.0f, 1.0f, 0.5f, FULL, {1.0f, 1.0f}}, /* the magnitude is held to 1 */
        {1.0f, 0.0f, 1.0f, INSIDE, {0.0f, 0.0f}}, /* and 1 is not above a threshold of 1 */
        {-1.0f, 0.0f, 0.99999994f, FULL, {-1.0f, 0.0f}},
        {0.8f, 0.6f, 0.5f, FULL, {0.8f, 0.6f}}, /* both count: neither is 1 by itself */
        {0.6f, -0.8f, 0.5f, FULL, {0.6f, -0.8f}},
        {0.5f, 0.5f, 0.75f, INSIDE, {0.0f, 0.0f}},
        {0.0f, 0.0f, 0.0f, INSIDE, {0.0f, 0.0f}},
        {0.5f, 0.0f, 0.0f, BETWEEN, {0.5f, 0.0f}}, /* a pair that stays is not full for that */
        {1.0f, 1.0f, 2.0f, INSIDE, {0.0f, 0.0f}},
        {2.0f, 0.0f, 0.5f, FULL, {2.0f, 0.0f}},
        {INFINITY, 1.0f, 0.5f, FULL, {INFINITY, 1.0f}},
        {1.0f, 0.0f, INFINITY, INSIDE, {0.0f, 0.0f}},
        {0.5f, 0.0f, -1.0f, BETWEEN, {0.75f, 0.0f}},
    };
    for (size_t i = 0; i < sizeof cases / sizeof *cases; i++) {
        copperyarn_tilted tilted = copperyarn_deadzone(cases[i].x, cases[i].y, cases[i].threshold);
        CHECK(tilted.tilt == cases[i].tilt);
        CHECK(copperyarn_bits(tilted.x) == copperyarn_bits(cases[i].pair[0]) && copperyarn_bits(tilted.y) == copperyarn_bits(cases[i].pair[1]));
    }
    /* one step of the format on either side of the threshold */
    CHECK(copperyarn_deadzone(copperyarn_float(0x3e7fffff), 0.0f, 0.25f).tilt == INSIDE);
    CHECK(copperyarn_deadzone(copperyarn_float(0x3e800001), 0.0f, 0.25f).tilt == BETWEEN);
    CHECK(copperyarn_deadzone(copperyarn_float(0x3f7fffff), 0.0f, 0.25f).tilt == BETWEEN);
}

/* ---- the three, and what meets no threshold */

static void three(void) {
    static const struct {
        int32_t value;
        uint8_t tilt;
        size_t events;
    } cases[] = {
        {QUARTER, INSIDE, 0}, {HALF, INSIDE, 0}, {PAST_HALF, BETWEEN, 1}, {MOST, BETWEEN, 1}, {END, FULL, 1}, {START, FULL, 1}, {MIDDLE, INSIDE, 0},
    };
    for (size_t i = 0; i < sizeof cases / sizeof *cases; i++) {
        desk();
        copperyarn_pump_answer report = take(&hub, x(cases[i].value), out);
        CHECK(report.refusal == 0 && report.tilt == cases[i].tilt && report.events == cases[i].events && report.steps == 1);
    }
    desk_with(true, true, 128); /* a threshold of 1 */
    CHECK(one(x(END)) == INSIDE);
}

static void unmet(void) {
    const copperyarn_record leave = {COPPERYARN_RECORD_DISCONNECTED, 0, 0, 0, 1}, join = {COPPERYARN_RECORD_CONNECTED, 0, 0, 0, 2};
    desk();
    CHECK(nothing() == NONE && one(press()) == NONE && one(leave) == NONE && one(join) == NONE);
    copperyarn_pump_answer pulled = take(&hub, moved(TRIGGER, 51, now++), out); /* its value is calculated alike, and is a button's */
    CHECK(pulled.tilt == NONE && pulled.events == 1 && copperyarn_read_event(out).kind == COPPERYARN_EVENT_CHANGED);
    copperyarn_pump_answer turned = take(&hub, moved(HAT, 1, now++), out); /* a hat that became directions */
    CHECK(turned.tilt == NONE && turned.events > 0 && copperyarn_read_event(out).kind == COPPERYARN_EVENT_PRESSED);
    desk_with(false, true, 64);
    CHECK(one(x(END)) == NONE && one(x(QUARTER)) == NONE);
}

/* ---- which event is told of */

/* The deadzone's own drops count, as the calculation was made; jitter's do not, as none was. */
static void dropped(void) {
    desk();
    CHECK(take(&hub, x(MOST), out).events == 1 && copperyarn_value_by_code(&hub, 0, STICK).value == 0.5f);
    copperyarn_pump_answer again = take(&hub, x(MOST), out); /* 0.75 is far from 0.5, and becomes it */
    CHECK(again.events == 0 && again.steps == 1 && again.tilt == BETWEEN);
    desk();
    CHECK(one(x(END)) == FULL);
    copperyarn_pump_answer still = take(&hub, x(END), out);
    CHECK(still.events == 0 && still.steps == 1 && still.tilt == NONE);
    desk();
    CHECK(two(x(END), x(END)) == FULL);
    desk();
    CHECK(two(x(MOST), x(HALF)) == BETWEEN); /* the second is what the state has: jitter drops it, and it would be inside */
}

static void partner(void) {
    desk();
    CHECK(one(x(END)) == FULL && one(y(MIDDLE)) == FULL && one(y(QUARTER)) == FULL);
    desk();
    CHECK(one(x(MOST)) == BETWEEN && one(y(QUARTER)) == BETWEEN);
    desk();
    CHECK(one(x(MOST)) == BETWEEN && one(y(MIDDLE)) == INSIDE); /* the state has 0.5 of x, which is at the threshold, and not 0.75 */
    desk_with(true, false, 64);
    CHECK(one(x(END)) == FULL && one(y(MIDDLE)) == INSIDE); /* without updates it has nothing */
}

/* The last of its call, and of no other. */
static void lasts(void) {
    desk();
    CHECK(two(x(END), x(QUARTER)) == INSIDE && two(x(QUARTER), x(MOST)) == BETWEEN);
    desk();
    CHECK(two(x(END), press()) == FULL && one(press()) == NONE && nothing() == NONE);
    CHECK(two(press(), moved(TRIGGER, 255, now++)) == NONE);
}

/* A call that stops tells of its own steps. */
static void stops(void) {
    desk();
    const copperyarn_record records[3] = {x(END), x(QUARTER), press()};
    CHECK(call(records, 3, 0, 0).tilt == NONE);
    copperyarn_pump_answer report = call(records, 3, 0, 1);
    CHECK(report.reason == COPPERYARN_PAUSED && report.tilt == FULL);
    report = call(records, 3, report.place, 1);
    CHECK(report.reason == COPPERYARN_PAUSED && report.tilt == INSIDE);
    CHECK(call(records, 3, report.place, UINT16_MAX).tilt == NONE);
    uint8_t batch[2 * COPPERYARN_RECORD_SIZE];
    desk();
    copperyarn_write_record(batch, x(MOST));
    copperyarn_write_record(batch + COPPERYARN_RECORD_SIZE, x(END));
    report = copperyarn_pump(&hub, batch, sizeof batch, 0, out, COPPERYARN_EVENT_SIZE, UINT16_MAX);
    CHECK(report.reason == COPPERYARN_FULL && report.events == 1 && report.tilt == BETWEEN);
}

/* The event that clears x, since y beside it is inside, is one of the call that serves it. */
static void clearing(void) {
    desk();
    CHECK(one(x(MOST)) == BETWEEN);
    const copperyarn_record back = y(MIDDLE);
    copperyarn_pump_answer report = call(&back, 1, 0, 1);
    CHECK(report.reason == COPPERYARN_PAUSED && report.tilt == INSIDE && copperyarn_waiting(&hub) == 1);
    report = call(NULL, 0, 0, UINT16_MAX);
    CHECK(report.reason == COPPERYARN_DRAINED && report.events == 1 && report.tilt == INSIDE);
    CHECK(copperyarn_read_event(out).code == STICK && copperyarn_value_by_code(&hub, 0, STICK).value == 0.0f && nothing() == NONE);
}

/* ---- the caller's events */

static uint8_t inserted(uint8_t kind, uint8_t name, uint32_t code, float value) {
    const copperyarn_event event = {kind, 0, name, code, value, now++};
    uint8_t bytes[COPPERYARN_EVENT_SIZE];
    copperyarn_write_event(bytes, event);
    CHECK(copperyarn_insert_event(&hub, bytes, sizeof bytes) == 0);
    return nothing();
}

static void events(void) {
    enum { AXIS = COPPERYARN_EVENT_AXIS, X = COPPERYARN_AXIS_LEFT_STICK_X, Y = COPPERYARN_AXIS_LEFT_STICK_Y, UNKNOWN = COPPERYARN_AXIS_UNKNOWN };
    desk();
    CHECK(inserted(AXIS, X, STICK, 0.25f) == INSIDE && inserted(AXIS, X, STICK, 0.75f) == BETWEEN && inserted(AXIS, X, STICK, -1.0f) == FULL);
    /* a code that is no axis element's has no threshold: a button's, a direction's that the sheet does not list */
    CHECK(inserted(AXIS, X, SOUTH, 1.0f) == NONE && inserted(AXIS, X, COPPERYARN_CODE_UP, 1.0f) == NONE);
    /* an axis element's has one whatever it is named, and the event's own name tells the partner */
    CHECK(inserted(AXIS, UNKNOWN, TRIGGER, 1.0f) == FULL);
    CHECK(inserted(AXIS, UNKNOWN, OTHER, 0.25f) == INSIDE && inserted(AXIS, Y, OTHER, 0.25f) == FULL);
    CHECK(inserted(COPPERYARN_EVENT_CHANGED, COPPERYARN_BUTTON_SOUTH, STICK, 0.5f) == NONE);
    /* what is given to the state is pumped by nobody */
    const copperyarn_event event = {AXIS, 0, X, STICK, 0.5f, now++};
    uint8_t bytes[COPPERYARN_EVENT_SIZE];
    copperyarn_write_event(bytes, event);
    CHECK(copperyarn_update(&hub, bytes, sizeof bytes) == 0 && nothing() == NONE);
}

/* ---- refusals */

/* A refused record leaves what was met before it; a call that is refused as a whole has none, whatever the one before told. */
static void refusals(void) {
    static uint8_t long_out[COPPERYARN_OUT_MOST + 1], long_batch[COPPERYARN_BATCH_MOST + 1];
    const copperyarn_record nowhere = moved(NOWHERE, 0, now++);
    desk();
    const copperyarn_record records[2] = {x(END), nowhere}, other_way[2] = {nowhere, x(END)};
    copperyarn_pump_answer report = call(records, 2, 0, UINT16_MAX);
    CHECK(report.refusal == COPPERYARN_REFUSED_UNLISTED && report.reason == 0 && report.place == COPPERYARN_RECORD_SIZE && report.tilt == FULL);
    desk();
    report = call(other_way, 2, 0, UINT16_MAX);
    CHECK(report.refusal == COPPERYARN_REFUSED_UNLISTED && report.place == 0 && report.tilt == NONE);
    CHECK(one(x(END)) == FULL);
    memcpy(&before, &hub, sizeof hub);
    report = call(records, 2, sizeof long_batch, UINT16_MAX);
    CHECK(report.refusal == COPPERYARN_REFUSED_MALFORMED && report.tilt == NONE);
    report = copperyarn_pump(&hub, long_batch, sizeof long_batch, 0, out, sizeof out, UINT16_MAX);
    CHECK(report.refusal == COPPERYARN_REFUSED_TOO_LONG && report.tilt == NONE);
    report = copperyarn_pump(&hub, NULL, 0, 0, long_out, sizeof long_out, UINT16_MAX);
    CHECK(report.refusal == COPPERYARN_REFUSED_TOO_LONG && report.tilt == NONE && same_hub(&hub, &before));
}

int main(void) {
    calculation();
    three();
    unmet();
    dropped();
    partner();
    lasts();
    stops();
    clearing();
    events();
    refusals();
    puts("tilt: the deadzone calculation's three, and each pump's report of them");
    return 0;
}
