/* Zone pads, W-203's sentences from C: where a hat of 0..255 presses, what the same zone gives, what moves the zones that are kept and what does not, the hats
 * byte behind registration, rename and Connected, and the refusals of hats in their order. */
#include "desk.h"

enum { HAT_X = 0x00030010, HAT_Y = 0x00030011, ALL_HATS = 15 };
enum { MIDDLE = 0, PLUS = 1, MINUS = 2 };

static const copperyarn_element PAD[2] = {
    {HAT_X, COPPERYARN_ELEMENT_AXIS, COPPERYARN_AXIS_DPAD_X, 0, 255, 0},
    {HAT_Y, COPPERYARN_ELEMENT_AXIS, COPPERYARN_AXIS_DPAD_Y, 0, 255, 0},
};
static const uint8_t NAMES[2] = {COPPERYARN_AXIS_DPAD_X, COPPERYARN_AXIS_DPAD_Y};

static copperyarn_hub hub, before;
static uint8_t out[10 * COPPERYARN_EVENT_SIZE];

static copperyarn_pad_answer plain(uint8_t hats, const copperyarn_element *elements) {
    uint8_t sheet[COPPERYARN_SHEET_MOST];
    return copperyarn_register(&hub, sheet, copperyarn_write_sheet(sheet, hats, elements, 2));
}

static copperyarn_pad_answer archived(uint8_t hats, const copperyarn_element *elements) {
    uint8_t sheet[COPPERYARN_SHEET_MOST];
    return copperyarn_register_archived(&hub, sheet, copperyarn_write_sheet(sheet, hats, elements, 2));
}

/* A hub with one zone pad. */
static void desk(uint8_t mapped) {
    fresh(&hub, true);
    CHECK(plain((uint8_t)(COPPERYARN_ZONE_PAD | mapped), PAD).refusal == 0);
}

/* How many events a move of the hat gives. */
static size_t turned(uint32_t hat, int32_t value) {
    copperyarn_pump_answer answer = take(&hub, moved(hat, value, 9), out);
    CHECK(answer.refusal == 0 && answer.reason == COPPERYARN_DRAINED && answer.steps >= 1);
    return answer.events;
}

/* Whether the i-th event is of this kind and this direction's. */
static bool event_is(size_t i, uint8_t kind, uint32_t code) {
    copperyarn_event event = copperyarn_read_event(out + i * COPPERYARN_EVENT_SIZE);
    return event.kind == kind && event.code == code;
}

static bool pressed(uint32_t code) { return copperyarn_is_pressed_by_code(&hub, 0, code).is; }

static bool kept(uint8_t x, uint8_t y) { return hub.head.zones[0] == x && hub.head.zones[1] == y; }

static void record_of(uint8_t kind) {
    const copperyarn_record record = {kind, 0, 0, 0, 9};
    CHECK(take(&hub, record, out).events == 1);
}

/* ---- the zones */

/* "0.5 and above press Right or Up, -0.5 and below press Left or Down", both ends among them: on 0..255 to 63 and from 191 on. */
static void the_ends(void) {
    static const uint32_t codes[2][3] = {{HAT_X, COPPERYARN_CODE_LEFT, COPPERYARN_CODE_RIGHT}, {HAT_Y, COPPERYARN_CODE_DOWN, COPPERYARN_CODE_UP}};
    for (size_t i = 0; i < 4; i++) {
        const uint32_t *hat = codes[i % 2];
        for (int32_t value = 0; value <= 255; value++) {
            desk(i < 2 ? 0 : ALL_HATS);
            CHECK(turned(hat[0], value) == (value <= 63 || value >= 191 ? 2u : 0u));
            CHECK(pressed(hat[1]) == (value <= 63) && pressed(hat[2]) == (value >= 191));
        }
    }
}

/* A pad without bit 7 is the crate's: the left stop of 0..255 is no -1.0. */
static void other_pads(void) {
    for (uint8_t hats = 0; hats <= ALL_HATS; hats = (uint8_t)(hats + ALL_HATS)) {
        fresh(&hub, true);
        CHECK(plain(hats, PAD).refusal == 0);
        CHECK(turned(HAT_X, 0) == 0 && turned(HAT_X, 254) == 0 && turned(HAT_X, 255) == 2 && turned(HAT_X, 255) == 2);
        CHECK(kept(MIDDLE, MIDDLE));
    }
}

/* "a value in the same zone as the last converted one .. hands out nothing": the middle at first. From one side to the other the held direction goes first. */
static void the_same_zone(void) {
    desk(0);
    CHECK(turned(HAT_X, 64) == 0 && turned(HAT_X, 190) == 0 && kept(MIDDLE, MIDDLE));
    CHECK(turned(HAT_X, 0) == 2 && turned(HAT_X, 63) == 0 && turned(HAT_X, 20) == 0 && kept(MINUS, MIDDLE));
    CHECK(turned(HAT_Y, 255) == 2 && turned(HAT_Y, 191) == 0 && kept(MINUS, PLUS));
    CHECK(turned(HAT_X, 191) == 4 && kept(PLUS, PLUS));
    CHECK(event_is(0, COPPERYARN_EVENT_RELEASED, COPPERYARN_CODE_LEFT) && event_is(1, COPPERYARN_EVENT_CHANGED, COPPERYARN_CODE_RIGHT));
    CHECK(event_is(2, COPPERYARN_EVENT_PRESSED, COPPERYARN_CODE_RIGHT) && event_is(3, COPPERYARN_EVENT_CHANGED, COPPERYARN_CODE_LEFT));
    CHECK(turned(HAT_X, 255) == 0 && turned(HAT_X, 190) == 2 && event_is(0, COPPERYARN_EVENT_RELEASED, COPPERYARN_CODE_RIGHT));
    CHECK(turned(HAT_X, 127) == 0 && kept(MIDDLE, PLUS));
}

/* ---- what is kept */

/* The zone is the hat's and not the state's: what the caller gives the state leaves it, and so does a direction held by other means. */
static void past_the_hat(void) {
    const copperyarn_event release = {COPPERYARN_EVENT_RELEASED, 0, COPPERYARN_BUTTON_DPAD_LEFT, COPPERYARN_CODE_LEFT, 0.0f, 9};
    const copperyarn_event turn = {COPPERYARN_EVENT_AXIS, 0, COPPERYARN_AXIS_DPAD_X, HAT_X, 0.5f, 9};
    uint8_t bytes[COPPERYARN_EVENT_SIZE];
    desk(0);
    CHECK(turned(HAT_X, 0) == 2);
    copperyarn_write_event(bytes, release);
    CHECK(copperyarn_update(&hub, bytes, sizeof bytes) == 0 && !pressed(COPPERYARN_CODE_LEFT) && kept(MINUS, MIDDLE));
    CHECK(turned(HAT_X, 10) == 0 && !pressed(COPPERYARN_CODE_LEFT));
    copperyarn_write_event(bytes, turn);
    CHECK(copperyarn_update(&hub, bytes, sizeof bytes) == 0 && kept(MINUS, MIDDLE));
    CHECK(copperyarn_insert_event(&hub, bytes, sizeof bytes) == 0 && kept(MINUS, MIDDLE));
    CHECK(copperyarn_pump(&hub, NULL, 0, 0, out, sizeof out, 9).events == 2 && pressed(COPPERYARN_CODE_RIGHT) && kept(PLUS, MIDDLE));
}

/* It is kept with the updates off too, and not with the filters off, where the hat stays an axis. */
static void without(void) {
    CHECK(copperyarn_new(&hub, 0.75f, 0.5f, false, true, false) == 0 && plain(COPPERYARN_ZONE_PAD, PAD).refusal == 0);
    CHECK(turned(HAT_X, 0) == 2 && turned(HAT_X, 0) == 0 && kept(MINUS, MIDDLE) && !pressed(COPPERYARN_CODE_LEFT));
    CHECK(copperyarn_new(&hub, 0.75f, 0.5f, false, false, true) == 0 && plain(COPPERYARN_ZONE_PAD, PAD).refusal == 0);
    CHECK(turned(HAT_X, 0) == 1 && event_is(0, COPPERYARN_EVENT_AXIS, HAT_X) && turned(HAT_X, 0) == 1 && kept(MIDDLE, MIDDLE));
}

/* "the middle at first and after Connected": a pad that leaves keeps its zones. */
static void connected(void) {
    desk(ALL_HATS);
    CHECK(turned(HAT_X, 0) == 2 && turned(HAT_Y, 0) == 2 && kept(MINUS, MINUS));
    record_of(COPPERYARN_RECORD_DISCONNECTED);
    CHECK(kept(MINUS, MINUS) && turned(HAT_X, 0) == 0);
    record_of(COPPERYARN_RECORD_CONNECTED);
    CHECK(kept(MIDDLE, MIDDLE) && !pressed(COPPERYARN_CODE_LEFT) && turned(HAT_X, 0) == 2 && turned(HAT_Y, 127) == 0);
}

/* ---- the hats byte */

/* "a rename keeps bit 7": the others become 0, the zones stay, and Connected brings the sheet's hats back. */
static void renamed(void) {
    desk(ALL_HATS);
    CHECK(hub.head.hats[0] == (COPPERYARN_ZONE_PAD | ALL_HATS) && turned(HAT_X, 0) == 2);
    CHECK(copperyarn_rename(&hub, 0, NAMES, sizeof NAMES) == 0);
    CHECK(hub.head.renamed[0] && hub.head.newhats[0] == COPPERYARN_ZONE_PAD && hub.head.newconverts[0] && kept(MINUS, MIDDLE));
    CHECK(turned(HAT_X, 63) == 0 && turned(HAT_X, 64) == 2 && turned(HAT_X, 191) == 2);
    record_of(COPPERYARN_RECORD_CONNECTED);
    CHECK(!hub.head.renamed[0] && hub.head.hats[0] == (COPPERYARN_ZONE_PAD | ALL_HATS));
    fresh(&hub, true);
    CHECK(plain(ALL_HATS, PAD).refusal == 0 && copperyarn_rename(&hub, 0, NAMES, sizeof NAMES) == 0 && hub.head.newhats[0] == 0);
}

/* "The low four bits say whether a pad converts": an old zone pad does not, until it is renamed. */
static void partial(void) {
    fresh(&hub, true);
    CHECK(archived(COPPERYARN_ZONE_PAD | 7, PAD).refusal == 0 && copperyarn_is_old(&hub, 0).is && !hub.head.converts[0]);
    CHECK(turned(HAT_X, 0) == 1 && event_is(0, COPPERYARN_EVENT_AXIS, HAT_X) && kept(MIDDLE, MIDDLE));
    CHECK(copperyarn_rename(&hub, 0, NAMES, sizeof NAMES) == 0 && !copperyarn_is_old(&hub, 0).is);
    CHECK(turned(HAT_X, 0) == 2 && event_is(0, COPPERYARN_EVENT_PRESSED, COPPERYARN_CODE_LEFT));
}

/* 4 for bits 4 to 6 before 29 for partial hats, 29 before 5 for a name twice; a refused sheet leaves the hub. */
static void refusals(void) {
    copperyarn_element twice[2] = {PAD[0], PAD[1]}, broken[2] = {PAD[0], PAD[1]};
    twice[1].name = COPPERYARN_AXIS_DPAD_X;
    broken[1].code = HAT_X;
    fresh(&hub, true);
    memcpy(&before, &hub, sizeof hub);
    CHECK(plain(COPPERYARN_ZONE_PAD | 16, PAD).refusal == COPPERYARN_REFUSED_ELEMENT);
    CHECK(plain(COPPERYARN_ZONE_PAD | 16 | 7, twice).refusal == COPPERYARN_REFUSED_ELEMENT);
    CHECK(plain(COPPERYARN_ZONE_PAD | 7, broken).refusal == COPPERYARN_REFUSED_ELEMENT);
    CHECK(plain(COPPERYARN_ZONE_PAD | 7, twice).refusal == COPPERYARN_REFUSED_PARTIAL_HATS);
    CHECK(plain(COPPERYARN_ZONE_PAD, twice).refusal == COPPERYARN_REFUSED_NAME_TWICE);
    CHECK(archived(COPPERYARN_ZONE_PAD | 64, PAD).refusal == COPPERYARN_REFUSED_ELEMENT);
    CHECK(archived(COPPERYARN_ZONE_PAD | 7, twice).refusal == COPPERYARN_REFUSED_NAME_TWICE);
    CHECK(same_hub(&hub, &before));
}

int main(void) {
    the_ends();
    other_pads();
    the_same_zone();
    past_the_hat();
    without();
    connected();
    renamed();
    partial();
    refusals();
    puts("zones: hats that never reach minus one, by each of W-203's sentences");
    return 0;
}
