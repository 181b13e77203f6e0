/* Old pads, W-212's sentences from C: every hats byte by each of the two calls, pads of both side by side, what clears the mark and what brings it back, what
 * leaves it, and that partial hats stay as they were. */
#include "desk.h"

enum { HAT = 0x00030010, PARTIAL = 6 };

static const copperyarn_element PAD[2] = {
    {SOUTH, COPPERYARN_ELEMENT_BUTTON, COPPERYARN_BUTTON_SOUTH, 0, 0, 0},
    {HAT, COPPERYARN_ELEMENT_AXIS, COPPERYARN_AXIS_DPAD_X, -1, 1, 0},
};
static const uint8_t NAMES[2] = {COPPERYARN_BUTTON_SOUTH, COPPERYARN_AXIS_DPAD_X};

static copperyarn_hub hub, before;
static uint8_t out[10 * COPPERYARN_EVENT_SIZE];

static copperyarn_pad_answer plain(uint8_t hats) {
    uint8_t sheet[COPPERYARN_SHEET_MOST];
    return copperyarn_register(&hub, sheet, copperyarn_write_sheet(sheet, hats, PAD, 2));
}

static copperyarn_pad_answer archived(uint8_t hats) {
    uint8_t sheet[COPPERYARN_SHEET_MOST];
    return copperyarn_register_archived(&hub, sheet, copperyarn_write_sheet(sheet, hats, PAD, 2));
}

/* A hub with one old pad. */
static void desk(void) {
    fresh(&hub, true);
    CHECK(archived(PARTIAL).refusal == 0);
}

static bool old(uint8_t pad) {
    copperyarn_truth_answer answer = copperyarn_is_old(&hub, pad);
    CHECK(answer.refusal == 0);
    return answer.is;
}

static void rename_pad(uint8_t pad) { CHECK(copperyarn_rename(&hub, pad, NAMES, sizeof NAMES) == 0); }

/* The records of a pad that joins and of one that leaves. */
static void join(uint8_t pad) {
    const copperyarn_record record = {COPPERYARN_RECORD_CONNECTED, pad, 0, 0, 7};
    CHECK(take(&hub, record, out).events == 1 && copperyarn_is_connected(&hub, pad).is);
}

static void leave(uint8_t pad) {
    const copperyarn_record record = {COPPERYARN_RECORD_DISCONNECTED, pad, 0, 0, 6};
    CHECK(take(&hub, record, out).events == 1 && !copperyarn_is_connected(&hub, pad).is);
}

/* ---- the two calls */

/* Hats 0 and 15 come by either, 1 to 14 by the archived one alone, none above 15; a pad is old where its hats are partial. */
static void every_hats_byte(void) {
    for (int hats = 0; hats <= UINT8_MAX; hats++) {
        bool over = hats > 15, partial = hats >= 1 && hats <= 14;
        fresh(&hub, true);
        memcpy(&before, &hub, sizeof hub);
        CHECK(plain((uint8_t)hats).refusal == (over ? COPPERYARN_REFUSED_ELEMENT : partial ? COPPERYARN_REFUSED_PARTIAL_HATS : 0));
        CHECK(over || partial ? same_hub(&hub, &before) : !old(0) && hub.head.hats[0] == hats);
        fresh(&hub, true);
        CHECK(archived((uint8_t)hats).refusal == (over ? COPPERYARN_REFUSED_ELEMENT : 0));
        CHECK(over ? same_hub(&hub, &before) : old(0) == partial && hub.head.hats[0] == hats);
    }
}

/* A sheet with hats 0 or 15 makes the same hub by either call. */
static void whole_sheets(void) {
    for (uint8_t hats = 0; hats <= 15; hats = (uint8_t)(hats + 15)) {
        fresh(&hub, true);
        CHECK(plain(hats).refusal == 0);
        memcpy(&before, &hub, sizeof hub);
        fresh(&hub, true);
        CHECK(archived(hats).refusal == 0 && same_hub(&hub, &before));
        rename_pad(0);
        CHECK(!old(0));
        join(0);
        CHECK(!old(0));
    }
}

/* Pads of both are counted and numbered together, and the fifth is refused by either. */
static void side_by_side(void) {
    fresh(&hub, true);
    CHECK(plain(0).pad == 0 && archived(1).pad == 1 && plain(PARTIAL).refusal == COPPERYARN_REFUSED_PARTIAL_HATS);
    CHECK(plain(15).pad == 2 && archived(14).pad == 3 && hub.head.pads == 4);
    CHECK(!old(0) && old(1) && !old(2) && old(3));
    CHECK(plain(0).refusal == COPPERYARN_REFUSED_PADS && plain(PARTIAL).refusal == COPPERYARN_REFUSED_PADS);
    CHECK(archived(PARTIAL).refusal == COPPERYARN_REFUSED_PADS && archived(0).refusal == COPPERYARN_REFUSED_PADS);
    rename_pad(1);
    CHECK(!old(1) && old(3));
    rename_pad(3);
    join(3);
    CHECK(!old(1) && old(3));
    join(1);
    CHECK(!old(0) && old(1) && !old(2) && old(3));
}

/* ---- the mark */

/* New names clear it, be they those that stood; the next Connected brings it back, as often as that is done. */
static void cleared_and_back(void) {
    desk();
    for (int turn = 0; turn < 3; turn++) {
        CHECK(old(0));
        rename_pad(0);
        CHECK(!old(0));
        rename_pad(0);
        CHECK(!old(0));
        if (turn == 1) leave(0);
        CHECK(!old(0));
        join(0);
    }
    join(0);
    CHECK(old(0));
}

/* A rename that is refused clears nothing, nor does a pad that leaves. */
static void kept(void) {
    uint8_t names[3] = {COPPERYARN_BUTTON_EAST, COPPERYARN_BUTTON_EAST, COPPERYARN_NO_NAME};
    desk();
    memcpy(&before, &hub, sizeof hub);
    CHECK(copperyarn_rename(&hub, 1, NAMES, 2) == COPPERYARN_REFUSED_NO_PAD && same_hub(&hub, &before) && old(0));
    CHECK(copperyarn_rename(&hub, 0, names, 3) == COPPERYARN_REFUSED_SHEET && same_hub(&hub, &before) && old(0));
    CHECK(copperyarn_rename(&hub, 0, names, 2) == COPPERYARN_REFUSED_NAME_TWICE && same_hub(&hub, &before) && old(0));
    names[1] = 20;
    CHECK(copperyarn_rename(&hub, 0, names, 2) == COPPERYARN_REFUSED_ELEMENT && same_hub(&hub, &before) && old(0));
    leave(0);
    CHECK(old(0) && copperyarn_rename(&hub, 0, NAMES, 2) == COPPERYARN_REFUSED_DISCONNECTED && old(0));
}

/* Only a Connected record that is taken brings it back: not one that is refused or not come to, and no event of that kind. */
static void not_back(void) {
    const copperyarn_record late = {COPPERYARN_RECORD_CONNECTED, 0, 0, 0, COPPERYARN_TIME_MOST + 1}, next = {COPPERYARN_RECORD_CONNECTED, 0, 0, 0, 8};
    const copperyarn_event event = {COPPERYARN_EVENT_CONNECTED, 0, COPPERYARN_NO_NAME, 0, 0.0f, 8};
    uint8_t batch[COPPERYARN_RECORD_SIZE], bytes[COPPERYARN_EVENT_SIZE];
    copperyarn_write_record(batch, next);
    copperyarn_write_event(bytes, event);
    desk();
    rename_pad(0);
    CHECK(take(&hub, late, out).refusal == COPPERYARN_REFUSED_TIME && !old(0));
    CHECK(copperyarn_pump(&hub, batch, sizeof batch, 0, out, sizeof out, 0).reason == COPPERYARN_PAUSED && !old(0));
    CHECK(copperyarn_pump(&hub, batch, sizeof batch, 0, out, COPPERYARN_EVENT_SIZE - 1, 9).reason == COPPERYARN_FULL && !old(0));
    CHECK(copperyarn_update(&hub, bytes, sizeof bytes) == 0 && !old(0));
    CHECK(copperyarn_insert_event(&hub, bytes, sizeof bytes) == 0 && !old(0));
    CHECK(copperyarn_pump(&hub, NULL, 0, 0, out, sizeof out, 9).events == 1 && out[3] == COPPERYARN_EVENT_CONNECTED && !old(0));
    CHECK(copperyarn_pump(&hub, batch, sizeof batch, 0, out, sizeof out, 1).events == 1 && old(0));
}

/* ---- partial hats stay as they were */

/* The kind of the first event that a move of the hat gives. */
static uint8_t moves(int32_t value) {
    CHECK(take(&hub, moved(HAT, value, 9), out).events > 0);
    return out[3];
}

/* Where hats are partial a hat stays an axis; where they are 0, as behind a rename, it presses directions. */
static void no_directions(void) {
    desk();
    CHECK(moves(-1) == COPPERYARN_EVENT_AXIS && moves(1) == COPPERYARN_EVENT_AXIS);
    rename_pad(0);
    CHECK(moves(-1) == COPPERYARN_EVENT_PRESSED);
    join(0);
    CHECK(moves(-1) == COPPERYARN_EVENT_AXIS && !copperyarn_is_pressed_by_code(&hub, 0, COPPERYARN_CODE_LEFT).is);
}

int main(void) {
    every_hats_byte();
    whole_sheets();
    side_by_side();
    cleared_and_back();
    kept();
    not_back();
    no_directions();
    puts("old: which pads are old, by each of W-212's sentences");
    return 0;
}
