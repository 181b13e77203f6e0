/* A desk for the tests: a hub with one pad that has a button, a stick's axis and a trigger, and bytes for it. */
#ifndef COPPERYARN_DESK_H
#define COPPERYARN_DESK_H

#include "test.h"

enum { SOUTH = 0x00010130, STICK = 0x00030000, TRIGGER = 0x00030002, NOWHERE = 0x00099999 };

static const copperyarn_element ELEMENTS[3] = {
    {SOUTH, COPPERYARN_ELEMENT_BUTTON, COPPERYARN_BUTTON_SOUTH, 0, 0, 0},
    {STICK, COPPERYARN_ELEMENT_AXIS, COPPERYARN_AXIS_LEFT_STICK_X, 0, 255, 0},
    {TRIGGER, COPPERYARN_ELEMENT_AXIS, COPPERYARN_BUTTON_LEFT_TRIGGER2, 0, 255, COPPERYARN_DEADZONE_ABSENT},
};

/* A fresh hub with padlog's thresholds, whatever it was. */
static inline void fresh(copperyarn_hub *hub, bool filters) {
    memset(hub, 0xa5, sizeof *hub);
    CHECK(copperyarn_new(hub, 0.75f, 0.5f, false, filters, true) == 0);
}

/* The next pad, with these elements. */
static inline void enrol(copperyarn_hub *hub, const copperyarn_element *elements, uint8_t n) {
    uint8_t sheet[COPPERYARN_SHEET_MOST];
    uint8_t pads = hub->head.pads;
    copperyarn_pad_answer answer = copperyarn_register(hub, sheet, copperyarn_write_sheet(sheet, 0, elements, n));
    CHECK(answer.refusal == 0 && answer.pad == pads);
}

/* Pumps one record into an out buffer that holds ten events. */
static inline copperyarn_pump_answer take(copperyarn_hub *hub, copperyarn_record record, uint8_t out[10 * COPPERYARN_EVENT_SIZE]) {
    uint8_t bytes[COPPERYARN_RECORD_SIZE];
    copperyarn_write_record(bytes, record);
    return copperyarn_pump(hub, bytes, sizeof bytes, 0, out, 10 * COPPERYARN_EVENT_SIZE, UINT16_MAX);
}

static inline copperyarn_record moved(uint32_t code, int32_t value, uint64_t time) {
    copperyarn_record record = {COPPERYARN_RECORD_AXIS, 0, code, value, time};
    return record;
}

#endif
