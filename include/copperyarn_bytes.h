/* Bytes for Copperyarn: writes sheets, raw records and events, reads events. A convenience that no call of the hub goes through and that nothing proves; it is
 * tested (outside/c). The forms are document 01's, big-endian, in docs/SCOPE.md. Writers write what they are given, sense or not: the hub judges the bytes. */
#ifndef COPPERYARN_BYTES_H
#define COPPERYARN_BYTES_H

#include "copperyarn.h"

#ifdef __cplusplus
extern "C" {
#endif

typedef struct copperyarn_element {
    uint32_t code;
    uint8_t kind; /* a copperyarn_element_kind */
    uint8_t name;
    int32_t min, max;  /* 0 for a button */
    uint32_t deadzone; /* 0 for a button; for an axis it may be COPPERYARN_DEADZONE_ABSENT */
} copperyarn_element;

typedef struct copperyarn_record {
    uint8_t kind; /* a copperyarn_record_kind */
    uint8_t pad;
    uint32_t code; /* 0 for connected and disconnected */
    int32_t value; /* 0 but for an axis */
    uint64_t time;
} copperyarn_record;

typedef struct copperyarn_event {
    uint8_t kind; /* a copperyarn_event_kind */
    uint8_t pad;
    uint8_t name;
    uint32_t code;
    float value; /* 0.0 but for changed and axis */
    uint64_t time;
} copperyarn_event;

/* ---- numbers, big-endian: n bytes, 1 to 8 */

static inline uint64_t copperyarn_read_number(const uint8_t *bytes, size_t n) {
    uint64_t number = 0;
    for (size_t i = 0; i < n; i++) number = number << 8 | bytes[i];
    return number;
}

static inline void copperyarn_write_number(uint8_t *bytes, size_t n, uint64_t number) {
    for (size_t i = n; i > 0; i--) {
        bytes[i - 1] = number & 0xff;
        number >>= 8;
    }
}

/* A float's bits and back, byte by byte, which both languages allow. */
static inline uint32_t copperyarn_bits(float value) {
    uint32_t bits = 0;
    for (size_t i = 0; i < sizeof bits; i++) ((unsigned char *)&bits)[i] = ((const unsigned char *)&value)[i];
    return bits;
}

static inline float copperyarn_float(uint32_t bits) {
    float value = 0.0f;
    for (size_t i = 0; i < sizeof value; i++) ((unsigned char *)&value)[i] = ((const unsigned char *)&bits)[i];
    return value;
}

/* ---- sheets */

/* Writes a sheet of n elements, which are to stand with their codes rising: 5 bytes and 18 for each. Answers its size. */
static inline size_t copperyarn_write_sheet(uint8_t *bytes, uint8_t hats, const copperyarn_element *elements, uint8_t n) {
    size_t size = COPPERYARN_SHEET_HEAD_SIZE;
    for (size_t i = 0; i < n; i++) {
        uint8_t *at = bytes + size;
        copperyarn_write_number(at, 4, elements[i].code);
        at[4] = elements[i].kind;
        at[5] = elements[i].name;
        copperyarn_write_number(at + 6, 4, (uint32_t)elements[i].min);
        copperyarn_write_number(at + 10, 4, (uint32_t)elements[i].max);
        copperyarn_write_number(at + 14, 4, elements[i].deadzone);
        size += COPPERYARN_ELEMENT_SIZE;
    }
    copperyarn_write_number(bytes, 2, size - 2);
    bytes[2] = 1;
    bytes[3] = hats;
    bytes[4] = n;
    return size;
}

/* ---- records */

/* Writes a raw record. */
static inline void copperyarn_write_record(uint8_t bytes[COPPERYARN_RECORD_SIZE], copperyarn_record record) {
    copperyarn_write_number(bytes, 2, COPPERYARN_RECORD_SIZE - 2);
    bytes[2] = 1;
    bytes[3] = record.kind;
    bytes[4] = record.pad;
    copperyarn_write_number(bytes + 5, 4, record.code);
    copperyarn_write_number(bytes + 9, 4, (uint32_t)record.value);
    copperyarn_write_number(bytes + 13, 8, record.time);
}

/* ---- events */

/* Reads an event that the hub has written; the i-th of a pump stands at out + 22 * i. */
static inline copperyarn_event copperyarn_read_event(const uint8_t bytes[COPPERYARN_EVENT_SIZE]) {
    copperyarn_event event = {bytes[3], bytes[4], bytes[5], 0, 0.0f, 0};
    event.code = (uint32_t)copperyarn_read_number(bytes + 6, 4);
    event.value = copperyarn_float((uint32_t)copperyarn_read_number(bytes + 10, 4));
    event.time = copperyarn_read_number(bytes + 14, 8);
    return event;
}

/* Writes an event, for `copperyarn_update` and `copperyarn_insert_event`. */
static inline void copperyarn_write_event(uint8_t bytes[COPPERYARN_EVENT_SIZE], copperyarn_event event) {
    copperyarn_write_number(bytes, 2, COPPERYARN_EVENT_SIZE - 2);
    bytes[2] = 1;
    bytes[3] = event.kind;
    bytes[4] = event.pad;
    bytes[5] = event.name;
    copperyarn_write_number(bytes + 6, 4, event.code);
    copperyarn_write_number(bytes + 10, 4, copperyarn_bits(event.value));
    copperyarn_write_number(bytes + 14, 8, event.time);
}

#ifdef __cplusplus
}
#endif

#endif
