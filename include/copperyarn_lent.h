/* Below the surface of copperyarn.h, which includes this file; programs have no need to call it. First the layout that the library was proved and compiled
 * with, held by assertions. Then its functions: each takes the head by value and of the hub's arrays those that it reads or writes, and each is proved to be
 * the call (crates/copperyarn). The calls in copperyarn.h and copperyarn_queries.h lend a hub's fields to them, and do nothing else. The one that asks no hub
 * is declared in copperyarn_tilt.h. */
#ifndef COPPERYARN_LENT_H
#define COPPERYARN_LENT_H
#ifndef COPPERYARN_H
#error "include copperyarn.h"
#endif

/* What calls that change the head answer: the head after it, and their answer. */
typedef struct copperyarn_lent_done {
    copperyarn_head head;
    uint8_t refusal;
} copperyarn_lent_done;

typedef struct copperyarn_lent_registered {
    copperyarn_head head;
    copperyarn_pad_answer pad;
} copperyarn_lent_registered;

typedef struct copperyarn_lent_pumped {
    copperyarn_head head;
    copperyarn_pump_answer report;
} copperyarn_lent_pumped;

/* ---- the layout */

#define COPPERYARN_SIZE(type, size) COPPERYARN_HOLDS(sizeof(type) == (size))
#define COPPERYARN_AT(type, field, place) COPPERYARN_HOLDS(offsetof(type, field) == (place))

COPPERYARN_SIZE(bool, 1);
COPPERYARN_SIZE(float, 4);
COPPERYARN_SIZE(size_t, 8);
COPPERYARN_SIZE(void *, 8);

COPPERYARN_SIZE(copperyarn_pad_answer, 2);
COPPERYARN_AT(copperyarn_pad_answer, refusal, 0);
COPPERYARN_AT(copperyarn_pad_answer, pad, 1);

COPPERYARN_SIZE(copperyarn_truth_answer, 2);
COPPERYARN_AT(copperyarn_truth_answer, refusal, 0);
COPPERYARN_AT(copperyarn_truth_answer, is, 1);

COPPERYARN_SIZE(copperyarn_value_answer, 8);
COPPERYARN_AT(copperyarn_value_answer, refusal, 0);
COPPERYARN_AT(copperyarn_value_answer, known, 1);
COPPERYARN_AT(copperyarn_value_answer, value, 4);

COPPERYARN_SIZE(copperyarn_number_answer, 8);
COPPERYARN_AT(copperyarn_number_answer, refusal, 0);
COPPERYARN_AT(copperyarn_number_answer, known, 1);
COPPERYARN_AT(copperyarn_number_answer, number, 4);

COPPERYARN_SIZE(copperyarn_button_answer, 32);
COPPERYARN_AT(copperyarn_button_answer, refusal, 0);
COPPERYARN_AT(copperyarn_button_answer, known, 1);
COPPERYARN_AT(copperyarn_button_answer, pressed, 2);
COPPERYARN_AT(copperyarn_button_answer, repeating, 3);
COPPERYARN_AT(copperyarn_button_answer, value, 4);
COPPERYARN_AT(copperyarn_button_answer, stamp, 8);
COPPERYARN_AT(copperyarn_button_answer, counter, 16);
COPPERYARN_AT(copperyarn_button_answer, since, 24);

COPPERYARN_SIZE(copperyarn_axis_answer, 24);
COPPERYARN_AT(copperyarn_axis_answer, refusal, 0);
COPPERYARN_AT(copperyarn_axis_answer, known, 1);
COPPERYARN_AT(copperyarn_axis_answer, value, 4);
COPPERYARN_AT(copperyarn_axis_answer, stamp, 8);
COPPERYARN_AT(copperyarn_axis_answer, counter, 16);

COPPERYARN_SIZE(copperyarn_down_answer, 3);
COPPERYARN_AT(copperyarn_down_answer, refusal, 0);
COPPERYARN_AT(copperyarn_down_answer, count, 1);
COPPERYARN_AT(copperyarn_down_answer, axis, 2);

COPPERYARN_SIZE(copperyarn_pump_answer, 32);
COPPERYARN_AT(copperyarn_pump_answer, refusal, 0);
COPPERYARN_AT(copperyarn_pump_answer, reason, 1);
COPPERYARN_AT(copperyarn_pump_answer, tilt, 2);
COPPERYARN_AT(copperyarn_pump_answer, place, 8);
COPPERYARN_AT(copperyarn_pump_answer, events, 16);
COPPERYARN_AT(copperyarn_pump_answer, steps, 24);

COPPERYARN_SIZE(copperyarn_due_answer, 2);
COPPERYARN_AT(copperyarn_due_answer, refusal, 0);
COPPERYARN_AT(copperyarn_due_answer, due, 1);

COPPERYARN_SIZE(copperyarn_tilted, 12);
COPPERYARN_AT(copperyarn_tilted, x, 0);
COPPERYARN_AT(copperyarn_tilted, y, 4);
COPPERYARN_AT(copperyarn_tilted, tilt, 8);

COPPERYARN_SIZE(copperyarn_head, 120);
COPPERYARN_AT(copperyarn_head, pressed, 0);
COPPERYARN_AT(copperyarn_head, released, 4);
COPPERYARN_AT(copperyarn_head, reversed, 8);
COPPERYARN_AT(copperyarn_head, filters, 9);
COPPERYARN_AT(copperyarn_head, updates, 10);
COPPERYARN_AT(copperyarn_head, counter, 16);
COPPERYARN_AT(copperyarn_head, down, 24);
COPPERYARN_AT(copperyarn_head, pads, 56);
COPPERYARN_AT(copperyarn_head, counts, 57);
COPPERYARN_AT(copperyarn_head, connected, 61);
COPPERYARN_AT(copperyarn_head, hats, 65);
COPPERYARN_AT(copperyarn_head, converts, 69);
COPPERYARN_AT(copperyarn_head, renamed, 73);
COPPERYARN_AT(copperyarn_head, newhats, 77);
COPPERYARN_AT(copperyarn_head, newconverts, 81);
COPPERYARN_AT(copperyarn_head, held, 85);
COPPERYARN_AT(copperyarn_head, heldaxes, 89);
COPPERYARN_AT(copperyarn_head, flags, 93);
COPPERYARN_AT(copperyarn_head, head, 117);
COPPERYARN_AT(copperyarn_head, waiting, 118);

COPPERYARN_SIZE(copperyarn_hub, 16384);
COPPERYARN_AT(copperyarn_hub, head, 0);
COPPERYARN_AT(copperyarn_hub, codes, 120);
COPPERYARN_AT(copperyarn_hub, kinds, 952);
COPPERYARN_AT(copperyarn_hub, names, 1160);
COPPERYARN_AT(copperyarn_hub, renames, 1368);
COPPERYARN_AT(copperyarn_hub, hasbutton, 1576);
COPPERYARN_AT(copperyarn_hub, hasaxis, 1784);
COPPERYARN_AT(copperyarn_hub, values, 1992);
COPPERYARN_AT(copperyarn_hub, times, 6432);
COPPERYARN_AT(copperyarn_hub, marks, 15304);
COPPERYARN_AT(copperyarn_hub, queuebytes, 15931);
COPPERYARN_AT(copperyarn_hub, queuecodes, 16124);

COPPERYARN_SIZE(copperyarn_lent_done, 128);
COPPERYARN_AT(copperyarn_lent_done, head, 0);
COPPERYARN_AT(copperyarn_lent_done, refusal, 120);
COPPERYARN_SIZE(copperyarn_lent_registered, 128);
COPPERYARN_AT(copperyarn_lent_registered, head, 0);
COPPERYARN_AT(copperyarn_lent_registered, pad, 120);
COPPERYARN_SIZE(copperyarn_lent_pumped, 152);
COPPERYARN_AT(copperyarn_lent_pumped, head, 0);
COPPERYARN_AT(copperyarn_lent_pumped, report, 120);

/* ---- the library's functions, in the order of the calls. Bytes cross as two arguments, a pointer, never NULL, and a size. */

copperyarn_lent_done copperyarn_lent_new(
    float pressed, float released, bool reversed, bool filters, bool updates, uint32_t *codes, uint8_t *kinds, uint8_t *names, uint8_t *renames,
    bool *hasbutton, bool *hasaxis, float *values, uint64_t *times, bool *marks, uint8_t *queuebytes, uint32_t *queuecodes);
copperyarn_lent_registered copperyarn_lent_register(
    copperyarn_head head, uint32_t *codes, uint8_t *kinds, uint8_t *names, bool *hasbutton, bool *hasaxis, float *values, bool *marks,
    const uint8_t *sheet, size_t size);
copperyarn_lent_registered copperyarn_lent_register_archived(
    copperyarn_head head, uint32_t *codes, uint8_t *kinds, uint8_t *names, bool *hasbutton, bool *hasaxis, float *values, bool *marks,
    const uint8_t *sheet, size_t size);
copperyarn_lent_done copperyarn_lent_rename(
    copperyarn_head head, const uint32_t *codes, const uint8_t *kinds, uint8_t *renames, uint8_t pad, const uint8_t *list, size_t size);

copperyarn_lent_pumped copperyarn_lent_pump(
    copperyarn_head head, const uint32_t *codes, const uint8_t *kinds, const uint8_t *names, const uint8_t *renames, bool *hasbutton, bool *hasaxis,
    float *values, uint64_t *times, bool *marks, uint8_t *queuebytes, uint32_t *queuecodes,
    const uint8_t *batch, size_t batch_size, size_t place, uint8_t *out, size_t out_size, uint16_t allowance);
copperyarn_lent_done copperyarn_lent_update(
    copperyarn_head head, const uint32_t *codes, const uint8_t *kinds, bool *hasbutton, bool *hasaxis, float *values, uint64_t *times, bool *marks,
    const uint8_t *event, size_t size);
copperyarn_lent_done copperyarn_lent_insert_event(
    copperyarn_head head, const uint32_t *codes, float *values, uint64_t *times, uint8_t *queuebytes, uint32_t *queuecodes,
    const uint8_t *event, size_t size);
copperyarn_due_answer copperyarn_lent_repeat(
    copperyarn_head head, const uint32_t *codes, const uint8_t *names, const uint8_t *renames, const bool *hasbutton, const float *values,
    const uint64_t *times, const bool *marks, uint64_t after, uint64_t every, uint64_t clock, uint8_t *event);

copperyarn_head copperyarn_lent_inc(copperyarn_head head);
uint64_t copperyarn_lent_counter(copperyarn_head head);
copperyarn_head copperyarn_lent_reset_counter(copperyarn_head head);

copperyarn_truth_answer copperyarn_lent_is_pressed(
    copperyarn_head head, const uint32_t *codes, const uint8_t *names, const uint8_t *renames, const bool *hasbutton, const float *values,
    const uint64_t *times, const bool *marks, uint8_t pad, uint8_t name);
copperyarn_truth_answer copperyarn_lent_is_pressed_by_code(
    copperyarn_head head, const uint32_t *codes, const bool *hasbutton, const float *values, const uint64_t *times, const bool *marks,
    uint8_t pad, uint32_t code);
copperyarn_value_answer copperyarn_lent_value(
    copperyarn_head head, const uint8_t *names, const uint8_t *renames, const bool *hasbutton, const bool *hasaxis, const float *values,
    const uint64_t *times, const bool *marks, uint8_t pad, uint8_t name);
copperyarn_value_answer copperyarn_lent_value_by_code(
    copperyarn_head head, const uint32_t *codes, const bool *hasbutton, const bool *hasaxis, const float *values, const uint64_t *times,
    const bool *marks, uint8_t pad, uint32_t code);
copperyarn_button_answer copperyarn_lent_button_data(
    copperyarn_head head, const uint8_t *names, const uint8_t *renames, const bool *hasbutton, const float *values, const uint64_t *times,
    const bool *marks, uint8_t pad, uint8_t name);
copperyarn_button_answer copperyarn_lent_button_data_by_code(
    copperyarn_head head, const uint32_t *codes, const bool *hasbutton, const float *values, const uint64_t *times, const bool *marks,
    uint8_t pad, uint32_t code);
copperyarn_axis_answer copperyarn_lent_axis_data(
    copperyarn_head head, const uint8_t *names, const uint8_t *renames, const bool *hasaxis, const float *values, const uint64_t *times,
    uint8_t pad, uint8_t name);
copperyarn_axis_answer copperyarn_lent_axis_data_by_code(
    copperyarn_head head, const uint32_t *codes, const bool *hasaxis, const float *values, const uint64_t *times, uint8_t pad, uint32_t code);
copperyarn_value_answer copperyarn_lent_deadzone_threshold(
    copperyarn_head head, const uint32_t *codes, const uint8_t *kinds, const float *values, const bool *marks, uint8_t pad, uint32_t code);
copperyarn_number_answer copperyarn_lent_axis_or_btn_name(
    copperyarn_head head, const uint32_t *codes, const uint8_t *names, const uint8_t *renames, uint8_t pad, uint32_t code);
copperyarn_number_answer copperyarn_lent_code_of_name(
    copperyarn_head head, const uint32_t *codes, const uint8_t *names, const uint8_t *renames, uint8_t pad, uint8_t name);
copperyarn_truth_answer copperyarn_lent_is_connected(copperyarn_head head, uint8_t pad);
copperyarn_truth_answer copperyarn_lent_is_old(copperyarn_head head, uint8_t pad);
copperyarn_down_answer copperyarn_lent_down(copperyarn_head head, uint8_t pad);
copperyarn_number_answer copperyarn_lent_lowest_pressed(copperyarn_head head, const uint32_t *codes, uint8_t pad);
uint8_t copperyarn_lent_waiting(copperyarn_head head);

#endif
