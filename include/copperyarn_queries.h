/* A part of copperyarn.h, which includes this file: the queries. Each takes a const hub, and the hub stays as it is. */
#ifndef COPPERYARN_QUERIES_H
#define COPPERYARN_QUERIES_H
#ifndef COPPERYARN_H
#error "include copperyarn.h"
#endif

/* Whether a button is pressed, by its name; a name that no element has is looked up by gilrs's own code for it.
 * Refuses 6, 16 in this order. */
static inline copperyarn_truth_answer copperyarn_is_pressed(const copperyarn_hub *hub, uint8_t pad, uint8_t name) {
    return copperyarn_lent_is_pressed(
        hub->head, hub->codes, hub->names, hub->renames, hub->hasbutton, hub->values, hub->times, hub->marks, pad, name);
}

/* The same by a code: false for one that is not known.
 * Refuses 6. */
static inline copperyarn_truth_answer copperyarn_is_pressed_by_code(const copperyarn_hub *hub, uint8_t pad, uint32_t code) {
    return copperyarn_lent_is_pressed_by_code(hub->head, hub->codes, hub->hasbutton, hub->values, hub->times, hub->marks, pad, code);
}

/* The value of an axis, by its name; 0.0 where it has none yet. It is always known.
 * Refuses 6, 16 in this order. */
static inline copperyarn_value_answer copperyarn_value(const copperyarn_hub *hub, uint8_t pad, uint8_t name) {
    return copperyarn_lent_value(
        hub->head, hub->names, hub->renames, hub->hasbutton, hub->hasaxis, hub->values, hub->times, hub->marks, pad, name);
}

/* The value of a code: of its axis record, else of its button record, else 0.0. It is always known.
 * Refuses 6. */
static inline copperyarn_value_answer copperyarn_value_by_code(const copperyarn_hub *hub, uint8_t pad, uint32_t code) {
    return copperyarn_lent_value_by_code(hub->head, hub->codes, hub->hasbutton, hub->hasaxis, hub->values, hub->times, hub->marks, pad, code);
}

/* The button record of a name, not known before an event has written it.
 * Refuses 6, 16 in this order. */
static inline copperyarn_button_answer copperyarn_button_data(const copperyarn_hub *hub, uint8_t pad, uint8_t name) {
    return copperyarn_lent_button_data(hub->head, hub->names, hub->renames, hub->hasbutton, hub->values, hub->times, hub->marks, pad, name);
}

/* The same by a code.
 * Refuses 6. */
static inline copperyarn_button_answer copperyarn_button_data_by_code(const copperyarn_hub *hub, uint8_t pad, uint32_t code) {
    return copperyarn_lent_button_data_by_code(hub->head, hub->codes, hub->hasbutton, hub->values, hub->times, hub->marks, pad, code);
}

/* The axis record of a name, not known before an event has written it.
 * Refuses 6, 16 in this order. */
static inline copperyarn_axis_answer copperyarn_axis_data(const copperyarn_hub *hub, uint8_t pad, uint8_t name) {
    return copperyarn_lent_axis_data(hub->head, hub->names, hub->renames, hub->hasaxis, hub->values, hub->times, pad, name);
}

/* The same by a code.
 * Refuses 6. */
static inline copperyarn_axis_answer copperyarn_axis_data_by_code(const copperyarn_hub *hub, uint8_t pad, uint32_t code) {
    return copperyarn_lent_axis_data_by_code(hub->head, hub->codes, hub->hasaxis, hub->values, hub->times, pad, code);
}

/* The deadzone threshold of a code, known for axis elements alone.
 * Refuses 6. */
static inline copperyarn_value_answer copperyarn_deadzone_threshold(const copperyarn_hub *hub, uint8_t pad, uint32_t code) {
    return copperyarn_lent_deadzone_threshold(hub->head, hub->codes, hub->kinds, hub->values, hub->marks, pad, code);
}

/* The present name of a code, not known where it has none.
 * Refuses 6. */
static inline copperyarn_number_answer copperyarn_axis_or_btn_name(const copperyarn_hub *hub, uint8_t pad, uint32_t code) {
    return copperyarn_lent_axis_or_btn_name(hub->head, hub->codes, hub->names, hub->renames, pad, code);
}

/* The code that has a name at present, a button's or an axis's; not known where none has.
 * Refuses 6, 16 in this order. */
static inline copperyarn_number_answer copperyarn_code_of_name(const copperyarn_hub *hub, uint8_t pad, uint8_t name) {
    return copperyarn_lent_code_of_name(hub->head, hub->codes, hub->names, hub->renames, pad, name);
}

/* Whether a pad is connected.
 * Refuses 6. */
static inline copperyarn_truth_answer copperyarn_is_connected(const copperyarn_hub *hub, uint8_t pad) {
    return copperyarn_lent_is_connected(hub->head, pad);
}

/* Whether a pad is old: it came by `copperyarn_register_archived` with partial hats, and has them. New names clear it until the pad's next Connected.
 * Refuses 6. */
static inline copperyarn_truth_answer copperyarn_is_old(const copperyarn_hub *hub, uint8_t pad) { return copperyarn_lent_is_old(hub->head, pad); }

/* What is down on a pad: how many of its button records are pressed, directions that its sheet does not list among them, and whether an axis element's is.
 * Connected leaves nothing down, Disconnected and new names leave all. It is kept with the records and not counted here: ask it every frame.
 * Refuses 6. */
static inline copperyarn_down_answer copperyarn_down(const copperyarn_hub *hub, uint8_t pad) { return copperyarn_lent_down(hub->head, pad); }

/* The lowest code among those records, not known exactly where none is pressed.
 * Refuses 6. */
static inline copperyarn_number_answer copperyarn_lowest_pressed(const copperyarn_hub *hub, uint8_t pad) {
    return copperyarn_lent_lowest_pressed(hub->head, hub->codes, pad);
}

/* How many events wait, 0 to 64.
 * Refuses nothing. */
static inline uint8_t copperyarn_waiting(const copperyarn_hub *hub) { return copperyarn_lent_waiting(hub->head); }

#endif
