/* Plays the oracle's scenario form (oracle/README.md) on the hub through copperyarn.h, every call of it, and prints the answers: play FILE. Beside that it
 * checks of each call that a refusal leaves the hub as it was (but in new and the pump), that what is down is what its records tell, and that a pad is old
 * where its present hats are partial; of each pump that it writes its events and no byte more. A hub holds junk before `new`, and what a call reads stands in
 * blocks of just its size, so that a memory checker sees a step beside them. */
#include "test.h"

static copperyarn_hub hub, before;
static bool standing;

static uint8_t *block(size_t size) {
    uint8_t *bytes = malloc(size > 0 ? size : 1);
    CHECK(bytes != NULL);
    return bytes;
}

static void refused(uint8_t refusal) { printf("REFUSED %d\n", refusal); }

/* The one line of a call that is done or refused. */
static void done(uint8_t refusal, const char *word) {
    if (refusal != 0) {
        CHECK(same_hub(&hub, &before));
        refused(refusal);
    } else {
        puts(word);
    }
}

static void print_event(const uint8_t *bytes) {
    static const char *const words[] = {
        "", "PRESSED", "RELEASED", "REPEATED", "CHANGED", "AXIS", "CONNECTED", "DISCONNECTED", "DROPPED",
    };
    copperyarn_event event = copperyarn_read_event(bytes);
    uint8_t again[COPPERYARN_EVENT_SIZE];
    copperyarn_write_event(again, event);
    CHECK(memcmp(again, bytes, sizeof again) == 0);
    CHECK(event.kind >= 1 && event.kind <= 8);
    printf("%s %d %d %08" PRIx32 " %08" PRIx32 " %" PRIu64 "\n",
        words[event.kind], event.pad, event.name, event.code, copperyarn_bits(event.value), event.time);
}

static void begin(const uint8_t *bytes) {
    float pressed = copperyarn_float((uint32_t)copperyarn_read_number(bytes, 4));
    float released = copperyarn_float((uint32_t)copperyarn_read_number(bytes + 4, 4));
    memset(&hub, 0xa5, sizeof hub);
    uint8_t refusal = copperyarn_new(&hub, pressed, released, (bytes[8] & 1) != 0, (bytes[8] & 2) != 0, (bytes[8] & 4) != 0);
    standing = refusal == 0;
    if (standing)
        puts("HUB");
    else
        refused(refusal);
}

/* The line of either registration. */
static void enrolled(copperyarn_pad_answer answer) {
    if (answer.refusal != 0)
        done(answer.refusal, "");
    else
        printf("PAD %d\n", answer.pad);
}

/* The pump's lines; its report. */
static uint8_t pump(const uint8_t *bytes, size_t size) {
    static const char *const reasons[] = {"", "DRAINED", "FULL", "PAUSED"};
    size_t place = copperyarn_read_number(bytes, 4), room = copperyarn_read_number(bytes + 4, 4), batch_size = size - 10;
    uint8_t *out = block(room + COPPERYARN_EVENT_SIZE), *batch = block(batch_size);
    memset(out, 0x5a, room + COPPERYARN_EVENT_SIZE);
    memcpy(batch, bytes + 10, batch_size);
    copperyarn_pump_answer report =
        copperyarn_pump(&hub, batch, batch_size, place, room == 0 ? NULL : out, room, (uint16_t)copperyarn_read_number(bytes + 8, 2));
    CHECK(memcmp(batch, bytes + 10, batch_size) == 0);
    CHECK(report.events * COPPERYARN_EVENT_SIZE <= room);
    for (size_t i = report.events * COPPERYARN_EVENT_SIZE; i < room + COPPERYARN_EVENT_SIZE; i++) CHECK(out[i] == 0x5a);
    for (size_t i = 0; i < report.events; i++) print_event(out + COPPERYARN_EVENT_SIZE * i);
    CHECK((report.reason == 0) == (report.refusal != 0) && report.reason <= 3);
    if (report.refusal != 0)
        printf("REFUSED %d", report.refusal);
    else
        fputs(reasons[report.reason], stdout);
    printf(" %zu %zu %zu\n", report.place, report.events, report.steps);
    CHECK(report.tilt <= COPPERYARN_TILT_FULL && (report.steps > 0 || report.tilt == COPPERYARN_TILT_NONE));
    free(out);
    free(batch);
    return report.tilt;
}

static const char *const TILTS[] = {"NONE", "INSIDE", "BETWEEN", "FULL"};

/* NaN has no bits of its own in the answers: each is written as this one. */
enum { NAN_BITS = 0x7fc00000 };

static uint32_t answered_bits(float value) { return value == value ? copperyarn_bits(value) : (uint32_t)NAN_BITS; }

static void calculate(const uint8_t *bytes) {
    float numbers[3];
    for (size_t i = 0; i < 3; i++) numbers[i] = copperyarn_float((uint32_t)copperyarn_read_number(bytes + 4 * i, 4));
    copperyarn_tilted tilted = copperyarn_deadzone(numbers[0], numbers[1], numbers[2]);
    CHECK(tilted.tilt != COPPERYARN_TILT_NONE && tilted.tilt <= COPPERYARN_TILT_FULL);
    printf("PAIR %08" PRIx32 " %08" PRIx32 " %s\n", answered_bits(tilted.x), answered_bits(tilted.y), TILTS[tilted.tilt]);
}

static void repeat(const uint8_t *bytes) {
    uint8_t event[COPPERYARN_EVENT_SIZE];
    memset(event, 0x5a, sizeof event);
    copperyarn_due_answer answer = copperyarn_repeat(
        &hub, copperyarn_read_number(bytes, 8), copperyarn_read_number(bytes + 8, 8), copperyarn_read_number(bytes + 16, 8), event);
    if (answer.due) {
        print_event(event);
        return;
    }
    for (size_t i = 0; i < sizeof event; i++) CHECK(event[i] == 0x5a);
    done(answer.refusal, "NONE");
}

/* ---- queries */

static void truth(const char *word, copperyarn_truth_answer answer) {
    if (answer.refusal != 0)
        refused(answer.refusal);
    else
        printf("%s %d\n", word, answer.is);
}

static void value(const char *word, copperyarn_value_answer answer) {
    if (answer.refusal != 0)
        refused(answer.refusal);
    else if (!answer.known)
        puts("ABSENT");
    else
        printf("%s %08" PRIx32 "\n", word, copperyarn_bits(answer.value));
}

static void name_of(copperyarn_number_answer answer) {
    if (answer.refusal != 0)
        refused(answer.refusal);
    else
        printf("NAME %" PRIu32 "\n", answer.known ? answer.number : COPPERYARN_NO_NAME);
}

static void code_of(copperyarn_number_answer answer) {
    if (answer.refusal != 0)
        refused(answer.refusal);
    else if (!answer.known)
        puts("ABSENT");
    else
        printf("CODE %08" PRIx32 "\n", answer.number);
}

static void button(const char *word, copperyarn_button_answer answer) {
    if (answer.refusal != 0)
        refused(answer.refusal);
    else if (!answer.known)
        puts("ABSENT");
    else
        printf("%s %08" PRIx32 " %d %d %" PRIu64 " %" PRIu64 "\n",
            word, copperyarn_bits(answer.value), answer.pressed, answer.repeating, answer.counter, answer.stamp);
}

static void since(copperyarn_button_answer answer) {
    if (answer.refusal != 0)
        refused(answer.refusal);
    else if (!answer.known)
        puts("ABSENT");
    else
        printf("SINCE %" PRIu64 "\n", answer.since);
}

static void axis(const char *word, copperyarn_axis_answer answer) {
    if (answer.refusal != 0)
        refused(answer.refusal);
    else if (!answer.known)
        puts("ABSENT");
    else
        printf("%s %08" PRIx32 " %" PRIu64 " %" PRIu64 "\n", word, copperyarn_bits(answer.value), answer.counter, answer.stamp);
}

static void down(copperyarn_down_answer answer) {
    if (answer.refusal != 0)
        refused(answer.refusal);
    else
        printf("DOWN %d %d\n", answer.count, answer.axis);
}

/* Counts anew, over a pad's records, what the hub says is down. */
static void check_down(uint8_t pad) {
    copperyarn_down_answer counted = {0, 0, false}, told = copperyarn_down(&hub, pad);
    copperyarn_number_answer lowest = {0, false, 0}, code = copperyarn_lowest_pressed(&hub, pad);
    for (size_t i = 52u * pad; i < 52u * pad + 52; i++) {
        if (!hub.hasbutton[i] || !copperyarn_is_pressed_by_code(&hub, pad, hub.codes[i]).is) continue;
        if (!lowest.known || hub.codes[i] < lowest.number) lowest.number = hub.codes[i];
        lowest.known = true;
        counted.count++;
        counted.axis = counted.axis || hub.kinds[i] == COPPERYARN_ELEMENT_AXIS;
    }
    CHECK(told.refusal == 0 && told.count == counted.count && told.axis == counted.axis);
    CHECK(code.refusal == 0 && code.known == lowest.known && code.number == lowest.number);
}

static uint8_t present_hats(uint8_t pad) { return hub.head.renamed[pad] ? hub.head.newhats[pad] : hub.head.hats[pad]; }

/* Holds what the hub says of an old pad to the hats that it has at present. */
static void check_old(uint8_t pad) {
    copperyarn_truth_answer told = copperyarn_is_old(&hub, pad);
    CHECK(told.refusal == 0 && told.is == (present_hats(pad) >= 1 && present_hats(pad) <= 14));
}

/* All that the pads' state holds. Of the hub's own fields it reads those that no query tells. */
static void dump(void) {
    char word[16];
    for (uint8_t pad = 0; pad < hub.head.pads; pad++) {
        printf("DUMP %d %d %d\n", pad, copperyarn_is_connected(&hub, pad).is, present_hats(pad));
        for (size_t i = 52u * pad; i < 52u * pad + 52; i++) {
            snprintf(word, sizeof word, "B %08" PRIx32, hub.codes[i]);
            if (hub.hasbutton[i]) button(word, copperyarn_button_data_by_code(&hub, pad, hub.codes[i]));
        }
        for (size_t i = 52u * pad; i < 52u * pad + 52; i++) {
            snprintf(word, sizeof word, "A %08" PRIx32, hub.codes[i]);
            if (hub.hasaxis[i]) axis(word, copperyarn_axis_data_by_code(&hub, pad, hub.codes[i]));
        }
        fputs("FLAGS ", stdout);
        for (size_t i = 6u * pad; i < 6u * pad + 6; i++) putchar(hub.head.flags[i] ? '1' : '0');
        putchar('\n');
    }
    printf("END %" PRIu64 " %d\n", copperyarn_counter(&hub), copperyarn_waiting(&hub));
}

/* ---- operations */

static void ask(uint8_t opcode, const uint8_t *bytes, size_t size) {
    uint8_t pad = bytes[0], name = size == 2 ? bytes[1] : 0;
    uint32_t code = size == 5 ? (uint32_t)copperyarn_read_number(bytes + 1, 4) : 0;
    switch (opcode) {
    case 11: truth("IS", copperyarn_is_pressed_by_code(&hub, pad, code)); break;
    case 12: value("VALUE", copperyarn_value_by_code(&hub, pad, code)); break;
    case 13: truth("IS", copperyarn_is_pressed(&hub, pad, name)); break;
    case 14: value("VALUE", copperyarn_value(&hub, pad, name)); break;
    case 15: button("BUTTON", copperyarn_button_data_by_code(&hub, pad, code)); break;
    case 16: axis("STICK", copperyarn_axis_data_by_code(&hub, pad, code)); break;
    case 17: button("BUTTON", copperyarn_button_data(&hub, pad, name)); break;
    case 18: axis("STICK", copperyarn_axis_data(&hub, pad, name)); break;
    case 19: name_of(copperyarn_axis_or_btn_name(&hub, pad, code)); break;
    case 20: code_of(copperyarn_code_of_name(&hub, pad, name)); break;
    case 21: value("THRESHOLD", copperyarn_deadzone_threshold(&hub, pad, code)); break;
    case 22: truth("STANDS", copperyarn_is_connected(&hub, pad)); break;
    case 38: down(copperyarn_down(&hub, pad)); break;
    case 39: code_of(copperyarn_lowest_pressed(&hub, pad)); break;
    case 42: since(copperyarn_button_data_by_code(&hub, pad, code)); break;
    case 44: truth("IS", copperyarn_is_old(&hub, pad)); break;
    default: CHECK(false);
    }
}

static void play(uint8_t opcode, const uint8_t *bytes, size_t size) {
    if (opcode != 1 && !standing) {
        puts("NO HUB");
        return;
    }
    memcpy(&before, &hub, sizeof hub);
    switch (opcode) {
    case 1: begin(bytes); break;
    case 2: enrolled(copperyarn_register(&hub, bytes, size)); break;
    case 3: done(copperyarn_rename(&hub, bytes[0], bytes + 1, size - 1), "RENAMED"); break;
    case 4: pump(bytes, size); break;
    case 5: done(copperyarn_update(&hub, bytes, size), "UPDATED"); break;
    case 6: done(copperyarn_insert_event(&hub, bytes, size), "INSERTED"); break;
    case 7: repeat(bytes); break;
    case 8: copperyarn_inc(&hub); break;
    case 9: break;
    case 10: copperyarn_reset_counter(&hub); break;
    case 23: printf("WAITING %d\n", copperyarn_waiting(&hub)); break;
    case 24: dump(); break;
    case 40: printf("TILT %s\n", TILTS[pump(bytes, size)]); break;
    case 41: calculate(bytes); break;
    case 43: enrolled(copperyarn_register_archived(&hub, bytes, size)); break;
    default: ask(opcode, bytes, size);
    }
    if (opcode >= 8 && opcode <= 10) printf("COUNTER %" PRIu64 "\n", copperyarn_counter(&hub));
    if ((opcode >= 11 && opcode != 40 && opcode != 43) || opcode == 7) CHECK(same_hub(&hub, &before));
    for (uint8_t pad = 0; standing && pad < hub.head.pads; pad++) {
        check_down(pad);
        check_old(pad);
    }
}

int main(int argc, char **argv) {
    FILE *file = argc == 2 ? fopen(argv[1], "rb") : NULL;
    if (file == NULL) {
        fprintf(stderr, "play FILE\n");
        return 2;
    }
    uint8_t opening[5];
    while (fread(opening, 1, sizeof opening, file) == sizeof opening) {
        size_t size = copperyarn_read_number(opening + 1, 4);
        uint8_t *payload = block(size);
        CHECK(fread(payload, 1, size, file) == size);
        play(opening[0], payload, size);
        free(payload);
    }
    fclose(file);
    return 0;
}
