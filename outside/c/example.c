/* Document 01's program padlog in C, as an example: example SHEET BATCH reads a pad's sheet and a batch of raw records from two files, and prints an event to a
 * line and how it ended. What the library's own padlog prints for the same files stands in desk-files/answers. */
#include "copperyarn.h"
#include "copperyarn_bytes.h"

#include <inttypes.h>
#include <stdio.h>
#include <stdlib.h>

/* One byte more than the hub takes, so that what is too long is seen and refused. */
enum { ROOM = COPPERYARN_BATCH_MOST + 1 };

static size_t contents(const char *path, uint8_t *bytes) {
    FILE *file = fopen(path, "rb");
    if (file == NULL) {
        perror(path);
        exit(2);
    }
    size_t size = fread(bytes, 1, ROOM, file);
    fclose(file);
    return size;
}

static void print_events(const uint8_t *out, size_t events) {
    static const char *const words[] = {
        "", "PRESSED", "RELEASED", "REPEATED", "CHANGED", "AXIS", "CONNECTED", "DISCONNECTED", "DROPPED",
    };
    for (size_t i = 0; i < events; i++) {
        copperyarn_event event = copperyarn_read_event(out + COPPERYARN_EVENT_SIZE * i);
        printf("%s %d %d %08" PRIx32 " %08" PRIx32 " %" PRIu64 "\n",
            words[event.kind], event.pad, event.name, event.code, copperyarn_bits(event.value), event.time);
    }
}

int main(int argc, char **argv) {
    static copperyarn_hub hub;
    static uint8_t sheet[ROOM], batch[ROOM], out[100 * COPPERYARN_EVENT_SIZE];
    if (argc != 3) {
        fprintf(stderr, "example SHEET BATCH\n");
        return 2;
    }
    size_t sheet_size = contents(argv[1], sheet), batch_size = contents(argv[2], batch);

    copperyarn_new(&hub, 0.75f, 0.5f, false, true, true);
    copperyarn_pad_answer pad = copperyarn_register(&hub, sheet, sheet_size);
    if (pad.refusal != COPPERYARN_SERVED) {
        printf("SHEET %d\n", pad.refusal);
        fprintf(stderr, "the sheet is refused: %s\n", copperyarn_sentence(pad.refusal));
        return 0;
    }

    /* the out buffer holds 100 events: while it comes back full, or the allowance was spent, go on from the place answered */
    size_t steps = 0;
    copperyarn_pump_answer report = {0, 0, 0, 0, 0, 0};
    do {
        report = copperyarn_pump(&hub, batch, batch_size, report.place, out, sizeof out, UINT16_MAX);
        print_events(out, report.events);
        steps += report.steps;
    } while (report.reason == COPPERYARN_FULL || report.reason == COPPERYARN_PAUSED);

    if (report.refusal != COPPERYARN_SERVED) {
        printf("STOPPED %d %zu\n", report.refusal, report.place);
        fprintf(stderr, "a record is refused: %s\n", copperyarn_sentence(report.refusal));
        return 0;
    }
    printf("DRAINED %zu\n", steps);
    return 0;
}
