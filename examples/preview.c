/* Plays the cue file on standard input and says in words what the house does. On x86-64, in the repository:
 *
 * cc -I include examples/preview.c target/staticlib/libhouse.a target/staticlib/libversion.a -o target/preview_c && target/preview_c < shows/example.cue
 */
#include <stdio.h>

#include "house.h"

static uint8_t file[HOUSE_LONGEST_FILE + 1];
static uint8_t records[HOUSE_RECORDS_ROOM(HOUSE_MOST_INPUTS)];
static uint8_t answers[HOUSE_MOST_INPUTS];

static void say_record(const uint8_t *record) {
    unsigned stamp = house_stamp(record), says = house_attributes(record);
    printf("%6u.%u s  %s%s%s%s%s%s\n", stamp / 10, stamp % 10, house_value(record) ? "on " : "off",
           says & HOUSE_VALID ? "" : " (no power)", says & HOUSE_LOCKED ? " locked" : "", says & HOUSE_FORCED ? " forced" : "",
           says & HOUSE_NIGHT ? " night" : "", says & HOUSE_STAIRCASE ? " timed" : "");
}

int main(void) {
    if (house_version() != HOUSE_VERSION) {
        fprintf(stderr, "the archive is not of this header's version\n");
        return 1;
    }
    size_t len = fread(file, 1, sizeof file, stdin);
    uint64_t number = house_run(file, len, records, sizeof records, answers, sizeof answers);
    if (house_code(number) != HOUSE_ACCEPTED) {
        fprintf(stderr, "refused: code %u, place %u\n", house_code(number), house_place(number));
        return 1;
    }
    for (unsigned i = 0; i < house_count(number); i++) say_record(records + HOUSE_RECORD_SIZE * i);
    for (unsigned i = 0; i < house_inputs(file); i++) {
        if (house_dropped(answers[i])) printf("input %u was dropped (answer %u)\n", i, answers[i]);
        if (answers[i] == HOUSE_NOTED) printf("input %u was noted\n", i);
    }
    return 0;
}
