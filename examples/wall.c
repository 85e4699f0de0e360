/* Plays the wall list on standard input and says in words what the house does and what becomes of each press. On x86-64, in the repository:
 *
 * cc -I include examples/wall.c target/staticlib/libwalls.a -o target/wall_c && target/wall_c < shows/foyer.wall
 */
#include <stdio.h>

#include "house.h"

static uint8_t wall[HOUSE_LONGEST_WALL + 1];
static uint8_t records[HOUSE_RECORDS_ROOM(HOUSE_MOST_INPUTS)];
static uint8_t answers[HOUSE_MOST_INPUTS];

/* by the cause of a record, and by the answer to an edge, which is never noted: it sends a switch */
static const char *const causes[] = {"by itself",   "by an On or Off", "by a timed start or stop", "by a scene",
                                     "by a force",  "by the lock",     "by the night",             "by the bus",
                                     "by the power"};
static const char *const answered[] = {"is obeyed",          "changes nothing",             "is dropped: forced",
                                       "is dropped: locked", "is dropped: the bus is down", "is dropped: the power is down"};

/* A stamp in seconds; inputs and records both begin with it. */
static void say_time(const uint8_t *octets) {
    unsigned stamp = house_stamp(octets);
    printf("%6u.%u s  ", stamp / 10, stamp % 10);
}

static void say_record(const uint8_t *record) {
    say_time(record);
    printf("%s %s%s\n", house_value(record) ? "on, " : "off,", causes[house_cause(record)],
           house_attributes(record) & HOUSE_STAIRCASE ? ", for a while" : "");
}

/* An edge whose action sends something; the actions stand in the order rising, falling, button by button. */
static void say_edge(const uint8_t *input, const uint8_t *actions, uint8_t answer) {
    int button = input[4] - HOUSE_BUTTON_1, falls = input[5] == HOUSE_FALLS;
    if (actions[2 * button + falls] == HOUSE_NOTHING) return;
    say_time(input);
    printf("button %d, %s, %s\n", button + 1, falls ? "let go" : "pressed", answered[answer]);
}

int main(void) {
    size_t len = fread(wall, 1, sizeof wall, stdin);
    uint64_t number = house_wall_run(wall, len, records, sizeof records, answers, sizeof answers);
    if (house_code(number) != HOUSE_ACCEPTED) {
        fprintf(stderr, "refused: code %u, place %u\n", house_code(number), house_place(number));
        return 1;
    }
    for (unsigned i = 0; i < house_count(number); i++) say_record(records + HOUSE_RECORD_SIZE * i);
    for (unsigned i = 0; i < house_inputs(wall); i++) {
        const uint8_t *input = wall + house_inputs_at(wall) + HOUSE_INPUT_SIZE * i;
        if (input[4] == HOUSE_BUTTON_1 || input[4] == HOUSE_BUTTON_2) say_edge(input, wall + len - HOUSE_ACTIONS_SIZE, answers[i]);
    }
    return 0;
}
